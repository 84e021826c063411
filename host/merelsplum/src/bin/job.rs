//! Shows job files in words, and makes them from those: `job dump [FILE]` and `job make [FILE]`, where no file or - is
//! standard input. Both write to standard output. A file that the library refuses is shown as far as it can be read,
//! with the reason and the place on standard error, and the status is 1.

use merelsplum::{Refusal, job};
use std::env;
use std::fs;
use std::io::{self, Read, Write};
use std::process::ExitCode;

const USAGE: &str = "usage: job dump [FILE] | job make [FILE]";

const STRATEGIES: [&str; 3] = ["simple", "inktrap", "distance"];

/// Edges: their marks, their names and how many numbers they have.
const EDGES: [(&[u8; 2], &str, usize); 3] = [(b"LN", "line", 4), (b"QD", "quadratic", 6), (b"CB", "cubic", 8)];

fn main() -> ExitCode {
    let arguments: Vec<String> = env::args().skip(1).collect();
    let arguments: Vec<&str> = arguments.iter().map(String::as_str).collect();
    let result = match arguments[..] {
        ["dump"] => read("-").map(|file| dump(&file)),
        ["dump", path] => read(path).map(|file| dump(&file)),
        ["make"] => read("-").and_then(|text| make(&text)),
        ["make", path] => read(path).and_then(|text| make(&text)),
        ["--help"] => Ok((format!("{USAGE}\n").into_bytes(), None)),
        _ => Err(USAGE.to_owned()),
    };
    match result.and_then(|(out, refusal)| io::stdout().write_all(&out).map(|()| refusal).map_err(|error| error.to_string())) {
        Ok(None) => ExitCode::SUCCESS,
        Ok(Some(refusal)) => report(&refusal, 1),
        Err(message) => report(&message, 2),
    }
}

fn report(line: &str, status: u8) -> ExitCode {
    let _ = writeln!(io::stderr(), "job: {line}");
    ExitCode::from(status)
}

fn read(path: &str) -> Result<Vec<u8>, String> {
    let mut file = Vec::new();
    let read = if path == "-" { io::stdin().read_to_end(&mut file).map(drop) } else { fs::read(path).map(|bytes| file = bytes) };
    read.map(|()| file).map_err(|error| format!("{path}: {error}"))
}

/// A file in words, and why it is refused.
fn dump(file: &[u8]) -> (Vec<u8>, Option<String>) {
    let refused = job::check(file).err();
    let (mut text, mut at, mut fault, mut distances) = (String::new(), 0, None, None);
    while let Some((line, length)) = record(&file[at..]) {
        if line.starts_with("distances") {
            distances = Some(at);
        }
        // what is whole up to some record is refused for its end, and with the record at fault as the file is
        let whole = job::check(&file[..at + length]).err();
        if fault.is_none() && whole == refused && whole != Some(Refusal::Truncated) {
            // splines are counted at the end
            let counted = line == "end\n" && matches!(whole, Some(Refusal::TooMany | Refusal::LengthMismatch));
            fault = distances.filter(|_| counted).or(Some(at));
        }
        text += &line;
        at += length;
    }
    let place = fault.unwrap_or(at);
    let words = |refusal: Refusal| format!("refused {}: {refusal}, at byte {place} of {}", refusal.number(), file.len());
    (text.into_bytes(), refused.map(words))
}

/// The first record in words, and its length; none where it cannot be read.
fn record(file: &[u8]) -> Option<(String, usize)> {
    let (mark, rest) = file.split_first_chunk::<2>()?;
    let number = |at: usize| Some(f64::from_le_bytes(rest.get(at..at + 8)?.try_into().ok()?));
    let numbers = |first: usize, count: usize| (0..count).map(|i| number(first + 8 * i)).collect::<Option<Vec<f64>>>();
    if let Some((_, name, count)) = EDGES.iter().find(|edge| edge.0 == mark) {
        return Some((line(name, &numbers(0, *count)?), 2 + 8 * count));
    }
    match mark {
        b"JB" => {
            let (strategy, seed) = (*rest.first()?, u64::from_le_bytes(rest.get(1..9)?.try_into().ok()?));
            let threshold = number(9)?;
            let name = STRATEGIES.get(usize::from(strategy).wrapping_sub(1));
            let words = name.map_or_else(|| strategy.to_string(), |name| (*name).to_owned());
            Some((format!("job {words} seed {seed} threshold {threshold}\n"), 19))
        }
        b"BL" => Some(("balanced\n".to_owned(), 2)),
        b"CT" => Some(("contour\n".to_owned(), 2)),
        b"DS" => {
            let count = usize::from(u16::from_le_bytes(rest.get(..2)?.try_into().ok()?));
            Some((line("distances", &numbers(2, count)?), 4 + 8 * count))
        }
        b"EN" => Some(("end\n".to_owned(), 2)),
        _ => None,
    }
}

fn line(name: &str, numbers: &[f64]) -> String {
    numbers.iter().fold(name.to_owned(), |line, x| format!("{line} {x}")) + "\n"
}

/// A file from words. What they say is written as it is; the library says what it thinks of it.
fn make(text: &[u8]) -> Result<(Vec<u8>, Option<String>), String> {
    let text = std::str::from_utf8(text).map_err(|_| "not text".to_owned())?;
    let mut file = Vec::new();
    for (i, line) in text.lines().enumerate() {
        let words: Vec<&str> = line.split_whitespace().collect();
        if !words.is_empty() && !line.trim_start().starts_with('#') {
            bytes(&words, &mut file).ok_or_else(|| format!("line {}: cannot read '{line}'", i + 1))?;
        }
    }
    let refusal = job::check(&file).err().map(|refusal| format!("refused {}: {refusal}", refusal.number()));
    Ok((file, refusal))
}

fn bytes(words: &[&str], file: &mut Vec<u8>) -> Option<()> {
    let floats = |words: &[&str]| words.iter().map(|word| word.parse::<f64>().ok()).collect::<Option<Vec<f64>>>();
    let mut put = |mark: &[u8; 2], head: &[u8], numbers: &[f64]| {
        file.extend(mark);
        file.extend(head);
        file.extend(numbers.iter().flat_map(|x| x.to_le_bytes()));
    };
    match words {
        ["job", strategy, "seed", seed, "threshold", threshold] => {
            let named = STRATEGIES.iter().position(|name| name == strategy).map(|i| i as u8 + 1);
            let head: Vec<u8> =
                [named.or_else(|| strategy.parse().ok())?].into_iter().chain(seed.parse::<u64>().ok()?.to_le_bytes()).collect();
            put(b"JB", &head, &[threshold.parse().ok()?]);
        }
        ["balanced"] => put(b"BL", &[], &[]),
        ["contour"] => put(b"CT", &[], &[]),
        ["end"] => put(b"EN", &[], &[]),
        ["distances", distances @ ..] => put(b"DS", &u16::try_from(distances.len()).ok()?.to_le_bytes(), &floats(distances)?),
        [name, points @ ..] => {
            let (mark, _, count) = EDGES.iter().find(|edge| edge.1 == *name)?;
            let points = floats(points).filter(|points| points.len() == *count)?;
            put(mark, &[], &points);
        }
        [] => {}
    }
    Some(())
}
