//! The program `job`, as its users call it.

use std::fs;
use std::io::Write;
use std::path::PathBuf;
use std::process::{Command, Output, Stdio};

fn job(command: &str, input: &[u8]) -> Output {
    let mut program = Command::new(env!("CARGO_BIN_EXE_job"));
    program.arg(command).stdin(Stdio::piped()).stdout(Stdio::piped()).stderr(Stdio::piped());
    let mut running = program.spawn().unwrap();
    // it may end without reading
    let _ = running.stdin.take().unwrap().write_all(input);
    running.wait_with_output().unwrap()
}

fn text(output: &[u8]) -> &str {
    std::str::from_utf8(output).unwrap()
}

fn examples() -> Vec<PathBuf> {
    let folder = concat!(env!("CARGO_MANIFEST_DIR"), "/../../examples");
    let paths = fs::read_dir(folder).unwrap().map(|entry| entry.unwrap().path());
    paths.filter(|path| path.extension().is_some_and(|extension| extension == "job")).collect()
}

/// Each example comes back, whether it is accepted or not, as far as it can be read.
#[test]
fn there_and_back() {
    let mut accepted = 0;
    for path in examples() {
        let file = fs::read(&path).unwrap();
        let shown = job("dump", &file);
        let made = job("make", &shown.stdout);
        if merelsplum::job::check(&file).is_ok() {
            accepted += 1;
            assert_eq!((shown.status.code(), text(&shown.stderr)), (Some(0), ""), "{path:?}");
            assert_eq!((made.status.code(), made.stdout), (Some(0), file), "{path:?}");
        } else {
            assert_eq!(shown.status.code(), Some(1), "{path:?}");
            assert!(text(&shown.stderr).starts_with("job: refused "), "{path:?}: {}", text(&shown.stderr));
            assert!(file.starts_with(&made.stdout), "{path:?}");
        }
    }
    assert!(accepted > 0);
}

const LINE: &str = "job distance seed 7 threshold 0.125\ncontour\nline 0 0 1.5 -0\ndistances 0.25\nend\n";

#[test]
fn words() {
    let made = job("make", format!("# a comment\n\n{LINE}").as_bytes());
    let expected: Vec<u8> = [
        b"JB\x03".as_slice(),
        &7u64.to_le_bytes(),
        &0.125f64.to_le_bytes(),
        b"CTLN",
        &[0.0f64, 0.0, 1.5, -0.0].map(f64::to_le_bytes).concat(),
        b"DS\x01\x00",
        &0.25f64.to_le_bytes(),
        b"EN",
    ]
    .concat();
    assert_eq!(made.stdout, expected);
    assert_eq!(text(&job("dump", &expected).stdout), LINE);
    let balanced = LINE.replacen('\n', "\nbalanced\n", 1);
    let file = [&expected[..19], b"BL", &expected[19..]].concat();
    assert_eq!(job("make", balanced.as_bytes()).stdout, file);
    assert_eq!(text(&job("dump", &file).stdout), balanced);
}

/// The reason in words, and the byte where the record stands that is at fault.
#[test]
fn reasons_and_places() {
    let file = job("make", LINE.as_bytes()).stdout;
    let changed = |at: usize, bytes: &[u8]| {
        let mut file = file.clone();
        file[at..at + bytes.len()].copy_from_slice(bytes);
        file
    };
    let contours =
        |count: usize| job("make", ("job simple seed 0 threshold 0\n".to_owned() + &"contour\n".repeat(count)).as_bytes()).stdout;
    let edges = |count: usize| [contours(1), b"LN".iter().copied().chain([0; 32]).collect::<Vec<u8>>().repeat(count)].concat();
    for (file, words, place) in [
        ([contours(66), b"EN".to_vec()].concat(), "refused 4: overfull", 19 + 2 * 64),
        ([edges(258), b"XX".to_vec()].concat(), "refused 4: overfull", 21 + 34 * 256),
        (job("make", LINE.replace("0.25", "0.25 0.5").as_bytes()).stdout, "refused 8: miscounted", 55),
        (changed(59, &(-1f64).to_le_bytes()), "refused 9: bad distance", 55),
        (changed(59, &f64::NAN.to_le_bytes()), "refused 9: bad distance", 55),
        (vec![], "refused 1: torn", 0),
        (file[..30].to_vec(), "refused 1: torn", 21),
        (changed(21, b"XX"), "refused 2: unmarked", 21),
        (changed(19, b"EN"), "refused 3: stray", 19),
        ([file.clone(), b"EN".to_vec()].concat(), "refused 3: stray", file.len()),
        ([&file[..19], b"BLBL", &file[19..]].concat(), "refused 3: stray", 21),
        ([&file[..21], b"BL", &file[21..]].concat(), "refused 3: stray", 21),
        (b"BL".to_vec(), "refused 3: stray", 0),
        (changed(2, &[9]), "refused 5: no such kind", 0),
        (changed(11, &2f64.to_le_bytes()), "refused 6: bad threshold", 0),
        (changed(23, &f64::NAN.to_le_bytes()), "refused 7: off the sheet", 21),
    ] {
        let shown = job("dump", &file);
        let line = text(&shown.stderr);
        assert!(
            line.contains(words) && line.contains(&format!(", at byte {place} of {}", file.len())),
            "{words}, {place}: {line}"
        );
        assert_eq!(shown.status.code(), Some(1));
    }
}

#[test]
fn bad_calls() {
    for line in ["job fast seed 0 threshold 0", "line 0 0 1", "line 0 0 1 x", "circle 1", "job simple seed -1 threshold 0"] {
        let made = job("make", format!("contour\n{line}\n").as_bytes());
        assert_eq!((made.status.code(), made.stdout.len()), (Some(2), 0), "{line}");
        assert_eq!(text(&made.stderr), format!("job: line 2: cannot read '{line}'\n"));
    }
    assert_eq!(job("look", b"").status.code(), Some(2));
    let missing = Command::new(env!("CARGO_BIN_EXE_job")).args(["dump", "nowhere.job"]).output().unwrap();
    assert_eq!(missing.status.code(), Some(2));
}
