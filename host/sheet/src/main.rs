//! The program `sheet`.

mod options;

use clap::error::ErrorKind;
use indicatif::{ProgressBar, ProgressStyle};
use merelsplum::Refusal;
use options::{Input, Options};
use rayon::prelude::*;
use sheet::font::{Font, Name};
use sheet::layout::Layout;
use sheet::output::Outputs;
use sheet::pack::{Dimensions, MAX_SIDE};
use sheet::sheet::{Cell, Sheet};
use sheet::{json, picture, unproved};
use std::env;
use std::fs::File;
use std::io::{self, Read, Write};
use std::path::Path;
use std::process::ExitCode;
use std::time::Instant;

fn main() -> ExitCode {
    match Options::parse(env::args_os()).map_err(|error| (error.kind(), error)) {
        Ok(options) => match run(&options) {
            Ok(left_out) => ExitCode::from(u8::from(left_out > 0)),
            Err(message) => fail(&message),
        },
        Err((ErrorKind::DisplayHelp | ErrorKind::DisplayVersion, help)) => {
            let _ = write!(io::stdout(), "{help}");
            ExitCode::SUCCESS
        }
        Err((_, error)) => {
            // its first paragraph, as one line
            let text = error.to_string();
            let first = text.split("\n\n").next().unwrap_or_default();
            let words: Vec<&str> = first.trim_start_matches("error:").split_whitespace().collect();
            fail(&format!("{}{}", words.join(" "), options::instead(&error)))
        }
    }
}

fn fail(message: &str) -> ExitCode {
    report(message);
    ExitCode::from(2)
}

/// A line on standard error, lost where that cannot be written.
fn report(line: &str) {
    let _ = writeln!(io::stderr(), "sheet: {line}");
}

/// The largest font that is read, in bytes.
const MAX_FONT: u64 = 1 << 28;

fn read(path: &Path) -> Result<Vec<u8>, String> {
    let mut file = Vec::new();
    let read = File::open(path).and_then(|font| font.take(MAX_FONT + 1).read_to_end(&mut file));
    read.map_err(|error| format!("{}: {error}", path.display()))?;
    if file.len() as u64 > MAX_FONT {
        return Err(format!("{}: above {} MiB", path.display(), MAX_FONT >> 20));
    }
    Ok(file)
}

/// Makes the sheet; how many glyphs are in the font and not in the sheet.
fn run(options: &Options) -> Result<usize, String> {
    let start = Instant::now();
    options.check()?;
    let files = options.inputs().map(|input| read(&input.font)).collect::<Result<Vec<Vec<u8>>, String>>()?;
    let (mut fonts, mut names, mut missing) = (vec![], vec![], vec![]);
    for (i, (input, file)) in options.inputs().zip(&files).enumerate() {
        let path = input.font.display();
        let font = input.open(file).map_err(|error| format!("{path}: {error}"))?;
        let (there, other): (Vec<Name>, Vec<Name>) = input.names(&font)?.into_iter().partition(|&name| font.has(name));
        if there.is_empty() {
            return Err(format!("{path}: none of these characters is in the font"));
        }
        names.extend(there.into_iter().map(|name| (i, name)));
        missing.push(other);
        fonts.push(font);
    }
    rayon::ThreadPoolBuilder::new().num_threads(options.threads).build_global().map_err(|error| error.to_string())?;

    let (sheet, mut lines) = draw(options, &fonts, &names)?;
    write(options, &fonts, &sheet)?;
    let left_out = names.len() - sheet.cells.len();
    let called = |input: &Input| if fonts.len() > 1 { input.font.display().to_string() } else { "the font".to_owned() };
    let called: Vec<String> = options.inputs().map(called).collect();
    lines.extend(called.iter().zip(&missing).filter_map(|(font, missing)| not_there(missing, font)));
    lines.iter().for_each(|line| report(line));
    let edges: usize = sheet.cells.iter().map(|cell| cell.colored.edge_count()).sum();
    let unproved = sheet.cells.iter().filter(|cell| cell.job.is_none()).count();
    let mut summary = format!(
        "{} glyphs, {edges} edges, {left_out} left out, {unproved} coloured by docs/src, {} not in the font, {:.2} s\n",
        sheet.cells.len(),
        missing.iter().map(Vec::len).sum::<usize>(),
        start.elapsed().as_secs_f64()
    );
    summary.extend(called.iter().enumerate().filter_map(|(number, font)| no_length(&sheet, number, font)));
    if options.writes_to_stdout() {
        let _ = write!(io::stderr(), "{summary}");
    } else {
        let _ = write!(io::stdout(), "{summary}");
    }
    Ok(left_out)
}

/// The line about characters that the font has not.
fn not_there(missing: &[Name], font: &str) -> Option<String> {
    (!missing.is_empty()).then(|| format!("not in {font}: {}", first_few(missing)))
}

/// The line about a font's glyphs that have directions without length, and how many each has.
fn no_length(sheet: &Sheet, number: usize, font: &str) -> Option<String> {
    let cells = sheet.cells.iter().filter(|cell| cell.font == number && cell.stand_ins > 0);
    let glyphs: Vec<String> = cells.map(|cell| format!("{} ({})", cell.name, cell.stand_ins)).collect();
    (!glyphs.is_empty()).then(|| format!("directions without length in {font}: {}\n", glyphs.join(" ")))
}

/// Some glyphs in words: the first few, and how many more there are.
fn first_few(glyphs: &[Name]) -> String {
    const SHOWN: usize = 8;
    let shown: Vec<String> = glyphs.iter().take(SHOWN).map(ToString::to_string).collect();
    let more = glyphs.len() - shown.len();
    shown.join(" ") + &if more > 0 { format!(" and {more} more") } else { String::new() }
}

/// The sheet of the glyphs that could be coloured, and a line for each of the others and each that docs/src coloured.
fn draw(options: &Options, fonts: &[Font], names: &[(usize, Name)]) -> Result<(Sheet, Vec<String>), String> {
    let settings = options.settings();
    let drawn = options.wants_pixels();
    // hidden where standard error is no terminal
    let steps = names.len() * if drawn { 2 } else { 1 };
    let progress = ProgressBar::new(steps as u64).with_style(ProgressStyle::with_template("{wide_bar} {pos}/{len}").unwrap());
    progress.tick();
    let color = |(place, &(number, name)): (usize, &(usize, Name))| {
        progress.inc(1);
        let font = &fonts[number];
        let glyph = font.glyph(name).ok_or_else(|| format!("{name}: outline damaged, or beyond the coordinates of a font"))?;
        let (excess, unbalanced) = (unproved::excess(&glyph.shape), settings.unbalanced(&glyph.shape));
        match settings.color(glyph, number, place, font.units_per_em()) {
            Ok(cell) if cell.job.is_none() => Ok((cell, Some(format!("{name}: coloured by docs/src, not proved: {excess}")))),
            Ok(cell) => Ok((cell, None)),
            Err(Refusal::TooMany) => {
                let also = unbalanced.map(|edges| format!("; docs/src cannot balance its contour of {edges} edges"));
                Err(format!("{name}: {}: {excess}{}", Refusal::TooMany.word(), also.unwrap_or_default()))
            }
            Err(refusal) => Err(format!("{name}: {refusal}")),
        }
    };
    let colored: Vec<Result<(Cell, Option<String>), String>> = names.par_iter().enumerate().map(color).collect();
    let (mut cells, mut lines) = (Vec::new(), Vec::new());
    for glyph in colored {
        match glyph {
            Ok((cell, line)) => {
                cells.push(cell);
                lines.extend(line);
            }
            Err(line) => lines.push(line),
        }
    }
    let mut sheet = settings.lay_out(cells).ok_or_else(|| no_room(&settings.layout))?;
    if !(1.0..=128.0).contains(&sheet.pxrange) {
        return Err(format!("--emrange gives a range of {} pixels, which is not from 1 to 128", sheet.pxrange));
    }
    if drawn {
        settings.draw(&mut sheet, || progress.inc(1));
    }
    progress.finish_and_clear();
    Ok((sheet, lines))
}

/// Why glyphs could not be laid out.
fn no_room(layout: &Layout) -> String {
    match (layout.dimensions, layout.grid.and_then(|grid| grid.cell)) {
        (Dimensions::Fixed(width, height), None) => format!("the glyphs do not fit into {width} by {height} pixels"),
        (_, Some((width, height))) => {
            format!("the glyphs do not fit into cells of {width} by {height} pixels, or those into the sheet")
        }
        _ => format!("at this size the sheet would be above {MAX_SIDE} pixels a side"),
    }
}

fn write(options: &Options, fonts: &[Font], sheet: &Sheet) -> Result<(), String> {
    let mut outputs = Outputs::default();
    options.inputs().for_each(|input| outputs.keep(&input.font));
    if let Some(folder) = &options.jobs {
        outputs.folder(folder)?;
    }
    if let Some(path) = &options.imageout {
        let format = options.format(path)?;
        outputs.write(path, |out| picture::write_sheet(out, &sheet.image, format))?;
    }
    if let Some(path) = &options.json {
        outputs.write(path, |out| out.write_all(json::describe(fonts, sheet, options.y_origin()).as_bytes()))?;
    }
    if let Some(path) = &options.csv {
        outputs.write(path, |out| out.write_all(json::table(fonts, sheet, options.y_origin()).as_bytes()))?;
    }
    if let Some(path) = &options.testrender {
        outputs.write(path, |out| picture::write_test_render(out, sheet))?;
    }
    if let Some(path) = &options.outlines {
        outputs.write(path, |out| picture::write_outlines(out, sheet))?;
    }
    if let Some(folder) = &options.jobs {
        for cell in &sheet.cells {
            if let Some(job) = &cell.job {
                let font = if fonts.len() > 1 { format!("{}-", cell.font) } else { String::new() };
                outputs.write_small(&folder.join(format!("{font}{}.job", cell.name)), job.to_bytes())?;
            }
        }
    }
    outputs.finish()
}
