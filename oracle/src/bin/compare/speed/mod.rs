//! How long the proved code and the Rust take for the same, and how many instructions: tables of
//! Markdown. Every row has many different inputs, so that the processor does not learn them.

mod clock;
mod count;
mod distances;
mod jobs;
mod offers;
mod shapes;

use clock::{PASSES, Times, by_turns};
use std::path::Path;
use std::time::Duration;

const CHANNELS: &str = "target/bin/channels";
const SQUARE: &str = "examples/square.job";

/// Something that both sides do to the same inputs. A side makes one pass over them all and answers its
/// time.
pub struct Race {
    pub inputs: usize,
    /// The edges, or the offers, of all inputs together.
    pub parts: usize,
    pub proved: Box<dyn FnMut() -> Duration>,
    pub rust: Box<dyn FnMut() -> Duration>,
}

/// A row of a table: the race on a number of inputs, and how many inputs are timed and counted.
pub struct Row {
    pub name: String,
    pub timed: usize,
    pub counted: usize,
    pub race: Box<dyn Fn(usize) -> Race>,
}

/// Rows of one kind: what an input is called, and what its parts.
pub struct Table {
    pub title: &'static str,
    pub input: &'static str,
    pub part: &'static str,
    pub rows: Vec<Row>,
}

fn tables(folders: &[String]) -> Vec<Table> {
    vec![shapes::table(folders), offers::table(), distances::table(), jobs::table()]
}

/// The rows of all tables, and the square's, which is counted alone.
fn rows(folders: &[String]) -> Vec<Row> {
    let rows = tables(folders).into_iter().flat_map(|table| table.rows);
    rows.chain([jobs::square()]).collect()
}

/// One pass of a side of a row, for callgrind.
pub fn pass(words: &[String]) -> Option<()> {
    let [row, side, folders @ ..] = words else { return None };
    let row = rows(folders).into_iter().nth(row.parse().ok()?)?;
    let mut race = (row.race)(row.counted);
    match side.as_str() {
        "proved" => (race.proved)(),
        "rust" => (race.rust)(),
        _ => return None,
    };
    Some(())
}

/// Prints the tables. The folders have the job files of fonts, and the names of the fonts.
pub fn measure(folders: &[String]) {
    let counts = count::is_there();
    if !counts {
        eprintln!("speed: valgrind was not found, so no instructions are counted");
    }
    let mut number = 0;
    for table in tables(folders) {
        print_head(&table);
        for row in table.rows {
            let instructions = counts.then(|| instructions(&row, number, folders));
            let mut race = (row.race)(row.timed);
            let times = by_turns(&mut race);
            print_row(&row.name, &race, &times, instructions);
            number += 1;
        }
        println!();
    }
    if counts {
        print_program();
        let call = whole(count::of_pass(number, "proved", folders));
        println!("- `merelsplum_job_color` on {SQUARE}: {call} instructions");
    }
}

/// Instructions a part, of both sides.
fn instructions(row: &Row, number: usize, folders: &[String]) -> [f64; 2] {
    let parts = (row.race)(row.counted).parts;
    ["proved", "rust"].map(|side| count::of_pass(number, side, folders) as f64 / parts as f64)
}

// ---- Markdown

fn print_head(table: &Table) {
    let Table { title, input, part, .. } = table;
    println!(
        "{title}: µs a {input}, the median of {PASSES} passes a side; instructions an {part}.\n"
    );
    print!("| What | {input}s | {part}s each | proved, µs | Rust, µs | proved / Rust ");
    print!("| lowest to highest | proved, instructions | Rust, instructions ");
    println!("| proved / Rust |\n|---|---|---|---|---|---|---|---|---|---|");
}

fn print_row(name: &str, race: &Race, times: &Times, instructions: Option<[f64; 2]>) {
    let (inputs, each) = (whole(race.inputs as u64), race.parts as f64 / race.inputs as f64);
    let each = if each.fract() == 0.0 { whole(each as u64) } else { format!("{each:.1}") };
    let Times { proved, rust, lowest, highest } = times;
    print!("| {name} | {inputs} | {each} | {} | {} ", short(*proved), short(*rust));
    print!("| {:.2} | {lowest:.2} to {highest:.2} ", proved / rust);
    match instructions {
        Some([proved, rust]) => {
            println!("| {} | {} | {:.2} |", short(proved), short(rust), proved / rust);
        }
        None => println!("| | | |"),
    }
}

/// With two decimals, or with none from 100 on.
fn short(number: f64) -> String {
    if number < 100.0 { format!("{number:.2}") } else { whole(number.round() as u64) }
}

/// With a comma at every thousand.
fn whole(number: u64) -> String {
    match number / 1000 {
        0 => number.to_string(),
        thousands => format!("{},{:03}", whole(thousands), number % 1000),
    }
}

/// The instructions of the whole program `channels`, where it is built.
fn print_program() {
    let root = Path::new(env!("CARGO_MANIFEST_DIR")).join("..");
    let (program, file) = (root.join(CHANNELS), root.join(SQUARE));
    if program.exists() {
        let all = whole(count::of_program(&program, &file));
        println!("- `{CHANNELS} < {SQUARE}`, the whole program: {all} instructions");
    } else {
        eprintln!("speed: {CHANNELS} is not there; tools/build channels makes it");
    }
}
