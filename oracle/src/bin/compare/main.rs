//! Runs the proved code, through the archives of target/staticlib, beside the Rust of docs/src, and counts
//! the answers that differ. The last line is the verdict. A word names one part alone: `leaves`,
//! `edges`, `tables`, `shapes`, `directions`, `distances`, `teardrops`, `jobs`, `channels`, or `root`, which a run of
//! all leaves out. `speed` measures and compares nothing, and runs `pass` under callgrind.

mod clashes;
mod directions;
mod distances;
mod edges;
mod jobs;
mod leaves;
mod records;
mod root;
mod shapes;
mod speed;
mod stand_ins;
mod tables;
mod teardrops;

/// How many answers were compared, how many of them differ, and how many kinds of input that are asked
/// for were not met.
#[derive(Default)]
pub struct Tally {
    pub compared: u64,
    pub differ: u64,
    pub empty: u64,
}

impl Tally {
    /// Counts one comparison, and prints the first few that differ.
    pub fn note(&mut self, agree: bool, what: impl FnOnce() -> String) {
        self.compared += 1;
        if !agree {
            self.differ += 1;
            if self.differ <= 5 {
                println!("differs: {}", what());
            }
        }
    }

    /// A kind of input that must have been met.
    pub fn met(&mut self, count: u64, what: impl FnOnce() -> String) {
        if count == 0 {
            self.empty += 1;
            println!("not met: {}", what());
        }
    }

    /// Prints the count of one part and adds it to the whole.
    pub fn close(&mut self, name: &str, part: Tally) {
        println!("{name}: {} compared, {} differ", part.compared, part.differ);
        self.add(part);
    }

    /// The same of a part by the balanced division, with how many of the results are others by the source's.
    pub fn close_divided(&mut self, name: &str, part: Tally, others: u64) {
        let (compared, differ) = (part.compared, part.differ);
        println!(
            "{name}: {compared} compared, {differ} differ; {others} others by the source's division"
        );
        self.add(part);
        self.met(others, || format!("{name}: a result that is another by the source's division"));
    }

    pub fn add(&mut self, part: Tally) {
        self.compared += part.compared;
        self.differ += part.differ;
    }
}

fn usage() -> ! {
    let parts = "leaves | edges | tables | shapes | directions | distances | teardrops | jobs | channels | root";
    eprintln!("usage: compare [{parts}]");
    eprintln!("       compare speed [FOLDER...]");
    eprintln!("       compare pass ROW proved|rust [FOLDER...]");
    std::process::exit(2);
}

fn main() {
    let words: Vec<String> = std::env::args().skip(1).collect();
    let mut all = Tally::default();
    match words.first().map(String::as_str) {
        None => {
            leaves::compare(&mut all);
            edges::compare(&mut all);
            tables::compare(&mut all);
            shapes::compare(&mut all);
            directions::compare(&mut all);
            distances::compare(&mut all);
            teardrops::compare(&mut all);
            jobs::compare(&mut all);
            jobs::program(&mut all);
        }
        Some("leaves") => leaves::compare(&mut all),
        Some("edges") => edges::compare(&mut all),
        Some("tables") => tables::compare(&mut all),
        Some("shapes") => shapes::compare(&mut all),
        Some("directions") => directions::compare(&mut all),
        Some("distances") => distances::compare(&mut all),
        Some("teardrops") => teardrops::compare(&mut all),
        Some("jobs") => jobs::compare(&mut all),
        Some("channels") => jobs::program(&mut all),
        Some("root") => root::compare(&mut all),
        Some("speed") => return speed::measure(&words[1..]),
        Some("pass") => return speed::pass(&words[1..]).unwrap_or_else(|| usage()),
        Some(_) => usage(),
    }
    print!("{} compared, {} differ", all.compared, all.differ);
    if all.empty != 0 {
        print!(", {} kinds of input not met", all.empty);
    }
    println!();
    if all.differ != 0 || all.empty != 0 {
        std::process::exit(1);
    }
}
