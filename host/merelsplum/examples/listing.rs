//! Lists a coloured job as the program `channels` does: `listing FILE`.

use merelsplum::job::Job;
use std::{env, fs, process};

fn main() {
    let Some(path) = env::args_os().nth(1) else {
        eprintln!("usage: listing FILE");
        process::exit(2);
    };
    let file = fs::read(path).unwrap_or_else(|error| {
        eprintln!("{error}");
        process::exit(2);
    });
    let colored = match Job::read(&file).and_then(|job| job.color()) {
        Ok(colored) => colored,
        Err(refusal) => return println!("refused {}", refusal.number()),
    };
    for (contour, edges) in colored.contours.iter().enumerate() {
        for (place, (edge, color)) in edges.iter().enumerate() {
            let kind = ["L", "Q", "C"][edge.points().len() - 2];
            println!("{contour} {place} {kind} {}", color.bits());
        }
    }
    println!("edges {}", colored.edge_count());
    println!("standins {}", colored.stand_ins);
}
