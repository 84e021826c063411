//! Writes the job files of examples/ and the listing of each, in the folder that is named:
//! `example_files ../examples`.

use oracle::contours::Edges;
use oracle::geometry::Shape;
use oracle::given::by_distance_measured::spline_distances;
use oracle::given::edge_coloring_by_distance;
use oracle::glyphs::{bow_tie, doubled, long_teardrop, registered, teardrop};
use oracle::job_files::{no_contours, square_job, with_balanced};
use oracle::jobs::{Job, listing, outcome, records, write};
use oracle::shapes::source_shape;
use oracle::stand_ins::count;
use std::path::Path;

const SEED: u64 = 2024;

/// An outline by a strategy. By distance it has the source's own distances, to the nearest 1/1024, and is
/// coloured as the source does without them.
fn drawn(contours: Vec<Edges>, strategy: u8) -> Job {
    let mut job = Job { seed: SEED, contours, distances: Vec::new(), ..square_job(strategy) };
    if strategy == 3 {
        let mut shape: Shape = source_shape(&job.contours);
        let measured = spline_distances(&mut shape.clone(), job.threshold);
        job.distances = measured.iter().map(|d| (d * 1024.0).round() / 1024.0).collect();
        edge_coloring_by_distance(&mut shape, job.threshold, SEED);
        assert_eq!(outcome(&write(&job)).text(), listing(&shape, count(&job.contours)));
    }
    job
}

/// The long drop without BL and with it: its texts differ in one line.
fn long_drops() -> [Job; 2] {
    let source = Job { contours: vec![long_teardrop()], ..square_job(1) };
    let balanced = Job { balanced: true, ..source.clone() };
    let [a, b] = [&source, &balanced].map(|job| outcome(&write(job)).text());
    let other = |(a, b): &(&str, &str)| a != b;
    let others: Vec<(&str, &str)> = a.lines().zip(b.lines()).filter(other).collect();
    assert!(others.len() == 1 && others[0].1 == "0 31 Q 7", "{others:?}");
    [source, balanced]
}

fn main() {
    let Some(folder) = std::env::args().nth(1) else {
        eprintln!("usage: example_files FOLDER");
        std::process::exit(2);
    };
    let drop = Job { contours: vec![teardrop()], ..square_job(1) };
    let stand_ins = Job { contours: doubled(), ..square_job(1) };
    let steep = Job { threshold: 2.0, ..square_job(1) };
    let [long_drop, balanced] = long_drops();
    let twice = with_balanced(&records(&Job { balanced: true, ..square_job(1) }), 2);
    let after_contour = with_balanced(&records(&square_job(1)), 2);
    for (name, file) in [
        ("square", write(&square_job(1))),
        ("square-ink-trap", write(&square_job(2))),
        ("square-by-distance", write(&square_job(3))),
        ("teardrop", write(&drop)),
        ("registered", write(&drawn(registered(), 1))),
        ("registered-ink-trap", write(&drawn(registered(), 2))),
        ("registered-by-distance", write(&drawn(registered(), 3))),
        ("bow-tie-by-distance", write(&drawn(bow_tie(), 3))),
        ("stand-ins", write(&stand_ins)),
        ("teardrop-47", write(&long_drop)),
        ("teardrop-47-balanced", write(&balanced)),
        ("no-contours", write(&no_contours(1))),
        ("cut", write(&square_job(1))[..100].to_vec()),
        ("bad-threshold", write(&steep)),
        ("balanced-twice", twice),
        ("balanced-after-contour", after_contour),
    ] {
        let at = |ending: &str| Path::new(&folder).join(name).with_extension(ending);
        std::fs::write(at("job"), &file).unwrap();
        std::fs::write(at("txt"), outcome(&file).text()).unwrap();
    }
}
