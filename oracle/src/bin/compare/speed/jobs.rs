//! Job files of 256 edges and 64 splines, read and coloured, and listed too. The Rust is the oracle's own
//! reader, the source's colouring, and formatting to a string; to list, it counts stand-ins too.

use super::clock::pass;
use super::shapes::starts_with;
use super::{Race, Row, Table};
use crate::jobs::{proved_color, proved_listing};
use oracle::contours::{self, Edges};
use oracle::distances::{MOST_SPLINES, pairs};
use oracle::geometry::Shape;
use oracle::job_files::square_job;
use oracle::jobs::{Job, color, listing, read, splines, write};
use oracle::numbers::Random;
use oracle::shapes::{Buffers, buffers, encode, some};
use oracle::stand_ins::count;
use std::hint::black_box;

pub fn table() -> Table {
    let mut rows = Vec::new();
    for (strategy, name) in [(1, "simple"), (2, "ink trap"), (3, "by distance")] {
        let counted = if strategy == 3 { 8 } else { 100 };
        let mut row = |what: &str, race: fn(Vec<Vec<u8>>) -> Race| {
            let race = Box::new(move |count| race(files(strategy, count)));
            rows.push(Row { name: format!("{name}, {what}"), timed: 256, counted, race });
        };
        row("read and coloured", coloring);
        row("read, coloured and listed", listings);
    }
    Table { title: "Job files", input: "file", part: "edge", rows }
}

/// The square of examples/square.job.
pub fn square() -> Row {
    let race = Box::new(|count| coloring(vec![write(&square_job(1)); count]));
    Row { name: "the square".into(), timed: 1, counted: 1, race }
}

// ---- inputs

/// 256 edges, lines and cubics, in 8 contours of 8 corners each.
fn mixed(r: &mut Random) -> Vec<Edges> {
    let contour = |_| {
        let mut corners = [false; 32];
        while corners.iter().filter(|&&corner| corner).count() < 8 {
            corners[some(r, 32)] = true;
        }
        contours::planned(r, &corners, 0.125, &[1, 3])
    };
    (0..8).map(contour).collect()
}

fn files(strategy: u8, count: usize) -> Vec<Vec<u8>> {
    let r = &mut Random(707);
    let mut files = Vec::new();
    while files.len() < count {
        let contours = mixed(r);
        let distances = (0..pairs(MOST_SPLINES)).map(|_| r.unit().abs() + 0.5).collect();
        let distances = if strategy == 3 { distances } else { Vec::new() };
        let seed = files.len() as u64;
        let job = Job { strategy, seed, threshold: 0.125, balanced: false, contours, distances };
        if splines(&job) == MOST_SPLINES {
            files.push(write(&job));
        }
    }
    files
}

fn edges(files: &[Vec<u8>]) -> usize {
    files.iter().flat_map(|file| read(file).unwrap().job.contours).map(|edges| edges.len()).sum()
}

// ---- both sides

fn colored(file: &[u8]) -> Shape {
    color(&read(file).unwrap().job).unwrap()
}

fn listed(file: &[u8]) -> String {
    let job = read(file).unwrap().job;
    listing(&color(&job).unwrap(), count(&job.contours))
}

fn color_proved(file: &[u8], out: &mut Buffers) -> u64 {
    let Buffers { lengths, kinds, points, colors } = out;
    proved_color(file, lengths, kinds, points, colors)
}

fn coloring(files: Vec<Vec<u8>>) -> Race {
    let mut out = buffers(&mut Random(708), 64, 508, 4064, 508);
    for file in &files {
        color_proved(file, &mut out);
        assert!(starts_with(&out, &encode(&colored(file))), "the two ended differently");
    }
    let sources = files.clone();
    Race {
        inputs: files.len(),
        parts: edges(&files),
        proved: Box::new(move || {
            pass(&files, |file| {
                black_box(color_proved(file, &mut out));
            })
        }),
        rust: Box::new(move || pass(&sources, |file| drop(black_box(colored(file))))),
    }
}

fn listings(files: Vec<Vec<u8>>) -> Race {
    let mut text = [0; 5611];
    for file in &files {
        let length = proved_listing(file, &mut text) as usize;
        let same = text[..length] == *listed(file).as_bytes();
        assert!(same, "the two listed differently");
    }
    let sources = files.clone();
    Race {
        inputs: files.len(),
        parts: edges(&files),
        proved: Box::new(move || {
            pass(&files, |file| {
                black_box(proved_listing(file, &mut text));
            })
        }),
        rust: Box::new(move || pass(&sources, |file| drop(black_box(listed(file))))),
    }
}
