//! Simple and ink-trap colouring: generated shapes of 256 edges, and the glyphs of fonts.

use super::clock::pass;
use super::{Race, Row, Table};
use crate::shapes::{corners, proved};
use oracle::contours::{self, Edges};
use oracle::geometry::Shape;
use oracle::jobs::{Job, read};
use oracle::numbers::Random;
use oracle::shapes::{Buffers, Outline, STRATEGIES, Strategy};
use oracle::shapes::{buffers, encode, outline, run, source_shape};
use std::collections::HashSet;
use std::fs;
use std::hint::black_box;
use std::path::{Path, PathBuf};
use std::rc::Rc;

const THRESHOLD: f64 = 0.125;

/// Makes so many shapes, each with its threshold and its seed.
type Maker = Rc<dyn Fn(usize) -> Vec<Job>>;

pub fn table(folders: &[String]) -> Table {
    let mut makers: Vec<(String, Maker)> = vec![
        ("8 contours of 32 edges".into(), generated(|r| mixed(r, 8))),
        ("64 contours of 4 edges".into(), generated(|r| mixed(r, 64))),
        ("one contour of 256 edges and corners".into(), generated(all_corners)),
    ];
    for folder in folders.iter().map(PathBuf::from) {
        let font = folder.file_name().unwrap_or_default().to_string_lossy().into_owned();
        makers.push((format!("glyphs of {font}"), Rc::new(move |count| glyphs(&folder, count))));
    }
    let mut rows = Vec::new();
    for (what, maker) in makers {
        for strategy in STRATEGIES {
            let (name, maker) = (format!("{what}, {}", name(strategy)), maker.clone());
            let race = Box::new(move |count| race(strategy, &maker(count)));
            rows.push(Row { name, timed: 1000, counted: 200, race });
        }
    }
    Table { title: "Simple and ink-trap colouring", input: "shape", part: "edge", rows }
}

fn name(strategy: Strategy) -> &'static str {
    match strategy {
        Strategy::Simple => "simple",
        Strategy::InkTrap => "ink trap",
    }
}

// ---- inputs

fn generated(shape: impl Fn(&mut Random) -> Vec<Edges> + 'static) -> Maker {
    Rc::new(move |count| {
        let r = &mut Random(402);
        let job = |seed| Job { seed, threshold: THRESHOLD, contours: shape(r), ..Job::default() };
        (0..count as u64).map(job).collect()
    })
}

/// 256 edges, lines and cubics, in contours of one length, every other one with fewer corners.
fn mixed(r: &mut Random, contours: u64) -> Vec<Edges> {
    let contour = |i: u64| {
        let rare = if i % 2 == 0 { 2 } else { 8 };
        let corners: Vec<bool> = (0..256 / contours).map(|_| r.below(rare) == 0).collect();
        contours::planned(r, &corners, THRESHOLD, &[1, 3])
    };
    (0..contours).map(contour).collect()
}

/// 256 edges, lines and cubics, in one contour, each place a corner.
fn all_corners(r: &mut Random) -> Vec<Edges> {
    loop {
        let edges = contours::planned(r, &[true; 256], THRESHOLD, &[1, 3]);
        if corners(&edges, THRESHOLD).len() == 256 {
            return vec![edges];
        }
    }
}

/// Glyphs of a font that have an edge and are all different, spread over the font.
fn glyphs(folder: &Path, count: usize) -> Vec<Job> {
    let entries = fs::read_dir(folder).unwrap_or_else(|e| panic!("{}: {e}", folder.display()));
    let mut paths: Vec<PathBuf> = entries.map(|entry| entry.unwrap().path()).collect();
    paths.sort();
    let mut files: Vec<Vec<u8>> = paths.iter().map(|path| fs::read(path).unwrap()).collect();
    let mut met = HashSet::new();
    files.retain(|file| met.insert(file.clone()));
    let mut jobs: Vec<Job> = files.iter().map(|file| read(file).unwrap().job).collect();
    jobs.retain(|job| job.contours.iter().any(|edges| !edges.is_empty()));
    let (all, count) = (jobs.len(), count.min(jobs.len()));
    (0..count).map(|i| jobs[i * all / count].clone()).collect()
}

// ---- both sides

/// The proved code goes from buffers to buffers, with its checks; the Rust colours its own shape.
fn race(strategy: Strategy, jobs: &[Job]) -> Race {
    let r = &mut Random(403);
    let outlines: Vec<(Outline, f64, u64)> =
        jobs.iter().map(|job| (outline(r, &job.contours), job.threshold, job.seed)).collect();
    let shapes: Vec<(Shape, f64, u64)> =
        jobs.iter().map(|job| (source_shape(&job.contours), job.threshold, job.seed)).collect();
    let mut out = buffers(r, 64, 508, 4064, 508);
    for ((outline, threshold, seed), (shape, ..)) in outlines.iter().zip(&shapes) {
        color(strategy, outline, *threshold, *seed, &mut out);
        let mut shape = shape.clone();
        run(strategy, &mut shape, *threshold, *seed);
        assert!(starts_with(&out, &encode(&shape)), "the two ended differently");
    }
    Race {
        inputs: jobs.len(),
        parts: outlines.iter().map(|input| input.0.edges()).sum(),
        proved: Box::new(move || {
            pass(&outlines, |(outline, threshold, seed)| {
                black_box(color(strategy, outline, *threshold, *seed, &mut out));
            })
        }),
        rust: Box::new(move || {
            pass(&shapes, |(shape, threshold, seed)| {
                run(strategy, black_box(shape), *threshold, *seed)
            })
        }),
    }
}

fn color(strategy: Strategy, o: &Outline, threshold: f64, seed: u64, out: &mut Buffers) -> u64 {
    let Buffers { lengths, kinds, points, colors } = out;
    proved(strategy, false, o, threshold, seed, lengths, kinds, points, colors)
}

/// Whether buffers begin with a result.
pub fn starts_with(out: &Buffers, result: &Buffers) -> bool {
    out.lengths.starts_with(&result.lengths)
        && out.kinds.starts_with(&result.kinds)
        && out.points.starts_with(&result.points)
        && out.colors.starts_with(&result.colors)
}
