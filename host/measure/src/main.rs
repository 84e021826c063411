//! Colours all glyphs of a font through the library and by the Rust of docs/src, and prints both times as a table of
//! Markdown: `measure FONT`. Both sides colour the glyphs that the library accepts; a time is the best of some runs, by
//! turns.

use merelsplum::job::{Job, Strategy};
use merelsplum::{Colored, Edge, Outline, Refusal, collect_splines, edge_coloring_by_distance};
use oracle::coloring;
use oracle::geometry::{Contour, EdgeSegment, Shape};
use oracle::given::by_distance_given::edge_coloring_by_distance_given;
use oracle::math::Vector2;
use sheet::font::{Font, Name};
use sheet::sheet::job;
use sheet::source::{self, spline_distances};
use std::collections::BTreeMap;
use std::env;
use std::hint::black_box;
use std::time::{Duration, Instant};

const ANGLE: f64 = 3.0;
const SEED: u64 = 0;
const RUNS: usize = 9;

fn main() -> Result<(), String> {
    let path = env::args().nth(1).ok_or("usage: measure FONT")?;
    let file = std::fs::read(&path).map_err(|error| format!("{path}: {error}"))?;
    let font = Font::new(&file)?;
    let glyph = |name: Name| Some((name, source::outline(&font.glyph(name)?.shape)));
    let glyphs: Vec<(Name, Outline)> = font.all().into_iter().filter_map(glyph).collect();
    let edges: usize = glyphs.iter().map(|glyph| glyph.1.edge_count()).sum();
    println!("{} glyphs, {edges} edges, angle {ANGLE}, seed {SEED}, the best of {RUNS} runs\n", glyphs.len());
    println!(
        "| Strategy | Library | docs/src | Library / docs/src | Glyphs coloured | Edges coloured | Edges that differ | Glyphs refused |"
    );
    println!("|---|---|---|---|---|---|---|---|");
    let mut refused = BTreeMap::new();
    for strategy in [Strategy::Simple, Strategy::InkTrap, Strategy::ByDistance] {
        for (name, why) in measure(strategy, &glyphs) {
            refused.entry(name).or_insert((why, vec![])).1.push(strategy);
        }
    }
    println!();
    for (name, (why, strategies)) in refused {
        println!("- {name}, {why}: {strategies:?}");
    }
    Ok(())
}

/// Prints a strategy's lines; the glyphs that were refused.
fn measure(strategy: Strategy, glyphs: &[(Name, Outline)]) -> Vec<(String, String)> {
    let mut refused = Vec::new();
    let mut accepted = Vec::new();
    for (name, outline) in glyphs {
        let job = job(outline.clone(), strategy, ANGLE.sin(), SEED, false);
        match job.and_then(|job| job.color().map(|_| job)) {
            Ok(job) => accepted.push((job, shape(outline))),
            Err(refusal) => refused.push((name.to_string(), reason(refusal, outline))),
        }
    }
    let colored = |job: &Job| job.color().expect("it was accepted");
    let refusals = refused.len();
    match strategy {
        Strategy::Simple => {
            race("simple", &accepted, refusals, colored, |shape, _| coloring::edge_coloring_simple(shape, ANGLE, SEED));
        }
        Strategy::InkTrap => {
            race("ink trap", &accepted, refusals, colored, |shape, _| coloring::edge_coloring_ink_trap(shape, ANGLE, SEED));
        }
        Strategy::ByDistance => {
            let measured = |job: &Job| {
                let distances = spline_distances(&collect_splines(&job.outline, job.threshold).expect("it was accepted"));
                edge_coloring_by_distance(&job.outline, job.threshold, job.seed, &distances).expect("it was accepted")
            };
            race("by distance", &accepted, refusals, measured, |shape, _| {
                coloring::edge_coloring_by_distance(shape, ANGLE, SEED)
            });
            race("by distance, the distances given", &accepted, refusals, colored, |shape, job| {
                edge_coloring_by_distance_given(shape, job.threshold, job.seed, &job.distances);
            });
        }
    }
    refused
}

/// Times both sides over all jobs, compares what they give, and prints the line.
fn race(
    name: &str,
    accepted: &[(Job, Shape)],
    refusals: usize,
    library: impl Fn(&Job) -> Colored,
    source: impl Fn(&mut Shape, &Job),
) {
    let mut best = [Duration::MAX; 2];
    let (mut edges, mut differ) = (0, 0);
    for _ in 0..RUNS {
        let start = Instant::now();
        let colored: Vec<Colored> = accepted.iter().map(|(job, _)| black_box(library(job))).collect();
        best[0] = best[0].min(start.elapsed());
        let mut shapes: Vec<Shape> = accepted.iter().map(|accepted| accepted.1.clone()).collect();
        let start = Instant::now();
        shapes.iter_mut().zip(accepted).for_each(|(shape, (job, _))| source(black_box(shape), job));
        best[1] = best[1].min(start.elapsed());
        edges = colored.iter().map(Colored::edge_count).sum();
        differ = shapes.iter().zip(&colored).map(|(shape, colored)| differences(shape, colored)).sum::<usize>();
    }
    let [library, source] = best.map(|time| time.as_secs_f64() * 1e3);
    let (glyphs, ratio) = (accepted.len(), library / source);
    println!("| {name} | {library:.1} ms | {source:.1} ms | {ratio:.2} | {glyphs} | {edges} | {differ} | {refusals} |");
}

fn reason(refusal: Refusal, outline: &Outline) -> String {
    let (contours, edges) = (outline.contours.len(), outline.edge_count());
    match refusal {
        Refusal::TooMany if contours > 64 => format!("{contours} contours"),
        Refusal::TooMany if edges > 256 => format!("{edges} edges"),
        Refusal::TooMany => "more than 64 splines".to_owned(),
        _ => refusal.to_string(),
    }
}

/// An outline as the test oracle has it.
fn shape(outline: &Outline) -> Shape {
    let mut shape = Shape::new();
    for edges in &outline.contours {
        let mut contour = Contour::new();
        edges.iter().for_each(|edge| contour.add_edge(segment(edge)));
        shape.add_contour(contour);
    }
    shape
}

fn segment(edge: &Edge) -> EdgeSegment {
    let v = |p: [f64; 2]| Vector2::new(p[0], p[1]);
    match *edge {
        Edge::Line(p) => EdgeSegment::Line(p.map(v)),
        Edge::Quadratic(p) => EdgeSegment::Quadratic(p.map(v)),
        Edge::Cubic(p) => EdgeSegment::Cubic(p.map(v)),
    }
}

/// How many edges have another colour or other points.
fn differences(shape: &Shape, colored: &Colored) -> usize {
    assert!(shape.contours.iter().map(|contour| contour.len()).eq(colored.contours.iter().map(Vec::len)));
    let source = shape.contours.iter().flat_map(|contour| contour.segments.iter().zip(&contour.colors));
    let library = colored.contours.iter().flatten();
    source.zip(library).filter(|((a, color), (b, other))| **a != segment(b) || color.bits() != other.bits()).count()
}
