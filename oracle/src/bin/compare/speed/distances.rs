//! By-distance colouring of 64 splines with 2,016 distances without a zero.

use super::clock::pass;
use super::shapes::starts_with;
use super::{Race, Row, Table};
use crate::distances::proved_color;
use oracle::distances::{DistanceCall, MOST_SPLINES, collected, pairs, with_splines};
use oracle::geometry::Shape;
use oracle::given::by_distance_given::edge_coloring_by_distance_given;
use oracle::numbers::Random;
use oracle::shapes::{Buffers, Call};
use oracle::shapes::{buffers, decode, encode, outline, source_shape};
use std::hint::black_box;

pub fn table() -> Table {
    let race = Box::new(|count| race(calls(count)));
    let row = Row { name: "64 splines, 2,016 distances".into(), timed: 256, counted: 8, race };
    let title = "By-distance colouring, the distances given";
    Table { title, input: "shape", part: "edge", rows: vec![row] }
}

fn calls(count: usize) -> Vec<DistanceCall> {
    let r = &mut Random(602);
    let mut calls = Vec::new();
    while calls.len() < count {
        let shape = with_splines(r, MOST_SPLINES, 0.125);
        let (outline, out) = (outline(r, &shape), Buffers::default());
        let seed = calls.len() as u64;
        let call = Call { outline, threshold: 0.125, seed, balanced: false, out };
        if collected(&call).splines == MOST_SPLINES {
            let distance = |_| (r.unit().abs() + 0.5).to_bits();
            let distances = (0..pairs(MOST_SPLINES)).map(distance).collect();
            calls.push(DistanceCall { call, distances });
        }
    }
    calls
}

/// What the source takes for a call.
#[derive(Clone)]
struct SourceCall {
    shape: Shape,
    threshold: f64,
    seed: u64,
    distances: Vec<f64>,
}

fn source_call(c: &DistanceCall) -> SourceCall {
    let Call { outline, threshold, seed, .. } = &c.call;
    SourceCall {
        shape: source_shape(&decode(outline)),
        threshold: *threshold,
        seed: *seed,
        distances: c.distances.iter().map(|&bits| f64::from_bits(bits)).collect(),
    }
}

fn color_source(c: &mut SourceCall) {
    edge_coloring_by_distance_given(black_box(&mut c.shape), c.threshold, c.seed, &c.distances);
}

fn race(calls: Vec<DistanceCall>) -> Race {
    let sources: Vec<SourceCall> = calls.iter().map(source_call).collect();
    let mut out = buffers(&mut Random(603), 64, 508, 4064, 508);
    for (call, source) in calls.iter().zip(&sources) {
        proved_color(call, &mut out);
        let mut source = source.clone();
        color_source(&mut source);
        assert!(starts_with(&out, &encode(&source.shape)), "the two ended differently");
    }
    Race {
        inputs: calls.len(),
        parts: calls.iter().map(|c| c.call.outline.edges()).sum(),
        proved: Box::new(move || {
            pass(&calls, |call| {
                black_box(proved_color(call, &mut out));
            })
        }),
        rust: Box::new(move || pass(&sources, color_source)),
    }
}
