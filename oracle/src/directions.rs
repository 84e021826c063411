//! The unit directions in which the edges of an outline start and end, and which of them are stand-ins: SCOPE's
//! refusals, the source's directions, the corners that follow from such a list, and what can be wrong with a call.
//!
//! A call here is that of a colouring. The list goes to `out.points`, and a flag a direction, 1 where it is a
//! stand-in, to `out.colors`; the threshold is for corners alone, and nothing else of the call is looked at.

use crate::contours::{self, Edges, edge};
use crate::geometry::EdgeSegment;
use crate::math::{Vector2, cross, dot};
use crate::numbers::Random;
use crate::shapes::{self, Answer, Buffers, Call, Fault, Outline, decode, noise, outline, shorter};
use crate::stand_ins;

/// How many places of the list an edge takes.
pub const PLACES: usize = 4;
/// And how many flags.
pub const FLAGS: usize = 2;

// ---- refusals

/// The refusals, in the order in which they are looked for.
pub const ORDER: [u8; 5] = [4, 8, 5, 7, 11];

/// Which of them hold of a call, each by itself.
pub fn faults(call: &Call) -> [bool; 5] {
    let [too_many, lengths, kind, coordinate, _threshold] = shapes::faults(call);
    let (edges, out) = (call.outline.edges(), &call.out);
    let short = out.points.len() < PLACES * edges || out.colors.len() < FLAGS * edges;
    [too_many, lengths, kind, coordinate, short]
}

// ---- the reference

/// The two unit directions of an edge, as the corner search has them: at its start and at its end.
pub fn of_edge(e: &EdgeSegment) -> [Vector2; 2] {
    [e.direction(0.0).normalize(false), e.direction(1.0).normalize(false)]
}

/// The list of an outline that is not refused.
pub fn list(o: &Outline) -> Vec<u64> {
    let edges = decode(o).into_iter().flatten();
    let vectors = edges.flat_map(|e| of_edge(&e));
    vectors.flat_map(|v| [v.x.to_bits(), v.y.to_bits()]).collect()
}

/// Its flags.
pub fn flags(o: &Outline) -> Vec<u8> {
    let edges = decode(o).into_iter().flatten();
    edges.flat_map(|e| stand_ins::of_edge(&e)).map(u8::from).collect()
}

/// What a call is answered, and the result buffers after it.
pub fn answer(call: &Call) -> (Answer, Buffers) {
    let mut out = call.out.clone();
    if let Some(first) = faults(call).iter().position(|&fault| fault) {
        return (Answer::Refused(ORDER[first]), out);
    }
    let (list, flags) = (list(&call.outline), flags(&call.outline));
    out.points[..list.len()].copy_from_slice(&list);
    out.colors[..flags.len()].copy_from_slice(&flags);
    (Answer::Edges(call.outline.edges()), out)
}

/// The corners of each contour, by the lengths of the contours, a list and the threshold alone.
pub fn corners(lengths: &[u16], list: &[u64], threshold: f64) -> Vec<Vec<usize>> {
    let vector = |at: usize| Vector2::new(f64::from_bits(list[at]), f64::from_bits(list[at + 1]));
    let mut first = 0;
    let mut found = Vec::new();
    for m in lengths.iter().map(|&m| m as usize) {
        let start = |i: usize| vector(PLACES * (first + i));
        let end = |i: usize| vector(PLACES * (first + i) + 2);
        let corner = |i: &usize| {
            let (a, b) = (end((i + m - 1) % m), start(*i));
            dot(a, b) <= 0.0 || cross(a, b).abs() > threshold
        };
        found.push((0..m).filter(corner).collect());
        first += m;
    }
    found
}

// ---- calls to try

/// Few contours of edges with stand-ins.
fn with_stand_ins(r: &mut Random) -> Vec<Edges> {
    let contours = 1 + r.below(3);
    let contour = |_| {
        let m = r.below(9) as usize;
        stand_ins::contour(r, m)
    };
    (0..contours).map(contour).collect()
}

/// Buffers for the directions of so many edges: each exactly as long, or longer.
fn room(r: &mut Random, edges: usize) -> Buffers {
    let more = |r: &mut Random, n: usize| if r.coin() { n } else { n + 1 + r.below(24) as usize };
    let (places, flags) = (more(r, PLACES * edges), more(r, FLAGS * edges));
    shapes::buffers(r, 0, 0, places, flags)
}

/// A call on an outline, with buffers that hold the list and its flags.
pub fn on(r: &mut Random, outline: Outline, threshold: f64) -> Call {
    let out = room(r, outline.edges());
    Call { outline, threshold, seed: 0, balanced: false, out }
}

/// A call that is not refused.
pub fn call(r: &mut Random) -> Call {
    let mut threshold = contours::threshold(r);
    let shape = if r.below(4) == 0 { with_stand_ins(r) } else { contours::shape(r, threshold) };
    if r.below(6) == 0 {
        threshold = contours::tie(r, &shape).unwrap_or(threshold);
    }
    let outline = outline(r, &shape);
    on(r, outline, threshold)
}

/// Every edge whose coordinates are all among four values, in shapes of 256 edges.
pub fn every_edge(values: [f64; 4]) -> Vec<Vec<Edges>> {
    let mut edges = Edges::new();
    for kind in 1..=3 {
        for number in 0..4usize.pow(2 * (kind + 1)) {
            let value = |place: u32| values[number >> (2 * place) & 3];
            let points = (0..=kind).map(|i| Vector2::new(value(2 * i), value(2 * i + 1)));
            edges.push(edge(&points.collect::<Vec<_>>()));
        }
    }
    edges.chunks(256).map(|shape| shape.chunks(16).map(<[_]>::to_vec).collect()).collect()
}

// ---- faults

/// The list's buffer too short: by one, by more, or empty.
fn list_short(r: &mut Random, call: &mut Call) {
    let places = PLACES * call.outline.edges().min(256);
    call.out.points = (0..shorter(r, places)).map(|_| noise(r)).collect();
}

/// The same of the flags.
fn flags_short(r: &mut Random, call: &mut Call) {
    let flags = FLAGS * call.outline.edges().min(256);
    call.out.colors = (0..shorter(r, flags)).map(|_| noise(r) as u8).collect();
}

/// What can be wrong with a call, each with the number that it alone gives, or 0 where it is no fault.
pub fn ways_to_spoil() -> Vec<(&'static str, u8, Fault)> {
    let of_outlines = shapes::FAULTS.iter().filter(|(_, number, _)| ![6, 11].contains(number));
    let of_buffers = [("list short", 11, list_short as Fault), ("flags short", 11, flags_short)];
    of_outlines.copied().chain(of_buffers).collect()
}
