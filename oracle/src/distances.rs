//! By-distance colouring with given distances, and its collecting pass: SCOPE's refusals, the source's outcomes by
//! either division of teardrops, calls to try and what can be wrong with them.

use crate::contours::{self, Edges, KINDS};
use crate::geometry::Shape;
use crate::numbers::Random;
use crate::shapes::{self, Answer, Buffers, Call, FAULTS};
use crate::shapes::{decode, deliver, encode, noise, outline, roomy, some, source_shape};
use crate::stand_ins;
use crate::{balanced, given};

/// A call of by-distance colouring, each distance by its bits; the collecting pass takes neither the
/// seed nor the distances.
#[derive(Clone, Debug)]
pub struct DistanceCall {
    pub call: Call,
    pub distances: Vec<u64>,
}

pub const MOST_SPLINES: usize = 64;
pub const MOST_DISTANCES: usize = 2016;

pub fn pairs(splines: usize) -> usize {
    splines * splines.saturating_sub(1) / 2
}

// ---- the reference

/// The contour and the place of each collected edge, and where the splines start among them.
pub type Splines = (Vec<(usize, usize)>, Vec<usize>);

/// The source's collecting pass by one of the divisions.
pub fn collect_splines(balanced: bool, shape: &mut Shape, threshold: f64) -> Splines {
    let collect = match balanced {
        false => given::by_distance_collected::collect_splines,
        true => balanced::by_distance_collected::collect_splines,
    };
    collect(shape, threshold)
}

/// Its colouring by one of them, with given distances: how many pairs were declined.
pub fn run(
    balanced: bool,
    shape: &mut Shape,
    threshold: f64,
    seed: u64,
    distances: &[f64],
) -> usize {
    let run = match balanced {
        false => given::by_distance_given::edge_coloring_by_distance_given,
        true => balanced::by_distance_given::edge_coloring_by_distance_given,
    };
    run(shape, threshold, seed, distances)
}

/// What the collecting pass makes: the split outline with the spline of each edge, or 255, in the place
/// of its colour; and the number of splines.
pub struct Collected {
    pub result: Buffers,
    pub splines: usize,
}

/// The collecting pass of the source, numbered as its last loop goes over the splines.
pub fn collected(call: &Call) -> Collected {
    let mut shape = source_shape(&decode(&call.outline));
    let (refs, starts) = collect_splines(call.balanced, &mut shape, call.threshold);
    let mut result = encode(&shape);
    let mut firsts = vec![0];
    for contour in &shape.contours {
        firsts.push(firsts.last().unwrap() + contour.segments.len());
    }
    result.colors.fill(255);
    let mut next = 0;
    for (i, &(contour, place)) in refs.iter().enumerate() {
        if starts[next] == i {
            next += 1;
        }
        result.colors[firsts[contour] + place] = (next - 1) as u8;
    }
    Collected { result, splines: starts.len() - 1 }
}

/// The result of a call that is not refused before the colouring, and how many pairs were declined.
fn colored(c: &DistanceCall) -> (Buffers, usize) {
    let mut shape = source_shape(&decode(&c.call.outline));
    let distances: Vec<f64> = c.distances.iter().map(|&bits| f64::from_bits(bits)).collect();
    let Call { balanced, threshold, seed, .. } = c.call;
    let declined = run(balanced, &mut shape, threshold, seed, &distances);
    (encode(&shape), declined)
}

// ---- refusals

/// The refusals of the colouring in the order in which they are looked for: by number, and by name
/// where two have one number.
pub const ORDER: [(u8, &str); 9] = [
    (4, "contours, edges or distances"),
    (8, "buffer lengths"),
    (5, "kind"),
    (7, "coordinate"),
    (6, "threshold"),
    (4, "splines"),
    (8, "distance count"),
    (9, "distance"),
    (11, "result buffer"),
];

/// Whether a distance is finite and not below zero; -0 is not.
fn good(bits: u64) -> bool {
    let d = f64::from_bits(bits);
    d.is_finite() && d >= 0.0
}

/// The refusals that hold of a colouring besides 11, each by itself, in the order of `ORDER`. The
/// splines are counted where the outline is not refused.
pub fn faults(c: &DistanceCall) -> [bool; 8] {
    let [many, lengths, kind, coordinate, threshold] = shapes::faults(&c.call);
    let splines = shapes::refusal(&c.call).is_none().then(|| collected(&c.call).splines);
    [
        many || c.distances.len() > MOST_DISTANCES,
        lengths,
        kind,
        coordinate,
        threshold,
        splines.is_some_and(|n| n > MOST_SPLINES),
        splines.is_some_and(|n| c.distances.len() != pairs(n)),
        !c.distances.iter().all(|&bits| good(bits)),
    ]
}

/// What a colouring is answered, and the result buffers after it; the place in `ORDER` of the refusal,
/// and how many pairs were declined.
pub struct Outcome {
    pub answer: Answer,
    pub after: Buffers,
    pub refusal: Option<usize>,
    pub declined: usize,
}

pub fn color(c: &DistanceCall) -> Outcome {
    let refusal = faults(c).iter().position(|&fault| fault);
    if let Some(which) = refusal {
        let answer = Answer::Refused(ORDER[which].0);
        return Outcome { answer, after: c.call.out.clone(), refusal, declined: 0 };
    }
    let (result, declined) = colored(c);
    let (answer, after) = deliver(&result, c.call.outline.stand_ins(), c.call.out.clone());
    let refusal = (answer == Answer::Refused(11)).then_some(8);
    Outcome { answer, after, refusal, declined }
}

/// What the collecting pass is answered, and the result buffers after it.
pub fn collect(call: &Call) -> (Answer, Buffers) {
    let refused = |number: u8| (Answer::Refused(number), call.out.clone());
    if let Some(number) = shapes::refusal(call) {
        return refused(number);
    }
    let Collected { result, splines } = collected(call);
    if splines > MOST_SPLINES {
        return refused(4);
    }
    let (answer, out) = deliver(&result, call.outline.stand_ins(), call.out.clone());
    let collected = match answer {
        Answer::Colored { edges, stand_ins } => Answer::Collected { edges, splines, stand_ins },
        other => other,
    };
    (collected, out)
}

// ---- calls to try

/// Contours of so many splines together, as far as the corners can be planned: without a corner, with
/// one (two splines), and with a corner a spline; empty ones between them.
pub fn with_splines(r: &mut Random, splines: usize, threshold: f64) -> Vec<Edges> {
    let (mut left, mut room) = (splines, 256);
    let mut shape = Vec::new();
    while left > 0 {
        let most = r.pick(&[1, 2, 2, 4, 16, 64]);
        let k = 1 + some(r, left.min(most));
        left -= k;
        let corners = match k {
            1 => 0,
            2 if r.below(4) != 0 => 1,
            k => k,
        };
        let least = corners.max(1);
        let most = (room - left).min(least + r.pick(&[0, 1, 2, 3, 12, 46]));
        let m = (least + some(r, most + 1 - least)).max(least);
        let m = if corners == 1 && r.coin() { r.pick(&[1, 2, 2, 3]).min(most) } else { m };
        room -= m;
        let mut flags = vec![false; m];
        while flags.iter().filter(|&&flag| flag).count() < corners {
            flags[some(r, m)] = true;
        }
        shape.push(contours::planned(r, &flags, threshold, &KINDS));
        if shape.len() + left < 63 && r.below(8) == 0 {
            shape.push(Vec::new());
        }
    }
    shape
}

/// How distances are made: the name of a way, and the way, from their number.
pub type Way = fn(&mut Random, usize) -> Vec<f64>;

fn many(r: &mut Random, count: usize, each: impl Fn(&mut Random) -> f64) -> Vec<f64> {
    (0..count).map(|_| each(r)).collect()
}

fn zero(r: &mut Random) -> f64 {
    if r.coin() { 0.0 } else { -0.0 }
}

fn sorted(r: &mut Random, count: usize) -> Vec<f64> {
    let mut all = mixed(r, count);
    all.sort_by(f64::total_cmp);
    all
}

/// Any of the values at which an order could go wrong.
fn mixed(r: &mut Random, count: usize) -> Vec<f64> {
    let zeros = 1 + r.below(12);
    many(r, count, |r| match r.below(8) {
        0 => f64::from_bits(1 + r.below(4)),
        1 => f64::MIN_POSITIVE.next_down(),
        2 => f64::MAX,
        3 => f64::MAX.next_down(),
        4 => 1.0 + r.below(3) as f64 * f64::EPSILON,
        5 => r.unit().abs() * 1e-310,
        _ if r.below(zeros) == 0 => zero(r),
        _ => r.unit().abs() * 1000.0,
    })
}

pub const WAYS: [(&str, Way); 10] = [
    ("any", mixed),
    ("sorted", sorted),
    ("reversed", |r, count| sorted(r, count).into_iter().rev().collect()),
    ("all equal", |r, count| {
        let d = r.pick(&[1.0, f64::MAX, f64::from_bits(1)]);
        vec![d; count]
    }),
    ("all zero", |r, count| many(r, count, zero)),
    ("two values", |r, count| many(r, count, |r| r.pick(&[1.0, 2.0]))),
    ("few values", |r, count| many(r, count, |r| r.below(5) as f64)),
    ("few zeros", |r, count| {
        many(r, count, |r| if r.below(32) == 0 { zero(r) } else { r.unit().abs() + 0.5 })
    }),
    ("many zeros", |r, count| {
        many(r, count, |r| if r.below(3) == 0 { r.unit().abs() } else { zero(r) })
    }),
    ("no zero", |r, count| many(r, count, |r| r.unit().abs() + f64::MIN_POSITIVE)),
];

fn bits(distances: Vec<f64>) -> Vec<u64> {
    distances.into_iter().map(f64::to_bits).collect()
}

/// A call of which the outline is not refused: by any shape, or by one of a number of splines.
fn outlined(r: &mut Random) -> Call {
    if r.coin() {
        return shapes::call(r);
    }
    let threshold = r.pick(&[0.125, 0.0, 0.5, 0.1411200080598672]);
    let splines = match r.below(4) {
        0 => some(r, 65),
        1 => some(r, 12),
        2 => 60 + some(r, 5),
        _ => some(r, 33),
    };
    let shape = with_splines(r, splines, threshold);
    let (outline, seed) = (outline(r, &shape), contours::seed(r));
    Call { outline, threshold, seed, balanced: false, out: Buffers::default() }
}

/// A call that is not refused, with the way of its distances by its place in `WAYS`, and its splines.
pub fn call(r: &mut Random) -> (DistanceCall, usize, usize) {
    loop {
        let mut call = outlined(r);
        let Collected { result, splines } = collected(&call);
        if splines > MOST_SPLINES {
            continue;
        }
        call.out = roomy(r, &result);
        let way = some(r, WAYS.len());
        let distances = bits(WAYS[way].1(r, pairs(splines)));
        return (DistanceCall { call, distances }, way, splines);
    }
}

// ---- faults

pub type DistanceFault = fn(&mut Random, &mut DistanceCall);

/// From 65 splines on; the distances stay.
fn splines_above(r: &mut Random, c: &mut DistanceCall) {
    let threshold = 0.125;
    let more = r.pick(&[0, 0, 1, 60]);
    let mut shape = with_splines(r, 65 + more, threshold);
    if r.coin() {
        shape.push(stand_ins::contour(r, 2));
    }
    if shape.len() <= 64 {
        c.call.outline = outline(r, &shape);
        c.call.threshold = threshold;
        c.call.out = shapes::buffers(r, 64, 508, 4064, 508);
    }
}

/// From 2,017 distances on.
fn distances_above(r: &mut Random, c: &mut DistanceCall) {
    let count = if r.coin() { 2017 } else { 2017 + some(r, 300) };
    c.distances.resize(count, 1.0f64.to_bits());
}

fn distances_more(r: &mut Random, c: &mut DistanceCall) {
    let more = if r.coin() { 1 } else { 1 + some(r, 9) };
    let count = (c.distances.len() + more).min(MOST_DISTANCES);
    c.distances.resize(count, 1.0f64.to_bits());
}

fn distances_less(r: &mut Random, c: &mut DistanceCall) {
    let less = if r.coin() { 1 } else { 1 + some(r, c.distances.len()) };
    c.distances.truncate(c.distances.len().saturating_sub(less));
}

/// Not finite, or below zero by as little as can be.
pub fn bad_distance(r: &mut Random) -> u64 {
    match r.below(6) {
        0 => f64::INFINITY.to_bits(),
        1 => f64::NEG_INFINITY.to_bits(),
        2 => noise(r) | 0x7FF0_0000_0000_0001,
        3 => (-f64::from_bits(1)).to_bits(),
        4 => (-1.0f64).to_bits(),
        _ => (-f64::MAX).to_bits(),
    }
}

fn distance_bad(r: &mut Random, c: &mut DistanceCall) {
    let at = some(r, c.distances.len());
    if let Some(d) = c.distances.get_mut(at) {
        *d = bad_distance(r);
    }
}

/// No fault: -0 is a zero.
fn distance_minus_zero(r: &mut Random, c: &mut DistanceCall) {
    let at = some(r, c.distances.len());
    if let Some(d) = c.distances.get_mut(at) {
        *d = (-0.0f64).to_bits();
    }
}

/// Each with the place in `ORDER` of the refusal that it alone gives.
pub const DISTANCE_FAULTS: [(&str, Option<usize>, DistanceFault); 6] = [
    ("above 64 splines", Some(5), splines_above),
    ("above 2,016 distances", Some(0), distances_above),
    ("distances too many", Some(6), distances_more),
    ("distances too few", Some(6), distances_less),
    ("a bad distance", Some(7), distance_bad),
    ("a distance -0", None, distance_minus_zero),
];

/// Makes one thing wrong: of the outline and the buffers, or of the splines and the distances. The
/// place counts `FAULTS` first.
pub fn spoil(r: &mut Random, c: &mut DistanceCall) -> usize {
    let which = if r.coin() { some(r, FAULTS.len()) } else { FAULTS.len() + some(r, 6) };
    match which.checked_sub(FAULTS.len()) {
        None => FAULTS[which].2(r, &mut c.call),
        Some(other) => DISTANCE_FAULTS[other].2(r, c),
    }
    which
}
