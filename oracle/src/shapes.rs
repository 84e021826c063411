//! Outlines in buffers: SCOPE's refusals, the source's simple and ink-trap colourings, by its own division of
//! teardrops and by the balanced one, and what can be wrong with a call.

use crate::contours::{self, Edges, MAX_COORDINATE, edge};
use crate::geometry::{Contour, EdgeSegment, Shape};
use crate::math::Vector2;
use crate::numbers::Random;
use crate::stand_ins;
use crate::{balanced, given};

#[derive(Clone, Copy, Debug, PartialEq)]
pub enum Strategy {
    Simple,
    InkTrap,
}

pub const STRATEGIES: [Strategy; 2] = [Strategy::Simple, Strategy::InkTrap];

/// The buffers of an outline. A point place is a double's bits, so that a NaN keeps its own.
#[derive(Clone, Debug, Default, PartialEq)]
pub struct Outline {
    pub lengths: Vec<u16>,
    pub kinds: Vec<u8>,
    pub points: Vec<u64>,
}

/// The buffers that a result goes to.
#[derive(Clone, Debug, Default, PartialEq)]
pub struct Buffers {
    pub lengths: Vec<u16>,
    pub kinds: Vec<u8>,
    pub points: Vec<u64>,
    pub colors: Vec<u8>,
}

impl Buffers {
    pub fn sizes(&self) -> [usize; 4] {
        [self.lengths.len(), self.kinds.len(), self.points.len(), self.colors.len()]
    }
}

#[derive(Clone, Debug)]
pub struct Call {
    pub outline: Outline,
    pub threshold: f64,
    pub seed: u64,
    /// Whether teardrops are divided in the balanced way.
    pub balanced: bool,
    pub out: Buffers,
}

#[derive(Clone, Copy, Debug, PartialEq)]
pub enum Answer {
    /// The edges of a list of directions.
    Edges(usize),
    /// The edges of a result, and how many of the unit directions of the outline are stand-ins.
    Colored {
        edges: usize,
        stand_ins: usize,
    },
    /// The same of the collecting pass, with the splines.
    Collected {
        edges: usize,
        splines: usize,
        stand_ins: usize,
    },
    Refused(u8),
}

impl Answer {
    /// The number by which C gets it.
    pub fn code(self) -> u64 {
        let (edges, splines, stand_ins) = match self {
            Answer::Edges(edges) => (edges, 0, 0),
            Answer::Colored { edges, stand_ins } => (edges, 0, stand_ins),
            Answer::Collected { edges, splines, stand_ins } => (edges, splines, stand_ins),
            Answer::Refused(number) => return (1 << 32) + number as u64,
        };
        edges as u64 + ((splines as u64) << 16) + ((stand_ins as u64) << 48)
    }

    /// The edges, or the number of the refusal.
    pub fn edges(self) -> Result<usize, u8> {
        match self {
            Answer::Edges(edges)
            | Answer::Colored { edges, .. }
            | Answer::Collected { edges, .. } => Ok(edges),
            Answer::Refused(number) => Err(number),
        }
    }
}

impl Outline {
    pub fn edges(&self) -> usize {
        self.lengths.iter().map(|&n| n as usize).sum()
    }

    /// How many of its unit directions are stand-ins, where it is not refused.
    pub fn stand_ins(&self) -> usize {
        stand_ins::count(&decode(self))
    }
}

/// How many places an edge of a kind uses.
pub fn used(kind: u8) -> usize {
    match kind {
        1 => 4,
        2 => 6,
        3 => 8,
        _ => 0,
    }
}

// ---- refusals

/// The refusals, in the order in which they are looked for.
pub const ORDER: [u8; 6] = [4, 8, 5, 7, 6, 11];

/// The refusals that hold of a call besides 11, each by itself, in the order of `ORDER`.
pub fn faults(call: &Call) -> [bool; 5] {
    let o = &call.outline;
    let edges = o.edges();
    let good = |bits: u64| {
        let x = f64::from_bits(bits);
        x.is_finite() && x.abs() <= 1_048_576.0
    };
    let mut coordinates = true;
    for (kind, places) in o.kinds.iter().zip(o.points.chunks(8)) {
        coordinates &= places.iter().take(used(*kind)).all(|&bits| good(bits));
    }
    [
        o.lengths.len() > 64 || edges > 256,
        o.kinds.len() != edges || o.points.len() != 8 * edges,
        o.kinds.iter().any(|kind| !(1..=3).contains(kind)),
        !coordinates,
        !(-1.0..=1.0).contains(&call.threshold),
    ]
}

pub fn refusal(call: &Call) -> Option<u8> {
    faults(call).iter().position(|&fault| fault).map(|i| ORDER[i])
}

/// Whether a result has more of anything than a buffer holds.
fn too_long(result: &Buffers, out: &Buffers) -> bool {
    result.lengths.len() > out.lengths.len()
        || result.kinds.len() > out.kinds.len()
        || result.points.len() > out.points.len()
        || result.colors.len() > out.colors.len()
}

// ---- buffers and shapes

/// The contours of an outline that is not refused.
pub fn decode(o: &Outline) -> Vec<Edges> {
    let (mut kinds, mut points) = (&o.kinds[..], &o.points[..]);
    let mut shape = Vec::new();
    for &length in &o.lengths {
        let mut edges = Vec::new();
        for _ in 0..length {
            let numbers: Vec<f64> =
                points[..used(kinds[0])].iter().map(|&b| f64::from_bits(b)).collect();
            let vectors: Vec<Vector2> =
                numbers.chunks(2).map(|p| Vector2::new(p[0], p[1])).collect();
            edges.push(edge(&vectors));
            kinds = &kinds[1..];
            points = &points[8..];
        }
        shape.push(edges);
    }
    shape
}

/// An edge's kind, and its used places.
fn encode_edge(e: &EdgeSegment) -> (u8, Vec<u64>) {
    let vectors: &[Vector2] = match e {
        EdgeSegment::Line(p) => p,
        EdgeSegment::Quadratic(p) => p,
        EdgeSegment::Cubic(p) => p,
    };
    let places = vectors.iter().flat_map(|p| [p.x.to_bits(), p.y.to_bits()]).collect();
    (vectors.len() as u8 - 1, places)
}

/// A coloured shape as the result buffers hold it: unused places are +0.
pub fn encode(shape: &Shape) -> Buffers {
    let mut out = Buffers::default();
    for contour in &shape.contours {
        assert_eq!(contour.segments.len(), contour.colors.len());
        out.lengths.push(contour.segments.len() as u16);
        for (segment, color) in contour.segments.iter().zip(&contour.colors) {
            let (kind, mut places) = encode_edge(segment);
            places.resize(8, 0);
            out.kinds.push(kind);
            out.points.extend(places);
            out.colors.push(color.bits());
        }
    }
    out
}

/// What can stand where nothing is read: NaN patterns with payloads often, else any bits.
pub fn noise(r: &mut Random) -> u64 {
    let bits = r.next();
    if bits & 1 == 0 { bits | 0x7FF0_0000_0000_0002 } else { bits }
}

/// An outline of these contours, with noise in the unused places.
pub fn outline(r: &mut Random, shape: &[Edges]) -> Outline {
    let mut o = Outline::default();
    for edges in shape {
        o.lengths.push(edges.len() as u16);
        for e in edges {
            let (kind, places) = encode_edge(e);
            o.kinds.push(kind);
            o.points.extend(&places);
            o.points.extend((places.len()..8).map(|_| noise(r)));
        }
    }
    o
}

// ---- the reference

/// The source's colouring, with the given threshold for its first line.
pub fn run(strategy: Strategy, shape: &mut Shape, threshold: f64, seed: u64) {
    match strategy {
        Strategy::Simple => given::edge_coloring_simple(shape, threshold, seed),
        Strategy::InkTrap => given::edge_coloring_ink_trap(shape, threshold, seed),
    }
}

/// The same with the balanced division.
pub fn run_balanced(strategy: Strategy, shape: &mut Shape, threshold: f64, seed: u64) {
    match strategy {
        Strategy::Simple => balanced::edge_coloring_simple(shape, threshold, seed),
        Strategy::InkTrap => balanced::edge_coloring_ink_trap(shape, threshold, seed),
    }
}

pub fn source_shape(contours: &[Edges]) -> Shape {
    let mut shape = Shape::new();
    for edges in contours {
        let mut contour = Contour::new();
        edges.iter().for_each(|e| contour.add_edge(*e));
        shape.contours.push(contour);
    }
    shape
}

/// The result of a call that is not refused before the colouring.
pub fn result(strategy: Strategy, call: &Call) -> Buffers {
    let mut shape = source_shape(&decode(&call.outline));
    let run = if call.balanced { run_balanced } else { run };
    run(strategy, &mut shape, call.threshold, call.seed);
    encode(&shape)
}

fn write<T: Copy>(result: &[T], out: &mut [T]) {
    out[..result.len()].copy_from_slice(result);
}

/// What a call is answered, and the result buffers after it.
pub fn color(strategy: Strategy, call: &Call) -> (Answer, Buffers) {
    let out = call.out.clone();
    if let Some(number) = refusal(call) {
        return (Answer::Refused(number), out);
    }
    deliver(&result(strategy, call), call.outline.stand_ins(), out)
}

/// A result of an outline with so many stand-ins, written to buffers where it fits.
pub fn deliver(result: &Buffers, stand_ins: usize, mut out: Buffers) -> (Answer, Buffers) {
    if too_long(result, &out) {
        return (Answer::Refused(11), out);
    }
    write(&result.lengths, &mut out.lengths);
    write(&result.kinds, &mut out.kinds);
    write(&result.points, &mut out.points);
    write(&result.colors, &mut out.colors);
    (Answer::Colored { edges: result.kinds.len(), stand_ins }, out)
}

// ---- calls to try

/// Buffers of the lengths that are given, full of noise.
pub fn buffers(
    r: &mut Random,
    lengths: usize,
    kinds: usize,
    points: usize,
    colors: usize,
) -> Buffers {
    Buffers {
        lengths: (0..lengths).map(|_| noise(r) as u16).collect(),
        kinds: (0..kinds).map(|_| noise(r) as u8).collect(),
        points: (0..points).map(|_| noise(r)).collect(),
        colors: (0..colors).map(|_| noise(r) as u8).collect(),
    }
}

/// Buffers that hold a result: exactly, or with places beyond it.
pub fn roomy(r: &mut Random, result: &Buffers) -> Buffers {
    let exact = r.coin();
    let mut more = |n: usize| if exact { n } else { n + r.below(24) as usize };
    let lengths = more(result.lengths.len());
    let kinds = more(result.kinds.len());
    let points = more(result.points.len());
    let colors = more(result.colors.len());
    buffers(r, lengths, kinds, points, colors)
}

/// A call that is not refused.
pub fn call(r: &mut Random) -> Call {
    let mut threshold = contours::threshold(r);
    let shape = contours::shape(r, threshold);
    if r.below(6) == 0 {
        threshold = contours::tie(r, &shape).unwrap_or(threshold);
    }
    let (outline, seed) = (outline(r, &shape), contours::seed(r));
    let mut call = Call { outline, threshold, seed, balanced: false, out: Buffers::default() };
    call.out = roomy(r, &result(Strategy::Simple, &call));
    call
}

// ---- faults

/// What can be wrong with a call, each a way to make it so.
pub type Fault = fn(&mut Random, &mut Call);

pub fn some(r: &mut Random, n: usize) -> usize {
    r.below(n.max(1) as u64) as usize
}

fn add_edge(r: &mut Random, o: &mut Outline) {
    let e = contours::contour(r, 1, 0.5);
    let more = outline(r, &[e]);
    o.kinds.extend(more.kinds);
    o.points.extend(more.points);
}

/// From 65 contours on, of edges or of none.
fn contours_above(r: &mut Random, call: &mut Call) {
    let o = &mut call.outline;
    let count = if r.coin() { 65 } else { 65 + some(r, 200) };
    while o.lengths.len() < count {
        o.lengths.push(0);
    }
}

/// From 257 edges on, with the kinds and the points that belong to them.
fn edges_above(r: &mut Random, call: &mut Call) {
    let o = &mut call.outline;
    let count = if r.coin() { 257 } else { 257 + some(r, 40) };
    if o.lengths.is_empty() {
        o.lengths.push(0);
    }
    let at = some(r, o.lengths.len());
    while o.edges() < count {
        o.lengths[at] += 1;
        add_edge(r, o);
    }
}

/// A contour's length that is far from true, so that the sum is above 256 or above 2^16.
fn length_huge(r: &mut Random, call: &mut Call) {
    let lengths = &mut call.outline.lengths;
    if lengths.is_empty() || r.coin() {
        lengths.push(0);
    }
    let at = some(r, lengths.len());
    let any = 257 + (r.next() as u16 >> 1);
    lengths[at] = r.pick(&[257, any, 0x8000, 0xFFFF]);
    if r.below(4) == 0 {
        lengths.resize(64.max(lengths.len()), 0xFFFF);
    }
}

fn length_more(r: &mut Random, call: &mut Call) {
    let lengths = &mut call.outline.lengths;
    if lengths.is_empty() || r.coin() {
        lengths.push(1);
    } else {
        let at = some(r, lengths.len());
        lengths[at] += 1;
    }
}

fn length_less(r: &mut Random, call: &mut Call) {
    let lengths = &mut call.outline.lengths;
    let at = some(r, lengths.len());
    if lengths.get(at).is_some_and(|&n| n > 0) {
        lengths[at] -= 1;
    }
}

fn kinds_more(r: &mut Random, call: &mut Call) {
    let more = if r.coin() { 1 } else { 1 + some(r, 9) };
    call.outline.kinds.extend((0..more).map(|_| 1 + r.below(3) as u8));
}

fn kinds_less(r: &mut Random, call: &mut Call) {
    let kinds = &mut call.outline.kinds;
    let less = if r.coin() { 1 } else { some(r, kinds.len() + 1) };
    kinds.truncate(kinds.len() - less.min(kinds.len()));
}

fn points_more(r: &mut Random, call: &mut Call) {
    let more = r.pick(&[1, 2, 7, 8, 64]);
    call.outline.points.extend((0..more).map(|_| 0x3FF0_0000_0000_0000));
}

fn points_less(r: &mut Random, call: &mut Call) {
    let points = &mut call.outline.points;
    let less = r.pick(&[1, 2, 7, 8, points.len()]);
    points.truncate(points.len() - less.min(points.len()));
}

/// One edge more in the kinds and in the points, and in no contour.
fn edge_left_over(r: &mut Random, call: &mut Call) {
    add_edge(r, &mut call.outline);
}

fn kind_unknown(r: &mut Random, call: &mut Call) {
    let kinds = &mut call.outline.kinds;
    let at = some(r, kinds.len());
    let any = 4 + r.below(252) as u8;
    if let Some(kind) = kinds.get_mut(at) {
        *kind = r.pick(&[0, 4, 255, any]);
    }
}

/// What is no coordinate: beyond the range by as little as can be, or infinite, or a NaN.
pub fn bad_coordinate(r: &mut Random) -> u64 {
    let size = match r.below(6) {
        0 | 1 => MAX_COORDINATE.next_up(),
        2 => f64::INFINITY,
        3 => f64::from_bits(0x7FF0_0000_0000_0001 + (r.next() >> 12)),
        4 => f64::MAX,
        _ => MAX_COORDINATE * (1.0 + r.unit().abs() + f64::EPSILON),
    };
    size.to_bits() | (r.below(2) << 63)
}

fn coordinate_bad(r: &mut Random, call: &mut Call) {
    let o = &mut call.outline;
    let at = some(r, o.kinds.len());
    let place = 8 * at + some(r, o.kinds.get(at).map_or(0, |&kind| used(kind)));
    if let Some(bits) = o.points.get_mut(place) {
        *bits = bad_coordinate(r);
    }
}

/// No fault: what stands in unused places does not matter.
fn unused_bad(r: &mut Random, call: &mut Call) {
    let o = &mut call.outline;
    for (at, kind) in o.kinds.iter().enumerate() {
        for place in used(*kind).max(4)..8 {
            if let Some(bits) = o.points.get_mut(8 * at + place) {
                *bits = bad_coordinate(r);
            }
        }
    }
}

/// The same of a threshold.
pub fn bad_threshold(r: &mut Random) -> f64 {
    let size = match r.below(5) {
        0 | 1 => 1.0f64.next_up(),
        2 => f64::from_bits(0x7FF0_0000_0000_0001 + (r.next() >> 12)),
        3 => f64::INFINITY,
        _ => 1.0 + r.unit().abs() + f64::EPSILON,
    };
    if r.coin() { size } else { -size }
}

fn threshold_bad(r: &mut Random, call: &mut Call) {
    call.threshold = bad_threshold(r);
}

/// How many places a buffer loses: one mostly.
pub fn shorter(r: &mut Random, n: usize) -> usize {
    n - if r.below(4) != 0 { 1 } else { 1 + some(r, n) }.min(n)
}

/// One of the result buffers too short, the others exactly right or longer.
fn out_short(r: &mut Random, call: &mut Call, which: usize) {
    if refusal(call).is_some() {
        let at_most = call.outline.edges().min(8);
        call.out = buffers(r, at_most, at_most, at_most, at_most);
        return;
    }
    let result = result(Strategy::Simple, call);
    call.out = roomy(r, &result);
    match which {
        0 => call.out.lengths.truncate(shorter(r, result.lengths.len())),
        1 => call.out.kinds.truncate(shorter(r, result.kinds.len())),
        2 => call.out.points.truncate(shorter(r, result.points.len())),
        _ => call.out.colors.truncate(shorter(r, result.colors.len())),
    }
}

fn out_lengths_short(r: &mut Random, call: &mut Call) {
    out_short(r, call, 0);
}

fn out_kinds_short(r: &mut Random, call: &mut Call) {
    out_short(r, call, 1);
}

fn out_points_short(r: &mut Random, call: &mut Call) {
    out_short(r, call, 2);
}

fn out_colors_short(r: &mut Random, call: &mut Call) {
    out_short(r, call, 3);
}

/// Each with the number that it alone gives, or 0 where it is no fault.
pub const FAULTS: [(&str, u8, Fault); 18] = [
    ("above 64 contours", 4, contours_above),
    ("above 256 edges", 4, edges_above),
    ("a huge length", 4, length_huge),
    ("a length more", 8, length_more),
    ("a length less", 8, length_less),
    ("kinds too many", 8, kinds_more),
    ("kinds too few", 8, kinds_less),
    ("points too many", 8, points_more),
    ("points too few", 8, points_less),
    ("an edge in no contour", 8, edge_left_over),
    ("an unknown kind", 5, kind_unknown),
    ("a bad coordinate", 7, coordinate_bad),
    ("bad unused places", 0, unused_bad),
    ("a bad threshold", 6, threshold_bad),
    ("result lengths short", 11, out_lengths_short),
    ("result kinds short", 11, out_kinds_short),
    ("result points short", 11, out_points_short),
    ("result colours short", 11, out_colors_short),
];
