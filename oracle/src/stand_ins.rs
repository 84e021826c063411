//! Stand-ins: what normalising gives for a direction whose length is 0. Which edges have them, at the start and at the
//! end, how many an outline has, which directions the source normalises, and outlines to try.

use crate::contours::{Edges, MAX_COORDINATE, coordinate, edge, two_to};
use crate::geometry::{EdgeSegment, Shape};
use crate::given::noted::by_distance_collected::collect_splines;
use crate::given::noted::{edge_coloring_ink_trap, edge_coloring_simple};
use crate::glyphs::square;
use crate::math::Vector2;
use crate::numbers::Random;
use std::cell::Cell;

/// Whether normalising a direction gives a stand-in.
pub fn is_stand_in(direction: Vector2) -> bool {
    direction.length() == 0.0
}

/// The same of the directions in which an edge starts and ends.
pub fn of_edge(e: &EdgeSegment) -> [bool; 2] {
    [0.0, 1.0].map(|t| is_stand_in(e.direction(t)))
}

/// How many of the unit directions of some contours are stand-ins: two an edge at most.
pub fn count(contours: &[Edges]) -> usize {
    contours.iter().flatten().flat_map(of_edge).filter(|&stand_in| stand_in).count()
}

// ---- what the source normalises

/// How many directions there were, and how many of them are stand-ins.
pub type Noted = (usize, usize);

thread_local! {
    static NOTED: Cell<Noted> = const { Cell::new((0, 0)) };
}

/// Normalises a direction for a colouring of the source, and counts it.
pub fn noted(direction: Vector2) -> Vector2 {
    let (directions, stand_ins) = NOTED.get();
    NOTED.set((directions + 1, stand_ins + is_stand_in(direction) as usize));
    direction.normalize(false)
}

/// What the source normalises when it colours a shape by a strategy: 1 simple, 2 ink trap, 3 by distance.
pub fn by_the_source(strategy: u8, shape: &mut Shape, threshold: f64) -> Noted {
    NOTED.set((0, 0));
    match strategy {
        1 => edge_coloring_simple(shape, threshold, 0),
        2 => edge_coloring_ink_trap(shape, threshold, 0),
        _ => drop(collect_splines(shape, threshold)),
    }
    NOTED.get()
}

// ---- outlines that are known

/// The largest number whose square is 0, rounded: about 2^-537.5.
pub const NO_SQUARE: f64 = f64::from_bits(0x1E56_A09E_667F_3BCC);

/// An edge, and whether its start and its end have a stand-in, written out.
pub struct Known {
    pub name: &'static str,
    pub edge: EdgeSegment,
    pub stand_ins: [bool; 2],
}

/// The ways in which control points of an edge can be one or next to each other.
pub fn known_edges() -> Vec<Known> {
    let (o, a, b, up) = ((0.0, 0.0), (3.0, 4.0), (5.0, 1.0), (0.0, 1.0));
    let minus_zero = (-0.0, -0.0);
    let tiny = (two_to(-600), 0.0);
    let most = (MAX_COORDINATE, 0.0);
    let (no, yes) = (false, true);
    let mut all = Vec::new();
    let mut add = |name, points: &[(f64, f64)], stand_ins| {
        let points: Vec<Vector2> = points.iter().map(|p| Vector2::new(p.0, p.1)).collect();
        all.push(Known { name, edge: edge(&points), stand_ins });
    };
    add("a line of one point", &[a, a], [yes, yes]);
    add("a line of the two zeros", &[o, minus_zero], [yes, yes]);
    add("a line of one point by rounding", &[most, (most.0 + two_to(-34), 0.0)], [yes, yes]);
    add("a line of neighbouring doubles", &[most, (most.0.next_down(), 0.0)], [no, no]);
    add("a line of neighbouring doubles at 0", &[o, (0.0, two_to(-1074))], [yes, yes]);
    add("a line of 2^-600 (P10)", &[o, tiny], [yes, yes]);
    add("the longest line along an axis without length", &[o, (0.0, -NO_SQUARE)], [yes, yes]);
    add("the shortest one with a length", &[o, (-NO_SQUARE.next_up(), 0.0)], [no, no]);
    add("a line whose squares round to 0 one by one", &[o, (NO_SQUARE, NO_SQUARE)], [yes, yes]);
    add("a line up", &[o, up], [no, no]);
    add("a long line up", &[a, (3.0, 700.0)], [no, no]);
    add("a line down", &[up, o], [no, no]);

    add("a quadratic, first two equal", &[o, o, a], [no, no]);
    add("a quadratic, last two equal", &[a, b, b], [no, no]);
    add("a quadratic, ends equal", &[a, b, a], [no, no]);
    add("a quadratic, all equal", &[a, a, a], [yes, yes]);
    add("a quadratic, first two 2^-600 apart", &[o, tiny, a], [yes, no]);
    add("a quadratic, last two 2^-600 apart", &[a, tiny, o], [no, yes]);
    add("a quadratic, first two equal, 2^-600 long", &[o, o, tiny], [yes, yes]);
    add("a quadratic, last two equal, 2^-600 long", &[tiny, o, o], [yes, yes]);
    add("a quadratic that starts up", &[o, up, a], [no, no]);
    add("a quadratic that ends up", &[b, o, up], [no, no]);

    add("a cubic, first two equal", &[o, o, a, b], [no, no]);
    add("a cubic, middle two equal", &[o, a, a, b], [no, no]);
    add("a cubic, last two equal", &[o, a, b, b], [no, no]);
    add("a cubic, ends equal", &[o, a, b, o], [no, no]);
    add("a cubic, first two and last two equal", &[a, a, b, b], [no, no]);
    add("a cubic, first three equal", &[a, a, a, b], [yes, no]);
    add("a cubic, last three equal", &[b, a, a, a], [no, yes]);
    add("a cubic, all but the third equal", &[o, o, a, o], [no, no]);
    add("a cubic, all but the second equal", &[o, a, o, o], [no, no]);
    add("a cubic, all equal", &[b, b, b, b], [yes, yes]);
    add("a cubic, first two 2^-600 apart", &[o, tiny, a, b], [yes, no]);
    add("a cubic, last two 2^-600 apart", &[a, b, tiny, o], [no, yes]);
    add("a cubic, first two equal, the next 2^-600 away", &[o, o, tiny, a], [yes, no]);
    add("a cubic, last two equal, the one before 2^-600 away", &[a, tiny, o, o], [no, yes]);
    add("a cubic, 2^-600 at each end", &[o, tiny, (tiny.0, 7.0), (0.0, 7.0)], [yes, yes]);
    add("a cubic that starts up and ends up", &[o, up, b, (5.0, 2.0)], [no, no]);
    all
}

/// An outline, and how many stand-ins it has, written out or by those of its edges.
pub struct KnownOutline {
    pub name: &'static str,
    pub contours: Vec<Edges>,
    pub stand_ins: usize,
}

/// Each such edge alone; several of them, in one contour and in many; the most that there can be.
pub fn known_outlines() -> Vec<KnownOutline> {
    let edges = known_edges();
    let sum = |of: &Known| of.stand_ins.iter().filter(|&&stand_in| stand_in).count();
    let all: usize = edges.iter().map(sum).sum();
    let mut outlines: Vec<KnownOutline> = edges
        .iter()
        .map(|known| KnownOutline {
            name: known.name,
            contours: vec![vec![known.edge]],
            stand_ins: sum(known),
        })
        .collect();
    let mut add =
        |name, contours, stand_ins| outlines.push(KnownOutline { name, contours, stand_ins });
    let each = |known: &Known| known.edge;
    let named = |name: &str| edges.iter().find(|known| known.name == name).unwrap().edge;
    let (none, point) = (Edges::new, named("a line of one point"));
    add("no contours", Vec::new(), 0);
    add("empty contours", vec![none(), none()], 0);
    add("all these edges in one contour", vec![edges.iter().map(each).collect()], all);
    add("each in a contour of its own", edges.iter().map(|known| vec![known.edge]).collect(), all);
    add("stand-ins in the last contour alone", vec![none(), square(), none(), vec![point]], 2);
    add("stand-ins in the first contour alone", vec![vec![point, point], square(), none()], 4);
    let start = named("a cubic, first three equal");
    let (end, up) = (named("a cubic, last three equal"), named("a line up"));
    let three = vec![vec![start, up], vec![up, end], none(), vec![point]];
    add("stand-ins in three contours", three, 4);
    add("256 lines of one point", vec![vec![point; 256]], 512);
    let cubic = named("a cubic, all equal");
    add("256 cubics of one point in 64 contours", vec![vec![cubic; 4]; 64], 512);
    let short = named("a quadratic, first two equal, 2^-600 long");
    add("255 quadratics without length, and a start", vec![vec![short; 255], vec![start]], 511);
    outlines
}

// ---- edges to try

/// Control points that are often the same one, of special coordinates or of ordinary ones.
fn few_points(r: &mut Random) -> EdgeSegment {
    let ordinary = r.coin();
    let number = |r: &mut Random| if ordinary { r.below(5) as f64 - 2.0 } else { coordinate(r) };
    let some: Vec<Vector2> = (0..3).map(|_| Vector2::new(number(r), number(r))).collect();
    let n = 2 + r.below(3);
    edge(&(0..n).map(|_| r.pick(&some)).collect::<Vec<_>>())
}

/// Points so near to 0 that the squares of their distances are subnormal, or 0.
fn tiny(r: &mut Random) -> EdgeSegment {
    let unit = two_to(r.below(32) as i32 - 545);
    let number = |r: &mut Random| unit * if r.coin() { r.unit() } else { r.below(5) as f64 - 2.0 };
    let n = 2 + r.below(3);
    edge(&(0..n).map(|_| Vector2::new(number(r), number(r))).collect::<Vec<_>>())
}

/// A point by a step that is too short to have a length, or hardly: away from 0 the sum is mostly the
/// point itself, rounded; or by neighbouring doubles.
fn beside(r: &mut Random, p: Vector2) -> Vector2 {
    let unit =
        r.pick(&[5e-324, two_to(-600), NO_SQUARE, NO_SQUARE.next_up(), two_to(-537), two_to(-34)]);
    let step = |r: &mut Random| unit * (r.below(3) as f64 - 1.0);
    match r.below(4) {
        0 => p,
        1 => Vector2::new(p.x.next_up().min(MAX_COORDINATE), p.y),
        _ => p + Vector2::new(step(r), step(r)),
    }
}

/// Control points beside two others, one of which has a coordinate 0.
fn gathered(r: &mut Random) -> EdgeSegment {
    let number = |r: &mut Random| r.pick(&[0.0, 0.0, -0.0, 1.0, 700.0, MAX_COORDINATE]);
    let some = [Vector2::new(0.0, number(r)), Vector2::new(number(r), number(r))];
    let n = 2 + r.below(3);
    let point = |r: &mut Random| {
        let p = r.pick(&some);
        beside(r, p)
    };
    edge(&(0..n).map(|_| point(r)).collect::<Vec<_>>())
}

/// A contour of m edges of which many have stand-ins.
pub fn contour(r: &mut Random, m: usize) -> Edges {
    if r.below(4) == 0 {
        let known: Edges = known_edges().iter().map(|known| known.edge).collect();
        return (0..m).map(|_| r.pick(&known)).collect();
    }
    let one = r.pick(&[few_points, tiny, gathered]);
    (0..m).map(|_| one(r)).collect()
}

/// 256 edges of which each has two stand-ins.
pub fn everywhere(r: &mut Random) -> Vec<Edges> {
    let known = known_edges().into_iter().filter(|known| known.stand_ins == [true, true]);
    let edges: Edges = known.map(|known| known.edge).collect();
    let m = r.pick(&[4, 16, 64, 256]);
    (0..256 / m).map(|_| (0..m).map(|_| r.pick(&edges)).collect()).collect()
}
