//! Contours to colour: small grids, planned corners, zigzags, rings, special and degenerate points, stand-ins.
//! A contour here is a list of the source's edges, each of the kind that is wanted, never collapsed.

use crate::geometry::EdgeSegment;
use crate::math::{Vector2, cross, dot};
use crate::numbers::{Random, SPECIAL};
use crate::stand_ins;

pub type Edges = Vec<EdgeSegment>;

pub const MAX_COORDINATE: f64 = 1_048_576.0;

/// The edge of two, three or four points.
pub fn edge(p: &[Vector2]) -> EdgeSegment {
    match *p {
        [a, b] => EdgeSegment::Line([a, b]),
        [a, b, c] => EdgeSegment::Quadratic([a, b, c]),
        [a, b, c, d] => EdgeSegment::Cubic([a, b, c, d]),
        _ => panic!("no edge has {} points", p.len()),
    }
}

fn v(x: f64, y: f64) -> Vector2 {
    Vector2::new(x, y)
}

/// 2^e, down to the least subnormal.
pub fn two_to(e: i32) -> f64 {
    if e >= -1022 {
        f64::from_bits(((1023 + e) as u64) << 52)
    } else {
        f64::from_bits(1 << (e + 1074))
    }
}

/// 1 line, 2 quadratic, 3 cubic; lines as often as the two others.
pub const KINDS: [usize; 4] = [1, 1, 2, 3];

fn kind(r: &mut Random) -> usize {
    r.pick(&KINDS)
}

/// Whether two directions make a corner, as the source says it.
pub fn corner(a: Vector2, b: Vector2, threshold: f64) -> bool {
    let (a, b) = (a.normalize(false), b.normalize(false));
    dot(a, b) <= 0.0 || cross(a, b).abs() > threshold
}

// ---- contours of points that know nothing of each other

/// A closed path through random points, with random control points. In some, an edge does not
/// begin where the one before ended: nothing asks for that.
fn through(r: &mut Random, m: usize, point: impl Fn(&mut Random) -> Vector2) -> Edges {
    let torn = r.below(4) == 0;
    let first = point(r);
    let mut at = first;
    let mut edges = Vec::new();
    for i in 0..m {
        let mut points = vec![if torn { point(r) } else { at }];
        let kind = kind(r);
        points.extend((1..kind).map(|_| point(r)));
        at = if i + 1 == m { first } else { point(r) };
        points.push(at);
        edges.push(edge(&points));
    }
    edges
}

/// Whole numbers up to 4, times a power of two: exact zeros, right angles, equal points.
fn grid(r: &mut Random, m: usize) -> Edges {
    let side = 2 + r.below(4);
    let unit = r.pick(&[1.0, 1.0, 1.0, 0.125, 1.0 / 3.0, two_to(18), two_to(-600), two_to(-1074)]);
    let low = if r.coin() { 0.0 } else { -(side as f64 - 1.0) * unit };
    through(r, m, |r| v(low + r.below(side) as f64 * unit, low + r.below(side) as f64 * unit))
}

/// Two or three points only, so that most of an edge's points are one.
fn coincident(r: &mut Random, m: usize) -> Edges {
    let some: Vec<Vector2> = (0..2 + r.below(2)).map(|_| v(coordinate(r), coordinate(r))).collect();
    through(r, m, |r| r.pick(&some))
}

/// A double within the range: one of `SPECIAL`, or one of any size.
pub fn coordinate(r: &mut Random) -> f64 {
    let x = match r.below(8) {
        0 => r.unit(),
        1 => r.unit() * MAX_COORDINATE,
        2 => r.unit() * two_to(r.below(1095) as i32 - 1074),
        3 => r.below(9) as f64 - 4.0,
        4 => r.pick(&[MAX_COORDINATE, -MAX_COORDINATE, MAX_COORDINATE.next_down()]),
        _ => f64::from_bits(r.pick(&SPECIAL)),
    };
    if x.abs() <= MAX_COORDINATE { x } else { coordinate(r) }
}

fn special(r: &mut Random, m: usize) -> Edges {
    through(r, m, |r| v(coordinate(r), coordinate(r)))
}

fn uniform(r: &mut Random, m: usize) -> Edges {
    let size = r.pick(&[1.0, 1000.0, MAX_COORDINATE]);
    through(r, m, |r| v(r.unit() * size, r.unit() * size))
}

// ---- contours that go in directions

const DIRECTIONS: [(f64, f64); 16] = [
    (1.0, 0.0),
    (0.0, 1.0),
    (-1.0, 0.0),
    (0.0, -1.0),
    (1.0, 1.0),
    (-1.0, 1.0),
    (1.0, -1.0),
    (-1.0, -1.0),
    (3.0, 4.0),
    (4.0, -3.0),
    (-3.0, 4.0),
    (-5.0, 12.0),
    (12.0, 5.0),
    (2.0, 1.0),
    (-1.0, 3.0),
    (8.0, 1.0),
];

fn direction(r: &mut Random) -> Vector2 {
    let (x, y) = r.pick(&DIRECTIONS);
    v(x, y)
}

/// A direction that makes a corner with another, or none, where there is such a one.
fn turn(r: &mut Random, from: Vector2, wanted: bool, threshold: f64) -> Vector2 {
    for _ in 0..12 {
        let to = if r.coin() {
            direction(r)
        } else {
            let e = two_to(-(r.below(24) as i32));
            let to = from + from.orthogonal(r.coin()) * e;
            if to.length() > 16.0 { to * 0.0625 } else { to }
        };
        if corner(from, to, threshold) == wanted {
            return to;
        }
    }
    if wanted { -from } else { from }
}

const LENGTHS: [f64; 8] = [1.0, 1.0, 1.0, 2.0, 2.0, 0.5, 4.0, 0.0009765625];

/// An edge of a kind from p on that starts in one direction and ends in another. In some curves the
/// first or the last control point is the end itself.
fn going(r: &mut Random, kind: usize, p: Vector2, from: Vector2, to: Vector2) -> EdgeSegment {
    let (a, b) = (p + from * r.pick(&LENGTHS), to * r.pick(&LENGTHS));
    match kind {
        1 => edge(&[p, a]),
        2 => edge(&[p, a, a + b]),
        _ => match r.below(4) {
            0 => edge(&[p, p, a, a + b]),
            1 => edge(&[p, a, a + b, a + b]),
            2 => edge(&[p, a, a, a + b]),
            _ => {
                let c = a + direction(r);
                edge(&[p, a, c, c + b])
            }
        },
    }
}

fn end(e: &EdgeSegment) -> Vector2 {
    let (points, order) = e.control_points();
    points[order]
}

fn far(e: &EdgeSegment) -> bool {
    e.control_points().0.iter().any(|p| p.x.abs() > MAX_COORDINATE || p.y.abs() > MAX_COORDINATE)
}

/// A contour with corners at the places where `corners` has them, as far as that can be. The last edge
/// may have to be a curve.
pub fn planned(r: &mut Random, corners: &[bool], threshold: f64, kinds: &[usize]) -> Edges {
    let m = corners.len();
    let first = direction(r);
    let mut p = if r.coin() { v(0.0, 0.0) } else { v(r.unit(), r.unit()) };
    let mut to = first;
    let mut edges: Edges = Vec::new();
    for i in 0..m {
        let from = if i == 0 { first } else { turn(r, to, corners[i], threshold) };
        let mut kind = r.pick(kinds);
        to = from;
        if i + 1 == m && corner(from, first, threshold) != corners[0] {
            kind = if kinds.contains(&2) { 2 + r.below(2) as usize } else { 3 };
        }
        if kind > 1 {
            to = if i + 1 == m { turn(r, first, corners[0], threshold) } else { direction(r) };
        }
        let mut e = going(r, kind, p, from, to);
        if far(&e) {
            e = going(r, kind, v(0.0, 0.0), from, to);
        }
        p = end(&e);
        edges.push(e);
    }
    edges
}

/// Some corners, or a number of them, at random places.
fn some_corners(r: &mut Random, m: usize, threshold: f64) -> Edges {
    let mut corners = vec![false; m];
    match r.below(8) {
        0 => {}
        1..=3 => corners[r.below(m as u64) as usize] = true,
        4 | 5 => {
            let count = 2 + r.below(5);
            (0..count).for_each(|_| corners[r.below(m as u64) as usize] = true);
        }
        6 => {
            let rare = 2 + r.below(6);
            corners.iter_mut().for_each(|c| *c = r.below(rare) == 0);
        }
        _ => corners = vec![true; m],
    }
    let kinds: &[usize] = if r.below(4) == 0 { &[1] } else { &KINDS };
    planned(r, &corners, threshold, kinds)
}

/// Steps to the right, up and down of few lengths, so that short splines stand between long ones and
/// many are equal.
fn zigzag(r: &mut Random, m: usize) -> Edges {
    let lengths = r.pick(&[[1.0, 2.0, 3.0], [1.0, 1.0, 2.0], [1.0, 4.0, 1.0 + f64::EPSILON]]);
    let straight = r.below(8);
    let mut p = v(0.0, 0.0);
    let mut up = false;
    let mut edges = Vec::new();
    for _ in 0..m {
        if r.below(8) >= straight {
            up = !up;
        }
        let d = if up { v(0.0, if r.coin() { 1.0 } else { -1.0 }) } else { v(1.0, 0.0) };
        let q = p + d * r.pick(&lengths);
        edges.push(match r.below(8) {
            0 => edge(&[p, p + (q - p) * 0.5, q]),
            1 => edge(&[p, p, q, q]),
            _ => edge(&[p, q]),
        });
        p = q;
    }
    edges
}

/// An ellipse of m edges, m at least 3.
fn ring(r: &mut Random, m: usize) -> Edges {
    let (a, b) = (1.0 + r.unit().abs() * 100.0, 1.0 + r.unit().abs() * 100.0);
    let curved = kind(r);
    let step = std::f64::consts::TAU / m as f64;
    let at = |i: usize| {
        let t = (i % m) as f64 * step;
        (v(a * t.cos(), b * t.sin()), v(-a * t.sin(), b * t.cos()))
    };
    let pull = 4.0 / 3.0 * (step / 4.0).tan();
    (0..m)
        .map(|i| {
            let ((p, along), (q, toward)) = (at(i), at(i + 1));
            match curved {
                1 => edge(&[p, q]),
                2 => edge(&[p, p + along * (step / 2.0).tan(), q]),
                _ => edge(&[p, p + along * pull, q - toward * pull, q]),
            }
        })
        .collect()
}

/// A contour of m edges, m at least 1, of one of the styles.
pub fn contour(r: &mut Random, m: usize, threshold: f64) -> Edges {
    match r.below(13) {
        0 | 1 => grid(r, m),
        2 => coincident(r, m),
        3 => special(r, m),
        4 => uniform(r, m),
        5 | 6 => zigzag(r, m),
        7 if m >= 3 => ring(r, m),
        8 => stand_ins::contour(r, m),
        _ => some_corners(r, m, threshold),
    }
}

// ---- shapes

/// How many edges a contour has: mostly few, at times as many as make the trichotomy a tie.
fn size(r: &mut Random) -> usize {
    match r.below(32) {
        0..=11 => r.pick(&[1, 2, 2, 3]),
        12..=23 => 1 + r.below(8) as usize,
        24..=28 => 1 + r.below(20) as usize,
        29 => r.pick(&[47, 47, 93, 139, 185, 231]),
        30 => 47,
        _ => 1 + r.below(64) as usize,
    }
}

/// 508 edges out of 256: 63 contours of two with one corner, and one of 130.
pub fn widest(r: &mut Random, threshold: f64) -> Vec<Edges> {
    let long = r.below(64) as usize;
    let contour = |i| {
        if i == long {
            return some_corners(r, 130, threshold);
        }
        let first = r.coin();
        planned(r, &[first, !first], threshold, &KINDS)
    };
    (0..64).map(contour).collect()
}

/// A shape within the limits: 64 contours, empty ones among them, and 256 edges.
pub fn shape(r: &mut Random, threshold: f64) -> Vec<Edges> {
    if r.below(1024) == 0 && threshold >= 0.0 {
        return widest(r, threshold);
    }
    if r.below(1024) == 0 {
        return stand_ins::everywhere(r);
    }
    let contours = match r.below(64) {
        0 => 0,
        1 => 64,
        2 => r.below(65),
        3..=10 => 1 + r.below(10),
        _ => 1 + r.below(3),
    };
    let (to_the_brim, empty) = (r.below(128) == 0, 3 + r.below(30));
    let mut room = 256;
    let mut shape = Vec::new();
    for i in 0..contours {
        let m = if to_the_brim && i + 1 == contours { room } else { size(r).min(room) };
        let m = if r.below(empty) == 0 && !to_the_brim { 0 } else { m };
        shape.push(if m == 0 { Vec::new() } else { contour(r, m, threshold) });
        room -= m;
    }
    shape
}

/// From -1 to 1, mostly not below zero: where it is, every place is a corner.
pub fn threshold(r: &mut Random) -> f64 {
    match r.below(16) {
        0 => -1.0,
        1 => 0.0,
        2 => -0.0,
        3 => 1.0,
        4 => 0.125,
        5 => 0.1411200080598672, // the sine of 3
        6 => r.unit(),
        7 => two_to(-(r.below(1075) as i32)),
        8 => r.unit() * two_to(-(r.below(40) as i32)),
        9 => 1.0f64.next_down(),
        10..=12 => r.unit().abs(),
        _ => r.unit().abs() * 0.25,
    }
}

/// The direction in which the edge before a place ends, and that in which the edge there begins.
pub fn directions(edges: &Edges, at: usize) -> (Vector2, Vector2) {
    let before = (at + edges.len() - 1) % edges.len();
    (edges[before].direction(1.0), edges[at].direction(0.0))
}

/// The places of a contour that have a corner.
pub fn corners(edges: &Edges, threshold: f64) -> Vec<usize> {
    let at = |i: &usize| {
        let (a, b) = directions(edges, *i);
        corner(a, b, threshold)
    };
    (0..edges.len()).filter(at).collect()
}

/// The threshold that the corner test of some place meets exactly, or the next below it.
pub fn tie(r: &mut Random, shape: &[Edges]) -> Option<f64> {
    let edges = shape.get(r.below(shape.len().max(1) as u64) as usize)?;
    if edges.is_empty() {
        return None;
    }
    let (a, b) = directions(edges, r.below(edges.len() as u64) as usize);
    let meets = cross(a.normalize(false), b.normalize(false)).abs();
    let threshold = if r.below(4) == 0 { meets.next_down() } else { meets };
    (threshold <= 1.0).then_some(threshold)
}

pub fn seed(r: &mut Random) -> u64 {
    match r.below(8) {
        0 => 0,
        1 => u64::MAX,
        2 => r.below(64),
        3 => 1 << r.below(64),
        4 => r.next() >> r.below(64),
        _ => r.next(),
    }
}
