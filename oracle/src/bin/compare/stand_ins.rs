//! Which kinds of stand-ins the outlines had, and that the source normalises the directions that are counted.

use crate::shapes::Classes;
use oracle::contours::{Edges, two_to};
use oracle::geometry::EdgeSegment;
use oracle::math::Vector2;
use oracle::shapes::source_shape;
use oracle::stand_ins::{by_the_source, count, is_stand_in, of_edge};

/// Which control points of an edge are the same: each by the first that it is.
const COINCIDENT: [(&str, &[usize]); 19] = [
    ("a line, both equal", &[0, 0]),
    ("a quadratic, first two equal", &[0, 0, 2]),
    ("a quadratic, last two equal", &[0, 1, 1]),
    ("a quadratic, ends equal", &[0, 1, 0]),
    ("a quadratic, all equal", &[0, 0, 0]),
    ("a cubic, first two equal", &[0, 0, 2, 3]),
    ("a cubic, middle two equal", &[0, 1, 1, 3]),
    ("a cubic, last two equal", &[0, 1, 2, 2]),
    ("a cubic, first and third equal", &[0, 1, 0, 3]),
    ("a cubic, second and last equal", &[0, 1, 2, 1]),
    ("a cubic, ends equal", &[0, 1, 2, 0]),
    ("a cubic, first two and last two equal", &[0, 0, 2, 2]),
    ("a cubic, ends and middle two equal", &[0, 1, 1, 0]),
    ("a cubic, every other equal", &[0, 1, 0, 1]),
    ("a cubic, first three equal", &[0, 0, 0, 3]),
    ("a cubic, last three equal", &[0, 1, 1, 1]),
    ("a cubic, all but the third equal", &[0, 0, 2, 0]),
    ("a cubic, all but the second equal", &[0, 1, 0, 0]),
    ("a cubic, all equal", &[0, 0, 0, 0]),
];

/// By order: stand-ins at the start alone, at the end alone, at both. A line has both or none.
const AT: [[&str; 3]; 3] = [
    ["", "", "stand-ins of a line"],
    [
        "a stand-in of a quadratic at the start alone",
        "a stand-in of a quadratic at the end alone",
        "stand-ins of a quadratic at both",
    ],
    [
        "a stand-in of a cubic at the start alone",
        "a stand-in of a cubic at the end alone",
        "stand-ins of a cubic at both",
    ],
];

/// Of the control points at an end that are the same: the direction to the next one has a length, or is not zero
/// and has none, or is zero.
const BY_NEXT: [[&str; 3]; 2] = [
    [
        "a start by the next control point",
        "a start by the next control point, too near",
        "a start by the next control point, the same too",
    ],
    [
        "an end by the control point before",
        "an end by the control point before, too near",
        "an end by the control point before, the same too",
    ],
];

const TOO_SHORT: [&str; 2] =
    ["a start, not zero, without length", "an end, not zero, without length"];
const ONE_BY_ONE: &str = "without length, since the squares round one by one";
const SHORTEST: &str = "the shortest direction with a length";
const UP: [&str; 2] = ["a start (0, 1) that is no stand-in", "an end (0, 1) that is no stand-in"];
const UP_AFTER: &str = "a longer direction that becomes (0, 1)";

fn edge_classes(classes: &mut Classes, e: &EdgeSegment) {
    let (points, order) = e.control_points();
    let p = &points[..=order];
    let firsts: Vec<usize> =
        p.iter().map(|v| p.iter().position(|other| other == v).unwrap()).collect();
    for (name, pattern) in COINCIDENT {
        classes.note(name, firsts == pattern);
    }
    let stand_ins = of_edge(e);
    for (i, names) in AT.iter().enumerate() {
        for (name, at) in names.iter().zip([[true, false], [false, true], [true, true]]) {
            if !name.is_empty() {
                classes.note(name, order == i + 1 && stand_ins == at);
            }
        }
    }
    let ends = [(0.0, p[0] == p[1]), (1.0, p[order] == p[order - 1])];
    for (at, (t, same)) in ends.into_iter().enumerate() {
        let direction = e.direction(t);
        let (zero, none) = (!direction.is_nonzero(), stand_ins[at]);
        let by_next = order > 1 && same;
        classes.note(BY_NEXT[at][0], by_next && !none);
        classes.note(BY_NEXT[at][1], by_next && none && !zero);
        classes.note(BY_NEXT[at][2], by_next && zero);
        classes.note(TOO_SHORT[at], none && !zero);
        direction_classes(classes, direction, UP[at]);
    }
}

/// Whether a vector has no length since its squares are rounded before they are added: their sum would round to
/// 2^-1074.
pub fn rounds_one_by_one(v: Vector2) -> bool {
    is_stand_in(v) && (v * two_to(537)).squared_length() > 0.5
}

fn direction_classes(classes: &mut Classes, d: Vector2, up: &'static str) {
    let none = is_stand_in(d);
    let is_up = |v: Vector2| (v.x.to_bits(), v.y.to_bits()) == (0, 1.0f64.to_bits());
    classes.note(ONE_BY_ONE, rounds_one_by_one(d));
    classes.note(SHORTEST, d.squared_length() == f64::from_bits(1));
    classes.note(up, is_up(d));
    classes.note(UP_AFTER, !none && !is_up(d) && is_up(d.normalize(false)));
}

/// The kinds of an outline that is accepted.
pub fn classes(classes: &mut Classes, contours: &[Edges]) {
    contours.iter().flatten().for_each(|e| edge_classes(classes, e));
    let counts: Vec<usize> = contours.iter().map(|c| count(std::slice::from_ref(c))).collect();
    let sum: usize = counts.iter().sum();
    let with_edges: Vec<usize> = (0..contours.len()).filter(|&i| !contours[i].is_empty()).collect();
    let several = with_edges.len() > 1;
    let alone = |at: Option<&usize>| several && at.is_some_and(|&i| counts[i] == sum) && sum > 0;
    classes.note("outlines without stand-ins", sum == 0 && !with_edges.is_empty());
    classes.note("outlines with one stand-in", sum == 1);
    let odd = sum % 2 == 1;
    classes.note("outlines with stand-ins, an odd number", odd);
    classes.note("outlines with stand-ins, an even number", sum > 0 && !odd);
    classes.note("stand-ins in the first contour alone", alone(with_edges.first()));
    classes.note("stand-ins in the last contour alone", alone(with_edges.last()));
    let with = counts.iter().filter(|&&n| n > 0).count();
    classes.note("stand-ins in two contours or more", with > 1);
    classes.note("stand-ins and an empty contour", sum > 0 && with_edges.len() < contours.len());
    let all = |i: usize| contours[i].len() > 1 && counts[i] == 2 * contours[i].len();
    classes.note("a contour of stand-ins only", with_edges.iter().any(|&i| all(i)));
    classes.note("more than 255 stand-ins", sum > 255);
    classes.note("512 stand-ins", sum == 512);
}

/// What the source normalises for a strategy are the two directions of each edge, as they are counted.
pub fn check_source(strategy: u8, contours: &[Edges], threshold: f64) {
    let directions = 2 * contours.iter().map(Vec::len).sum::<usize>();
    let noted = by_the_source(strategy, &mut source_shape(contours), threshold);
    assert_eq!(noted, (directions, count(contours)), "strategy {strategy} of {contours:?}");
}
