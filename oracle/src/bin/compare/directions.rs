//! The unit directions of the edges of an outline and which of them are stand-ins: lists, the corners that follow
//! from them, refusals.

use crate::Tally;
use crate::shapes::{BYTE, Classes, Guarded, WORD, corners};
use crate::stand_ins;
use oracle::directions::{
    self, FLAGS, ORDER, PLACES, answer, call, every_edge, of_edge, on, ways_to_spoil,
};
use oracle::geometry::EdgeSegment;
use oracle::math::{Vector2, cross, dot};
use oracle::numbers::Random;
use oracle::shapes::{Answer, Call, decode, outline, used};
use oracle::stand_ins::{known_edges, known_outlines};

#[link(name = "capi", kind = "static")]
unsafe extern "C" {
    fn merelsplum_edge_directions(
        lengths: *const u16,
        lengths_len: usize,
        kinds: *const u8,
        kinds_len: usize,
        points: *const u64,
        points_len: usize,
        out_directions: *mut u64,
        out_directions_len: usize,
        out_stand_ins: *mut u8,
        out_stand_ins_len: usize,
    ) -> u64;
}

/// Lists the directions by the proved code and by the source, and compares the answer and every bit of
/// the five buffers. The answer is the source's; the list is what the proved code made of it.
fn compare_call(part: &mut Tally, call: &Call) -> (Answer, Vec<u64>) {
    let (o, mut list) = (call.outline.clone(), Guarded::new(&call.out.points, WORD));
    let mut flags = Guarded::new(&call.out.colors, BYTE);
    let (places, bytes) = (list.part(), flags.part());
    let code = unsafe {
        merelsplum_edge_directions(
            o.lengths.as_ptr(),
            o.lengths.len(),
            o.kinds.as_ptr(),
            o.kinds.len(),
            o.points.as_ptr(),
            o.points.len(),
            places.as_mut_ptr(),
            places.len(),
            bytes.as_mut_ptr(),
            bytes.len(),
        )
    };
    let (answer, after) = answer(call);
    let agree = code == answer.code()
        && list.is(&after.points)
        && flags.is(&after.colors)
        && o == call.outline;
    let found = list.part().to_vec();
    part.note(agree, || {
        let (l, k, p) = (&call.outline.lengths, &call.outline.kinds, &call.outline.points);
        let what = format!("{l:?} {k:?} {p:016X?}");
        let what: String = what.chars().take(2000).collect();
        let at = found.iter().zip(&after.points).position(|(a, b)| a != b);
        let place = at.map_or("the places are the same".to_string(), |at| {
            format!("place {at} is {:016X} for {:016X}", found[at], after.points[at])
        });
        let at = flags.part().iter().zip(&after.colors).position(|(a, b)| a != b);
        let flag = at.map_or("the flags are the same".to_string(), |at| {
            format!("flag {at} is {} for {}", flags.part()[at], after.colors[at])
        });
        format!("{what}: {answer:?}, proved {code:#x}, {place}, {flag}")
    });
    (answer, found)
}

/// The corners by a list and the threshold alone, and the source's own.
fn compare_corners(part: &mut Tally, call: &Call, list: &[u64]) {
    let by_list = directions::corners(&call.outline.lengths, list, call.threshold);
    let shape = decode(&call.outline);
    let by_source: Vec<_> = shape.iter().map(|edges| corners(edges, call.threshold)).collect();
    part.note(by_list == by_source, || {
        format!("corners of {:?}: {by_source:?}, by the list {by_list:?}", call.outline.lengths)
    });
}

// ---- which kinds of edges and calls were met

fn same(a: Vector2, b: Vector2) -> bool {
    (a.x.to_bits(), a.y.to_bits()) == (b.x.to_bits(), b.y.to_bits())
}

fn either(v: Vector2, wanted: impl Fn(f64) -> bool) -> bool {
    wanted(v.x) || wanted(v.y)
}

fn is_minus_zero(x: f64) -> bool {
    x == 0.0 && x.is_sign_negative()
}

fn edge_classes(classes: &mut Classes, e: &EdgeSegment) {
    let (points, order) = e.control_points();
    let p = &points[..=order];
    let [start, end] = of_edge(e);
    let curve = order > 1;
    classes.note("lines", order == 1);
    classes.note("quadratics", order == 2);
    classes.note("cubics", order == 3);
    classes.note("start and end differ", !same(start, end));
    classes.note("a curve whose start and end are the same", curve && same(start, end));

    let (d0, d1) = (e.direction(0.0), e.direction(1.0));
    classes.note("a start with a component -0", either(start, is_minus_zero));
    classes.note("an end with a component -0", either(end, is_minus_zero));
    // at t = 0 and 1 a zero has its sign from more control points than two
    let plain = [p[1] - p[0], p[order] - p[order - 1]];
    classes.note("a curve's start, p1 - p0 but for a zero's sign", {
        curve && d0 == plain[0] && !same(d0, plain[0])
    });
    classes.note("a curve's end, the last difference but for a zero's sign", {
        curve && d1 == plain[1] && !same(d1, plain[1])
    });
    classes.note("a subnormal coordinate", p.iter().any(|&v| either(v, f64::is_subnormal)));
    classes.note("a direction with a subnormal component", {
        either(d0, f64::is_subnormal) || either(d1, f64::is_subnormal)
    });
    classes.note("a unit direction with a subnormal component", {
        either(start, f64::is_subnormal) || either(end, f64::is_subnormal)
    });
    classes.note("a direction whose squared length is subnormal", dot(d0, d0).is_subnormal());
    classes.note("a component above 1", either(start, |x| x.abs() > 1.0));
    classes.note("a coordinate 2^-600", {
        p.iter().any(|&v| either(v, |x| x.to_bits() == 0x1A70_0000_0000_0000))
    });
    for (name, most) in
        [("a coordinate 1,048,576", 1_048_576.0), ("a coordinate -1,048,576", -1_048_576.0)]
    {
        classes.note(name, p.iter().any(|&v| either(v, |x| x == most)));
    }
}

fn corner_classes(classes: &mut Classes, call: &Call, list: &[u64]) {
    let vector = |at: usize| Vector2::new(f64::from_bits(list[at]), f64::from_bits(list[at + 1]));
    let threshold = call.threshold;
    let mut first = 0;
    for m in call.outline.lengths.iter().map(|&m| m as usize) {
        for i in 0..m {
            let before = first + (i + m - 1) % m;
            let (a, b) = (vector(PLACES * before + 2), vector(PLACES * (first + i)));
            let (ahead, across) = (dot(a, b) > 0.0, cross(a, b).abs());
            classes.note("corners", !ahead || across > threshold);
            classes.note("corners by the dot product alone", !ahead && across <= threshold);
            classes.note("corners by the cross product alone", ahead && across > threshold);
            classes.note("no corner", ahead && across <= threshold);
            classes.note("no corner, the threshold met exactly", ahead && across == threshold);
        }
        classes.note("contours of one edge", m == 1);
        first += m;
    }
}

fn call_classes(classes: &mut Classes, call: &Call) {
    let (o, room, flags) = (&call.outline, call.out.points.len(), call.out.colors.len());
    let (n, edges) = (o.lengths.len(), o.edges());
    let empty = |i: usize| o.lengths[i] == 0;
    classes.note("shapes without contours", n == 0);
    classes.note("shapes of empty contours only", n > 0 && edges == 0);
    classes.note("64 contours", n == 64);
    classes.note("256 edges", edges == 256);
    classes.note("first contour empty", edges > 0 && empty(0));
    classes.note("last contour empty", edges > 0 && empty(n - 1));
    classes.note("a contour between others empty", (1..n.max(1) - 1).any(empty));
    let (exact, exact_flags) = (room == PLACES * edges, flags == FLAGS * edges);
    let some = edges > 0;
    classes.note("buffers exactly as long as the list and the flags", some && exact && exact_flags);
    classes.note("a longer buffer for the list", some && !exact && exact_flags);
    classes.note("a longer buffer for the flags", some && exact && !exact_flags);
    classes.note("longer buffers for both", some && !exact && !exact_flags);
    classes.note("no edge, no buffers", edges == 0 && room == 0 && flags == 0);
    let unused = o.kinds.iter().zip(o.points.chunks(8)).any(|(&kind, places)| {
        places[used(kind)..].iter().any(|&bits| !f64::from_bits(bits).is_finite())
    });
    classes.note("an unused place infinite or a NaN", unused);
}

// ---- comparisons

/// What lists are compared, and which kinds there were.
#[derive(Default)]
struct Lists {
    directions: Tally,
    corners: Tally,
    classes: Classes,
    stand_ins: Classes,
}

impl Lists {
    /// A list that is not refused, and its corners.
    fn compare(&mut self, call: &Call) {
        let (answer, found) = compare_call(&mut self.directions, call);
        assert!(answer == Answer::Edges(call.outline.edges()), "refused: {answer:?}");
        compare_corners(&mut self.corners, call, &found);
        call_classes(&mut self.classes, call);
        corner_classes(&mut self.classes, call, &directions::list(&call.outline));
        let shape = decode(&call.outline);
        shape.iter().flatten().for_each(|e| edge_classes(&mut self.classes, e));
        stand_ins::classes(&mut self.stand_ins, &shape);
    }

    fn close(self, all: &mut Tally) {
        self.classes.close(all);
        self.stand_ins.close(all);
        all.close("unit directions", self.directions);
        all.close("corners by the directions, and the source's", self.corners);
    }
}

/// Edges and outlines with their stand-ins written out.
fn known(lists: &mut Lists, all: &mut Tally) {
    let mut part = Tally::default();
    let r = &mut Random(502);
    for known in known_edges() {
        let outline = outline(r, &[vec![known.edge]]);
        let flags = directions::flags(&outline);
        part.note(flags == known.stand_ins.map(u8::from), || format!("{}: {flags:?}", known.name));
    }
    for known in known_outlines() {
        let outline = outline(r, &known.contours);
        let call = on(r, outline, 0.125);
        lists.compare(&call);
        let sum = call.outline.stand_ins();
        part.note(sum == known.stand_ins, || format!("{}: {sum} stand-ins", known.name));
    }
    all.close("stand-ins as written out", part);
}

const SHAPES: u64 = 250_000;

/// Four values each; every edge that has no other coordinates is tried.
const FEW: [[f64; 4]; 2] =
    [[0.0, -0.0, 1.0, -1.0], [0.0, 5e-324, 2.409_919_865_102_884e-181, -1_048_576.0]];

fn lists(all: &mut Tally) {
    let mut lists = Lists::default();
    let r = &mut Random(500);
    for values in FEW {
        for shape in every_edge(values) {
            let outline = outline(r, &shape);
            lists.compare(&on(r, outline, 0.125));
        }
    }
    for _ in 0..SHAPES {
        lists.compare(&call(r));
    }
    known(&mut lists, all);
    lists.close(all);
}

/// Of a call that is refused by its buffers.
fn short_classes(classes: &mut Classes, call: &Call) {
    let edges = call.outline.edges();
    let (places, flags) = (call.out.points.len(), call.out.colors.len());
    let (list, exact) = (PLACES * edges, FLAGS * edges);
    classes.note("11, the list one short, the flags exactly right", {
        places + 1 == list && flags == exact
    });
    classes.note("11, the flags one short, the list exactly right", {
        flags + 1 == exact && places == list
    });
    classes.note("11, the list shorter, the flags longer", places + 1 < list && flags > exact);
    classes.note("11, the flags shorter, the list longer", flags + 1 < exact && places > list);
    classes.note("11, no list", places == 0 && flags >= exact);
    classes.note("11, no flags", flags == 0 && places >= list);
    classes.note("11, both short", places < list && flags < exact);
    classes.note("11, stand-ins", call.outline.stand_ins() > 0);
}

/// Calls with up to three faults: what is refused, by which number, and no byte changed.
fn refusals(all: &mut Tally) {
    let mut part = Tally::default();
    let ways = ways_to_spoil();
    let mut alone = vec![[0u64; 1 + ORDER.len()]; ways.len()];
    // by the refusal that decides, and another that holds besides
    let mut besides = [[0u64; ORDER.len()]; ORDER.len()];
    let mut short = Classes::default();
    let r = &mut Random(501);
    for _ in 0..200_000 {
        let mut call = call(r);
        let count = r.below(4);
        let mut way = 0;
        for _ in 0..count {
            way = r.below(ways.len() as u64) as usize;
            ways[way].2(r, &mut call);
        }
        let (answer, _) = compare_call(&mut part, &call);
        let which = match answer.edges() {
            Ok(_) => 0,
            Err(number) => 1 + ORDER.iter().position(|&n| n == number).unwrap(),
        };
        if count == 1 {
            alone[way][which] += 1;
        }
        if answer == Answer::Refused(11) {
            short_classes(&mut short, &call);
        }
        if which > 0 {
            for (other, holds) in directions::faults(&call).into_iter().enumerate() {
                besides[which - 1][other] += (holds && other >= which) as u64;
            }
        }
    }
    print!("{:24}{:>10}", "", "accepted");
    ORDER.iter().for_each(|number| print!("{number:>10}"));
    println!();
    for ((name, number, _), counts) in ways.iter().zip(alone) {
        print!("{name:24}");
        counts.iter().for_each(|count| print!("{count:>10}"));
        println!();
        let column = ORDER.iter().position(|n| n == number).map_or(0, |i| i + 1);
        all.met(counts[column], || format!("directions, {name}: {number}"));
    }
    for first in 0..ORDER.len() {
        for other in first + 1..ORDER.len() {
            let (a, b) = (ORDER[first], ORDER[other]);
            println!("{:24}{:>10}", format!("{a} where {b} holds too"), besides[first][other]);
            all.met(besides[first][other], || format!("directions, {a} before {b}"));
        }
    }
    short.close(all);
    all.close("refusals of directions", part);
}

pub fn compare(all: &mut Tally) {
    lists(all);
    refusals(all);
}
