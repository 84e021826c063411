//! The sample of unit directions that a program replays: calls by name, each with the source's outcome.

use crate::contours::{Edges, MAX_COORDINATE, contour, coordinate, edge};
use crate::directions::{FLAGS, ORDER, PLACES, answer, faults, flags, list, ways_to_spoil};
use crate::geometry::EdgeSegment;
use crate::glyphs::{self, polygon};
use crate::math::Vector2;
use crate::numbers::Random;
use crate::shape_sample::{LARGE, fits, plain, stairs, written};
use crate::shapes::{Call, buffers, outline};
use crate::stand_ins::{known_edges, known_outlines};

/// Thirteen words and what goes in, as a colouring's record has them, with a threshold and a seed of 0.
/// The buffer of point places is the list's and that of colours the flags'; the result is the flags, two bytes
/// an edge, and the list, four words an edge.
fn record(call: &Call) -> Vec<u8> {
    assert!(fits(call));
    let call = plain(call);
    let (answer, after) = answer(&call);
    let count = answer.edges().unwrap_or(0);
    let mut result = after.colors[..FLAGS * count].to_vec();
    result.extend(after.points[..PLACES * count].iter().flat_map(|bits| bits.to_le_bytes()));
    written(72, &call, &[], answer.code(), result)
}

// ---- calls

/// A call on contours, the buffers of the list and of the flags so much longer than these. The other result
/// buffers, which the function does not have, are not empty.
fn longer(shape: &[Edges], places: usize, bytes: usize) -> Call {
    let r = &mut Random(0);
    let outline = outline(r, shape);
    let edges = outline.edges();
    let out = buffers(r, 3, 5, PLACES * edges + places, FLAGS * edges + bytes);
    Call { outline, threshold: 0.0, seed: 0, balanced: false, out }
}

fn on(shape: &[Edges]) -> Call {
    longer(shape, 0, 0)
}

fn v((x, y): (f64, f64)) -> Vector2 {
    Vector2::new(x, y)
}

/// An edge by itself, and the list that it has.
fn one(points: &[(f64, f64)], expected: [f64; PLACES]) -> Call {
    let points: Vec<Vector2> = points.iter().copied().map(v).collect();
    let call = on(&[vec![edge(&points)]]);
    assert_eq!(list(&call.outline), expected.map(f64::to_bits));
    call
}

/// Edges by their control points, the list's directions written out.
fn examples() -> Vec<Call> {
    let (o, tiny) = ((0.0, 0.0), f64::from_bits(0x1A70_0000_0000_0000)); // 2^-600
    vec![
        on(&[glyphs::square()]),
        one(&[o, (3.0, 4.0)], [0.6, 0.8, 0.6, 0.8]),
        one(&[o, (2.0, 0.0), (2.0, 3.0)], [1.0, 0.0, 0.0, 1.0]),
        one(&[o, (3.0, 4.0), (5.0, 6.0), (5.0, 0.0)], [0.6, 0.8, 0.0, -1.0]),
        // the next control point but one
        one(&[o, o, (3.0, 4.0)], [0.6, 0.8, 0.6, 0.8]),
        one(&[o, (3.0, 4.0), (3.0, 4.0)], [0.6, 0.8, 0.6, 0.8]),
        one(&[o, o, (3.0, 4.0), (3.0, 0.0)], [0.6, 0.8, 0.0, -1.0]),
        one(&[o, (0.0, 2.0), (3.0, 6.0), (3.0, 6.0)], [0.0, 1.0, 0.6, 0.8]),
        // no direction: stand-ins
        one(&[o, o], [0.0, 1.0, 0.0, 1.0]),
        one(&[o, (0.0, -tiny)], [0.0, 1.0, 0.0, 1.0]),
        one(&[o, o, o, (3.0, -4.0)], [0.0, 1.0, 0.6, -0.8]),
        one(&[o, (3.0, -4.0), (3.0, -4.0), (3.0, -4.0)], [0.6, -0.8, 0.0, 1.0]),
        // the sign of a zero
        one(&[(-0.0, 0.0), (0.0, -1.0)], [0.0, -1.0, 0.0, -1.0]),
        one(&[o, (-0.0, 1.0)], [-0.0, 1.0, -0.0, 1.0]),
        one(&[o, (-0.0, 1.0), (-1.0, 1.0)], [-0.0, 1.0, -1.0, 0.0]),
        one(&[o, (-0.0, 1.0), (1.0, 1.0)], [0.0, 1.0, 1.0, 0.0]),
    ]
}

/// Stand-ins at the start, at the end, at both and at neither, written out; as many as can be.
fn stand_ins() -> Vec<Call> {
    let mut calls = Vec::new();
    for known in known_edges() {
        let call = on(&[vec![known.edge]]);
        assert_eq!(flags(&call.outline), known.stand_ins.map(u8::from), "{}", known.name);
        calls.push(call);
    }
    let outlines = known_outlines();
    let named = |name: &str| outlines.iter().find(|known| known.name == name).unwrap();
    for (name, more) in [
        ("all these edges in one contour", 3),
        ("stand-ins in three contours", 0),
        ("256 lines of one point", 0),
    ] {
        let known = named(name);
        let call = longer(&known.contours, 0, more);
        let sum: usize = flags(&call.outline).into_iter().map(usize::from).sum();
        assert_eq!(sum, known.stand_ins, "{name}");
        calls.push(call);
    }
    calls
}

/// Each way in which control points of an edge can be the same, as one edge of two special points or
/// more.
fn same_points(r: &mut Random) -> Vec<Call> {
    let mut calls = Vec::new();
    for n in 2..=4usize {
        for way in 0..n.pow(n as u32) {
            let which: Vec<usize> = (0..n).map(|i| way / n.pow(i as u32) % n).collect();
            // a point has the number of the first one that is the same
            let first = |i: &usize| which.iter().position(|other| other == i).unwrap();
            if which.iter().enumerate().all(|(i, at)| first(at) == *at && *at <= i) {
                let points: Vec<Vector2> = (0..n).map(|_| v((coordinate(r), r.unit()))).collect();
                let points: Vec<Vector2> = which.iter().map(|&i| points[i]).collect();
                calls.push(on(&[vec![edge(&points)]]));
            }
        }
    }
    calls
}

/// Edges of each kind with coordinates that are -0 and 0 mostly.
fn zeros(r: &mut Random) -> Vec<Call> {
    let number = |r: &mut Random| r.pick(&[0.0, -0.0, -0.0, 1.0, -1.0]);
    let point = |r: &mut Random| v((number(r), number(r)));
    let edge = |r: &mut Random| {
        let n = 2 + r.below(3);
        edge(&(0..n).map(|_| point(r)).collect::<Vec<_>>())
    };
    (0..10).map(|_| on(&[(0..6).map(|_| edge(r)).collect()])).collect()
}

/// Edges from 0 whose squared length is subnormal, or 0: about 2^-537.
fn short_edges(r: &mut Random) -> Vec<Call> {
    let power = |e: u64| f64::from_bits((1023 - e) << 52);
    let line = |r: &mut Random, e: u64| {
        let end = v((r.unit() * power(e), if r.coin() { 0.0 } else { r.unit() * power(e) }));
        edge(&[v((0.0, 0.0)), end])
    };
    (0..8).map(|_| on(&[(530..540).map(|e| line(r, e)).collect()])).collect()
}

/// Every coordinate special: subnormal, of either end of the range, -0.
fn special(r: &mut Random) -> Vec<Call> {
    let one = |r: &mut Random| {
        let n = 2 + r.below(3);
        edge(&(0..n).map(|_| v((coordinate(r), coordinate(r)))).collect::<Vec<_>>())
    };
    (0..16).map(|_| on(&[(0..5).map(|_| one(r)).collect()])).collect()
}

/// Several contours, empty ones among them, some buffers longer than the list.
fn contours(r: &mut Random) -> Vec<Call> {
    let shape = |r: &mut Random| {
        let contours = 2 + r.below(4);
        let one = |r: &mut Random| match r.below(5) as usize {
            0 => Edges::new(),
            m => contour(r, m, 0.125),
        };
        (0..contours).map(|_| one(r)).collect::<Vec<Edges>>()
    };
    (0..16).map(|i| longer(&shape(r), i % 2 * i, i % 3 * i)).collect()
}

/// A call that is answered so many edges, or refused by a number.
fn expect(call: Call, expected: Result<usize, u8>) -> Call {
    assert_eq!(answer(&call).0.edges(), expected);
    call
}

/// What passes and what does not, at each limit.
fn limits() -> Vec<Call> {
    let empty = Edges::new();
    let triangle = |x: f64| polygon(&[(0.0, 0.0), (1.0, x), (0.0, 1.0)]);
    let mut sparse = vec![empty.clone(); 64];
    sparse[40] = triangle(0.0);
    let mut calls = vec![
        expect(on(&[stairs(256)]), Ok(256)),
        expect(on(&[stairs(257)]), Err(4)),
        expect(on(&[]), Ok(0)),
        expect(longer(&[], 4, 2), Ok(0)),
        expect(on(&[empty.clone(), empty.clone()]), Ok(0)),
        expect(on(&vec![stairs(1); 64]), Ok(64)),
        expect(on(&sparse), Ok(3)),
    ];
    sparse.push(empty);
    calls.push(expect(on(&sparse), Err(4)));
    for (x, answer) in [
        (MAX_COORDINATE, Ok(3)),
        (-MAX_COORDINATE, Ok(3)),
        (MAX_COORDINATE.next_up(), Err(7)),
        (-MAX_COORDINATE.next_up(), Err(7)),
        (f64::INFINITY, Err(7)),
        (f64::NAN, Err(7)),
    ] {
        calls.push(expect(on(&[triangle(x)]), answer));
    }
    calls
}

/// Refusals by a number, `count` for each fault that gives it.
fn refused(r: &mut Random, number: u8, count: usize) -> Vec<Call> {
    let mut found = Vec::new();
    for (name, gives, fault) in ways_to_spoil() {
        let so_far = found.len();
        while gives == number && name != LARGE && found.len() < so_far + count {
            let few = 1 + r.below(3) as usize;
            let mut call = on(&[contour(r, few, 0.125), contour(r, 1, 0.125)]);
            fault(r, &mut call);
            if fits(&call) && answer(&call).0.edges() == Err(number) {
                found.push(call);
            }
        }
    }
    found
}

/// The list's buffer too short, by one place up to all of them; that of the flags; and both.
fn short(r: &mut Random) -> Vec<Call> {
    let call = longer(&[contour(r, 3, 0.125), Edges::new(), contour(r, 1, 0.125)], 2, 3);
    let edges = call.outline.edges();
    let less = |(places, bytes): (usize, usize)| {
        let mut call = call.clone();
        call.out.points.truncate((PLACES * edges).saturating_sub(places));
        call.out.colors.truncate((FLAGS * edges).saturating_sub(bytes));
        expect(call, Err(11))
    };
    let list = [1, 2, 3, 4, 5, 16].map(|places| less((places, 0)));
    let flags = [1, 2, 3, 8].map(|bytes| less((0, bytes)));
    list.into_iter().chain(flags).chain([(1, 1), (16, 8)].map(less)).collect()
}

/// For each two refusals a call of which both hold.
fn in_order(r: &mut Random) -> Vec<Call> {
    let ways = ways_to_spoil();
    let mut found = Vec::new();
    for later in 1..ORDER.len() {
        for first in 0..later {
            let both =
                |call: &Call| answer(call).0.edges() == Err(ORDER[first]) && faults(call)[later];
            found.push(loop {
                let mut call = on(&[contour(r, 3, 0.125)]);
                for _ in 0..2 {
                    let (name, _, fault) = r.pick(&ways);
                    if name != LARGE {
                        fault(r, &mut call);
                    }
                }
                if fits(&call) && both(&call) {
                    break call;
                }
            });
        }
    }
    found
}

/// Two edges whose directions all differ, two with stand-ins at either end, and a call that is refused.
pub fn small_records() -> Vec<Vec<u8>> {
    let (p, q) = (v((1.0, 2.0)), v((4.0, 7.0)));
    let bow = edge(&[p, v((3.0, 1.0)), q]);
    let call = on(&[vec![bow, EdgeSegment::Line([q, p])]]);
    let stand_ins = on(&[vec![edge(&[p, p, p, q]), edge(&[p, q, q, q])]]);
    assert_eq!(flags(&stand_ins.outline), [1, 0, 0, 1]);
    let mut short = call.clone();
    short.out.points.pop();
    [call, stand_ins, expect(short, Err(11))].iter().map(record).collect()
}

/// The records of each part, by name.
pub fn sample() -> Vec<(String, Vec<Vec<u8>>)> {
    let r = &mut Random(510);
    let mut parts: Vec<(&str, Vec<Call>)> = vec![
        ("directions", examples()),
        ("dir stand-ins", stand_ins()),
        ("dir same points", same_points(r)),
        ("dir zeros", zeros(r)),
        ("dir short edges", short_edges(r)),
        ("dir special", special(r)),
        ("dir contours", contours(r)),
        ("dir limits", limits()),
    ];
    for (name, number, count) in [
        ("dir refused 4", 4, 1),
        ("dir refused 8", 8, 1),
        ("dir refused 5", 5, 3),
        ("dir refused 7", 7, 4),
    ] {
        parts.push((name, refused(r, number, count)));
    }
    parts.push(("dir refused 11", short(r)));
    parts.push(("dir order", in_order(r)));
    let records = |calls: Vec<Call>| calls.iter().map(record).collect();
    parts.into_iter().map(|(name, calls)| (name.to_string(), records(calls))).collect()
}
