//! The sample of colourings that a program replays: calls by name, each with the source's outcome, as
//! the program reads them.

use crate::contours::{self, Edges, MAX_COORDINATE, contour, coordinate, corners, edge, planned};
use crate::distances::{self, DISTANCE_FAULTS, DistanceCall, Outcome};
use crate::distances::{collect, collected, pairs, with_splines};
use crate::glyphs::{self, polygon};
use crate::math::Vector2;
use crate::numbers::Random;
use crate::shapes::{Answer, Buffers, Call, FAULTS, Fault, ORDER, Outline, STRATEGIES, Strategy};
use crate::shapes::{buffers, call, color, decode, faults, outline, refusal, result, used};
use crate::stand_ins::{KnownOutline, known_outlines};
use crate::teardrops::divided;

// What the program's buffers hold at most, and what it puts into the places that no record fills.
const MOST: [usize; 7] = [80, 264, 2120, 90, 540, 4100, 540];
const UNUSED: u64 = 0x7FF8_0000_0000_0000;
pub const NOISE: Noise = Noise { length: 0xA5A5, byte: 0xA5, point: 0xC0FE_2408_0000_0000 };

pub struct Noise {
    pub length: u16,
    pub byte: u8,
    pub point: u64,
}

/// A call with buffers as the program makes them.
pub fn plain(call: &Call) -> Call {
    let mut call = call.clone();
    for (at, bits) in call.outline.points.iter_mut().enumerate() {
        if at % 8 >= call.outline.kinds.get(at / 8).map_or(0, |&kind| used(kind)) {
            *bits = UNUSED;
        }
    }
    call.out.lengths.fill(NOISE.length);
    call.out.kinds.fill(NOISE.byte);
    call.out.points.fill(NOISE.point);
    call.out.colors.fill(NOISE.byte);
    call
}

fn sizes(call: &Call) -> [usize; 7] {
    let (o, out) = (&call.outline, &call.out);
    [
        o.lengths.len(),
        o.kinds.len(),
        o.points.len(),
        out.lengths.len(),
        out.kinds.len(),
        out.points.len(),
        out.colors.len(),
    ]
}

pub fn fits(call: &Call) -> bool {
    sizes(call).iter().zip(MOST).all(|(size, most)| *size <= most)
}

fn words(lengths: &[u16]) -> Vec<u8> {
    lengths.iter().flat_map(|&n| (n as u64).to_le_bytes()).collect()
}

/// Thirteen words: the number (65 simple, 66 ink trap, 67 the collecting pass, 68 by distance, 72 the
/// directions; 73 to 76 as 65 to 68 by the balanced division), the record's bytes, the threshold's
/// bits, the seed, how many lengths, kinds and point places go in, how many of these and of colours the
/// result buffers have, the answer, and where the result begins. Then what goes in: lengths, kinds, point
/// places, distances; and the result. A kind and a colour are bytes.
pub fn written(
    number: u64,
    call: &Call,
    distances: &[u64],
    answer: u64,
    result: Vec<u8>,
) -> Vec<u8> {
    let o = &call.outline;
    let mut body = words(&o.lengths);
    body.extend(&o.kinds);
    body.extend(o.points.iter().flat_map(|bits| bits.to_le_bytes()));
    body.extend(distances.iter().flat_map(|bits| bits.to_le_bytes()));
    let begins = 13 * 8 + body.len();
    body.extend(result);
    let mut head = vec![number, 13 * 8 + body.len() as u64, call.threshold.to_bits(), call.seed];
    head.extend(sizes(call).map(|n| n as u64));
    head.extend([answer, begins as u64]);
    let mut record: Vec<u8> = head.into_iter().flat_map(u64::to_le_bytes).collect();
    record.extend(body);
    record
}

/// The result of a call that is answered so, none where it is refused: lengths, kinds, colours, point
/// places.
fn colored(call: &Call, answer: Answer, after: &Buffers) -> Vec<u8> {
    let Ok(count) = answer.edges() else { return Vec::new() };
    let mut result = words(&after.lengths[..call.outline.lengths.len()]);
    result.extend(&after.kinds[..count]);
    result.extend(&after.colors[..count]);
    result.extend(after.points[..8 * count].iter().flat_map(|bits| bits.to_le_bytes()));
    result
}

pub fn record(strategy: Strategy, call: &Call) -> Vec<u8> {
    assert!(fits(call));
    let call = plain(call);
    let (answer, after) = color(strategy, &call);
    let number = match strategy {
        Strategy::Simple => 65,
        Strategy::InkTrap => 66,
    };
    written(by(&call, number), &call, &[], answer.code(), colored(&call, answer, &after))
}

/// The number of a function by the division of a call.
fn by(call: &Call, number: u64) -> u64 {
    number + if call.balanced { 8 } else { 0 }
}

/// The collecting pass and the colouring by distance of one call.
fn distance_records(c: &DistanceCall) -> [Vec<u8>; 2] {
    assert!(fits(&c.call));
    let c = DistanceCall { call: plain(&c.call), distances: c.distances.clone() };
    let (answer, numbered) = collect(&c.call);
    let result = colored(&c.call, answer, &numbered);
    let collecting = written(by(&c.call, 67), &c.call, &[], answer.code(), result);
    let Outcome { answer, after, .. } = distances::color(&c);
    let result = colored(&c.call, answer, &after);
    let coloring = written(by(&c.call, 68), &c.call, &c.distances, answer.code(), result);
    [collecting, coloring]
}

// ---- calls

/// A call on contours, with exactly fitting buffers where it is accepted.
fn on(shape: &[Edges], threshold: f64, seed: u64) -> Call {
    let outline = outline(&mut Random(0), shape);
    exact(Call { outline, threshold, seed, balanced: false, out: Buffers::default() })
}

fn exact(mut call: Call) -> Call {
    if refusal(&call).is_none() {
        call.out = result(Strategy::Simple, &call);
    }
    call
}

fn v(x: f64, y: f64) -> Vector2 {
    Vector2::new(x, y)
}

/// P6, the square, in both colourings 5, 3, 6, 3.
fn square() -> Vec<Call> {
    let call = on(&[glyphs::square()], 0.125, 0);
    for strategy in STRATEGIES {
        assert_eq!(color(strategy, &call).1.colors, [5, 3, 6, 3]);
    }
    vec![call]
}

/// m lines with a corner every few.
pub fn stairs(m: usize) -> Edges {
    let point = |i: usize| (((i + 1) / 3) as f64, (i / 3) as f64);
    polygon(&(0..m).map(point).collect::<Vec<_>>())
}

/// A call that is answered so many edges, or refused by a number.
fn expect(call: &Call, answer: Result<usize, u8>) -> Call {
    assert_eq!(color(Strategy::Simple, call).0.edges(), answer);
    call.clone()
}

/// What SCOPE says passes and what does not, at each limit.
fn limits() -> Vec<Call> {
    let triangle = polygon(&[(0.0, 0.0), (1.0, 0.0), (0.0, 1.0)]);
    let empty = Edges::new();
    let mut calls = vec![
        expect(&on(&[stairs(256)], 0.125, 5), Ok(256)),
        expect(&on(&[stairs(257)], 0.125, 5), Err(4)),
        expect(&on(&[], 0.125, 0), Ok(0)),
        expect(&on(&[empty.clone(), empty.clone()], 0.125, 0), Ok(0)),
        expect(&on(&vec![stairs(1); 64], 0.125, u64::MAX), Ok(64)),
    ];
    let mut sparse = vec![empty.clone(); 64];
    sparse[40] = triangle.clone();
    calls.push(expect(&on(&sparse, 0.125, 3), Ok(3)));
    sparse.push(empty);
    calls.push(expect(&on(&sparse, 0.125, 3), Err(4)));
    for (x, answer) in [
        (MAX_COORDINATE, Ok(3)),
        (-MAX_COORDINATE, Ok(3)),
        (MAX_COORDINATE.next_up(), Err(7)),
        (-MAX_COORDINATE.next_up(), Err(7)),
    ] {
        let call = on(&[polygon(&[(0.0, 0.0), (1.0, x), (0.0, 1.0)])], 0.5, 1);
        calls.push(expect(&call, answer));
    }
    for (threshold, answer) in [
        (1.0, Ok(3)),
        (-1.0, Ok(3)),
        (1.0f64.next_up(), Err(6)),
        (-1.0f64.next_up(), Err(6)),
        (f64::NAN, Err(6)),
    ] {
        calls.push(expect(&on(&[triangle.clone()], threshold, 1), answer));
    }
    calls
}

/// 508 edges out of 256.
fn widest() -> Call {
    let line = edge(&[v(0.0, 0.0), v(1.0, 0.0)]);
    let bow = edge(&[v(1.0, 0.0), v(2.0, 0.0), v(0.0, 1.0)]);
    let mut shape = vec![vec![line, bow]; 63];
    shape.push(stairs(130));
    expect(&on(&shape, 0.125, 1234567), Ok(508))
}

/// The first `count` random calls of few edges of which `wanted` holds.
fn some(r: &mut Random, count: usize, wanted: impl Fn(&Call, &[Vec<usize>]) -> bool) -> Vec<Call> {
    let mut found = Vec::new();
    while found.len() < count {
        let call = call(r);
        if call.outline.edges() > 12 || call.outline.lengths.len() > 12 {
            continue;
        }
        let shape = decode(&call.outline);
        let corners: Vec<Vec<usize>> = shape.iter().map(|e| corners(e, call.threshold)).collect();
        if wanted(&call, &corners) {
            found.push(call);
        }
    }
    found
}

/// One contour with so many corners.
fn with_corners(r: &mut Random, count: usize, wanted: impl Fn(usize) -> bool) -> Vec<Call> {
    some(r, count, |_, corners| corners.len() == 1 && wanted(corners[0].len()))
}

/// One edge, or two with the corner at the first or at the second, that are split.
fn splits(r: &mut Random) -> Vec<Call> {
    let mut calls = Vec::new();
    for kind in 1..4 {
        for (edges, at) in [(1, 0), (2, 0), (2, 1)] {
            calls.extend(some(r, 2, |call, corners| {
                call.outline.lengths == [edges]
                    && corners[0] == [at]
                    && call.outline.kinds[at] == kind
            }));
        }
    }
    // P8 and P9: exact thirds of 0 to 3, and a first x of -0
    for x in [0.0, -0.0] {
        calls.push(on(&[vec![edge(&[v(x, 0.0), v(3.0, 0.0)])]], -1.0, 0));
    }
    calls
}

/// One-corner contours of so many edges, the corner at any place.
fn teardrops(r: &mut Random) -> Vec<Call> {
    [3, 3, 4, 5, 6, 47, 47, 48]
        .map(|m: usize| {
            let mut corners = vec![false; m];
            corners[r.below(m as u64) as usize] = true;
            let kinds: &[usize] = if m > 9 { &[1] } else { &[1, 2, 3] };
            let seed = contours::seed(r);
            on(&[planned(r, &corners, 0.125, kinds)], 0.125, seed)
        })
        .into()
}

/// Degenerate points: each coordinate special.
fn special(r: &mut Random) -> Vec<Call> {
    let mut calls = Vec::new();
    for _ in 0..12 {
        let point = |r: &mut Random| v(coordinate(r), coordinate(r));
        let edges = (0..5).map(|_| {
            let n = 2 + r.below(3);
            edge(&(0..n).map(|_| point(r)).collect::<Vec<_>>())
        });
        let edges = edges.collect();
        calls.push(on(&[edges], 0.125, contours::seed(r)));
    }
    let tiny = f64::from_bits(0x1A70_0000_0000_0000); // 2^-600: a direction of length 0
    let path = polygon(&[(0.0, 0.0), (tiny, 0.0), (tiny, 1.0), (0.0, 1.0)]);
    calls.push(on(&[path], 0.125, 0));
    calls
}

/// The fault that takes 257 edges; the limits have it.
pub const LARGE: &str = "above 256 edges";

/// Refusals by a number, `count` for each fault that gives it.
fn refused(r: &mut Random, number: u8, count: usize) -> Vec<Call> {
    let mut found = Vec::new();
    let gives = |fault: &&(&str, u8, Fault)| fault.1 == number && fault.0 != LARGE;
    for (_, _, fault) in FAULTS.iter().filter(gives) {
        let so_far = found.len();
        while found.len() < so_far + count {
            let few = 1 + r.below(3) as usize;
            let shape: Vec<Edges> = (0..few).map(|_| contour(r, few, 0.125)).collect();
            let mut call = on(&shape, 0.125, contours::seed(r));
            fault(r, &mut call);
            let call = plain(&call);
            if fits(&call) && color(Strategy::Simple, &call).0.edges() == Err(number) {
                found.push(call);
            }
        }
    }
    found
}

/// Two faults or more that give different numbers.
fn in_order(r: &mut Random) -> Vec<Call> {
    let mut found = Vec::new();
    while found.len() < 24 {
        let mut call = on(&[contour(r, 3, 0.125)], 0.125, 9);
        for _ in 0..3 {
            let (name, _, fault) = r.pick(&FAULTS);
            if name != LARGE {
                fault(r, &mut call);
            }
        }
        let call = plain(&call);
        let holding = faults(&call).iter().filter(|&&fault| fault).count();
        if fits(&call) && holding >= 2 {
            found.push(call);
        }
    }
    found
}

/// A call by distance, with exactly fitting buffers where the outline is not refused.
fn by_distance(mut call: Call, distances: Vec<u64>) -> DistanceCall {
    if refusal(&call).is_none() {
        call.out = collected(&call).result;
    }
    DistanceCall { call, distances }
}

/// P7: the square's edges 3, 6, 5, 6.
fn square_by_distance() -> Vec<DistanceCall> {
    let call = square().remove(0);
    let bits = [0.0, 1.0, 0.0, 0.0, 1.0, 0.0].map(f64::to_bits);
    let c = by_distance(call, bits.into());
    assert_eq!(distances::color(&c).after.colors, [3, 6, 5, 6]);
    vec![c]
}

/// Shapes of so many splines, their distances in each of the ways.
fn ways(r: &mut Random, splines: &[usize]) -> Vec<DistanceCall> {
    let mut calls = Vec::new();
    for &n in splines {
        for (_, way) in distances::WAYS {
            let shape = with_splines(r, n, 0.125);
            let call = on(&shape, 0.125, contours::seed(r));
            if fits(&call) {
                let n = collected(&call).splines;
                let given = way(r, pairs(n)).into_iter().map(f64::to_bits).collect();
                calls.push(by_distance(call, given));
            }
        }
    }
    calls
}

/// Calls with a fault or more, refused by each number.
fn spoiled(r: &mut Random) -> Vec<DistanceCall> {
    let mut found = Vec::new();
    let mut met = [0; 9];
    while met.iter().any(|&count| count < 3) {
        let n = [3, 6][r.below(2) as usize];
        let mut c = ways(r, &[n]).remove(0);
        for _ in 0..1 + r.below(2) {
            distances::spoil(r, &mut c);
        }
        c.call = plain(&c.call);
        if !fits(&c.call) || c.distances.len() > 2020 || c.call.outline.edges() > 100 {
            continue;
        }
        if let Some(which) = distances::color(&c).refusal {
            if met[which] < 3 {
                met[which] += 1;
                found.push(c);
            }
        }
    }
    found
}

/// By distance, with distances that are all 1.
fn with_ones(call: &Call) -> DistanceCall {
    let splines = if refusal(call).is_none() { collected(call).splines } else { 0 };
    DistanceCall { call: call.clone(), distances: vec![1.0f64.to_bits(); pairs(splines)] }
}

/// The records of a call by all four functions.
fn by_all(call: &Call) -> Vec<Vec<u8>> {
    let simple_and_ink_trap = STRATEGIES.map(|strategy| record(strategy, call));
    simple_and_ink_trap.into_iter().chain(distance_records(&with_ones(call))).collect()
}

/// Stand-ins of each kind, counted as written out: edges one by one, and outlines of several; with a result
/// that has more of them; and refused.
fn stand_ins() -> Vec<Vec<u8>> {
    let mut records = Vec::new();
    for KnownOutline { name, contours, stand_ins } in known_outlines() {
        let call = on(&contours, 0.125, 5);
        let edges = result(Strategy::Simple, &call).kinds.len();
        let found = color(Strategy::Simple, &call).0;
        assert_eq!(found, Answer::Colored { edges, stand_ins }, "{name}");
        match call.outline.edges() {
            1 => {
                let [collecting, _] = distance_records(&with_ones(&call));
                records.extend([record(Strategy::Simple, &call), collecting]);
            }
            0..40 if contours.len() < 8 => records.extend(by_all(&call)),
            256 if contours.len() == 1 => records.push(record(Strategy::Simple, &call)),
            _ => {}
        }
    }
    let point = edge(&[v(2.0, 3.0), v(2.0, 3.0)]);
    let many = on(&vec![vec![point; 12]; 11], 0.125, 0);
    assert_eq!(many.outline.stand_ins(), 264);
    records.extend(distance_records(&with_ones(&many)));
    records.extend(split_stand_ins().iter().flat_map(by_all));
    records.extend(refused_stand_ins().iter().flat_map(by_all));
    records
}

/// A line without stand-ins whose thirds have them, since some begin and end at one double; and a line of one point.
fn split_stand_ins() -> [Call; 2] {
    let line = edge(&[v(1.0, 1.0), v(1.0f64.next_up(), 1.0)]);
    let point = edge(&[v(2.0, 3.0), v(2.0, 3.0)]);
    [(line, 0), (point, 2)].map(|(edge, stand_ins)| {
        let call = on(&[vec![edge]], -1.0, 0);
        let Buffers { lengths, kinds, points, .. } = result(Strategy::Simple, &call);
        assert_eq!(call.outline.stand_ins(), stand_ins);
        assert!(Outline { lengths, kinds, points }.stand_ins() > stand_ins);
        call
    })
}

/// Refused by its threshold, and by a buffer.
fn refused_stand_ins() -> [Call; 2] {
    let steep = on(&[vec![edge(&[v(2.0, 3.0), v(2.0, 3.0)])]], 1.5, 0);
    let mut short = Call { threshold: 1.0, ..steep.clone() };
    short.out = buffers(&mut Random(0), 1, 1, 8, 0);
    [expect(&steep, Err(6)), expect(&short, Err(11))]
}

/// The call by the balanced division.
fn balanced(call: &Call) -> Call {
    Call { balanced: true, ..call.clone() }
}

/// A contour of m edges with its one corner at a place, of lines where it is long.
fn one_corner(r: &mut Random, m: usize, corner: usize) -> Edges {
    let kinds: &[usize] = if m > 9 { &[1] } else { &[1, 2, 3] };
    let mut corners = vec![false; m];
    corners[corner] = true;
    planned(r, &corners, 0.125, kinds)
}

/// Contours by the balanced division whose results are others by the source's, or not: one corner each, at a place.
fn balanced_drops(r: &mut Random, drops: &[(usize, usize)], other: bool) -> Call {
    let shape: Vec<Edges> = drops.iter().map(|&(m, corner)| one_corner(r, m, corner)).collect();
    let source = on(&shape, 0.125, contours::seed(r));
    let call = balanced(&source);
    for strategy in STRATEGIES {
        let results = [&source, &call].map(|call| result(strategy, call));
        assert_eq!(divided(&shape, 0.125, &results[0], &results[1], 7), other, "{drops:?}");
    }
    call
}

/// Teardrops by the balanced division: of 47 and 93 edges, after another contour, and such as are the same by both.
fn balanced_teardrops(r: &mut Random) -> Vec<Vec<u8>> {
    let mut records = Vec::new();
    for drops in [&[(47, 0)], &[(93, 40)]] {
        records.extend(by_all(&balanced_drops(r, drops, true)));
    }
    records.extend(
        by_all(&balanced_drops(r, &[(3, 1), (47, 20)], true)).into_iter().skip(1).step_by(2),
    );
    for drop in [(3, 1), (4, 3), (5, 0), (7, 2)] {
        records.extend(by_all(&balanced_drops(r, &[drop], false)));
    }
    records.push(record(Strategy::Simple, &balanced_drops(r, &[(48, 0)], false)));
    records
}

/// For each two neighbouring refusals a call of which both hold.
fn two_faults(r: &mut Random) -> Vec<Call> {
    let mut found = Vec::new();
    while found.len() + 1 < ORDER.len() {
        let mut call = on(&[contour(r, 2, 0.125)], 0.125, 9);
        for _ in 0..2 {
            let (name, _, fault) = r.pick(&FAULTS);
            if name != LARGE {
                fault(r, &mut call);
            }
        }
        let call = plain(&call);
        let short = call.out.points.len() < call.outline.points.len();
        let held: Vec<bool> = faults(&call).into_iter().chain([short]).collect();
        let first = held.iter().position(|&fault| fault);
        if fits(&call) && first == Some(found.len()) && held[found.len() + 1] {
            found.push(call);
        }
    }
    found
}

/// By the balanced division: what can be wrong with the splines and the distances, but for more than 2,016.
fn balanced_faults(r: &mut Random) -> Vec<DistanceCall> {
    let triangle = polygon(&[(0.0, 0.0), (1.0, 0.0), (0.0, 1.0)]);
    let mut found = Vec::new();
    for (_, refusal, fault) in DISTANCE_FAULTS.iter().filter(|fault| fault.1 != Some(0)) {
        found.push(loop {
            let mut c = with_ones(&balanced(&on(&[triangle.clone()], 0.125, 3)));
            fault(r, &mut c);
            c.call = plain(&c.call);
            let few = fits(&c.call) && c.call.outline.edges() < 80;
            if few && distances::color(&c).refusal == *refusal {
                break c;
            }
        });
    }
    found
}

/// A small record of each function, accepted: a line of one point, and a cubic straight up with both its control
/// points at its start; by the balanced division the cubic alone, or an empty contour.
pub fn small_records() -> Vec<Vec<u8>> {
    let (p, q) = (v(1.0, 2.0), v(1.0, 7.0));
    let (line, cubic) = (edge(&[p, p]), edge(&[p, p, p, q]));
    let on = |contour: Edges| on(&[contour], 0.125, 0);
    let (call, one, none) =
        (on(vec![line, cubic]), balanced(&on(vec![cubic])), balanced(&on(Vec::new())));
    for (call, edges, stand_ins) in [(&call, 2, 3), (&one, 1, 1)] {
        assert_eq!(color(Strategy::Simple, call).0, Answer::Colored { edges, stand_ins });
    }
    let [first, _, _, last] = &by_all(&one)[..] else { panic!("four functions") };
    [by_all(&call), vec![first.clone(), last.clone()], by_all(&none)].concat()
}

/// Whether the two colourings differ, on few edges.
fn by_strategy(call: &Call) -> bool {
    let [simple, ink_trap] = STRATEGIES.map(|strategy| result(strategy, call));
    call.outline.edges() < 9 && simple != ink_trap
}

/// The records by the balanced division alone.
fn balanced_parts(r: &mut Random) -> Vec<(String, Vec<Vec<u8>>)> {
    let by_all = |calls: Vec<Call>| calls.iter().flat_map(|call| by_all(&balanced(call))).collect();
    let mut parts = vec![
        ("P6".to_string(), by_all(square())),
        ("teardrops".to_string(), balanced_teardrops(r)),
        ("splits".to_string(), by_all(splits(r).into_iter().step_by(4).collect())),
        ("contours".to_string(), by_all(some(r, 1, |_, corners| corners.len() > 1))),
        ("corners".to_string(), by_all(some(r, 1, |call, _| by_strategy(call)))),
        ("stand-ins".to_string(), by_all(split_stand_ins().to_vec())),
    ];
    for number in [4, 8, 5, 7, 6, 11] {
        parts.push((format!("refused {number}"), by_all(refused(r, number, 1))));
    }
    parts.push(("in order".to_string(), by_all(two_faults(r))));
    let faults = balanced_faults(r);
    parts.push(("faults".to_string(), faults.iter().flat_map(distance_records).collect()));
    parts
}

/// The records of each part, by name.
pub fn sample() -> Vec<(String, Vec<Vec<u8>>)> {
    let r = &mut Random(410);
    let mut parts: Vec<(&str, Vec<Call>)> = vec![
        ("P6", square()),
        ("limits", limits()),
        ("no corner", with_corners(r, 8, |k| k == 0)),
        ("2 corners", with_corners(r, 8, |k| k == 2)),
        ("3 corners", with_corners(r, 10, |k| k == 3)),
        ("more corners", with_corners(r, 20, |k| k > 3)),
        ("splits", splits(r)),
        ("teardrops", teardrops(r)),
        ("special points", special(r)),
        ("contours", some(r, 16, |_, corners| corners.len() > 2)),
    ];
    for (name, number, count) in [
        ("refused 4", 4, 2),
        ("refused 8", 8, 2),
        ("refused 5", 5, 4),
        ("refused 7", 7, 8),
        ("refused 6", 6, 4),
        ("refused 11", 11, 3),
    ] {
        parts.push((name, refused(r, number, count)));
    }
    parts.push(("in order", in_order(r)));
    let both = |call: &Call| STRATEGIES.map(|strategy| record(strategy, call));
    let records = |calls: Vec<Call>| calls.iter().flat_map(both).collect();
    let mut sample: Vec<(String, Vec<Vec<u8>>)> =
        parts.into_iter().map(|(name, calls)| (name.to_string(), records(calls))).collect();
    let widest = record(Strategy::InkTrap, &widest());
    sample.push(("508 edges".to_string(), vec![widest]));
    sample.push(("stand-ins".to_string(), stand_ins()));
    let r_balanced = &mut Random(411);
    for (name, calls) in balanced_parts(r_balanced) {
        sample.push((format!("bal {name}"), calls));
    }
    for (name, calls) in [
        ("P7 whole", square_by_distance()),
        ("few splines", ways(r, &[0, 1, 2, 3, 5, 9])),
        ("64 splines", ways(r, &[64]).into_iter().take(4).collect()),
        ("distance faults", spoiled(r)),
    ] {
        sample.push((name.to_string(), calls.iter().flat_map(distance_records).collect()));
    }
    sample
}
