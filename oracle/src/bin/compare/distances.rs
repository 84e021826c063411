//! By-distance colouring with given distances, and its collecting pass, by the source's division of teardrops and by
//! the balanced one: shapes and refusals.

use crate::Tally;
use crate::shapes::{Classes, Room, by_both, corners};
use crate::stand_ins;
use oracle::contours;
use oracle::distances::{self, DISTANCE_FAULTS, DistanceCall, ORDER, Outcome, WAYS};
use oracle::distances::{MOST_DISTANCES, MOST_SPLINES, call, collect, color, pairs, spoil};
use oracle::numbers::Random;
use oracle::shapes::{Answer, Buffers, Call, FAULTS};
use oracle::shapes::{buffers, decode, outline, refusal};
use oracle::stand_ins::known_outlines;
use oracle::teardrops::divided;

macro_rules! entries {
    ($($collect:ident, $color:ident);*) => {
        #[link(name = "capi", kind = "static")]
        unsafe extern "C" {
            $(fn $collect(
                lengths: *const u16,
                lengths_len: usize,
                kinds: *const u8,
                kinds_len: usize,
                points: *const u64,
                points_len: usize,
                threshold: f64,
                out_lengths: *mut u16,
                out_lengths_len: usize,
                out_kinds: *mut u8,
                out_kinds_len: usize,
                out_points: *mut u64,
                out_points_len: usize,
                out_splines: *mut u8,
                out_splines_len: usize,
            ) -> u64;
            fn $color(
                lengths: *const u16,
                lengths_len: usize,
                kinds: *const u8,
                kinds_len: usize,
                points: *const u64,
                points_len: usize,
                threshold: f64,
                seed: u64,
                distances: *const u64,
                distances_len: usize,
                out_lengths: *mut u16,
                out_lengths_len: usize,
                out_kinds: *mut u8,
                out_kinds_len: usize,
                out_points: *mut u64,
                out_points_len: usize,
                out_colors: *mut u8,
                out_colors_len: usize,
            ) -> u64;)*
        }
    };
}

entries!(
    merelsplum_collect_splines, merelsplum_edge_coloring_by_distance;
    merelsplum_collect_splines_balanced, merelsplum_edge_coloring_by_distance_balanced
);

fn proved_collect(call: &Call, room: &mut Room) -> u64 {
    let o = &call.outline;
    let (l, k, p, c) = room.parts();
    let collect = match call.balanced {
        false => merelsplum_collect_splines,
        true => merelsplum_collect_splines_balanced,
    };
    unsafe {
        collect(
            o.lengths.as_ptr(),
            o.lengths.len(),
            o.kinds.as_ptr(),
            o.kinds.len(),
            o.points.as_ptr(),
            o.points.len(),
            call.threshold,
            l.as_mut_ptr(),
            l.len(),
            k.as_mut_ptr(),
            k.len(),
            p.as_mut_ptr(),
            p.len(),
            c.as_mut_ptr(),
            c.len(),
        )
    }
}

pub fn proved_color(call: &DistanceCall, out: &mut Buffers) -> u64 {
    let Buffers { lengths, kinds, points, colors } = out;
    proved_color_to(call, lengths, kinds, points, colors)
}

fn proved_color_to(
    DistanceCall { call, distances }: &DistanceCall,
    l: &mut [u16],
    k: &mut [u8],
    p: &mut [u64],
    c: &mut [u8],
) -> u64 {
    let o = &call.outline;
    let color = match call.balanced {
        false => merelsplum_edge_coloring_by_distance,
        true => merelsplum_edge_coloring_by_distance_balanced,
    };
    unsafe {
        color(
            o.lengths.as_ptr(),
            o.lengths.len(),
            o.kinds.as_ptr(),
            o.kinds.len(),
            o.points.as_ptr(),
            o.points.len(),
            call.threshold,
            call.seed,
            distances.as_ptr(),
            distances.len(),
            l.as_mut_ptr(),
            l.len(),
            k.as_mut_ptr(),
            k.len(),
            p.as_mut_ptr(),
            p.len(),
            c.as_mut_ptr(),
            c.len(),
        )
    }
}

fn shown(c: &DistanceCall) -> String {
    let (o, threshold, seed) = (&c.call.outline, c.call.threshold, c.call.seed);
    let (l, k, p, d) = (&o.lengths, &o.kinds, &o.points, &c.distances);
    let by = if c.call.balanced { "balanced, " } else { "" };
    let what =
        format!("{by}{l:?} {k:?} {p:016X?}, threshold {threshold:?}, seed {seed}, {d:016X?}");
    what.chars().take(2000).collect()
}

/// Collects by the proved code and by the source, and compares answer and buffers. Both are the source's.
pub fn compare_collect(part: &mut Tally, c: &DistanceCall) -> (Answer, Buffers) {
    let (given, mut room) = (c.call.clone(), Room::new(&c.call.out));
    let code = proved_collect(&given, &mut room);
    let (answer, after) = collect(&c.call);
    let agree = code == answer.code() && room.is(&after) && given.outline == c.call.outline;
    part.note(agree, || format!("collecting {}: {answer:?}, proved {code:#x}", shown(c)));
    (answer, after)
}

/// The same of a colouring. The outcome is the source's.
pub fn compare_color(part: &mut Tally, c: &DistanceCall) -> Outcome {
    let (given, mut room) = (c.clone(), Room::new(&c.call.out));
    let (l, k, p, colors) = room.parts();
    let code = proved_color_to(&given, l, k, p, colors);
    let outcome = color(c);
    let answer = outcome.answer;
    let same = given.call.outline == c.call.outline && given.distances == c.distances;
    let agree = code == answer.code() && room.is(&outcome.after) && same;
    part.note(agree, || format!("by distance {}: {answer:?}, proved {code:#x}", shown(c)));
    outcome
}

// ---- comparisons

const SHAPES: u64 = 160_000;

/// What a contour with one corner collects: at which side of the break an edge is White, and splits.
fn contour_classes(classes: &mut Classes, call: &Call) {
    for edges in decode(&call.outline) {
        let m = edges.len();
        let at = corners(&edges, call.threshold);
        let one = at.len() == 1;
        classes.note("1 corner, 3 edges", one && m == 3);
        classes.note("1 corner, 4 edges", one && m == 4);
        classes.note("1 corner, 5 to 46 edges", one && (5..47).contains(&m));
        classes.note("1 corner, 47 edges", one && m == 47);
        classes.note("1 corner, more edges", one && m > 47);
        let white = |i: usize| (15 * (m - 1)..31 * (m - 1)).contains(&(46 * i));
        classes.note("White before the break", one && m >= 3 && (0..m / 2).any(white));
        classes.note("White behind the break", one && m >= 3 && (m / 2 + 1..m).any(white));
        classes.note("a split of one edge", at == [0] && m == 1);
        classes.note("a split of two, corner at the first", at == [0] && m == 2);
        classes.note("a split of two, corner at the second", at == [1] && m == 2);
        classes.note("no corner", at.is_empty() && m > 0);
        classes.note("two corners or more, the first not at 0", at.len() > 1 && at[0] > 0);
        classes.note("an empty contour", m == 0);
    }
}

/// The call by the balanced division.
pub fn balanced(c: &DistanceCall) -> DistanceCall {
    DistanceCall { call: Call { balanced: true, ..c.call.clone() }, distances: c.distances.clone() }
}

fn shapes(all: &mut Tally) {
    let mut parts = [Tally::default(), Tally::default()];
    let mut balanced_parts = [(Tally::default(), 0), (Tally::default(), 0)];
    let (mut classes, mut stand_in_classes) = (Classes::default(), Classes::default());
    let (mut sizes, mut ways) = ([0u64; MOST_SPLINES + 1], [0u64; WAYS.len()]);
    let mut colors = [0u64; 8];
    let r = &mut Random(600);
    for number in 0..SHAPES {
        let (c, way, splines) = call(r);
        let (collected, numbered) = compare_collect(&mut parts[0], &c);
        let Outcome { answer, after, declined, .. } = compare_color(&mut parts[1], &c);
        let Answer::Colored { edges: count, .. } = answer else { panic!("refused: {answer:?}") };
        sizes[splines] += 1;
        ways[way] += (splines > 2) as u64;
        after.colors[..count].iter().for_each(|&color| colors[color as usize] += 1);
        contour_classes(&mut classes, &c.call);
        let shape = decode(&c.call.outline);
        if by_both(number % 8 == 0, &shape, c.call.threshold) {
            let (c, [collecting, coloring]) = (balanced(&c), &mut balanced_parts);
            let (answer_2, other) = compare_collect(&mut collecting.0, &c);
            collecting.1 += divided(&shape, c.call.threshold, &numbered, &other, 255) as u64;
            let other = compare_color(&mut coloring.0, &c);
            coloring.1 += divided(&shape, c.call.threshold, &after, &other.after, 7) as u64;
            assert_eq!((answer_2, other.answer), (collected, answer));
        }
        stand_ins::classes(&mut stand_in_classes, &shape);
        stand_ins::check_source(3, &shape, c.call.threshold);
        let exact = c.call.out.lengths.len() == c.call.outline.lengths.len()
            && c.call.out.kinds.len() == count
            && c.call.out.points.len() == 8 * count
            && c.call.out.colors.len() == count;
        classes.note("buffers exactly as long as the result", exact && count > 0);
        classes.note("no spline", splines == 0);
        classes.note("a pair declined", declined > 0);
        classes.note("most pairs declined", declined > pairs(splines) / 2);
        classes.note("64 splines, half the pairs declined", splines == 64 && declined > 1008);
    }
    classes.close(all);
    stand_in_classes.close(all);
    for (n, count) in sizes.iter().enumerate() {
        all.met(*count, || format!("{n} splines"));
    }
    for ((name, _), count) in WAYS.iter().zip(ways) {
        println!("{:60}{count:>10}", format!("distances: {name}"));
        all.met(count, || format!("distances: {name}"));
    }
    for color in [3, 5, 6, 7] {
        all.met(colors[color], || format!("colour {color}"));
    }
    let [collecting, coloring] = parts;
    all.close("collecting pass", collecting);
    all.close("by-distance colouring", coloring);
    let names = ["collecting pass, balanced", "by-distance colouring, balanced"];
    for (name, (part, others)) in names.into_iter().zip(balanced_parts) {
        all.close_divided(name, part, others);
    }
}

/// Calls with up to three faults: each refusal before each later one, and no buffer touched.
fn refusals(all: &mut Tally, by_balanced: bool, seed: u64, calls: usize) {
    let mut parts = [Tally::default(), Tally::default()];
    let mut alone = vec![[0u64; 10]; FAULTS.len() + DISTANCE_FAULTS.len()];
    let mut besides = [[0u64; 9]; 9];
    let mut classes = Classes::default();
    let r = &mut Random(seed);
    for _ in 0..calls {
        let (mut c, _, _) = call(r);
        c.call.balanced = by_balanced;
        let count = r.below(4);
        let mut fault = 0;
        for _ in 0..count {
            fault = spoil(r, &mut c);
        }
        compare_collect(&mut parts[0], &c);
        let which = compare_color(&mut parts[1], &c).refusal;
        if count == 1 {
            alone[fault][which.map_or(0, |i| i + 1)] += 1;
        }
        if let Some(first) = which {
            let stand_ins = refusal(&c.call).is_none() && c.call.outline.stand_ins() > 0;
            classes.note("4 by splines, stand-ins", first == 5 && stand_ins);
            classes.note("8 by distances, stand-ins", first == 6 && stand_ins);
            classes.note("9, stand-ins", first == 7 && stand_ins);
            classes.note("11, stand-ins", first == 8 && stand_ins);
            let held = distances::faults(&c);
            let short = c.call.out.kinds.len() < c.call.outline.kinds.len();
            let held = held.into_iter().chain([short]).enumerate();
            held.for_each(|(other, holds)| besides[first][other] += holds as u64);
        }
    }
    let names = FAULTS.iter().map(|f| f.0).chain(DISTANCE_FAULTS.iter().map(|f| f.0));
    for (name, counts) in names.zip(&alone) {
        println!("{name:24}{counts:>8?}");
    }
    for (fault, (name, which, _)) in DISTANCE_FAULTS.iter().enumerate() {
        let count = alone[FAULTS.len() + fault][which.map_or(0, |i| i + 1)];
        all.met(count, || format!("by distance: {name}"));
    }
    for first in 0..9 {
        for other in first + 1..9 {
            // the splines of an outline that is refused are not counted
            if first < 5 && (5..7).contains(&other) && first > 0 {
                continue;
            }
            let (a, b) = (ORDER[first], ORDER[other]);
            let count = besides[first][other];
            println!("{:60}{count:>10}", format!("{} {} before {} {}", a.0, a.1, b.0, b.1));
            all.met(count, || format!("{a:?} before {b:?}"));
        }
    }
    classes.close(all);
    let [collecting, coloring] = parts;
    let by = if by_balanced { ", balanced" } else { "" };
    all.close(&format!("refusals of the collecting pass{by}"), collecting);
    all.close(&format!("refusals of by-distance colouring{by}"), coloring);
}

/// P7: the square's four splines, 0 beside and 1 across.
fn p7(all: &mut Tally) {
    let mut part = Tally::default();
    let at = [(0.0, 0.0), (1.0, 0.0), (1.0, 1.0), (0.0, 1.0)];
    let point = |i: usize| oracle::math::Vector2::new(at[i % 4].0, at[i % 4].1);
    let square = (0..4).map(|i| contours::edge(&[point(i), point(i + 1)])).collect();
    let r = &mut Random(0);
    let outline = outline(r, &[square]);
    let out = buffers(r, 1, 4, 32, 4);
    let call = Call { outline, threshold: 0.125, seed: 0, balanced: false, out };
    let distances = [0.0f64, 1.0, 0.0, 0.0, 1.0, 0.0].map(f64::to_bits).to_vec();
    let c = DistanceCall { call, distances };
    for c in [&c, &balanced(&c)] {
        compare_collect(&mut part, c);
        let after = compare_color(&mut part, c).after;
        part.note(after.colors == [3, 6, 5, 6], || format!("P7: {:?}", after.colors));
    }
    all.close("P7", part);
}

/// Outlines with their stand-ins written out, with distances of 1, by thresholds that split some and not.
fn known_stand_ins(all: &mut Tally) {
    let mut part = Tally::default();
    let r = &mut Random(604);
    for known in known_outlines() {
        let ways = [(0.125, false), (-1.0, false), (0.125, true), (-1.0, true)];
        for (threshold, balanced) in ways {
            let (outline, out) = (outline(r, &known.contours), buffers(r, 64, 508, 4064, 508));
            let call = Call { outline, threshold, seed: 1, balanced, out };
            let splines = distances::collected(&call).splines;
            let most = pairs(splines).min(MOST_DISTANCES);
            let c = DistanceCall { call, distances: vec![1.0f64.to_bits(); most] };
            let (collected, colored) =
                (compare_collect(&mut part, &c).0, compare_color(&mut part, &c).answer);
            let sums = (splines <= MOST_SPLINES).then_some((known.stand_ins, known.stand_ins));
            let found = match (collected, colored) {
                (Answer::Collected { stand_ins: a, .. }, Answer::Colored { stand_ins: b, .. }) => {
                    Some((a, b))
                }
                _ => None,
            };
            part.note(found == sums, || format!("{}: {found:?} stand-ins", known.name));
        }
    }
    all.close("stand-ins as written out, by distance", part);
}

pub fn compare(all: &mut Tally) {
    p7(all);
    known_stand_ins(all);
    shapes(all);
    refusals(all, false, 601, 100_000);
    refusals(all, true, 605, 25_000);
}
