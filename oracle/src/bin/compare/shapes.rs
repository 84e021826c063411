//! Simple and ink-trap colouring, by the source's division of teardrops and by the balanced one: shapes, refusals and
//! the trichotomy.

use crate::{Tally, stand_ins};
use oracle::balanced;
use oracle::contours::{self, Edges, directions};
use oracle::given::probe;
use oracle::math::{cross, dot};
use oracle::numbers::Random;
use oracle::shapes::used;
use oracle::shapes::{Answer, Buffers, Call, FAULTS, ORDER, Outline, STRATEGIES, Strategy};
use oracle::shapes::{
    buffers, call, color, decode, faults, outline, refusal, result, source_shape,
};
use oracle::stand_ins::known_outlines;
use oracle::teardrops::{self, TIES, divided};

type Entry = unsafe extern "C" fn(
    lengths: *const u16,
    lengths_len: usize,
    kinds: *const u8,
    kinds_len: usize,
    points: *const u64,
    points_len: usize,
    threshold: f64,
    seed: u64,
    out_lengths: *mut u16,
    out_lengths_len: usize,
    out_kinds: *mut u8,
    out_kinds_len: usize,
    out_points: *mut u64,
    out_points_len: usize,
    out_colors: *mut u8,
    out_colors_len: usize,
) -> u64;

macro_rules! entries {
    ($($name:ident),*) => {
        #[link(name = "capi", kind = "static")]
        unsafe extern "C" {
            $(fn $name(
                lengths: *const u16,
                lengths_len: usize,
                kinds: *const u8,
                kinds_len: usize,
                points: *const u64,
                points_len: usize,
                threshold: f64,
                seed: u64,
                out_lengths: *mut u16,
                out_lengths_len: usize,
                out_kinds: *mut u8,
                out_kinds_len: usize,
                out_points: *mut u64,
                out_points_len: usize,
                out_colors: *mut u8,
                out_colors_len: usize,
            ) -> u64;)*
        }
    };
}

entries!(
    merelsplum_edge_coloring_simple,
    merelsplum_edge_coloring_ink_trap,
    merelsplum_edge_coloring_simple_balanced,
    merelsplum_edge_coloring_ink_trap_balanced
);

fn entry(strategy: Strategy, balanced: bool) -> Entry {
    match (strategy, balanced) {
        (Strategy::Simple, false) => merelsplum_edge_coloring_simple,
        (Strategy::InkTrap, false) => merelsplum_edge_coloring_ink_trap,
        (Strategy::Simple, true) => merelsplum_edge_coloring_simple_balanced,
        (Strategy::InkTrap, true) => merelsplum_edge_coloring_ink_trap_balanced,
    }
}

/// The proved colouring. A double goes by the address of its bits, which are not touched on the way.
pub fn proved(
    strategy: Strategy,
    balanced: bool,
    o: &Outline,
    threshold: f64,
    seed: u64,
    lengths: &mut [u16],
    kinds: &mut [u8],
    points: &mut [u64],
    colors: &mut [u8],
) -> u64 {
    unsafe {
        entry(strategy, balanced)(
            o.lengths.as_ptr(),
            o.lengths.len(),
            o.kinds.as_ptr(),
            o.kinds.len(),
            o.points.as_ptr(),
            o.points.len(),
            threshold,
            seed,
            lengths.as_mut_ptr(),
            lengths.len(),
            kinds.as_mut_ptr(),
            kinds.len(),
            points.as_mut_ptr(),
            points.len(),
            colors.as_mut_ptr(),
            colors.len(),
        )
    }
}

/// A buffer with places before and after it that must stay as they are.
pub struct Guarded<T> {
    places: Vec<T>,
    margin: T,
}

const MARGIN: usize = 8;

impl<T: Copy + PartialEq> Guarded<T> {
    pub fn new(part: &[T], margin: T) -> Self {
        Guarded { places: [&[margin; MARGIN], part, &[margin; MARGIN]].concat(), margin }
    }

    pub fn part(&mut self) -> &mut [T] {
        let end = self.places.len() - MARGIN;
        &mut self.places[MARGIN..end]
    }

    pub fn is(&self, part: &[T]) -> bool {
        let (before, rest) = self.places.split_at(MARGIN);
        let (held, after) = rest.split_at(rest.len() - MARGIN);
        held == part && before.iter().chain(after).all(|&x| x == self.margin)
    }
}

// What stands beside a buffer.
pub const SHORT: u16 = 0xA5A5;
pub const BYTE: u8 = 0xA5;
pub const WORD: u64 = 0x7FF4_0000_0000_BEEF;

/// Four result buffers, each guarded.
pub struct Room {
    lengths: Guarded<u16>,
    kinds: Guarded<u8>,
    points: Guarded<u64>,
    colors: Guarded<u8>,
}

impl Room {
    pub fn new(out: &Buffers) -> Self {
        Room {
            lengths: Guarded::new(&out.lengths, SHORT),
            kinds: Guarded::new(&out.kinds, BYTE),
            points: Guarded::new(&out.points, WORD),
            colors: Guarded::new(&out.colors, BYTE),
        }
    }

    pub fn parts(&mut self) -> (&mut [u16], &mut [u8], &mut [u64], &mut [u8]) {
        let Room { lengths, kinds, points, colors } = self;
        (lengths.part(), kinds.part(), points.part(), colors.part())
    }

    pub fn is(&self, after: &Buffers) -> bool {
        self.lengths.is(&after.lengths)
            && self.kinds.is(&after.kinds)
            && self.points.is(&after.points)
            && self.colors.is(&after.colors)
    }
}

/// Colours by the proved code and by the source, and compares the answer and every bit of the seven
/// buffers. Answer and result are the source's.
pub fn compare_call(part: &mut Tally, strategy: Strategy, call: &Call) -> (Answer, Buffers) {
    let (o, mut room) = (call.outline.clone(), Room::new(&call.out));
    let (l, k, p, c) = room.parts();
    let code = proved(strategy, call.balanced, &o, call.threshold, call.seed, l, k, p, c);
    let (answer, after) = color(strategy, call);
    let agree = code == answer.code() && room.is(&after) && o == call.outline;
    part.note(agree, || {
        let (o, threshold, seed) = (&call.outline, call.threshold, call.seed);
        let (l, k, p) = (&o.lengths, &o.kinds, &o.points);
        let by = if call.balanced { ", balanced," } else { "" };
        let what = format!(
            "{strategy:?}{by} of {l:?} {k:?} {p:016X?}, threshold {threshold:?}, seed {seed}"
        );
        let what: String = what.chars().take(2000).collect();
        let found = room.parts().3;
        format!("{what}: {answer:?}, proved {code:#x}, {found:?} and {:?}", after.colors)
    });
    (answer, after)
}

// ---- which kinds of shapes were met

/// How often each class was met, in the order in which they are first named.
#[derive(Default)]
pub struct Classes(Vec<(&'static str, u64)>);

impl Classes {
    pub fn note(&mut self, name: &'static str, met: bool) {
        match self.0.iter_mut().find(|class| class.0 == name) {
            Some(class) => class.1 += met as u64,
            None => self.0.push((name, met as u64)),
        }
    }

    pub fn close(&self, all: &mut Tally) {
        for (name, count) in &self.0 {
            println!("{name:60}{count:>10}");
            all.met(*count, || name.to_string());
        }
    }

    fn call(&mut self, call: &Call, shape: &[Edges]) {
        let n = shape.len();
        let edges = call.outline.edges();
        let empty = |i: usize| shape[i].is_empty();
        self.note("shapes without contours", n == 0);
        self.note("shapes of empty contours only", n > 0 && edges == 0);
        self.note("64 contours", n == 64);
        self.note("256 edges", edges == 256);
        self.note("first contour empty", edges > 0 && empty(0));
        self.note("last contour empty", edges > 0 && empty(n - 1));
        self.note("a contour between others empty", (1..n.max(1) - 1).any(empty));
        let t = call.threshold.to_bits();
        self.note("threshold -1", t == (-1.0f64).to_bits());
        self.note("threshold -0", t == (-0.0f64).to_bits());
        self.note("threshold 0", t == 0);
        self.note("threshold 1", t == 1.0f64.to_bits());
        self.note("threshold below 0", call.threshold < 0.0);
        self.note("seed 0", call.seed == 0);
        self.note("seed 2^64 - 1", call.seed == u64::MAX);
        let place = |wanted: fn(f64) -> bool| {
            let edges = call.outline.kinds.iter().zip(call.outline.points.chunks(8));
            let mut places = edges.flat_map(|(kind, places)| &places[..used(*kind)]);
            places.any(|&bits| wanted(f64::from_bits(bits)))
        };
        self.note("a coordinate -0", place(|x| x == 0.0 && x.is_sign_negative()));
        self.note("a subnormal coordinate", place(|x| x.is_subnormal()));
        self.note("a coordinate 2^-600", place(|x| x.to_bits() == 0x1A70_0000_0000_0000));
        self.note("a coordinate 1,048,576", place(|x| x == 1_048_576.0));
        self.note("a coordinate -1,048,576", place(|x| x == -1_048_576.0));
    }

    fn contour(&mut self, edges: &Edges, threshold: f64, last: bool) {
        let m = edges.len();
        let corners = corners(edges, threshold);
        let k = corners.len();
        self.note("contours without a corner", k == 0);
        self.note("contours with 1 corner", k == 1);
        self.note("contours with 2 corners", k == 2);
        self.note("contours with 3 corners", k == 3);
        self.note("contours with more corners", k > 3);
        self.note("all places corners, more than 3", k == m && k > 3);
        let kinds: Vec<usize> = edges.iter().map(|e| e.order()).collect();
        self.note("contours of all three kinds", (1..4).all(|kind| kinds.contains(&kind)));
        self.note("1 corner, 3 edges", k == 1 && m == 3);
        self.note("1 corner, 4 to 46 edges", k == 1 && (4..47).contains(&m));
        self.note("1 corner, 47 edges", k == 1 && m == 47);
        self.note("1 corner, 93, 139, 185 or 231 edges", k == 1 && m > 47 && (m - 1) % 46 == 0);
        self.split("split: a line alone", k == 1 && m == 1, &kinds, 0, 1);
        self.split("split: a quadratic alone", k == 1 && m == 1, &kinds, 0, 2);
        self.split("split: a cubic alone", k == 1 && m == 1, &kinds, 0, 3);
        let first = corners == [0] && m == 2;
        self.split("split: two edges, corner at the first, a line", first, &kinds, 0, 1);
        self.split("split: two edges, corner at the first, a quadratic", first, &kinds, 0, 2);
        self.split("split: two edges, corner at the first, a cubic", first, &kinds, 0, 3);
        self.split("split: two edges, corner at the first, then a line", first, &kinds, 1, 1);
        self.split("split: two edges, corner at the first, then a quadratic", first, &kinds, 1, 2);
        self.split("split: two edges, corner at the first, then a cubic", first, &kinds, 1, 3);
        let second = corners == [1] && m == 2;
        self.split("split: two edges, corner at the second, a line", second, &kinds, 1, 1);
        self.split("split: two edges, corner at the second, a quadratic", second, &kinds, 1, 2);
        self.split("split: two edges, corner at the second, a cubic", second, &kinds, 1, 3);
        self.split("split: two edges, corner at the second, then a line", second, &kinds, 0, 1);
        self.split(
            "split: two edges, corner at the second, then a quadratic",
            second,
            &kinds,
            0,
            2,
        );
        self.split("split: two edges, corner at the second, then a cubic", second, &kinds, 0, 3);
        self.minors(edges, &corners, last);
        (0..m).for_each(|at| self.place(edges, at, threshold));
    }

    fn split(&mut self, name: &'static str, met: bool, kinds: &[usize], at: usize, kind: usize) {
        self.note(name, met && kinds[at] == kind);
    }

    fn minors(&mut self, edges: &Edges, corners: &[usize], last: bool) {
        let k = corners.len();
        let lengths = if k > 1 { spline_lengths(edges, corners) } else { Vec::new() };
        let length = |i: usize| lengths[i % k];
        let dips = |i: usize| length(i) > length(i + 1) && length(i + 1) < length(i + 2);
        let minor = |i: usize| k > 3 && dips(i);
        self.note("3 corners that would have a minor one", k == 3 && (0..3).any(dips));
        self.note("contours with a minor corner", (0..k).any(minor));
        self.note(
            "contours with half their corners minor",
            k > 3 && 2 * (0..k).filter(|&i| minor(i)).count() == k,
        );
        self.note("4 corners or more, none minor", k > 3 && !(0..k).any(minor));
        self.note("the first corner minor", k > 3 && minor(0));
        self.note("the last corner minor", k > 3 && minor(k - 1));
        self.note("the last corner minor, edges after the contour", k > 3 && minor(k - 1) && !last);
        let ties = |a: usize, b: usize| (0..k).any(|i| length(i + a) == length(i + b));
        let falls = |i: usize| length(i) > length(i + 1) && length(i + 1) == length(i + 2);
        let rises = |i: usize| length(i) == length(i + 1) && length(i + 1) < length(i + 2);
        self.note("neighbours of equal length", k > 3 && ties(0, 1));
        self.note("no minor corner by a tie with the next", k > 3 && (0..k).any(falls));
        self.note("no minor corner by a tie with the one before", k > 3 && (0..k).any(rises));
    }

    fn place(&mut self, edges: &Edges, at: usize, threshold: f64) {
        let (a, b) = directions(edges, at);
        let zero_length = |d: oracle::math::Vector2| d.is_nonzero() && d.length() == 0.0;
        self.note("a direction of zero", !a.is_nonzero() || !b.is_nonzero());
        self.note("a nonzero direction of length 0", zero_length(a) || zero_length(b));
        let (a, b) = (a.normalize(false), b.normalize(false));
        let (along, across) = (dot(a, b), cross(a, b).abs());
        self.note("a corner by the dot product alone", along <= 0.0 && across <= threshold);
        self.note("a corner by the cross product alone", along > 0.0 && across > threshold);
        self.note("no corner, the threshold met exactly", along > 0.0 && across == threshold);
        self.note(
            "a dot product of 0, cross product not above",
            along == 0.0 && across <= threshold,
        );
    }
}

pub fn corners(edges: &Edges, threshold: f64) -> Vec<usize> {
    let found = probe::corners(&source_shape(std::slice::from_ref(edges)).contours[0], threshold);
    assert_eq!(contours::corners(edges, threshold), found);
    found
}

/// The length estimate before each corner: four chords an edge.
fn spline_lengths(edges: &Edges, corners: &[usize]) -> Vec<f64> {
    let estimate = |e: &oracle::geometry::EdgeSegment| -> f64 {
        (0..4).map(|i| (e.point(0.25 * (i + 1) as f64) - e.point(0.25 * i as f64)).length()).sum()
    };
    let mut lengths = Vec::new();
    let mut sum = 0.0;
    for (i, e) in edges.iter().enumerate() {
        if corners.contains(&i) {
            lengths.push(std::mem::take(&mut sum));
        }
        sum += estimate(e);
    }
    lengths[0] += sum;
    lengths
}

// ---- comparisons

/// The rules in whole numbers (SCOPE, Leaves) against the source's expression, and against the copy with the balanced
/// division. The two are the same but at the ties; by the balanced one the numbers sum to zero and the outer runs are
/// of one length.
fn trichotomy(all: &mut Tally) {
    let (mut source, mut copy, mut runs) = Default::default();
    let mut ties = Vec::new();
    for n in 3..=256 {
        let mut ends = [0; 3];
        for p in 0..n {
            let (old, new) = (probe::trichotomy(p, n), balanced::probe::trichotomy(p, n));
            let rule = teardrops::by_the_source(p, n);
            Tally::note(&mut source, rule == old, || {
                format!("place {p} among {n}: {old}, by the rule {rule}")
            });
            let rule = teardrops::balanced(p, n);
            let as_rule = new == rule && (new == old || (old, new) == (1, 0));
            Tally::note(&mut copy, as_rule, || {
                format!("place {p} among {n}, balanced: {new}, by the rule {rule}, before {old}")
            });
            if old != new {
                ties.push((p, n));
            }
            ends[(1 + new) as usize] += 1;
        }
        let [first, middle, last] = ends;
        let balanced = first == last && middle > 0;
        Tally::note(&mut runs, balanced, || format!("runs of {n}, balanced: {ends:?}"));
    }
    let known: Vec<(i32, i32)> = (1..6).map(|k| (31 * k, 46 * k + 1)).collect();
    assert_eq!(ties, known);
    assert!(ties.iter().map(|tie| tie.1 as usize).eq(TIES));
    all.close("trichotomy, rule and source", source);
    all.close_divided("trichotomy, balanced rule and copy", copy, ties.len() as u64);
    all.close("runs by the balanced division", runs);
}

const SHAPES: u64 = 250_000;

/// A share of the shapes, and each one on which the divisions differ, is coloured by both.
pub fn by_both(in_share: bool, shape: &[Edges], threshold: f64) -> bool {
    in_share || !teardrops::ties(shape, threshold).is_empty()
}

fn shapes(all: &mut Tally) {
    let mut parts = [Tally::default(), Tally::default()];
    let mut balanced_parts = [(Tally::default(), 0), (Tally::default(), 0)];
    let (mut classes, mut stand_in_classes) = (Classes::default(), Classes::default());
    let mut colors = [[0u64; 8]; 2];
    let r = &mut Random(400);
    for number in 0..SHAPES {
        let call = call(r);
        let shape = decode(&call.outline);
        for (which, strategy) in STRATEGIES.into_iter().enumerate() {
            let (answer, after) = compare_call(&mut parts[which], strategy, &call);
            if by_both(number % 4 == 0, &shape, call.threshold) {
                let (part, others) = &mut balanced_parts[which];
                let call = Call { balanced: true, ..call.clone() };
                let (balanced_answer, other) = compare_call(part, strategy, &call);
                assert_eq!(balanced_answer, answer);
                *others += divided(&shape, call.threshold, &after, &other, 7) as u64;
            }
            let Answer::Colored { edges: count, stand_ins } = answer else {
                panic!("refused: {answer:?}")
            };
            stand_ins::check_source(1 + which as u8, &shape, call.threshold);
            let split = of_result(&after, shape.len(), count).stand_ins();
            classes.note("a result with more stand-ins than the outline", split > stand_ins);
            classes.note("the same, of an outline with some", split > stand_ins && stand_ins > 0);
            after.colors[..count].iter().for_each(|&c| colors[which][c as usize] += 1);
            classes.note("508 edges out", count == 508);
            classes.note(
                "buffers exactly as long as the result",
                count > 0 && {
                    let exact = (shape.len(), count, 8 * count, count);
                    let out = &call.out;
                    exact
                        == (out.lengths.len(), out.kinds.len(), out.points.len(), out.colors.len())
                },
            );
        }
        classes.call(&call, &shape);
        stand_ins::classes(&mut stand_in_classes, &shape);
        let last = shape.iter().rposition(|edges| !edges.is_empty());
        for (i, edges) in shape.iter().enumerate().filter(|c| !c.1.is_empty()) {
            classes.contour(edges, call.threshold, Some(i) == last);
        }
    }
    classes.close(all);
    stand_in_classes.close(all);
    let [simple, ink_trap] = parts;
    all.close("simple colouring", simple);
    all.close("ink-trap colouring", ink_trap);
    let names = ["simple colouring, balanced", "ink-trap colouring, balanced"];
    for (name, (part, others)) in names.into_iter().zip(balanced_parts) {
        all.close_divided(name, part, others);
    }
    for (strategy, counts) in STRATEGIES.iter().zip(colors) {
        println!("edges by colour, {strategy:?}: {counts:?}");
        for color in [3, 5, 6, 7] {
            all.met(counts[color], || format!("colour {color}, {strategy:?}"));
        }
    }
}

/// The outline of a result: its first contours and edges in the buffers.
fn of_result(out: &Buffers, contours: usize, edges: usize) -> Outline {
    Outline {
        lengths: out.lengths[..contours].to_vec(),
        kinds: out.kinds[..edges].to_vec(),
        points: out.points[..8 * edges].to_vec(),
    }
}

/// Outlines with their stand-ins written out, by both colourings and by thresholds that split some and not.
fn known_stand_ins(all: &mut Tally) {
    let mut part = Tally::default();
    let r = &mut Random(403);
    for known in known_outlines() {
        let ways = STRATEGIES.into_iter().flat_map(|s| [(s, 0.125), (s, -1.0)]);
        for ((strategy, threshold), balanced) in ways.flat_map(|way| [(way, false), (way, true)]) {
            let (outline, out) = (outline(r, &known.contours), buffers(r, 64, 508, 4064, 508));
            let call = Call { outline, threshold, seed: 1, balanced, out };
            let (answer, _) = compare_call(&mut part, strategy, &call);
            let found = match answer {
                Answer::Colored { stand_ins, .. } => Some(stand_ins),
                _ => None,
            };
            let as_known = found == Some(known.stand_ins);
            part.note(as_known, || format!("{}: {found:?} stand-ins", known.name));
        }
    }
    all.close("stand-ins as written out, simple and ink trap", part);
}

/// Calls with up to three faults: what is refused, by which number, and no byte changed.
fn refusals(all: &mut Tally, balanced: bool, seed: u64, calls: usize) {
    let mut part = Tally::default();
    let mut alone = [[0u64; 7]; FAULTS.len()];
    let mut one_short = [0u64; 4];
    // by the refusal that decides, and another that holds besides
    let mut besides = [[0u64; 6]; 6];
    let mut classes = Classes::default();
    let r = &mut Random(seed);
    for number in 0..calls {
        let mut call = Call { balanced, ..call(r) };
        let count = r.below(4);
        let mut fault = 0;
        for _ in 0..count {
            fault = r.below(FAULTS.len() as u64) as usize;
            FAULTS[fault].2(r, &mut call);
        }
        let (answer, _) = compare_call(&mut part, STRATEGIES[number % 2], &call);
        let which = match answer.edges() {
            Ok(_) => 0,
            Err(number) => 1 + ORDER.iter().position(|&n| n == number).unwrap(),
        };
        let no_other = Call { threshold: 0.0, ..call.clone() };
        let stand_ins = refusal(&no_other).is_none() && call.outline.stand_ins() > 0;
        classes.note("6, stand-ins", answer == Answer::Refused(6) && stand_ins);
        classes.note("11, stand-ins", answer == Answer::Refused(11) && stand_ins);
        if count == 1 {
            alone[fault][which] += 1;
        }
        if answer == Answer::Refused(11) {
            short_by_one(&mut one_short, &call);
        }
        if which > 0 {
            let [a, b, c, d, e] = faults(&call);
            let short = call.out.kinds.len() < call.outline.kinds.len();
            for (other, holds) in [a, b, c, d, e, short].into_iter().enumerate() {
                besides[which - 1][other] += (holds && other >= which) as u64;
            }
        }
    }
    print!("{:24}{:>10}", "", "accepted");
    ORDER.iter().for_each(|number| print!("{number:>10}"));
    println!();
    for ((name, number, _), counts) in FAULTS.iter().zip(alone) {
        print!("{name:24}");
        counts.iter().for_each(|count| print!("{count:>10}"));
        println!();
        let column = ORDER.iter().position(|n| n == number).map_or(0, |i| i + 1);
        all.met(counts[column], || format!("{name}: {number}"));
    }
    for first in 0..6 {
        for other in first + 1..6 {
            let (a, b) = (ORDER[first], ORDER[other]);
            println!("{:24}{:>10}", format!("{a} where {b} holds too"), besides[first][other]);
            all.met(besides[first][other], || format!("{a} before {b}"));
        }
    }
    for (name, count) in ["lengths", "kinds", "points", "colours"].iter().zip(one_short) {
        println!("{:24}{count:>10}", format!("{name} short by 1 alone"));
        all.met(count, || format!("result {name} one short, the others exact"));
    }
    classes.close(all);
    all.close(if balanced { "refusals, balanced" } else { "refusals" }, part);
}

/// Notes a call of which one result buffer is one short and the others are exactly right.
fn short_by_one(counts: &mut [u64; 4], call: &Call) {
    let (result, out) = (result(Strategy::Simple, call), &call.out);
    let missing = [
        result.lengths.len().wrapping_sub(out.lengths.len()),
        result.kinds.len().wrapping_sub(out.kinds.len()),
        result.points.len().wrapping_sub(out.points.len()),
        result.colors.len().wrapping_sub(out.colors.len()),
    ];
    for which in 0..4 {
        let only = (0..4).all(|i| missing[i] == (i == which) as usize);
        counts[which] += only as u64;
    }
}

pub fn compare(all: &mut Tally) {
    trichotomy(all);
    known_stand_ins(all);
    shapes(all);
    refusals(all, false, 401, 200_000);
    refusals(all, true, 404, 60_000);
}
