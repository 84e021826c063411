//! Offers to a spline table: tables to try them on, SCOPE's refusals, and the source's answers.

use crate::clashes;
use crate::given::{by_distance_counted, by_distance_longer, probe};
use crate::numbers::Random;

/// The two buffers: the colour of each of n splines, and n × n entries by rows.
#[derive(Clone, Debug, Default, PartialEq)]
pub struct Table {
    pub coloring: Vec<u8>,
    pub edge_matrix: Vec<u8>,
}

pub type Pair = (usize, usize);

#[derive(Clone, Copy, Debug, PartialEq)]
pub enum Answer {
    Kept(u8),
    Declined(u8),
    Refused(u8),
}

impl Answer {
    /// The number by which C gets it.
    pub fn code(self) -> u64 {
        match self {
            Answer::Kept(steps) => 0x100 + steps as u64,
            Answer::Declined(steps) => 0x200 + steps as u64,
            Answer::Refused(number) => 0x300 + number as u64,
        }
    }
}

impl Table {
    pub fn n(&self) -> usize {
        self.coloring.len()
    }

    pub fn kept(&self, (a, b): Pair) -> bool {
        self.edge_matrix[a * self.n() + b] != 0
    }

    pub(crate) fn set(&mut self, (a, b): Pair, e: u8) {
        let n = self.n();
        self.edge_matrix[a * n + b] = e;
        self.edge_matrix[b * n + a] = e;
    }

    pub fn clashes(&self) -> bool {
        let n = self.n();
        let clash = |i: usize, j: usize| self.kept((i, j)) && self.coloring[i] == self.coloring[j];
        (0..n).any(|i| (0..i).any(|j| clash(i, j)))
    }
}

/// The number of the refusal by SCOPE: 4, then 8, then 10.
pub fn refusal(t: &Table, (a, b): Pair) -> Option<u8> {
    let n = t.n();
    if n > 64 {
        return Some(4);
    }
    if t.edge_matrix.len() != n * n {
        return Some(8);
    }
    let row = |i: usize| &t.edge_matrix[i * n..(i + 1) * n];
    let colors = t.coloring.iter().all(|&c| c <= 2);
    let entries = t.edge_matrix.iter().all(|&e| e <= 1);
    let symmetric = (0..n).all(|i| (0..n).all(|j| row(i)[j] == row(j)[i]));
    let diagonal = (0..n).all(|i| row(i)[i] == 0);
    let pair = a < n && b < n && a != b;
    if colors && entries && symmetric && diagonal && pair { None } else { Some(10) }
}

fn wide(bytes: &[u8]) -> Vec<i32> {
    bytes.iter().map(|&x| x as i32).collect()
}

fn narrow(numbers: &[i32]) -> Vec<u8> {
    numbers.iter().map(|&x| u8::try_from(x).unwrap()).collect()
}

/// What an offer is answered, by SCOPE and the source, with the table as it leaves it.
pub fn offer(t: &mut Table, (a, b): Pair) -> Answer {
    if let Some(number) = refusal(t, (a, b)) {
        return Answer::Refused(number);
    }
    let n = t.n();
    let (mut coloring, mut matrix) = (wide(&t.coloring), wide(&t.edge_matrix));
    let (mut coloring2, mut matrix2) = (coloring.clone(), matrix.clone());
    probe::offer(&mut coloring, &mut matrix, n, a, b);
    let steps = by_distance_counted::offer(&mut coloring2, &mut matrix2, n, a, b) as u8;
    assert!(coloring == coloring2 && matrix == matrix2, "the counted copy is not the source");
    *t = Table { coloring: narrow(&coloring), edge_matrix: narrow(&matrix) };
    if t.kept((a, b)) { Answer::Kept(steps) } else { Answer::Declined(steps) }
}

/// How an offer that is not refused goes.
#[derive(Clone, Copy, Debug, PartialEq)]
pub enum Way {
    ColorsDiffer,
    FreeColor,
    Walk,
}

pub fn way(t: &Table, (a, b): Pair) -> Way {
    if t.coloring[a] != t.coloring[b] {
        return Way::ColorsDiffer;
    }
    let used =
        |c: u8| c == t.coloring[a] || (0..t.n()).any(|i| t.kept((b, i)) && t.coloring[i] == c);
    if (0..3).all(used) { Way::Walk } else { Way::FreeColor }
}

// ---- tables to try

/// A word of random bits, of which s in 64 are ones.
fn bits(r: &mut Random, s: u64) -> u64 {
    if s >= 64 {
        return u64::MAX;
    }
    (0..6).fold(0, |m, k| if s >> k & 1 == 1 { m | r.next() } else { m & r.next() })
}

/// Every number of splines up to 64, the largest more often.
pub fn size(r: &mut Random) -> usize {
    if r.below(16) == 0 { 64 } else { r.below(65) as usize }
}

fn colors(r: &mut Random, n: usize) -> Vec<u8> {
    (0..n).map(|_| r.below(3) as u8).collect()
}

/// A table of n splines whose pairs are kept at random, about `degree` a spline; where `clashes` is
/// false, only pairs of two colours.
pub(crate) fn random_pairs(r: &mut Random, n: usize, degree: u64, clashes: bool) -> Table {
    let mut t = Table { coloring: colors(r, n), edge_matrix: vec![0; n * n] };
    let of_color = |c: u8| (0..n).fold(0, |m, i| m | ((t.coloring[i] == c) as u64) << i);
    let same = [of_color(0), of_color(1), of_color(2)];
    let density = (64 * degree).div_ceil(n.max(1) as u64);
    for i in 1..n {
        let mut row = bits(r, density) & (1u64 << i) - 1;
        if !clashes {
            row &= !same[t.coloring[i] as usize];
        }
        while row != 0 {
            t.set((i, row.trailing_zeros() as usize), 1);
            row &= row - 1;
        }
    }
    t
}

/// A sound table of n splines, with or without a clash.
pub fn sound(r: &mut Random, n: usize, clashes: bool) -> Table {
    let degree = if r.below(4) != 0 { 1 + r.below(10) } else { r.below(n as u64 + 1) };
    random_pairs(r, n, degree, clashes)
}

/// Two numbers of splines, mostly of one colour, of which the second has no free one.
pub fn pair(r: &mut Random, t: &Table) -> Pair {
    let n = t.n() as u64;
    if n < 2 {
        return (r.below(3) as usize, r.below(3) as usize);
    }
    let mut best = None;
    for _ in 0..8 {
        let a = r.below(n);
        let b = (a + 1 + r.below(n - 1)) % n;
        let p = (a as usize, b as usize);
        let w = way(t, p);
        if w == Way::Walk {
            return p;
        }
        if best.is_none() || w == Way::FreeColor {
            best = Some(p);
        }
    }
    best.unwrap()
}

// ---- faults

/// What can be wrong with an offer, each a way to make it so.
pub type Fault = fn(&mut Random, &mut Table, &mut Pair);

pub(crate) fn some(r: &mut Random, n: usize) -> usize {
    r.below(n.max(1) as u64) as usize
}

/// A byte above `good`, often the next or the last.
fn above(r: &mut Random, good: u8) -> u8 {
    match r.below(4) {
        0 => good + 1,
        1 => 255,
        _ => good + 1 + r.below(255 - good as u64) as u8,
    }
}

pub(crate) fn outside(r: &mut Random, n: usize) -> usize {
    let far = [n, n + 1, 64, 255, 256, 1 << 32, usize::MAX - n, usize::MAX];
    loop {
        let x = if r.coin() { n } else { r.pick(&far) };
        if x >= n {
            return x;
        }
    }
}

/// Puts e at (i, j) where there is such an entry.
fn put(t: &mut Table, (i, j): Pair, e: u8) {
    let at = i * t.n() + j;
    if at < t.edge_matrix.len() {
        t.edge_matrix[at] = e;
    }
}

fn bad_color(r: &mut Random, t: &mut Table, _: &mut Pair) {
    let i = some(r, t.n());
    if let Some(c) = t.coloring.get_mut(i) {
        *c = above(r, 2);
    }
}

fn bad_entry(r: &mut Random, t: &mut Table, _: &mut Pair) {
    let (i, j) = (some(r, t.n()), some(r, t.n()));
    if i != j {
        let e = above(r, 1);
        put(t, (i, j), e);
        put(t, (j, i), e);
    }
}

fn one_way(r: &mut Random, t: &mut Table, _: &mut Pair) {
    let (i, j) = (some(r, t.n()), some(r, t.n()));
    if i != j {
        let e = r.below(2) as u8;
        put(t, (i, j), e);
        put(t, (j, i), 1 - e);
    }
}

fn own_pair(r: &mut Random, t: &mut Table, _: &mut Pair) {
    let i = some(r, t.n());
    put(t, (i, i), 1);
}

fn a_outside(r: &mut Random, t: &mut Table, p: &mut Pair) {
    p.0 = outside(r, t.n());
}

fn b_outside(r: &mut Random, t: &mut Table, p: &mut Pair) {
    p.1 = outside(r, t.n());
}

fn equal(_: &mut Random, _: &mut Table, p: &mut Pair) {
    p.1 = p.0;
}

fn entries_short(r: &mut Random, t: &mut Table, _: &mut Pair) {
    let m = t.edge_matrix.len();
    let fewer = if r.coin() { 1 } else { r.below(m as u64 + 1) as usize };
    t.edge_matrix.truncate(m - fewer.min(m));
}

fn entries_long(r: &mut Random, t: &mut Table, _: &mut Pair) {
    let more = if r.coin() { 1 } else { 1 + r.below(2 * t.n() as u64 + 1) as usize };
    let m = t.edge_matrix.len() + more;
    t.edge_matrix.resize(m, 0);
}

fn colors_short(_: &mut Random, t: &mut Table, _: &mut Pair) {
    t.coloring.pop();
}

fn colors_long(r: &mut Random, t: &mut Table, _: &mut Pair) {
    t.coloring.push(r.below(3) as u8);
}

/// From 65 splines on, all else sound.
fn too_many(r: &mut Random, t: &mut Table, _: &mut Pair) {
    let n = if r.coin() { 65 } else { 65 + r.below(8) as usize };
    *t = Table { coloring: colors(r, n), edge_matrix: vec![0; n * n] };
}

pub const FAULTS: [(&str, Fault); 12] = [
    ("colour above 2", bad_color),
    ("entry above 1", bad_entry),
    ("entry one way only", one_way),
    ("entry of a spline with itself", own_pair),
    ("a out of range", a_outside),
    ("b out of range", b_outside),
    ("a and b equal", equal),
    ("entries too few", entries_short),
    ("entries too many", entries_long),
    ("a colour less", colors_short),
    ("a colour more", colors_long),
    ("above 64 splines", too_many),
];

// ---- lists of offers

/// A table to start a list with: no pairs, neighbours in a ring, or some pairs.
pub fn start(r: &mut Random, n: usize, clashes: bool) -> Table {
    match r.below(4) {
        0 => Table { coloring: vec![0; n], edge_matrix: vec![0; n * n] },
        1 => ring(r, n),
        _ => {
            let degree = r.below(4);
            random_pairs(r, n, degree, clashes)
        }
    }
}

/// Each spline next to two others, as on one contour, in colours that do not clash.
pub fn ring(r: &mut Random, n: usize) -> Table {
    let mut t = Table { coloring: vec![0; n], edge_matrix: vec![0; n * n] };
    for i in 1..n {
        t.set((i, i - 1), 1);
        t.coloring[i] = (t.coloring[i - 1] + 1 + r.below(2) as u8) % 3;
    }
    if n > 2 {
        let (first, before) = (t.coloring[0], t.coloring[n - 2]);
        t.set((n - 1, 0), 1);
        t.coloring[n - 1] = (0..3).find(|&c| c != first && c != before).unwrap();
    }
    t
}

/// Every pair once, in a random order.
pub fn all_pairs(r: &mut Random, n: usize) -> Vec<Pair> {
    let mut pairs: Vec<Pair> = (0..n).flat_map(|i| (i + 1..n).map(move |j| (i, j))).collect();
    for i in (1..pairs.len()).rev() {
        pairs.swap(i, some(r, i + 1));
    }
    pairs
}

/// Offers of every pair, or of some in either order and more than once, a few of them to be refused.
pub fn list(r: &mut Random, n: usize) -> Vec<Pair> {
    if n > 1 && r.coin() {
        return all_pairs(r, n);
    }
    let length = r.below(n as u64 * 8 + 1);
    (0..length)
        .map(|_| (some(r, n), if r.below(32) == 0 { outside(r, n) } else { some(r, n) }))
        .collect()
}

// ---- a sample

/// A list of offers to one table, each with its answer, and the table after the last.
pub struct Run {
    pub before: Table,
    pub offers: Vec<(Pair, Answer)>,
    pub after: Table,
}

pub(crate) fn run(before: Table, pairs: &[Pair]) -> Run {
    let mut after = before.clone();
    let offers = pairs.iter().map(|&p| (p, offer(&mut after, p))).collect();
    Run { before, offers, after }
}

/// P7: the square's four splines with the pairs beside each other kept.
fn square() -> Run {
    let coloring = vec![0, 1, 2, 1];
    let edge_matrix = vec![0, 1, 0, 1, 1, 0, 1, 0, 0, 1, 0, 1, 1, 0, 1, 0];
    let run = run(Table { coloring, edge_matrix }, &[(0, 2), (1, 3)]);
    let answers: Vec<Answer> = run.offers.iter().map(|o| o.1).collect();
    assert_eq!(answers, [Answer::Kept(0), Answer::Declined(16)]);
    run
}

/// The first `count` single offers to random tables of n splines of which `wanted` holds.
fn singles(
    r: &mut Random,
    n: std::ops::Range<u64>,
    count: usize,
    wanted: impl Fn(&Run, Pair) -> bool,
) -> Vec<Run> {
    let mut found = Vec::new();
    while found.len() < count {
        let n = (n.start + r.below(n.end - n.start)) as usize;
        let clashes = r.coin();
        let t = sound(r, n, clashes);
        let p = pair(r, &t);
        let run = run(t, &[p]);
        if wanted(&run, p) {
            found.push(run);
        }
    }
    found
}

/// Walks that end with one answer: without a clash, with one, and where the pair was kept before.
fn walks(r: &mut Random, answer: Answer, count: usize) -> Vec<Run> {
    let columns = [(false, false), (true, false), (true, true)];
    let of = |(clash, kept)| {
        singles(r, 8..21, count, |run, p| {
            let t = &run.before;
            run.offers[0].1 == answer
                && way(t, p) == Way::Walk
                && t.clashes() == clash
                && t.kept(p) == kept
        })
    };
    columns.map(of).into_iter().flatten().collect()
}

/// Whether a walk was stopped though each spline that waited had a free colour: with a higher limit it
/// ends at the same counter.
fn stopped_at_free(run: &Run, (a, b): Pair) -> bool {
    let (t, Answer::Declined(steps)) = (&run.before, run.offers[0].1) else { return false };
    let (mut coloring, mut matrix) = (wide(&t.coloring), wide(&t.edge_matrix));
    let longer = by_distance_longer::offer(&mut coloring, &mut matrix, t.n(), a, b);
    longer == steps as i32 && matrix[a * t.n() + b] != 0
}

/// A free colour for b, by the set of the free ones.
fn free_colors(r: &mut Random) -> Vec<Run> {
    let free = |t: &Table, b: usize, c: u8| {
        t.coloring[b] != c && (0..t.n()).all(|i| !t.kept((b, i)) || t.coloring[i] != c)
    };
    let of = |set: [bool; 3]| {
        singles(r, 4..9, 2, |run, p| {
            let t = &run.before;
            way(t, p) == Way::FreeColor && [0, 1, 2].map(|c| free(t, p.1, c)) == set
        })
    };
    let (y, n) = (true, false);
    let sets = [[y, n, n], [n, y, n], [n, n, y], [y, y, n], [y, n, y], [n, y, y]];
    sets.map(of).into_iter().flatten().collect()
}

/// Offers that are refused with a number, for one fault each.
fn refused(r: &mut Random, number: u8, n: std::ops::Range<u64>, count: usize) -> Vec<Run> {
    let mut found = Vec::new();
    for (_, fault) in FAULTS {
        let mut tries = 0;
        let mut of_fault = 0;
        while of_fault < count && tries < 100 {
            tries += 1;
            let n = (n.start + r.below(n.end - n.start)) as usize;
            let mut t = sound(r, n, false);
            let mut p = pair(r, &t);
            fault(r, &mut t, &mut p);
            if refusal(&t, p) == Some(number) {
                found.push(run(t, &[p]));
                of_fault += 1;
            }
        }
    }
    found
}

/// 65 splines and more, with as few entries as 64 splines have, and with none.
fn too_many_splines() -> Vec<Run> {
    let table = |n: usize, m: usize| Table { coloring: vec![0; n], edge_matrix: vec![0; m] };
    let tables = [table(65, 65 * 65), table(65, 64 * 64), table(66, 0), table(128, 1)];
    let mut runs: Vec<Run> = tables.into_iter().map(|t| run(t, &[(0, 1), (64, 65)])).collect();
    let faults = Table { coloring: vec![255; 65], edge_matrix: vec![255; 65] };
    runs.push(run(faults, &[(3, 3)]));
    runs
}

/// Tables without a pair to offer.
fn none_or_one() -> Vec<Run> {
    let table = |n: usize| Table { coloring: vec![0; n], edge_matrix: vec![0; n * n] };
    [0, 1].map(|n| run(table(n), &[(0, 0), (0, 1), (1, 0), (usize::MAX, 0)])).into()
}

/// The runs of the replayed sample, by name.
pub fn sample() -> Vec<(String, Vec<Run>)> {
    let r = &mut Random(300);
    let mut parts = vec![("P7".to_string(), vec![square()])];
    let differ = singles(r, 2..9, 6, |run, p| way(&run.before, p) == Way::ColorsDiffer);
    parts.push(("colours differ".to_string(), differ));
    parts.push(("a free colour".to_string(), free_colors(r)));
    for steps in 0..16 {
        parts.push((format!("kept at {steps}"), walks(r, Answer::Kept(steps), 2)));
    }
    for steps in 16..18 {
        parts.push((format!("declined at {steps}"), walks(r, Answer::Declined(steps), 3)));
    }
    parts.push(("free past 16".to_string(), singles(r, 8..21, 6, stopped_at_free)));
    parts.push(("64 splines".to_string(), singles(r, 64..65, 6, |_, _| true)));
    parts.push(("refused 4".to_string(), too_many_splines()));
    parts.push(("refused 8".to_string(), refused(r, 8, 2..8, 3)));
    let mut ten = refused(r, 10, 2..12, 4);
    ten.extend(none_or_one());
    parts.push(("refused 10".to_string(), ten));
    let mut lists: Vec<Run> = [5, 12, 24].map(|n| run(start(r, n, false), &list(r, n))).into();
    lists.push(run(ring(r, 64), &all_pairs(r, 64)));
    parts.push(("lists".to_string(), lists));
    parts.extend(clashes::sample());
    parts
}
