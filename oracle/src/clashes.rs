//! Lists of offers to tables with a clash and without: first tables, lists that follow a run along its tables, and what
//! is left of a list when some of its offers are struck.

use crate::numbers::Random;
use crate::tables::{Answer, FAULTS, Pair, Run, Table, Way};
use crate::tables::{offer, outside, random_pairs, refusal, run, some, way};

/// Whether a pair is kept: two different splines, both entries there and not 0. The buffers may be any.
pub fn kept(t: &Table, (i, j): Pair) -> bool {
    let n = t.n();
    let entry = |i: usize, j: usize| t.edge_matrix.get(i * n + j).is_some_and(|&e| e != 0);
    i < n && j < n && i != j && entry(i, j) && entry(j, i)
}

/// Whether it is kept and its colours are equal.
pub fn clash(t: &Table, (i, j): Pair) -> bool {
    kept(t, (i, j)) && t.coloring[i] == t.coloring[j]
}

/// Every clash once.
pub fn clashes(t: &Table) -> Vec<Pair> {
    let pairs = (0..t.n()).flat_map(|i| (0..i).map(move |j| (i, j)));
    pairs.filter(|&p| clash(t, p)).collect()
}

// ---- first tables

/// From 2 to 64 splines: mostly 4 to 12, of which offers are declined more often, and 64 now and then.
pub fn size(r: &mut Random) -> usize {
    match r.below(16) {
        0 => 64,
        1 => 2 + some(r, 63),
        2 | 3 => 12 + some(r, 13),
        _ => 4 + some(r, 9),
    }
}

/// Pairs of two colours, and up to `count` clashes.
fn few_clashes(r: &mut Random, n: usize, degree: u64, count: u64) -> Table {
    let mut t = random_pairs(r, n, degree, false);
    for _ in 0..8 * count {
        let (i, j) = (some(r, n), some(r, n));
        if i != j && t.coloring[i] == t.coloring[j] && (clashes(&t).len() as u64) < count {
            t.set((i, j), 1);
        }
    }
    t
}

/// Keeps all six pairs of four splines, or all but one.
fn touch(r: &mut Random, t: &mut Table) {
    let mut splines: Vec<usize> = (0..t.n()).collect();
    for k in 0..4 {
        splines.swap(k, k + some(r, t.n() - k));
    }
    let all = [(0, 1), (0, 2), (0, 3), (1, 2), (1, 3), (2, 3)];
    for &(i, j) in &all[some(r, 2)..] {
        t.set((splines[i], splines[j]), 1);
    }
}

/// A sound table of n splines, sparse or dense: any pairs, few clashes or none; often with four splines that
/// all touch, and with several such groups.
pub fn first(r: &mut Random, n: usize) -> Table {
    let degree = if r.coin() { r.below(4) } else { 2 + r.below(n as u64) };
    let mut t = match r.below(6) {
        0 => return random_pairs(r, n, degree, false),
        1 | 2 => random_pairs(r, n, degree, true),
        _ => {
            let count = 1 + r.below(3);
            few_clashes(r, n, degree, count)
        }
    };
    if n >= 4 && r.coin() {
        for _ in 0..=some(r, n / 2) {
            touch(r, &mut t);
        }
    }
    t
}

/// A table at fault in itself, which refuses every offer: by a colour, an entry, a length, or too many splines.
pub fn at_fault(r: &mut Random, n: usize) -> Table {
    loop {
        let mut t = first(r, n);
        let fault = r.pick(&[0, 1, 2, 3, 7, 8, 9, 10, 11]);
        FAULTS[fault].1(r, &mut t, &mut (0, 1));
        if refusal(&t, (0, 1)).is_some() {
            return t;
        }
    }
}

// ---- lists

/// Which pairs a list offers: such as are not kept when they are offered, such as do not clash then, or any.
#[derive(Clone, Copy, Debug, PartialEq)]
pub enum Kind {
    NotKept,
    NoClash,
    Any,
}

pub const KINDS: [Kind; 3] = [Kind::NotKept, Kind::NoClash, Kind::Any];

impl Kind {
    fn allows(self, t: &Table, p: Pair) -> bool {
        match self {
            Kind::NotKept => !kept(t, p),
            Kind::NoClash => !clash(t, p),
            Kind::Any => true,
        }
    }
}

/// Two equal numbers, or one out of range.
fn to_refuse(r: &mut Random, n: usize) -> Pair {
    let (a, far) = (some(r, n), outside(r, n));
    r.pick(&[(a, a), (a, far), (far, a), (far, far)])
}

fn either_order(r: &mut Random, (a, b): Pair) -> Pair {
    if r.coin() { (b, a) } else { (a, b) }
}

/// A pair to offer next: one to be refused, a clash, one that was offered before, or another, if possible one that
/// needs a walk.
fn next_pair(r: &mut Random, kind: Kind, t: &Table, made: &[Pair]) -> Pair {
    let n = t.n();
    let choice = r.below(12);
    if choice == 0 || n < 2 {
        return to_refuse(r, n);
    }
    let clashes = if kind == Kind::Any && choice < 6 { clashes(t) } else { Vec::new() };
    if !clashes.is_empty() {
        let p = r.pick(&clashes);
        return either_order(r, p);
    }
    if choice > 9 && !made.is_empty() {
        let p = r.pick(made);
        if kind.allows(t, p) {
            return either_order(r, p);
        }
    }
    let sound = refusal(t, (0, 1)).is_none();
    let mut best = None;
    for _ in 0..16 {
        let a = some(r, n);
        let p = (a, (a + 1 + some(r, n - 1)) % n);
        if kind.allows(t, p) {
            best = Some(p);
            if !sound || way(t, p) == Way::Walk {
                break;
            }
        }
    }
    best.unwrap_or_else(|| to_refuse(r, n))
}

/// A list of that kind, each pair chosen for the table that the offers before it leave.
pub fn list(r: &mut Random, first: &Table, kind: Kind, length: usize) -> Vec<Pair> {
    let (mut t, mut made) = (first.clone(), Vec::new());
    for _ in 0..length {
        let p = next_pair(r, kind, &t, &made);
        offer(&mut t, p);
        made.push(p);
    }
    made
}

// ---- striking

fn is_kept(answer: Answer) -> bool {
    matches!(answer, Answer::Kept(_))
}

/// What is left of a list where each element marked true is struck.
pub fn strike<T: Copy>(marks: &[bool], list: &[T]) -> Vec<T> {
    marks.iter().zip(list).filter(|(struck, _)| !**struck).map(|(_, &x)| x).collect()
}

/// Marks that strike declined and refused offers: all, all of either, twice a half, and one alone.
pub fn strikings(r: &mut Random, answers: &[Answer]) -> Vec<Vec<bool>> {
    let others: Vec<bool> = answers.iter().map(|&a| !is_kept(a)).collect();
    let places: Vec<usize> = (0..others.len()).filter(|&k| others[k]).collect();
    if places.is_empty() {
        return Vec::new();
    }
    let declined = answers.iter().map(|a| matches!(a, Answer::Declined(_))).collect();
    let refused = answers.iter().map(|a| matches!(a, Answer::Refused(_))).collect();
    let mut half = || others.iter().map(|&m| m && r.coin()).collect();
    let halves = [half(), half()];
    let alone = one(others.len(), r.pick(&places));
    let mut found: Vec<Vec<bool>> = vec![others, declined, refused];
    found.extend(halves);
    found.push(alone);
    found.retain(|marks| marks.contains(&true));
    found.dedup();
    found
}

/// Marks that strike one of a list alone.
pub fn one(length: usize, struck: usize) -> Vec<bool> {
    (0..length).map(|k| k == struck).collect()
}

// ---- a sample

pub fn pairs(run: &Run) -> Vec<Pair> {
    run.offers.iter().map(|o| o.0).collect()
}

fn answers(run: &Run) -> Vec<Answer> {
    run.offers.iter().map(|o| o.1).collect()
}

/// What is left of a list as a run of its own, with the answers that it gets then.
fn struck(whole: &Run, marks: &[bool]) -> Run {
    run(whole.before.clone(), &strike(marks, &pairs(whole)))
}

/// Four splines that all touch, of which two clash, and a fifth: the fewest splines, with the fewest kept pairs, where
/// an offer is answered otherwise if one that dropped its pair is struck.
fn smallest_drop() -> [Run; 2] {
    let coloring = vec![0, 0, 1, 2, 0];
    let mut t = Table { coloring, edge_matrix: vec![0; 25] };
    for p in [(0, 1), (0, 2), (0, 3), (1, 2), (1, 3), (2, 3)] {
        t.set(p, 1);
    }
    let whole = run(t, &[(0, 1), (4, 0)]);
    let struck = struck(&whole, &[true, false]);
    assert_eq!(answers(&whole), [Answer::Declined(17), Answer::Kept(1)]);
    assert_eq!(answers(&struck), [Answer::Declined(17)]);
    [whole, struck]
}

/// The places of a run's offers of which something holds, by the table before each.
fn places(whole: &Run, holds: impl Fn(&Table, Pair, Answer) -> bool) -> Vec<usize> {
    let mut t = whole.before.clone();
    let mut holds = |&(p, answer): &(Pair, Answer)| {
        let before = t.clone();
        offer(&mut t, p);
        holds(&before, p, answer)
    };
    (0..whole.offers.len()).filter(|&k| holds(&whole.offers[k])).collect()
}

fn drops(whole: &Run) -> Vec<usize> {
    places(whole, |t, p, answer| clash(t, p) && !is_kept(answer))
}

/// A list to a table of 4 to 12 splines with a clash.
fn short_list(r: &mut Random, kind: Kind) -> Run {
    loop {
        let n = 4 + some(r, 9);
        let t = first(r, n);
        if !clashes(&t).is_empty() {
            let length = 6 + some(r, 10);
            let pairs = list(r, &t, kind, length);
            return run(t, &pairs);
        }
    }
}

/// Whether a list is worth its place: a walk that is kept, a declined and a refused offer; a kept pair that is offered
/// again, a clash whose offer is kept, and one that is dropped, as far as the kind has them.
fn telling(run: &Run, kind: Kind) -> bool {
    let has = |holds: fn(&Table, Pair, Answer) -> bool| !places(run, holds).is_empty();
    has(|_, _, answer| matches!(answer, Answer::Kept(1..)))
        && has(|t, p, answer| !kept(t, p) && matches!(answer, Answer::Declined(_)))
        && has(|_, _, answer| matches!(answer, Answer::Refused(_)))
        && (kind == Kind::NotKept || has(|t, p, _| kept(t, p) && !clash(t, p)))
        && (kind != Kind::Any || has(|t, p, answer| clash(t, p) && is_kept(answer)))
        && (kind != Kind::Any || !drops(run).is_empty())
}

/// Such lists, of which by turns all clashes go and some stay.
fn telling_lists(r: &mut Random, kind: Kind, count: usize) -> Vec<Run> {
    let mut found: Vec<Run> = Vec::new();
    while found.len() < count {
        let run = short_list(r, kind);
        if telling(&run, kind) && clashes(&run.after).is_empty() == (found.len() % 2 == 0) {
            found.push(run);
        }
    }
    found
}

/// A list and the place of an offer that dropped its pair. If that is struck, a later answer is another, or else the
/// answers stay and the colours at the end are others.
pub fn telling_drop(r: &mut Random, by_answer: bool) -> (Run, usize) {
    loop {
        let whole = short_list(r, Kind::Any);
        let tells = |drop: &usize| {
            let marks = one(whole.offers.len(), *drop);
            let rest = struck(&whole, &marks);
            let same = answers(&rest) == strike(&marks, &answers(&whole));
            same != by_answer && (by_answer || rest.after.coloring != whole.after.coloring)
        };
        if let Some(drop) = drops(&whole).into_iter().find(tells) {
            return (whole, drop);
        }
    }
}

/// The runs of the replayed sample, by name: lists of each kind, what is left of them, and drops.
pub fn sample() -> Vec<(String, Vec<Run>)> {
    let r = &mut Random(310);
    let (mut lists, mut rest) = (Vec::new(), Vec::new());
    for kind in KINDS {
        for whole in telling_lists(r, kind, 6) {
            let marks = strikings(r, &answers(&whole));
            rest.extend([0, marks.len() - 1].map(|k| struck(&whole, &marks[k])));
            lists.push(whole);
        }
    }
    let mut dropped: Vec<Run> = smallest_drop().into();
    for by_answer in [true, true, true, false] {
        let (whole, drop) = telling_drop(r, by_answer);
        let rest = struck(&whole, &one(whole.offers.len(), drop));
        dropped.extend([whole, rest]);
    }
    [("clash lists", lists), ("clash struck", rest), ("clash dropped", dropped)]
        .map(|(name, runs)| (name.to_string(), runs))
        .into()
}
