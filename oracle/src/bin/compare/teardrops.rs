//! Teardrops of every length by all four entries, by the source's division and by the balanced one.

use crate::Tally;
use crate::distances::{balanced, compare_collect, compare_color};
use crate::shapes::compare_call;
use oracle::contours::{self, Edges, contour, corners};
use oracle::distances::{DistanceCall, MOST_SPLINES, WAYS, collected, pairs};
use oracle::numbers::Random;
use oracle::shapes::{Answer, Buffers, Call, STRATEGIES, decode, outline, roomy, some};
use oracle::teardrops::{TIES, divided, several, teardrop};

/// What was compared of an entry by each division; on how many calls the two differ, and on how many with a contour of
/// each length at which they do.
#[derive(Default)]
struct Entry {
    source: Tally,
    balanced: Tally,
    others: u64,
    ties: [u64; TIES.len()],
}

impl Entry {
    /// Two answers of one call, by the source's division and by the balanced one.
    fn note(
        &mut self,
        c: &Call,
        source: (Answer, Buffers),
        balanced: (Answer, Buffers),
        middle: u8,
    ) {
        let shape = decode(&c.outline);
        assert!(source.0 == balanced.0 && source.0.edges().is_ok(), "{:?}", source.0);
        if divided(&shape, c.threshold, &source.1, &balanced.1, middle) {
            self.others += 1;
            for (count, m) in self.ties.iter_mut().zip(TIES) {
                let is =
                    |edges: &&Edges| edges.len() == m && corners(edges, c.threshold).len() == 1;
                *count += shape.iter().any(|edges| is(&edges)) as u64;
            }
        }
    }
}

const NAMES: [&str; 4] = ["simple", "ink trap", "collecting pass", "by distance"];

#[derive(Default)]
struct Entries([Entry; 4]);

impl Entries {
    /// A call by all four, by each division.
    fn compare(&mut self, c: &DistanceCall) {
        let b = balanced(c);
        let [simple, ink_trap, collecting, coloring] = &mut self.0;
        for (strategy, entry) in STRATEGIES.into_iter().zip([simple, ink_trap]) {
            let source = compare_call(&mut entry.source, strategy, &c.call);
            let balanced = compare_call(&mut entry.balanced, strategy, &b.call);
            entry.note(&c.call, source, balanced, 7);
        }
        let source = compare_collect(&mut collecting.source, c);
        let balanced = compare_collect(&mut collecting.balanced, &b);
        collecting.note(&c.call, source, balanced, 255);
        let source = compare_color(&mut coloring.source, c);
        let balanced = compare_color(&mut coloring.balanced, &b);
        let results = [source, balanced].map(|outcome| (outcome.answer, outcome.after));
        let [source, balanced] = results;
        coloring.note(&c.call, source, balanced, 7);
    }

    fn close(self, all: &mut Tally, what: &str) {
        for (name, entry) in NAMES.iter().zip(self.0) {
            all.close(&format!("{what}, {name}"), entry.source);
            all.close_divided(&format!("{what}, {name}, balanced"), entry.balanced, entry.others);
            println!("others with a contour of {TIES:?} edges: {:?}", entry.ties);
            for (m, count) in TIES.into_iter().zip(entry.ties) {
                all.met(count, || format!("{what} of {m} edges, {name}: another result"));
            }
        }
    }
}

/// A call on contours of no more than 64 splines, with distances of some kind.
fn on(r: &mut Random, shape: &[Edges], threshold: f64) -> Option<DistanceCall> {
    let (outline, seed) = (outline(r, shape), contours::seed(r));
    let mut call = Call { outline, threshold, seed, balanced: false, out: Buffers::default() };
    let collected = collected(&call);
    call.out = roomy(r, &collected.result);
    let way = some(r, WAYS.len());
    (collected.splines <= MOST_SPLINES).then(|| {
        let distances = WAYS[way].1(r, pairs(collected.splines));
        DistanceCall { call, distances: distances.into_iter().map(f64::to_bits).collect() }
    })
}

/// One contour of each length, its corner at the first edge, in the middle and at the last; at every place where the
/// divisions differ. Of one edge by a threshold too that makes a corner of any.
fn each_length(all: &mut Tally) {
    let mut entries = Entries::default();
    let r = &mut Random(410);
    for m in 1..=256 {
        let mut places: Vec<usize> = [0, m / 2, m - 1].repeat(8);
        if TIES.contains(&m) {
            places.extend(0..m);
        }
        for place in places {
            let threshold = r.pick(&[0.125, 0.125, 0.1411200080598672, 0.5, 0.9]);
            let edges = teardrop(r, m, place, threshold);
            entries.compare(&on(r, &[edges], threshold).unwrap());
        }
    }
    for _ in 0..400 {
        let edges = contour(r, 1, 0.125);
        entries.compare(&on(r, &[edges], -1.0).unwrap());
    }
    entries.close(all, "teardrops of 1 to 256 edges");
}

/// Several contours, which have seed and colours of one another.
fn many(all: &mut Tally) {
    let mut entries = Entries::default();
    let r = &mut Random(411);
    for _ in 0..6_000 {
        let threshold = r.pick(&[0.125, 0.5]);
        let shape = several(r, threshold);
        if let Some(c) = on(r, &shape, threshold) {
            entries.compare(&c);
        }
    }
    entries.close(all, "several teardrops");
}

pub fn compare(all: &mut Tally) {
    each_length(all);
    many(all);
}
