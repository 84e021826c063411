//! The spline table: single offers, refusals and lists of offers.

use crate::{Tally, clashes};
use oracle::numbers::Random;
use oracle::tables::{Answer, FAULTS, Pair, Table, Way};
use oracle::tables::{list, offer, pair, size, sound, start, way};

#[link(name = "capi", kind = "static")]
unsafe extern "C" {
    fn merelsplum_try_add_edge(
        coloring: *mut u8,
        n: usize,
        edge_matrix: *mut u8,
        entries: usize,
        a: usize,
        b: usize,
    ) -> u64;
}

pub fn try_add_edge(coloring: &mut [u8], edge_matrix: &mut [u8], (a, b): Pair) -> u64 {
    let (c, n) = (coloring.as_mut_ptr(), coloring.len());
    let (e, m) = (edge_matrix.as_mut_ptr(), edge_matrix.len());
    unsafe { merelsplum_try_add_edge(c, n, e, m, a, b) }
}

/// A buffer with bytes before and after it that must stay as they are.
pub struct Guarded(Vec<u8>);

impl Guarded {
    const MARGIN: [u8; 16] = [0xA5; 16];

    pub fn new(bytes: &[u8]) -> Self {
        Guarded([&Self::MARGIN, bytes, &Self::MARGIN].concat())
    }

    pub fn part(&mut self) -> &mut [u8] {
        let end = self.0.len() - 16;
        &mut self.0[16..end]
    }

    pub fn is(&self, bytes: &[u8]) -> bool {
        let end = self.0.len() - 16;
        self.0[..16] == Self::MARGIN && &self.0[16..end] == bytes && self.0[end..] == Self::MARGIN
    }
}

/// Makes an offer to the proved code and to the source, the latter on `t` itself, and compares
/// answer, counter and every byte. The answer is the source's.
fn compare_offer(part: &mut Tally, t: &mut Table, p: Pair) -> Answer {
    let (mut coloring, mut edge_matrix) = (Guarded::new(&t.coloring), Guarded::new(&t.edge_matrix));
    let code = try_add_edge(coloring.part(), edge_matrix.part(), p);
    let before = t.clone();
    let answer = offer(t, p);
    let agree = code == answer.code() && coloring.is(&t.coloring) && edge_matrix.is(&t.edge_matrix);
    part.note(agree, || format!("offer {p:?} to {before:?}: {answer:?}, proved {code:#x}"));
    answer
}

/// How many offers went which way: without a clash, with one, and where the pair was kept before.
#[derive(Default)]
struct Histogram([[u64; 3]; 20]);

impl Histogram {
    fn row(way: Way, answer: Answer) -> usize {
        match (way, answer) {
            (Way::ColorsDiffer, Answer::Kept(0)) => 0,
            (Way::FreeColor, Answer::Kept(0)) => 1,
            (Way::Walk, Answer::Kept(steps)) if steps <= 15 => 2 + steps as usize,
            (Way::Walk, Answer::Declined(16)) => 18,
            (Way::Walk, Answer::Declined(17)) => 19,
            _ => panic!("no such answer: {way:?}, {answer:?}"),
        }
    }

    fn name(row: usize) -> String {
        match row {
            0 => "colours differ".into(),
            1 => "a free colour".into(),
            18.. => format!("walk, declined at {}", row - 2),
            _ => format!("walk, kept at {}", row - 2),
        }
    }

    fn note(&mut self, row: usize, clash: bool, kept: bool) {
        self.0[row][if kept { 2 } else { clash as usize }] += 1;
    }

    fn print(&self) {
        println!("{:24}{:>12}{:>12}{:>12}", "", "no clash", "a clash", "kept before");
        for (row, [no_clash, clash, kept]) in self.0.iter().enumerate() {
            println!("{:24}{no_clash:>12}{clash:>12}{kept:>12}", Self::name(row));
        }
    }
}

/// Single offers, half of them to tables that may have a clash.
fn offers(all: &mut Tally) {
    let mut part = Tally::default();
    let mut histogram = Histogram::default();
    let mut sizes = [0u64; 65];
    let r = &mut Random(200);
    while part.compared < 1_200_000 {
        let n = size(r);
        let mut t = sound(r, n, part.compared % 2 == 1);
        let p = pair(r, &t);
        sizes[n] += 1;
        if n < 2 {
            compare_offer(&mut part, &mut t, p);
            continue;
        }
        let (way, clash, kept) = (way(&t, p), t.clashes(), t.kept(p));
        let answer = compare_offer(&mut part, &mut t, p);
        histogram.note(Histogram::row(way, answer), clash, kept);
    }
    histogram.print();
    for (row, columns) in histogram.0.iter().enumerate() {
        // Where a pair was kept before and the colours are equal, the pair itself is the clash.
        for (column, count) in columns.iter().enumerate() {
            all.met(*count, || format!("{}, column {column}", Histogram::name(row)));
        }
    }
    for (n, count) in sizes.iter().enumerate() {
        all.met(*count, || format!("{n} splines"));
    }
    all.close("offers", part);
}

/// Offers with up to three faults: what is refused, by which number, and no byte changed.
fn refusals(all: &mut Tally) {
    let mut part = Tally::default();
    let mut alone = [[0u64; 4]; FAULTS.len()];
    let mut together = [0u64; 4];
    let mut sizes = [0u64; 80];
    let r = &mut Random(201);
    for _ in 0..400_000 {
        let n = if r.coin() { size(r) } else { r.below(6) as usize };
        let mut t = sound(r, n, true);
        let mut p = pair(r, &t);
        let faults = r.below(4);
        let mut fault = 0;
        for _ in 0..faults {
            fault = r.below(FAULTS.len() as u64) as usize;
            FAULTS[fault].1(r, &mut t, &mut p);
        }
        sizes[t.n()] += 1;
        let which = match compare_offer(&mut part, &mut t, p) {
            Answer::Refused(4) => 1,
            Answer::Refused(8) => 2,
            Answer::Refused(10) => 3,
            _ => 0,
        };
        together[which] += 1;
        if faults == 1 && n > 2 {
            alone[fault][which] += 1;
        }
    }
    println!("{:32}{:>10}{:>10}{:>10}{:>10}", "", "accepted", "4", "8", "10");
    for ((name, _), [accepted, four, eight, ten]) in FAULTS.iter().zip(alone) {
        println!("{name:32}{accepted:>10}{four:>10}{eight:>10}{ten:>10}");
        all.met(four + eight + ten, || format!("refused: {name}"));
    }
    let [accepted, four, eight, ten] = together;
    println!("{:32}{accepted:>10}{four:>10}{eight:>10}{ten:>10}", "up to three together");
    for (which, number) in [4, 8, 10].iter().enumerate() {
        all.met(together[1 + which], || format!("refused {number}"));
    }
    for n in [0, 1, 2, 63, 64, 65] {
        all.met(sizes[n], || format!("refusals, {n} splines"));
    }
    all.close("refusals", part);
}

/// Whole lists of offers, each made to the buffers as the one before left them.
fn lists(all: &mut Tally) {
    let mut part = Tally::default();
    let mut counts = [0u64; 3];
    let r = &mut Random(202);
    for number in 0..1600 {
        let n = size(r);
        let mut t = start(r, n, number % 4 == 0);
        let mut p = (0, 1);
        if number % 16 == 1 {
            // a table at fault in itself
            FAULTS[r.below(4) as usize].1(r, &mut t, &mut p);
        }
        let (mut coloring, mut edge_matrix) = (t.coloring.clone(), t.edge_matrix.clone());
        for p in list(r, n) {
            let code = try_add_edge(&mut coloring, &mut edge_matrix, p);
            let answer = offer(&mut t, p);
            counts[match answer {
                Answer::Kept(_) => 0,
                Answer::Declined(_) => 1,
                Answer::Refused(_) => 2,
            }] += 1;
            let agree =
                code == answer.code() && coloring == t.coloring && edge_matrix == t.edge_matrix;
            part.note(agree, || {
                format!("list {number}, offer {p:?}: {answer:?}, proved {code:#x}")
            });
            if !agree {
                break;
            }
        }
    }
    let [kept, declined, refused] = counts;
    println!("lists: {kept} kept, {declined} declined, {refused} refused");
    for count in counts {
        all.met(count, || "an answer in the lists".into());
    }
    all.close("lists of offers", part);
}

pub fn compare(all: &mut Tally) {
    offers(all);
    refusals(all);
    lists(all);
    clashes::compare(all);
}
