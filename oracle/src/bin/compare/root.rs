//! The root on patterns beside the processor's, a hundred million times.

use crate::Tally;
use crate::records::right;
use oracle::guess;
use oracle::leaves::{record, root_of_pattern};
use oracle::numbers::Random;
use oracle::roots::{KINDS, Kind};

/// Gives some 100,400,000 patterns.
const SCALE: u64 = 12_300;

/// The number of `sqrt_bits` among the leaves.
const SQRT_BITS: usize = 0;

/// The places of the pattern and of its root in a record.
const PATTERN: usize = 1;
const ROOT: usize = 6;

/// Of so many patterns one is tried with wrong answers too.
const RARE: u64 = 10_000;

/// Normal patterns whose exponent's field is odd, so that the power of two is even.
fn odd_exponents(r: &mut Random, scale: u64, each: &mut dyn FnMut(u64)) {
    (0..1000 * scale).for_each(|_| each((2 * r.below(1023) + 1) << 52 | r.next() >> 12));
}

fn even_exponents(r: &mut Random, scale: u64, each: &mut dyn FnMut(u64)) {
    (0..1000 * scale).for_each(|_| each((2 * r.below(1023) + 2) << 52 | r.next() >> 12));
}

const PARITIES: [(&str, Kind); 2] =
    [("odd exponents", odd_exponents), ("even exponents", even_exponents)];

/// What is counted of one class of patterns.
struct Class {
    /// One record, of which the pattern and the root are changed from call to call.
    record: [u64; 8],
    roots: Tally,
    /// Wrong answers, which must not be taken for right ones.
    wrong: Tally,
    /// Positive normal numbers, and those whose root the library's guess misses.
    guessed: u64,
    missed: u64,
}

impl Class {
    fn new() -> Self {
        let record = record(SQRT_BITS, &[0; 5], &[0; 2]);
        Class { record, roots: Tally::default(), wrong: Tally::default(), guessed: 0, missed: 0 }
    }

    fn is_root(&mut self, bits: u64, root: u64) -> bool {
        self.record[PATTERN] = bits;
        self.record[ROOT] = root;
        right(&self.record)
    }

    fn pattern(&mut self, bits: u64) {
        let root = root_of_pattern(bits);
        if self.roots.compared % RARE == 0 {
            self.wrong_answers(bits, root);
        }
        if f64::from_bits(bits).is_normal() && bits >> 63 == 0 {
            self.guessed += 1;
            self.missed += u64::from(!guess::is_right(bits));
        }
        let agree = self.is_root(bits, root);
        self.roots.note(agree, || format!("the root of {bits:016X}, not {root:016X}"));
    }

    /// The neighbours of the root, and one far away.
    fn wrong_answers(&mut self, bits: u64, root: u64) {
        for other in [root.wrapping_add(1), root.wrapping_sub(1), root ^ 1 << 62] {
            let told = !self.is_root(bits, other);
            self.wrong.note(told, || format!("{other:016X} is taken for the root of {bits:016X}"));
        }
    }
}

pub fn compare(all: &mut Tally) {
    assert!(guess::is_the_librarys(), "crates/math/src/sqrt.rt has another guess");
    let mut wrong = Tally::default();
    let (mut guessed, mut missed) = (0, 0);
    for (number, (name, kind)) in KINDS.into_iter().chain(PARITIES).enumerate() {
        let mut class = Class::new();
        kind(&mut Random(800 + number as u64), SCALE, &mut |bits| class.pattern(bits));
        all.close(&format!("root, {name}"), class.roots);
        wrong.add(class.wrong);
        guessed += class.guessed;
        missed += class.missed;
    }
    all.close("root, wrong answers told", wrong);
    println!("the guess was wrong for {missed} of {guessed} positive normal numbers");
}
