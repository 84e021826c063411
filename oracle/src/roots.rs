//! Patterns for the square root, by kind.

use crate::numbers::{Random, SPECIAL};

const DIGITS: u64 = 0x000F_FFFF_FFFF_FFFF;

pub type Kind = fn(&mut Random, u64, &mut dyn FnMut(u64));

/// The kinds of patterns; each hands out some `scale` thousand of them.
pub const KINDS: [(&str, Kind); 7] = [
    ("special", special),
    ("random", random),
    ("exponents", exponents),
    ("subnormals", subnormals),
    ("squares", squares),
    ("rounded squares", rounded_squares),
    ("midpoints", midpoints),
];

fn special(_: &mut Random, _: u64, each: &mut dyn FnMut(u64)) {
    each(0x4000_0000_0000_0000);
    SPECIAL.iter().for_each(|&b| each(b));
}

fn random(r: &mut Random, scale: u64, each: &mut dyn FnMut(u64)) {
    for _ in 0..1000 * scale {
        each(r.next());
    }
}

/// Every exponent with both signs: the first and last significands, and random ones.
fn exponents(r: &mut Random, scale: u64, each: &mut dyn FnMut(u64)) {
    for exponent in 0..2048u64 {
        for sign in 0..2u64 {
            let base = (sign << 63) | (exponent << 52);
            for digits in [0, 1, 2, DIGITS >> 1, (DIGITS >> 1) + 1, DIGITS - 1, DIGITS] {
                each(base | digits);
            }
            for _ in 0..scale / 4 {
                each(base | (r.next() & DIGITS));
            }
        }
    }
}

/// Every size of a subnormal: its lowest, its highest and random ones.
fn subnormals(r: &mut Random, scale: u64, each: &mut dyn FnMut(u64)) {
    for size in 0..52 {
        let lowest = 1u64 << size;
        each(lowest);
        each(2 * lowest - 1);
        for _ in 0..20 * scale {
            each(lowest | (r.next() & (lowest - 1)));
        }
    }
}

/// Squares of numbers of 1 to 26 binary digits, at even powers of two, subnormal ones too, and
/// their neighbours.
fn squares(r: &mut Random, scale: u64, each: &mut dyn FnMut(u64)) {
    for size in 0..538 {
        let root = power_of_two(-size);
        around((root * root).to_bits(), 1, each);
    }
    for _ in 0..200 * scale {
        let size = r.below(26);
        let n = (1u64 << size) | (r.next() & ((1u64 << size) - 1));
        around(n * n, 1, each);
        let power = power_of_two(r.below(960) as i32 - 500);
        around(((n * n) as f64 * power * power).to_bits(), 1, each);
    }
}

/// Rounded squares of doubles, and their neighbours.
fn rounded_squares(r: &mut Random, scale: u64, each: &mut dyn FnMut(u64)) {
    for _ in 0..300 * scale {
        let y = f64::from_bits((r.below(1022) + 512) << 52 | (r.next() & DIGITS));
        around((y * y).to_bits(), 1, each);
    }
}

/// The doubles about the square of a midpoint between two doubles.
fn midpoints(r: &mut Random, scale: u64, each: &mut dyn FnMut(u64)) {
    for _ in 0..200 * scale {
        let y = match r.below(4) {
            0 => (1u64 << 52) + r.below(1 << 12),
            1 => (1u64 << 53) - 1 - r.below(1 << 12),
            _ => (1u64 << 52) | (r.next() & DIGITS),
        } as u128;
        let square = (2 * y + 1) * (2 * y + 1);
        let size = 128 - square.leading_zeros();
        let top = (square >> (size - 53)) as u64 & DIGITS;
        // The exponent's field is odd where the power of two is even.
        let exponent = 2 * r.below(1022) + 1 + (size as u64 - 1) % 2;
        around(exponent << 52 | top, 2, each);
    }
}

/// For a normal one.
fn power_of_two(exponent: i32) -> f64 {
    f64::from_bits(((exponent + 1023) as u64) << 52)
}

fn around(bits: u64, reach: u64, each: &mut dyn FnMut(u64)) {
    for b in bits.saturating_sub(reach)..=bits + reach {
        each(b);
    }
}
