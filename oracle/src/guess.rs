//! The library's guess at a root and its check (`guess`, `last_digits` and `check` of
//! crates/math/src/sqrt.rt), written down once more, to count how often the guess is wrong: the
//! library's answer is right either way.

/// 2^52: the weight of the exponent's field.
const LEADING: u64 = 1 << 52;

/// The number whose root is taken, and the pattern of a number from 1 to 4 that stands for it.
struct Scaled {
    n: u64,
    pattern: u64,
}

fn scaled(bits: u64) -> Scaled {
    let exponent = bits / LEADING + 51;
    let pattern = (bits + LEADING) % (2 * LEADING) + 0x3FF0_0000_0000_0000;
    Scaled { n: (LEADING + bits % LEADING) << (exponent % 2), pattern }
}

fn guess(pattern: u64) -> (u64, u64) {
    let x = f64::from_bits(pattern);
    let s = f64::from_bits(0x5FE4_7000_0000_0000 - pattern / 2);
    let t = x * s;
    let q = t * s;
    let a = 1.3823395593306638 - 0.7072240868973412 * q;
    let b = (q - 2.6700127110597904) * q + 2.7608418634089746;
    let c = q * q + (0.7810959954809049 - 0.423225970783984 * q);
    let bc = b * c;
    let root = (t * a * bc + 2097151.999999999068677425384521484375).to_bits() % 0x1_0000_0000;
    let inverse = (s * a * bc + 16777215.999999992549419403076171875).to_bits() % 0x2000_0000;
    (root, inverse)
}

/// Whether the check lets the guess pass, for a positive normal number.
pub fn is_right(bits: u64) -> bool {
    let Scaled { n, pattern } = scaled(bits);
    let (h, inverse) = guess(pattern);
    let a = (n * 0x400).wrapping_sub(h * h);
    if a >= 0x8_0000_0000 {
        return false;
    }
    let l = a * inverse / 0x80_0000_0000;
    let b = (a * 0x10_0000).wrapping_sub(h * l);
    if b >= 0x10_0000_0000 {
        return false;
    }
    let rem = (b * 0x40_0000).wrapping_sub(l * l);
    rem <= 3 * (h * 0x20_0000 + l) + 2
}

/// Whether each number of the guess and its check above stands in the library's own text.
pub fn is_the_librarys() -> bool {
    let library = include_str!("../../crates/math/src/sqrt.rt");
    let here = include_str!("guess.rs");
    let text = here.split("fn guess").nth(1).unwrap().split("/// Whether each").next().unwrap();
    let words = text.split(|c: char| !(c.is_ascii_alphanumeric() || c == '.' || c == '_'));
    let mut numbers = words.filter(|word| word.starts_with(|c: char| c.is_ascii_digit()));
    numbers.all(|number| library.contains(number))
}
