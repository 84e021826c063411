//! Records of single calls, as the replay programs have them: whether the proved code answers as
//! recorded.

use std::ops::Range;

#[link(name = "vectors", kind = "static")]
unsafe extern "C" {
    fn vectors_right(record: *const u8, len: usize) -> u64;
}

/// Whether the answer is as recorded. Words lie in memory as a record has them, the lowest byte first.
pub fn right(words: &[u64]) -> bool {
    const { assert!(cfg!(target_endian = "little")) };
    unsafe { vectors_right(words.as_ptr().cast(), 8 * words.len()) == 1 }
}

/// Bits to change in an answer: the lowest, by which a flag is the other one, and one by which no NaN stays a NaN.
const BITS: [u64; 2] = [1, 1 << 62];

/// What is wrong with a record whose answer stands in the words `answer`: it is not right; or it stays right
/// with one bit of one of these words changed.
pub fn fault(record: &[u64], answer: Range<usize>) -> Option<String> {
    if !right(record) {
        return Some("another answer".to_string());
    }
    let mut other = record.to_vec();
    for at in answer {
        for bit in BITS {
            other[at] = record[at] ^ bit;
            if right(&other) && !both_nan(record[at], other[at]) {
                return Some(format!("word {at} may be {:016X}", other[at]));
            }
        }
        other[at] = record[at];
    }
    None
}

/// One NaN is as good as another.
fn both_nan(a: u64, b: u64) -> bool {
    f64::from_bits(a).is_nan() && f64::from_bits(b).is_nan()
}
