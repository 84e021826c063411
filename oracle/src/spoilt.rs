//! Records whose answer is not the source's, by one bit: a program that does not look at some of an answer takes
//! one of them for right.

use crate::directions::{FLAGS, PLACES};
use crate::edges::FUNCTIONS;
use crate::leaves::LEAVES;
use std::ops::Range;

fn word(record: &[u8], at: usize) -> u64 {
    u64::from_le_bytes(record[8 * at..8 * at + 8].try_into().unwrap())
}

/// The first bytes of the words of an answer, and the places of its single bytes.
#[derive(Default)]
struct Places {
    words: Vec<usize>,
    bytes: Vec<usize>,
}

impl Places {
    /// These words of the record, by their numbers.
    fn words(&mut self, words: Range<usize>) {
        self.words.extend(words.map(|at| 8 * at));
    }

    /// So many words from a byte on: the byte after them.
    fn words_from(&mut self, from: usize, count: usize) -> usize {
        self.words.extend((0..count).map(|i| from + 8 * i));
        from + 8 * count
    }

    fn bytes_from(&mut self, from: usize, count: usize) -> usize {
        self.bytes.extend(from..from + count);
        from + count
    }

    /// A word with the answer of a colouring, and its byte from which on the stand-ins are counted.
    fn colored(&mut self, word: usize) {
        self.words(word..word + 1);
        self.bytes.push(8 * word + 6);
    }
}

/// Where the answer of a record stands, by its number.
fn answer(record: &[u8]) -> Places {
    let mut places = Places::default();
    let size = |at: usize| word(record, at) as usize;
    match size(0) {
        f @ 0..32 => places.words(LEAVES[f].answer_words()),
        f @ 32..64 => places.words(FUNCTIONS[f - 32].answers.words()),
        64 => {
            let (n, m, offers) = (size(2), size(3), size(4));
            let first = 40 + n + m;
            places.words.extend((0..offers).map(|i| first + 24 * i + 16));
            places.bytes_from(first + 24 * offers, n + m);
        }
        69 => {
            let (file, text, parts) = (size(2), size(3), size(4));
            places.words(3..4);
            places.colored(5);
            places.words(6..7 + 2 * parts);
            places.bytes_from(56 + 16 * parts + file.next_multiple_of(8), text);
        }
        70 => {
            places.words(11..12);
            places.words(13..19);
            let (contours, edges, distances) = (size(4), size(5), size(3));
            let kinds = places.words_from(size(12), contours);
            let points = places.bytes_from(kinds, edges);
            places.words_from(points, 8 * edges + distances);
        }
        72 => {
            places.words(11..12);
            let edges = if size(11) >> 32 == 0 { size(11) } else { 0 };
            let list = places.bytes_from(size(12), FLAGS * edges);
            places.words_from(list, PLACES * edges);
        }
        _ => {
            places.colored(11);
            let edges = size(11) % 65536;
            let kinds = places.words_from(size(12), size(4));
            let points = places.bytes_from(kinds, 2 * edges);
            places.words_from(points, 8 * edges);
        }
    }
    places
}

/// The record with one bit of the answer changed: of each byte the lowest, of each word the lowest, where that
/// does not make one NaN of another, and one by which no NaN stays one.
pub fn spoilt(record: &[u8]) -> Vec<Vec<u8>> {
    let Places { words, bytes } = answer(record);
    let other = |at: usize, bit: u8| {
        let mut other = record.to_vec();
        other[at] ^= bit;
        other
    };
    let is_nan = |at: &usize| f64::from_le_bytes(record[*at..*at + 8].try_into().unwrap()).is_nan();
    let lowest = words.iter().filter(|at| !is_nan(at)).map(|&at| other(at, 1));
    let high = words.iter().map(|&at| other(at + 7, 1 << 6));
    lowest.chain(high).chain(bytes.iter().map(|&at| other(at, 1))).collect()
}
