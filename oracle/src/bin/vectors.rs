//! Writes the files `stdin` and `stdout` of the program `replay`, in the folder that is named:
//! `vectors ../crates/replay`.

use oracle::spoilt::spoilt;
use oracle::tables::{self, Run};
use oracle::{direction_sample, edges, job_sample, leaves, shape_sample};
use std::path::Path;

/// The records, and the counts that the program prints when every answer is as the source's.
#[derive(Default)]
struct Recording {
    records: Vec<u8>,
    counts: String,
}

impl Recording {
    /// A part: a word of ones, a name of 16 bytes, and the records, of which so many are right.
    fn part(&mut self, name: &str, records: &[Vec<u8>], right: usize) {
        let name = format!("{name:<16}");
        assert_eq!(name.len(), 16, "a name too long: {name}");
        assert!(!records.is_empty(), "no record: {name}");
        self.records.extend(u64::MAX.to_le_bytes());
        self.records.extend(name.bytes());
        self.records.extend(records.concat());
        self.counts += &format!("{name}{right} of {}\n", records.len());
    }

    /// Parts with the source's answers; then some records with their answers spoilt and some with wrong ones, none of
    /// them right.
    fn parts(
        &mut self,
        name: &str,
        parts: Vec<(String, Vec<Vec<u8>>)>,
        to_spoil: &[Vec<u8>],
        wrong: &[Vec<u8>],
    ) {
        for (name, records) in &parts {
            self.part(name, records, records.len());
        }
        let spoilt = to_spoil.iter().flat_map(|record| spoilt(record));
        let spoilt: Vec<_> = spoilt.chain(wrong.iter().cloned()).collect();
        self.part(&format!("spoilt {name}"), &spoilt, 0);
    }
}

fn bytes(words: &[u64]) -> Vec<u8> {
    words.iter().flat_map(|w| w.to_le_bytes()).collect()
}

/// The first record of each part.
fn firsts(parts: &[(String, Vec<Vec<u8>>)]) -> Vec<Vec<u8>> {
    parts.iter().map(|(_, records)| records[0].clone()).collect()
}

fn math() -> Vec<(String, Vec<Vec<u8>>)> {
    let part = |(number, leaf): (usize, &leaves::Leaf)| {
        let sample = leaves::sample(number);
        let records = sample.iter().map(|(i, o)| bytes(&leaves::record(number, i, o)));
        (leaf.name.to_string(), records.collect())
    };
    leaves::LEAVES.iter().enumerate().map(part).collect()
}

fn geometry() -> Vec<(String, Vec<Vec<u8>>)> {
    let part = |(number, function): (usize, &edges::Function)| {
        let vectors = function.vectors(number);
        let records = vectors.iter().map(|(i, o)| bytes(&edges::record(number, i, o)));
        (function.name.to_string(), records.collect())
    };
    edges::FUNCTIONS.iter().enumerate().map(part).collect()
}

/// A run of offers: 64, the record's bytes, how many colours, entries and offers; the two buffers; a, b
/// and the answer of each offer; the two buffers after the last.
fn run(Run { before, offers, after }: &Run) -> Vec<u8> {
    let (n, m) = (before.coloring.len(), before.edge_matrix.len());
    let size = 40 + 2 * (n + m) + 24 * offers.len();
    let mut record = bytes(&[64, size as u64, n as u64, m as u64, offers.len() as u64]);
    record.extend([&before.coloring[..], &before.edge_matrix].concat());
    for ((a, b), answer) in offers {
        record.extend(bytes(&[*a as u64, *b as u64, answer.code()]));
    }
    record.extend([&after.coloring[..], &after.edge_matrix].concat());
    record
}

fn offers() -> Vec<(String, Vec<Vec<u8>>)> {
    let part = |(name, runs): (String, Vec<Run>)| (name, runs.iter().map(run).collect());
    tables::sample().into_iter().map(part).collect()
}

fn main() {
    let Some(folder) = std::env::args().nth(1) else {
        eprintln!("usage: vectors FOLDER");
        std::process::exit(2);
    };
    let mut out = Recording::default();
    let (math, geometry, offers) = (math(), geometry(), offers());
    let (math_firsts, geometry_firsts) = (firsts(&math), firsts(&geometry));
    let square = [offers[0].1[0].clone()];
    out.parts("math", math, &math_firsts, &[]);
    out.parts("geometry", geometry, &geometry_firsts, &[]);
    out.parts("offers", offers, &square, &[]);
    out.parts("colours", shape_sample::sample(), &shape_sample::small_records(), &[]);
    let wrong = job_sample::wrong_records();
    out.parts("jobs", job_sample::sample(), &job_sample::small_records(), &wrong);
    out.parts("dir", direction_sample::sample(), &direction_sample::small_records(), &[]);
    let folder = Path::new(&folder);
    std::fs::write(folder.join("stdin"), &out.records).unwrap();
    std::fs::write(folder.join("stdout"), &out.counts).unwrap();
}
