//! Offers of all pairs to a spline table, whose neighbours in a ring are kept. The proved code checks
//! the whole table at every offer.

use super::clock::pass;
use super::{Race, Row, Table};
use crate::tables::try_add_edge;
use oracle::given::probe;
use oracle::numbers::Random;
use oracle::tables::{self, Pair, all_pairs, ring};
use std::hint::black_box;

/// A table, and what is offered to it, one after the other.
type List = (tables::Table, Vec<Pair>);

pub fn table() -> Table {
    let sizes = [(8, 1000, 200), (16, 1000, 100), (32, 512, 40), (64, 256, 10)];
    let mut rows: Vec<Row> = sizes
        .map(|(n, timed, counted)| {
            let race = Box::new(move |count| race(lists(n, count)));
            Row { name: format!("all pairs of {n} splines"), timed, counted, race }
        })
        .into();
    rows.push(Row {
        name: "a kept pair of 64 splines: the checks".into(),
        timed: 256,
        counted: 10,
        race: Box::new(|count| race(lists(64, count).into_iter().map(kept).collect())),
    });
    Table { title: "Offers to a spline table", input: "list", part: "offer", rows }
}

fn lists(n: usize, count: usize) -> Vec<List> {
    let r = &mut Random(203);
    (0..count).map(|_| (ring(r, n), all_pairs(r, n))).collect()
}

/// As many offers of one pair, which is kept and has two colours: the checks, and next to nothing else.
fn kept((table, pairs): List) -> List {
    let pair = *pairs.iter().find(|&&pair| table.kept(pair)).unwrap();
    (table, vec![pair; pairs.len()])
}

fn offer_proved((table, pairs): &mut List) {
    for &pair in pairs.iter() {
        black_box(try_add_edge(&mut table.coloring, &mut table.edge_matrix, pair));
    }
}

/// A list with the numbers as the source has them.
type SourceList = (Vec<i32>, Vec<i32>, Vec<Pair>);

fn source_list((table, pairs): &List) -> SourceList {
    let wide = |bytes: &[u8]| bytes.iter().map(|&x| x as i32).collect();
    (wide(&table.coloring), wide(&table.edge_matrix), pairs.clone())
}

/// With the buffer that `edge_coloring_by_distance` allocates for all its offers.
fn offer_source((coloring, matrix, pairs): &mut SourceList) {
    let n = coloring.len();
    probe::offers(black_box(coloring), matrix, n, pairs);
}

fn race(lists: Vec<List>) -> Race {
    let sources: Vec<SourceList> = lists.iter().map(source_list).collect();
    for (list, source) in lists.iter().zip(&sources) {
        let (mut list, mut source) = (list.clone(), source.clone());
        offer_proved(&mut list);
        offer_source(&mut source);
        assert!(source_list(&list) == source, "the two end in different tables");
    }
    Race {
        inputs: lists.len(),
        parts: lists.iter().map(|list| list.1.len()).sum(),
        proved: Box::new(move || pass(&lists, offer_proved)),
        rust: Box::new(move || pass(&sources, offer_source)),
    }
}
