//! Offers to tables with clashes, kept pairs of one colour.

use merelsplum::{Offer, Refusal, SplineTable};
use proptest::collection::vec;
use proptest::prelude::*;

type Pair = (usize, usize);

/// Splines of these colours, with these pairs kept, those of a spline with itself left out.
fn table(colors: &[u8], pairs: &[Pair]) -> SplineTable {
    let n = colors.len();
    let mut kept = vec![0; n * n];
    for &(a, b) in pairs.iter().filter(|(a, b)| a != b && *a < n && *b < n) {
        kept[a * n + b] = 1;
        kept[b * n + a] = 1;
    }
    SplineTable::from_parts(colors.to_vec(), kept)
}

fn clash(table: &SplineTable, (a, b): Pair) -> bool {
    table.is_kept(a, b) && table.colors()[a] == table.colors()[b]
}

fn clashes(table: &SplineTable) -> Vec<Pair> {
    let n = table.colors().len();
    (0..n).flat_map(|a| (0..a).map(move |b| (a, b))).filter(|&pair| clash(table, pair)).collect()
}

/// The answers to a list of offers, and the table after the last.
fn run(table: &SplineTable, offers: &[Pair]) -> (Vec<Result<Offer, Refusal>>, SplineTable) {
    let mut table = table.clone();
    let answers = offers.iter().map(|&(a, b)| table.offer(a, b)).collect();
    (answers, table)
}

/// Tables of up to 12 splines, most of them with clashes, and a list of offers.
fn tables_and_offers() -> impl Strategy<Value = (SplineTable, Vec<Pair>)> {
    let pairs = |most| vec((0usize..12, 0usize..12), 0..most);
    (vec(0u8..3, 2..=12), pairs(80), pairs(60)).prop_map(|(colors, kept, offers)| (table(&colors, &kept), offers))
}

proptest! {
    #![proptest_config(ProptestConfig::with_cases(4000))]

    /// Two splines that clash after a list of offers clashed before it, and no offer of them was kept.
    #[test]
    fn none_comes((first, offers) in tables_and_offers()) {
        let mut table = first.clone();
        for (a, b) in offers {
            let before = clashes(&table);
            let answer = table.offer(a, b);
            prop_assert!(clashes(&table).iter().all(|pair| before.contains(pair)), "{first:?}, offer {a} {b}");
            if let Ok(Offer::Kept { .. }) = answer {
                prop_assert!(table.is_kept(a, b) && !clash(&table, (a, b)), "{first:?}, offer {a} {b}");
            }
        }
    }

    /// Of a list in which no offer drops its pair, declined and refused offers can be left out.
    #[test]
    fn left_out((first, drawn) in tables_and_offers(), marks in vec(any::<bool>(), 60)) {
        let mut table = first.clone();
        let mut offers = vec![];
        for (a, b) in drawn {
            let mut next = table.clone();
            let dropped = next.offer(a, b).is_ok() && table.is_kept(a, b) && !next.is_kept(a, b);
            prop_assert!(!dropped || clash(&table, (a, b)), "{first:?}, offer {a} {b}");
            if !dropped {
                table = next;
                offers.push((a, b));
            }
        }
        let (answers, last) = run(&first, &offers);
        prop_assert_eq!(&last, &table);
        let stays = |(answer, mark): (&Result<Offer, Refusal>, &bool)| !mark || matches!(answer, Ok(Offer::Kept { .. }));
        let left: Vec<bool> = answers.iter().zip(&marks).map(stays).collect();
        let others: Vec<Pair> = offers.iter().zip(&left).filter(|(_, left)| **left).map(|(pair, _)| *pair).collect();
        let expected: Vec<_> = answers.iter().zip(&left).filter(|(_, left)| **left).map(|(answer, _)| *answer).collect();
        prop_assert_eq!(run(&first, &others), (expected, last));
    }
}

/// 0, 1, 2 and 3 are all kept apart, and 0 and 1 clash.
const FOUR: [Pair; 6] = [(0, 1), (0, 2), (0, 3), (1, 2), (1, 3), (2, 3)];

/// An offer of two splines that clash drops their pair, and the next is answered otherwise than without it.
#[test]
fn dropped() {
    let first = table(&[0, 0, 1, 2, 0], &FOUR);
    let (answers, last) = run(&first, &[(0, 1), (4, 0)]);
    assert_eq!(answers, [Ok(Offer::Declined { steps: 17 }), Ok(Offer::Kept { steps: 1 })]);
    assert_eq!(last, table(&[1, 1, 0, 2, 0], &[(0, 2), (0, 3), (0, 4), (1, 2), (1, 3), (2, 3)]));
    assert_eq!(run(&first, &[(4, 0)]), (vec![Ok(Offer::Declined { steps: 17 })], first));
}

/// Offers beside a clash that leave it as it is: two kept, one refused, and one declined, which drops nothing.
#[test]
fn beside() {
    let first = table(&[0, 0, 1, 2, 0], &FOUR);
    let (answers, last) = run(&first, &[(4, 2), (4, 3), (4, 4), (4, 0)]);
    let kept = Ok(Offer::Kept { steps: 0 });
    assert_eq!(answers, [kept, kept, Err(Refusal::BadTable), Ok(Offer::Declined { steps: 17 })]);
    assert_eq!(clashes(&first), [(1, 0)]);
    assert_eq!(clashes(&last), [(1, 0)]);
}
