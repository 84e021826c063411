//! How many directions had no length, as every entry that colours counts them.

use merelsplum::job::{self, Checked, Job, Strategy};
use merelsplum::{Edge, Outline, Point, Refusal, balanced, collect_splines, edge_coloring_simple, edge_directions};

const A: Point = [7.0, -7.0];
const B: Point = [10.0, -11.0];

/// A line, a quadratic and a cubic that are a point.
const POINTS: [Edge; 3] = [Edge::Line([A; 2]), Edge::Quadratic([A; 3]), Edge::Cubic([A; 4])];

/// A cubic without a direction at its start, and one without at its end.
const STARTS: Edge = Edge::Cubic([A, A, A, B]);
const ENDS: Edge = Edge::Cubic([A, B, B, B]);

/// The stand-ins that all entries count; their results are the same, or the test fails.
fn counted(contours: &[&[Edge]], threshold: f64) -> usize {
    let outline = Outline::from(contours.iter().map(|edges| edges.to_vec()).collect::<Vec<_>>());
    let collected = collect_splines(&outline, threshold).unwrap();
    let pairs = collected.splines * collected.splines.saturating_sub(1) / 2;
    let strategies = [(Strategy::Simple, 0), (Strategy::InkTrap, 0), (Strategy::ByDistance, pairs)];
    for ((strategy, pairs), balanced) in strategies.into_iter().flat_map(|strategy| [(strategy, false), (strategy, true)]) {
        let job = Job { strategy, seed: 5, threshold, balanced, outline: outline.clone(), distances: vec![1.0; pairs] };
        let (file, colored) = (job.to_bytes(), job.color().unwrap());
        assert_eq!(colored.stand_ins, collected.stand_ins, "{strategy:?}");
        assert_eq!(job::color(&file), Ok(colored.clone()), "{strategy:?}");
        let edges = colored.edge_count();
        assert_eq!(job::check(&file), Ok(Checked { edges, stand_ins: colored.stand_ins }), "{strategy:?}");
        let end = format!("edges {edges}\nstandins {}\n", colored.stand_ins);
        assert!(job::listing(&file).ends_with(&end), "{strategy:?}: {}", job::listing(&file));
    }
    assert_eq!(balanced::collect_splines(&outline, threshold).unwrap().stand_ins, collected.stand_ins);
    let directions = edge_directions(&outline).unwrap();
    let flags = directions.iter().flatten().flat_map(|d| [d.start, d.end]).filter(|d| d.stand_in);
    assert_eq!(flags.count(), collected.stand_ins);
    collected.stand_ins
}

#[test]
fn none() {
    assert_eq!(counted(&[], 0.125), 0);
    assert_eq!(counted(&[&[], &[], &[]], 0.125), 0);
    // one of its sides goes straight up
    let square = Outline::polygon(&[[0.0, 0.0], [1.0, 0.0], [1.0, 1.0], [0.0, 1.0]]);
    assert_eq!(counted(&[&square.contours[0]], 0.125), 0);
    // the next control point has a direction
    assert_eq!(counted(&[&[Edge::Quadratic([A, A, B]), Edge::Cubic([B, B, A, A])]], 0.125), 0);
}

#[test]
fn each_end_by_itself() {
    assert_eq!(counted(&[&[STARTS]], 0.125), 1);
    assert_eq!(counted(&[&[ENDS]], 0.125), 1);
    POINTS.iter().for_each(|&edge| assert_eq!(counted(&[&[edge]], 0.125), 2));
    let doubled = Outline::polygon(&[[0.0, 0.0], [1.0, 0.0], [1.0, 0.0], [1.0, 1.0], [0.0, 1.0]]);
    assert_eq!(counted(&[&doubled.contours[0]], 0.125), 2);
    let short = Edge::Line([[0.0, 0.0], [2f64.powi(-600), 0.0]]);
    assert_eq!(counted(&[&[short]], 0.125), 2);
}

#[test]
fn all_contours() {
    assert_eq!(counted(&[&POINTS, &[], &[STARTS, ENDS], &[], &[ENDS]], 0.125), 6 + 2 + 1);
    let line = Edge::Line([A, B]);
    assert_eq!(counted(&[&[line; 5], &[line, line, ENDS]], 0.125), 1);
}

/// Below 0 every joint is a corner: these contours are split in thirds, and what is given counts.
#[test]
fn before_the_split() {
    let points: Vec<&[Edge]> = POINTS.iter().map(std::slice::from_ref).collect();
    assert_eq!(collect_splines(&Outline::from(vec![POINTS[..1].to_vec()]), -0.5).unwrap().contours[0].len(), 3);
    assert_eq!(counted(&points, -0.5), 6);
    assert_eq!(counted(&[&[ENDS]], -1.0), 1);
}

/// So many that the count would reach the refusal's bit were it 23 bits up.
#[test]
fn as_many_as_there_can_be() {
    for edge in POINTS {
        assert_eq!(counted(&[&[edge; 256]], 0.125), 512);
        assert_eq!(counted(&[[edge; 4].as_slice(); 64], 0.125), 512);
        let outline = |edges: usize| Outline::from(vec![vec![edge; edges]]);
        assert_eq!(edge_coloring_simple(&outline(257), 0.125, 0), Err(Refusal::TooMany));
        assert_eq!(edge_coloring_simple(&outline(256), 1.5, 0), Err(Refusal::BadThreshold));
    }
}
