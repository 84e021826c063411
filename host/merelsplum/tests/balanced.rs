//! Teardrops, contours with one corner: how their edges are divided in three runs, by the source's rule and balanced.

use merelsplum::job::{self, Job, Strategy};
use merelsplum::{
    Collected, Colored, Edge, EdgeColor, Outline, Refusal, balanced, collect_splines, edge_coloring_by_distance,
    edge_coloring_ink_trap, edge_coloring_simple,
};

const THRESHOLD: f64 = 0.125;
const STRATEGIES: [Strategy; 3] = [Strategy::Simple, Strategy::InkTrap, Strategy::ByDistance];

/// A contour of lines that turn a little each, and far from the last to the first.
fn drop(edges: usize) -> Vec<Edge> {
    let turn = 0.1f64.min(3.0 / (edges as f64 - 1.0));
    let line = |i: usize| {
        let (y, x) = (turn * i as f64).sin_cos();
        Edge::Line([[0.0, 0.0], [x, y]])
    };
    (0..edges).map(line).collect()
}

/// One drop whose corner is at a place, with what its strategy needs.
fn job(strategy: Strategy, balanced: bool, edges: usize, corner: usize) -> Job {
    let mut contour = drop(edges);
    contour.rotate_right(corner);
    let distances = if strategy == Strategy::ByDistance { vec![0.0] } else { vec![] };
    Job { strategy, seed: 5, threshold: THRESHOLD, balanced, outline: Outline::from(vec![contour]), distances }
}

/// By the function of the division that the job asks for.
fn color(job: &Job) -> Result<Colored, Refusal> {
    let Job { outline, distances, .. } = job;
    match (job.strategy, job.balanced) {
        (Strategy::Simple, false) => edge_coloring_simple(outline, job.threshold, job.seed),
        (Strategy::Simple, true) => balanced::edge_coloring_simple(outline, job.threshold, job.seed),
        (Strategy::InkTrap, false) => edge_coloring_ink_trap(outline, job.threshold, job.seed),
        (Strategy::InkTrap, true) => balanced::edge_coloring_ink_trap(outline, job.threshold, job.seed),
        (Strategy::ByDistance, false) => edge_coloring_by_distance(outline, job.threshold, job.seed, distances),
        (Strategy::ByDistance, true) => balanced::edge_coloring_by_distance(outline, job.threshold, job.seed, distances),
    }
}

fn collect(outline: &Outline, balanced: bool) -> Result<Collected, Refusal> {
    if balanced { balanced::collect_splines(outline, THRESHOLD) } else { collect_splines(outline, THRESHOLD) }
}

/// How many places are in each run.
fn expected(edges: usize, balanced: bool) -> [usize; 3] {
    let (first, last) = (15 * (edges - 1), 31 * (edges - 1));
    let run = |p: &usize| match 46 * p {
        at if at < first => 0,
        at if at < last || (balanced && at == last) => 1,
        _ => 2,
    };
    [0, 1, 2].map(|wanted| (0..edges).filter(|p| run(p) == wanted).count())
}

/// The lengths of a contour's runs from its corner on, of which the second alone is White or has no spline.
fn runs<T: Copy + PartialEq>(contour: &[(Edge, T)], corner: usize, middle: T) -> [usize; 3] {
    let mut values: Vec<T> = contour.iter().map(|edge| edge.1).collect();
    values.rotate_left(corner);
    let runs: Vec<&[T]> = values.chunk_by(|a, b| a == b).collect();
    assert!(runs.len() == 3 && runs[0][0] != middle && runs[1][0] == middle && runs[2][0] != middle);
    [runs[0].len(), runs[1].len(), runs[2].len()]
}

#[test]
fn the_rule() {
    assert_eq!([expected(47, false), expected(47, true)], [[15, 16, 16], [15, 17, 15]]);
    let mut differ = Vec::new();
    for edges in 3..=256 {
        let [[first, middle, last], [start, _, end]] = [true, false].map(|balanced| expected(edges, balanced));
        assert!(first == last && first + middle + last == edges, "{edges}");
        if start != end {
            differ.push(edges);
        }
    }
    assert_eq!(differ, [47, 93, 139, 185, 231]);
}

/// In every strategy, with the corner at three places, by the functions and from a file.
#[test]
fn runs_of_every_length() {
    for edges in 3..=256 {
        for balanced in [false, true] {
            for corner in [0, 1, 2 * edges / 3] {
                for strategy in STRATEGIES {
                    let job = job(strategy, balanced, edges, corner);
                    let colored = job.color().unwrap();
                    let found = runs(&colored.contours[0], corner, EdgeColor::White);
                    assert_eq!(found, expected(edges, balanced), "{strategy:?}, {edges}, {balanced}, {corner}");
                    assert_eq!(color(&job), Ok(colored.clone()), "{strategy:?}, {edges}, {balanced}, {corner}");
                    let file = job.to_bytes();
                    assert_eq!(job::color(&file), Ok(colored));
                    assert_eq!(Job::read(&file), Ok(job));
                }
                let collected = collect(&job(Strategy::Simple, balanced, edges, corner).outline, balanced).unwrap();
                assert_eq!(collected.splines, 2);
                assert_eq!(
                    runs(&collected.contours[0], corner, None),
                    expected(edges, balanced),
                    "{edges}, {balanced}, {corner}"
                );
            }
        }
    }
}

/// All other edges are as they were: of contours without a corner, with several and with fewer than three edges too.
#[test]
fn nothing_else_changes() {
    let square = Outline::polygon(&[[0.0, 0.0], [1.0, 0.0], [1.0, 1.0], [0.0, 1.0]]).contours.concat();
    let ring: Vec<Edge> = drop(47).into_iter().map(|_| Edge::Line([[0.0, 0.0], [1.0, 0.0]])).collect();
    let bow = Edge::Cubic([[0.0, 0.0], [3.0, 3.0], [-3.0, 3.0], [0.0, 0.0]]);
    let outline = Outline::from(vec![drop(47), square, vec![], ring, drop(48), vec![bow], drop(93)]);
    let splines = collect(&outline, false).unwrap().splines;
    let distances: Vec<f64> = (0..splines * (splines - 1) / 2).map(|i| (i * 7 % 5) as f64).collect();
    for strategy in STRATEGIES {
        let distances = if strategy == Strategy::ByDistance { distances.clone() } else { vec![] };
        let job = |balanced: bool| {
            let (outline, distances) = (outline.clone(), distances.clone());
            Job { strategy, seed: 77, threshold: THRESHOLD, balanced, outline, distances }
        };
        let [mut source, balanced] = [false, true].map(|balanced| job(balanced).color().unwrap());
        for (contour, place) in [(0, 31), (6, 62)] {
            assert_ne!(source.contours[contour][place].1, EdgeColor::White, "{strategy:?}");
            source.contours[contour][place].1 = EdgeColor::White;
        }
        assert_eq!(source, balanced, "{strategy:?}");
    }
    let [mut source, balanced] = [false, true].map(|balanced| collect(&outline, balanced).unwrap());
    [(0, 31), (6, 62)].into_iter().for_each(|(contour, place)| source.contours[contour][place].1 = None);
    assert_eq!(source, balanced);
}

#[test]
fn refusals() {
    let (good, long) = (Outline::from(vec![drop(47)]), Outline::from(vec![drop(257)]));
    for (outline, threshold, refusal) in
        [(&good, 1.5, Refusal::BadThreshold), (&good, f64::NAN, Refusal::BadThreshold), (&long, 1.5, Refusal::TooMany)]
    {
        assert_eq!(balanced::edge_coloring_simple(outline, threshold, 0), Err(refusal));
        assert_eq!(balanced::edge_coloring_ink_trap(outline, threshold, 0), Err(refusal));
        assert_eq!(balanced::edge_coloring_by_distance(outline, threshold, 0, &[1.0]), Err(refusal));
        assert_eq!(balanced::collect_splines(outline, threshold), Err(refusal));
    }
    for (distances, refusal) in [(&[] as &[f64], Refusal::LengthMismatch), (&[-1.0], Refusal::BadDistance)] {
        assert_eq!(balanced::edge_coloring_by_distance(&good, THRESHOLD, 0, distances), Err(refusal));
    }
}

/// `BL` stands once, directly after `JB`, and nowhere else.
#[test]
fn the_record() {
    let [with, without] = [true, false].map(|balanced| job(Strategy::ByDistance, balanced, 3, 0).to_bytes());
    let put = |file: &[u8], at: usize| [&file[..at], b"BL", &file[at..]].concat();
    assert_eq!(with, put(&without, 19));
    // before JB; after CT, an edge, all edges, the distances and EN
    for at in [0, 21, 21 + 34, 21 + 3 * 34, without.len() - 2, without.len()] {
        let file = put(&without, at);
        assert_eq!(Job::read(&file), Err(Refusal::MisplacedMark), "{at}");
        assert_eq!(job::listing(&file), "refused 3\n", "{at}");
        // and where it stands at its place too
        let file = put(&with, if at == 0 { 0 } else { at + 2 });
        assert_eq!(job::check(&file), Err(Refusal::MisplacedMark), "{at}");
    }
    for at in [19, 21] {
        assert_eq!(job::color(&put(&with, at)), Err(Refusal::MisplacedMark), "twice");
    }
    assert_eq!([19, 20, 21].map(|end| Job::read(&with[..end])), [const { Err(Refusal::Truncated) }; 3]);
    assert_eq!(job::contour_part(&with, 0), &with[21..with.len() - 14]);
    // an earlier fault decides
    let mut file = put(&with, 21);
    file[2] = 4;
    assert_eq!(Job::read(&file), Err(Refusal::UnknownKind));
}
