//! Random input, coloured through this crate and by the Rust of docs/src, balanced teardrops by a copy of it with that
//! division: the same, bit for bit, or the refusal that is due.

use merelsplum::job::{self, Checked, Job};
use merelsplum::{
    Colored, Direction, Edge, Offer, Outline, Point, Refusal, SplineTable, collect_splines, edge_coloring_by_distance,
    edge_coloring_simple, edge_directions,
};
use oracle::geometry::{Contour, EdgeSegment, Shape};
use oracle::given;
use oracle::math::Vector2;
use proptest::array::uniform4;
use proptest::collection::vec;
use proptest::prelude::*;

// ---- input

fn coordinate() -> impl Strategy<Value = f64> {
    prop_oneof![
        6 => (-3i32..=3).prop_map(f64::from),
        3 => -1_048_576.0..=1_048_576.0,
        1 => prop_oneof![Just(-0.0), Just(5e-324), Just(1e-180), Just(1_048_576.0)],
    ]
}

fn point() -> impl Strategy<Value = Point> {
    [coordinate(), coordinate()]
}

/// An edge of a kind from the points that it needs.
fn from_points(kind: u8, [a, b, c, d]: [Point; 4]) -> Edge {
    match kind {
        1 => Edge::Line([a, b]),
        2 => Edge::Quadratic([a, b, c]),
        _ => Edge::Cubic([a, b, c, d]),
    }
}

/// Every control point is one of two, which may be so near each other that a square of their distance is subnormal or
/// 0.
fn coincident() -> impl Strategy<Value = Edge> {
    let near = (-2i32..=2, -2i32..=2, -540i32..=-535).prop_map(|(x, y, e)| [x, y].map(|i| f64::from(i) * 2f64.powi(e)));
    let places = prop_oneof![[point(), point()], near.prop_map(|place| [[0.0, 0.0], place])];
    (1..=3u8, places, uniform4(0..2usize)).prop_map(|(kind, places, picked)| from_points(kind, picked.map(|i| places[i])))
}

fn edge() -> impl Strategy<Value = Edge> {
    let spread = (1..=3u8, uniform4(point())).prop_map(|(kind, points)| from_points(kind, points));
    prop_oneof![spread, coincident()]
}

/// A walk that turns a little at most edges and far at few, so that contours of none, one and two corners come up too.
fn walk() -> impl Strategy<Value = Vec<Edge>> {
    let turn = prop_oneof![6 => Just(0.05f64), 1 => Just(2.0), 1 => Just(1.0)];
    vec((turn, 1..=3u8, 1.0..9.0), 0..=7).prop_map(|steps| {
        let (mut at, mut heading) = ([0.0, 0.0], 0.0f64);
        let mut edges = Vec::new();
        for (turn, kind, size) in steps {
            heading += turn;
            let along = |t: f64| [at[0] + t * size * heading.cos(), at[1] + t * size * heading.sin()];
            edges.push(match kind {
                1 => Edge::Line([at, along(1.0)]),
                2 => Edge::Quadratic([at, along(0.5), along(1.0)]),
                _ => Edge::Cubic([at, along(0.25), along(0.5), along(1.0)]),
            });
            at = along(1.0);
        }
        edges
    })
}

/// A contour of lines with one corner, about the lengths at which the two divisions of such a contour differ.
fn teardrop() -> impl Strategy<Value = Vec<Edge>> {
    (1usize..=4, 0usize..3, any::<prop::sample::Index>()).prop_map(|(times, more, corner)| {
        let edges = 46 * times + more;
        let line = |i: usize| {
            let (y, x) = (3.0 / edges as f64 * i as f64).sin_cos();
            Edge::Line([[0.0, 0.0], [x, y]])
        };
        let mut contour: Vec<Edge> = (0..edges).map(line).collect();
        contour.rotate_right(corner.index(edges));
        contour
    })
}

/// Not more than 256 edges.
fn outline() -> impl Strategy<Value = Outline> {
    let contours = vec(prop_oneof![walk(), vec(edge(), 0..=5)], 0..=9);
    (contours, prop::option::weighted(0.2, teardrop()), any::<prop::sample::Index>()).prop_map(|(mut contours, drop, at)| {
        drop.into_iter().for_each(|drop| contours.insert(at.index(contours.len() + 1), drop));
        Outline::from(contours)
    })
}

fn threshold() -> impl Strategy<Value = f64> {
    prop_oneof![Just(0.125), Just(3f64.sin()), -1.0..=1.0]
}

fn distance() -> impl Strategy<Value = f64> {
    prop_oneof![3 => Just(0.0), 3 => (1i32..4).prop_map(f64::from), 1 => Just(-0.0), 6 => 0.0..1e9]
}

/// Some of the first `n (n - 1) / 2` of these.
fn for_pairs(n: usize, distances: &[f64]) -> Vec<f64> {
    distances.iter().cycle().take(n * n.saturating_sub(1) / 2).copied().collect()
}

// ---- the source

fn segment(edge: &Edge) -> EdgeSegment {
    let v = |p: Point| Vector2::new(p[0], p[1]);
    match *edge {
        Edge::Line(p) => EdgeSegment::Line(p.map(v)),
        Edge::Quadratic(p) => EdgeSegment::Quadratic(p.map(v)),
        Edge::Cubic(p) => EdgeSegment::Cubic(p.map(v)),
    }
}

fn shape(outline: &Outline) -> Shape {
    let mut shape = Shape::new();
    for edges in &outline.contours {
        let mut contour = Contour::new();
        edges.iter().for_each(|edge| contour.add_edge(segment(edge)));
        shape.add_contour(contour);
    }
    shape
}

/// Edges as bits, so that a zero's sign counts, and each with its value.
type Bits<T> = Vec<Vec<(Vec<u64>, T)>>;

fn bits<T: Copy, V>(contours: &[Vec<(Edge, T)>], value: impl Fn(T) -> V) -> Bits<V> {
    let edge = |edge: &Edge| edge.points().as_flattened().iter().map(|x| x.to_bits()).collect();
    contours.iter().map(|c| c.iter().map(|(e, x)| (edge(e), value(*x))).collect()).collect()
}

fn source_edge(edge: &EdgeSegment) -> Vec<u64> {
    let (points, order) = edge.control_points();
    points[..=order].iter().flat_map(|p| [p.x.to_bits(), p.y.to_bits()]).collect()
}

fn source_bits(shape: &Shape) -> Bits<u8> {
    let contour = |c: &Contour| c.segments.iter().map(source_edge).zip(c.colors.iter().map(|color| color.bits())).collect();
    shape.contours.iter().map(contour).collect()
}

/// Whether a direction of the source's has no length.
fn no_length(edge: &EdgeSegment, t: f64) -> bool {
    edge.direction(t).length() == 0.0
}

/// How many of them there are at the starts and ends of an outline's edges.
fn source_stand_ins(outline: &Outline) -> usize {
    let edges = outline.contours.iter().flatten().map(segment);
    edges.flat_map(|edge| [0.0, 1.0].map(|t| no_length(&edge, t))).filter(|&none| none).count()
}

/// What the source's collecting pass did to a shape, the places of edges and the first of each spline's: how many
/// splines, and each edge with its spline's number.
fn source_splines(shape: &Shape, places: &[(usize, usize)], starts: &[usize]) -> (usize, Bits<Option<u8>>) {
    let mut edges: Bits<Option<u8>> =
        shape.contours.iter().map(|c| c.segments.iter().map(|e| (source_edge(e), None)).collect()).collect();
    for (at, &(contour, place)) in places.iter().enumerate() {
        let spline = starts.iter().rposition(|&start| start <= at).unwrap();
        edges[contour][place].1 = Some(spline as u8);
    }
    (starts.len() - 1, edges)
}

/// The colourings of a module of this crate against those of a copy of the source.
macro_rules! colorings {
    ($name:ident, $($library:ident)::+, $($copy:ident)::+) => {
        mod $name {
            use super::*;
            use $($copy)::+ as copy;
            use $($library)::+ as library;

            proptest! {
                #![proptest_config(ProptestConfig { cases: 2000, failure_persistence: None, ..ProptestConfig::default() })]

                #[test]
                fn simple(outline in outline(), threshold in threshold(), seed: u64) {
                    let mut source = shape(&outline);
                    copy::edge_coloring_simple(&mut source, threshold, seed);
                    let colored = library::edge_coloring_simple(&outline, threshold, seed).unwrap();
                    prop_assert_eq!(bits(&colored.contours, |c| c.bits()), source_bits(&source));
                    prop_assert_eq!(colored.stand_ins, source_stand_ins(&outline));
                }

                #[test]
                fn ink_trap(outline in outline(), threshold in threshold(), seed: u64) {
                    let mut source = shape(&outline);
                    copy::edge_coloring_ink_trap(&mut source, threshold, seed);
                    let colored = library::edge_coloring_ink_trap(&outline, threshold, seed).unwrap();
                    prop_assert_eq!(bits(&colored.contours, |c| c.bits()), source_bits(&source));
                    prop_assert_eq!(colored.stand_ins, source_stand_ins(&outline));
                }

                #[test]
                fn by_distance(outline in outline(), threshold in threshold(), seed: u64, distances in vec(distance(), 1..50)) {
                    let mut source = shape(&outline);
                    let (places, starts) = copy::by_distance_collected::collect_splines(&mut source, threshold);
                    let (splines, edges) = source_splines(&source, &places, &starts);
                    prop_assume!(splines <= 64);
                    let collected = library::collect_splines(&outline, threshold).unwrap();
                    prop_assert_eq!(collected.splines, splines);
                    prop_assert_eq!(bits(&collected.contours, |spline| spline), edges);
                    prop_assert_eq!(collected.stand_ins, source_stand_ins(&outline));

                    let distances = for_pairs(splines, &distances);
                    let mut source = shape(&outline);
                    copy::by_distance_given::edge_coloring_by_distance_given(&mut source, threshold, seed, &distances);
                    let colored = library::edge_coloring_by_distance(&outline, threshold, seed, &distances).unwrap();
                    prop_assert_eq!(bits(&colored.contours, |c| c.bits()), source_bits(&source));
                    prop_assert_eq!(colored.stand_ins, source_stand_ins(&outline));
                }
            }
        }
    };
}

colorings!(by_the_source, merelsplum, oracle::given);
colorings!(balanced, merelsplum::balanced, oracle::balanced);

proptest! {
    #![proptest_config(ProptestConfig { cases: 2000, failure_persistence: None, ..ProptestConfig::default() })]

    /// The directions bit for bit, which of them are stand-ins, and the corners that follow.
    #[test]
    fn directions(outline in outline(), threshold in threshold()) {
        let bits = |x: f64, y: f64, stand_in: bool| (x.to_bits(), y.to_bits(), stand_in);
        let unit = |e: &EdgeSegment, t: f64| {
            let Vector2 { x, y } = e.direction(t).normalize(false);
            bits(x, y, no_length(e, t))
        };
        for (contour, directions) in shape(&outline).contours.iter().zip(edge_directions(&outline).unwrap()) {
            let source = contour.segments.iter().map(|e| [unit(e, 0.0), unit(e, 1.0)]);
            let found = directions.iter().map(|d| [d.start, d.end].map(|d| bits(d.x, d.y, d.stand_in)));
            prop_assert_eq!(found.collect::<Vec<_>>(), source.collect::<Vec<_>>());

            let corner = |e: Direction, s: Direction| e.x * s.x + e.y * s.y <= 0.0 || (e.x * s.y - e.y * s.x).abs() > threshold;
            let before = directions.iter().cycle().skip(directions.len().saturating_sub(1));
            let corners = directions.iter().zip(before).map(|(d, before)| corner(before.end, d.start));
            let corners: Vec<usize> = corners.enumerate().filter(|c| c.1).map(|c| c.0).collect();
            prop_assert_eq!(corners, given::probe::corners(contour, threshold));
        }
    }

    /// Outlines about the limits: the first refusal that applies, or a colouring.
    #[test]
    fn refusals(
        lengths in vec(0usize..=9, 0..=80),
        bad in prop_oneof![Just(None), Just(Some(f64::NAN)), Just(Some(1_048_576.0 * (1.0 + f64::EPSILON))), Just(Some(f64::INFINITY))],
        threshold in prop_oneof![3 => Just(0.5), 1 => Just(1.5), 1 => Just(f64::NAN)],
    ) {
        let line = |i: usize| Edge::Line([[i as f64, 0.0], [0.0, 1.0]]);
        let mut outline = Outline { contours: lengths.iter().map(|&n| (0..n).map(line).collect()).collect() };
        let edges = outline.edge_count();
        let mut bad_coordinate = false;
        if let (Some(x), Some(contour)) = (bad, outline.contours.iter_mut().rfind(|c| !c.is_empty())) {
            *contour.last_mut().unwrap() = Edge::Line([[0.0, 0.0], [0.0, x]]);
            bad_coordinate = true;
        }
        let answer = edge_coloring_simple(&outline, threshold, 0);
        if lengths.len() > 64 || edges > 256 {
            prop_assert_eq!(answer, Err(Refusal::TooMany));
        } else if bad_coordinate {
            prop_assert_eq!(answer, Err(Refusal::BadCoordinate));
        } else if threshold != 0.5 {
            prop_assert_eq!(answer, Err(Refusal::BadThreshold));
        } else {
            prop_assert!(answer.unwrap().edge_count() >= edges);
        }
    }

    #[test]
    fn distances_refused(outline in outline(), more in 0usize..3, bad in prop_oneof![Just(-1.0), Just(f64::NAN), Just(f64::INFINITY)]) {
        let splines = collect_splines(&outline, 0.125).map(|c| c.splines);
        prop_assume!(splines.is_ok_and(|n| n > 1));
        let mut distances = for_pairs(splines.unwrap(), &[1.0]);
        let last = distances.len() - 1;
        distances[last] = bad;
        prop_assert_eq!(edge_coloring_by_distance(&outline, 0.125, 0, &distances), Err(Refusal::BadDistance));
        distances.extend(vec![1.0; more + 1]);
        let too_many = distances.len() > 2016;
        let expected = if too_many { Refusal::TooMany } else { Refusal::LengthMismatch };
        prop_assert_eq!(edge_coloring_by_distance(&outline, 0.125, 0, &distances), Err(expected));
    }

    /// A list of offers to one table, from pairs that are drawn.
    #[test]
    fn offers(colors in vec(0u8..3, 2..=24), pairs in vec((0usize..24, 0usize..24), 0..300)) {
        let n = colors.len();
        let mut table = SplineTable::new(&colors);
        let mut coloring: Vec<i32> = colors.iter().map(|&c| c.into()).collect();
        let mut matrix = vec![0i32; n * n];
        for (a, b) in pairs {
            let before = table.clone();
            let answer = table.offer(a, b);
            if a >= n || b >= n || a == b {
                prop_assert_eq!(answer, Err(Refusal::BadTable));
                prop_assert_eq!(&table, &before);
                continue;
            }
            let steps = given::by_distance_counted::offer(&mut coloring, &mut matrix, n, a, b) as u8;
            let kept = matrix[a * n + b] != 0;
            prop_assert_eq!(answer, Ok(if kept { Offer::Kept { steps } } else { Offer::Declined { steps } }));
            prop_assert_eq!(table.is_kept(b, a), kept);
            prop_assert!(table.colors().iter().map(|&c| c as i32).eq(coloring.iter().copied()));
            prop_assert!(table.pairs().iter().map(|&e| e as i32).eq(matrix.iter().copied()));
        }
    }

    /// A job is read as it was written, and coloured as its outline is.
    #[test]
    fn jobs(
        outline in outline(),
        threshold in threshold(),
        seed: u64,
        strategy in 0..3usize,
        balanced: bool,
        distances in vec(distance(), 1..50),
    ) {
        let strategy = [job::Strategy::Simple, job::Strategy::InkTrap, job::Strategy::ByDistance][strategy];
        let by_distance = strategy == job::Strategy::ByDistance;
        let splines = collect_splines(&outline, threshold).map_or(0, |c| c.splines);
        let distances = if by_distance { for_pairs(splines, &distances) } else { vec![] };
        let job = Job { strategy, seed, threshold, balanced, outline, distances };
        let file = job.to_bytes();
        let colored = job.color();
        let read = Job::read(&file);
        prop_assert_eq!(read.as_ref().map_err(|&refusal| refusal), colored.as_ref().map(|_| &job).map_err(|&refusal| refusal));

        prop_assert_eq!(&job::color(&file), &colored);
        prop_assert_eq!(job::check(&file), checked(&colored));
        prop_assert_eq!(job::listing(&file), listing(&colored));

        let parts: Vec<u8> = (0..=job.outline.contours.len()).flat_map(|n| job::contour_part(&file, n)).copied().collect();
        let after = 2 + if by_distance { 4 + 8 * job.distances.len() } else { 0 };
        let start = if balanced { 21 } else { 19 };
        let expected = if colored.is_ok() { &file[start..file.len() - after] } else { &[] };
        prop_assert_eq!(parts, expected);
    }

    /// A file that is cut short or has a byte changed is answered alike by all entries.
    #[test]
    fn damaged_jobs(outline in outline(), balanced: bool, at in any::<prop::sample::Index>(), byte: Option<u8>) {
        let job = Job { strategy: job::Strategy::Simple, seed: 0, threshold: 0.125, balanced, outline, distances: vec![] };
        let mut file = job.to_bytes();
        let at = at.index(file.len());
        match byte {
            Some(byte) => file[at] = byte,
            None => file.truncate(at),
        }
        let colored = job::color(&file);
        prop_assert!(byte.is_some() || colored.is_err());
        prop_assert_eq!(job::check(&file), checked(&colored));
        prop_assert_eq!(job::listing(&file), listing(&colored));
    }
}

/// What a check answers.
fn checked(colored: &Result<Colored, Refusal>) -> Result<Checked, Refusal> {
    let counts = |colored: &Colored| Checked { edges: colored.edge_count(), stand_ins: colored.stand_ins };
    colored.as_ref().map(counts).map_err(|&refusal| refusal)
}

/// The text of docs/FORMAT.md.
fn listing(colored: &Result<Colored, Refusal>) -> String {
    let colored = match colored {
        Ok(colored) => colored,
        Err(refusal) => return format!("refused {}\n", refusal.number()),
    };
    let mut lines = String::new();
    for (contour, edges) in colored.contours.iter().enumerate() {
        for (place, (edge, color)) in edges.iter().enumerate() {
            let kind = ["L", "Q", "C"][edge.points().len() - 2];
            lines += &format!("{contour} {place} {kind} {}\n", color.bits());
        }
    }
    lines + &format!("edges {}\nstandins {}\n", colored.edge_count(), colored.stand_ins)
}
