//! What is used of the Rust of docs/src: its shapes and their distances.

pub use bymsdfgen::geometry::equation_solver::{Roots, solve_quadratic};
pub use bymsdfgen::geometry::shape::Bounds;
pub use bymsdfgen::geometry::{Contour, EdgeColor, EdgeSegment, Shape};
pub use bymsdfgen::math::scalar::{median, non_zero_sign};
pub use bymsdfgen::math::{SignedDistance, Vector2, cross, dot};
use merelsplum::{Collected, Edge, Outline, Point};

mod distance {
    use super::EdgeSegment;
    include!(concat!(env!("OUT_DIR"), "/distance.rs"));

    /// The distance of every pair of splines i < j, by i and then by j. Spline i is the segments from `starts[i]` to
    /// `starts[i + 1]`.
    pub fn pairs(segments: &[EdgeSegment], starts: &[usize]) -> Vec<f64> {
        let mut distances = Vec::new();
        for i in 1..starts.len() {
            for j in i + 1..starts.len() {
                let (a, b) = (starts[i - 1], starts[j - 1]);
                distances.push(spline_to_spline_distance(segments, a, starts[i], b, starts[j], EDGE_DISTANCE_PRECISION));
            }
        }
        distances
    }
}

/// The distances of an outline's splines, as the colouring by distance of docs/src measures them.
pub fn spline_distances(collected: &Collected) -> Vec<f64> {
    let edges = collected.contours.iter().flatten();
    let mut edges: Vec<(u8, EdgeSegment)> = edges.filter_map(|(edge, spline)| Some(((*spline)?, segment(edge)))).collect();
    edges.sort_by_key(|edge| edge.0);
    let starts: Vec<usize> = (0..=collected.splines).map(|i| edges.partition_point(|edge| usize::from(edge.0) < i)).collect();
    let segments: Vec<EdgeSegment> = edges.into_iter().map(|edge| edge.1).collect();
    distance::pairs(&segments, &starts)
}

/// How many of the directions in which edges start and end have no length, as docs/src has them.
pub fn stand_ins<'a>(edges: impl Iterator<Item = &'a EdgeSegment>) -> usize {
    edges.flat_map(|edge| [0.0, 1.0].map(|t| edge.direction(t).length())).filter(|&length| length == 0.0).count()
}

/// An edge as docs/src has it.
pub fn segment(edge: &Edge) -> EdgeSegment {
    let v = |p: Point| Vector2::new(p[0], p[1]);
    match *edge {
        Edge::Line(p) => EdgeSegment::Line(p.map(v)),
        Edge::Quadratic(p) => EdgeSegment::Quadratic(p.map(v)),
        Edge::Cubic(p) => EdgeSegment::Cubic(p.map(v)),
    }
}

/// An edge as the library has it.
pub fn edge(segment: &EdgeSegment) -> Edge {
    let p = |v: Vector2| [v.x, v.y];
    match *segment {
        EdgeSegment::Line(v) => Edge::Line(v.map(p)),
        EdgeSegment::Quadratic(v) => Edge::Quadratic(v.map(p)),
        EdgeSegment::Cubic(v) => Edge::Cubic(v.map(p)),
    }
}

/// The outline of a shape, without its colours.
pub fn outline(shape: &Shape) -> Outline {
    Outline { contours: shape.contours.iter().map(|contour| contour.segments.iter().map(edge).collect()).collect() }
}
