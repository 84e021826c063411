//! Glyphs above the limits of the proved library, coloured by the Rust of docs/src instead, which has none. It cannot
//! balance the runs of a contour with one corner.

use crate::source::{Contour, EdgeSegment, Shape, cross, dot, edge, stand_ins};
use bymsdfgen::coloring;
use merelsplum::job::Strategy;
use merelsplum::{Colored, EdgeColor};

/// What the library takes at most.
const CONTOURS: usize = 64;
const EDGES: usize = 256;

/// Colours a shape, the angle in radians.
pub fn color(shape: &Shape, strategy: Strategy, angle: f64, seed: u64) -> Colored {
    let mut shape = shape.clone();
    let stand_ins = stand_ins(shape.contours.iter().flat_map(|contour| &contour.segments));
    match strategy {
        Strategy::Simple => coloring::edge_coloring_simple(&mut shape, angle, seed),
        Strategy::InkTrap => coloring::edge_coloring_ink_trap(&mut shape, angle, seed),
        Strategy::ByDistance => coloring::edge_coloring_by_distance(&mut shape, angle, seed),
    }
    let contour = |contour: &Contour| {
        let edges = contour.segments.iter().zip(&contour.colors);
        edges.map(|(segment, color)| (edge(segment), EdgeColor::ALL[usize::from(color.bits() & 7)])).collect()
    };
    Colored { contours: shape.contours.iter().map(contour).collect(), stand_ins }
}

/// The number of edges of the first contour that docs/src divides otherwise than balanced: it has one corner, and one
/// edge more than a multiple of 46.
pub fn unbalanced(shape: &Shape, angle: f64) -> Option<usize> {
    let differs =
        |contour: &&Contour| contour.len() > 1 && contour.len() % 46 == 1 && corners(&contour.segments, angle.sin()) == 1;
    shape.contours.iter().find(differs).map(Contour::len)
}

/// How many corners a contour has, as docs/src finds them.
fn corners(edges: &[EdgeSegment], threshold: f64) -> usize {
    let is_corner = |(before, edge): &(&EdgeSegment, &EdgeSegment)| {
        let (from, to) = (before.direction(1.0).normalize(false), edge.direction(0.0).normalize(false));
        dot(from, to) <= 0.0 || cross(from, to).abs() > threshold
    };
    edges.iter().cycle().skip(edges.len() - 1).zip(edges).filter(is_corner).count()
}

/// Which limit a shape is above, and by how much.
pub fn excess(shape: &Shape) -> String {
    let above = |count: usize, limit: usize, what: &str| {
        (count > limit).then(|| format!("{count} {what}, {} above the limit of {limit}", count - limit))
    };
    let contours = above(shape.contours.len(), CONTOURS, "contours");
    let edges = above(shape.edge_count(), EDGES, "edges");
    let found: Vec<String> = contours.into_iter().chain(edges).collect();
    if found.is_empty() { "more than 64 splines".to_owned() } else { found.join("; ") }
}

#[cfg(test)]
mod tests {
    use super::*;
    use crate::sheet::job;
    use crate::source::{Vector2, outline};

    /// So many squares side by side.
    fn squares(count: usize) -> Shape {
        let mut shape = Shape::new();
        for i in 0..count {
            let left = 3.0 * i as f64;
            let corners = [(left, 0.0), (left, 2.0), (left + 2.0, 2.0), (left + 2.0, 0.0)].map(|(x, y)| Vector2::new(x, y));
            let contour = shape.add_contour_mut();
            (0..4).for_each(|i| contour.add_edge(EdgeSegment::line(corners[i], corners[(i + 1) % 4])));
        }
        shape
    }

    /// Within the limits both colour alike, and count as many directions without length.
    #[test]
    fn as_the_library() {
        let mut shape = squares(3);
        let v = |x: f64| Vector2::new(x, 0.0);
        let line = |a: f64, b: f64| EdgeSegment::Line([v(a), v(b)]);
        let edges = [line(0.0, 0.0), line(0.0, 1.0), EdgeSegment::Cubic([1.0, 1.0, 1.0, 0.0].map(v)), line(0.0, 1e-180)];
        edges.into_iter().for_each(|edge| shape.contours[1].add_edge(edge));
        for strategy in [Strategy::Simple, Strategy::InkTrap, Strategy::ByDistance] {
            let job = job(outline(&shape), strategy, 3f64.sin(), 5, false).unwrap();
            let colored = color(&shape, strategy, 3.0, 5);
            assert_eq!((&colored, colored.stand_ins), (&job.color().unwrap(), 5), "{strategy:?}");
        }
    }

    /// A contour of lines that turn a little each, and far from the last to the first.
    fn drop(edges: usize) -> Contour {
        let mut contour = Contour::new();
        for i in 0..edges {
            let (y, x) = (3.0 / edges as f64 * i as f64).sin_cos();
            contour.add_edge(EdgeSegment::Line([Vector2::ZERO, Vector2::new(x, y)]));
        }
        contour
    }

    /// Found just where the library colours otherwise with balanced contours.
    #[test]
    fn what_cannot_be_balanced() {
        let mut found = Vec::new();
        for edges in 24..=250 {
            let mut shape = squares(1);
            shape.add_contour(drop(edges));
            for strategy in [Strategy::Simple, Strategy::InkTrap, Strategy::ByDistance] {
                let [source, balanced] = [false, true]
                    .map(|balanced| job(outline(&shape), strategy, 3f64.sin(), 5, balanced).unwrap().color().unwrap());
                assert_eq!(unbalanced(&shape, 3.0).is_some(), source != balanced, "{strategy:?}, {edges}");
            }
            found.extend(unbalanced(&shape, 3.0));
        }
        assert_eq!(found, [47, 93, 139, 185, 231]);
        let mut shape = Shape::new();
        shape.add_contour(drop(47));
        assert_eq!([3.0, 3.1].map(|angle| unbalanced(&shape, angle)), [Some(47), None], "at 3.1 every turn is a corner");
        shape.contours[0].segments.fill(EdgeSegment::Line([Vector2::ZERO, Vector2::new(1.0, 0.0)]));
        assert_eq!(unbalanced(&shape, 3.0), None, "there is no corner");
    }

    #[test]
    fn limits() {
        assert_eq!(excess(&squares(16)), "more than 64 splines");
        assert_eq!(excess(&squares(64)), "more than 64 splines");
        assert_eq!(excess(&squares(65)), "65 contours, 1 above the limit of 64; 260 edges, 4 above the limit of 256");
    }
}
