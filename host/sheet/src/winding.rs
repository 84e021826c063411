//! What is inside an outline by the non-zero winding rule, and its contours turned round so that the inside is on their
//! right.

use crate::source::{Bounds, Contour, EdgeSegment, Shape, Vector2};

/// Crossings as near as this, in units of the font, count as one.
const TOGETHER: f64 = 1e-6;

/// Where in its height a contour is looked at: no simple fractions, since corners are often at those.
const HEIGHTS: [f64; 7] = [0.0619, 0.1973, 0.3541, 0.5279, 0.6708, 0.8127, 0.9443];

/// Edges with their boxes, to be crossed by horizontal lines.
pub struct Fill {
    edges: Vec<(EdgeSegment, Bounds)>,
}

/// A horizontal line through an outline: the places where it crosses edges, from the left, and the winding to the right
/// of each.
pub struct Scanline {
    crossings: Vec<(f64, i32)>,
}

/// One edge crossed: where, by which contour, and 1 upward or -1 downward.
struct Crossing {
    x: f64,
    contour: usize,
    direction: i32,
}

/// The least box about an edge.
pub fn bounds(edge: &EdgeSegment) -> Bounds {
    let (mut min, mut max) = (edge.point(0.0), edge.point(0.0));
    edge.bound(&mut min, &mut max);
    Bounds { l: min.x, b: min.y, r: max.x, t: max.y }
}

fn cross_edge(edge: &EdgeSegment, bounds: &Bounds, y: f64, mut each: impl FnMut(f64, i32)) {
    if bounds.b <= y && y <= bounds.t {
        let mut found = [(0.0, 0); 3];
        let count = edge.scanline_intersections(y, &mut found);
        found[..count].iter().for_each(|&(x, direction)| each(x, direction));
    }
}

impl Fill {
    pub fn new(shape: &Shape) -> Fill {
        Fill::of_edges(shape.contours.iter().flat_map(|contour| contour.segments.iter().copied()))
    }

    pub fn of_edges(edges: impl Iterator<Item = EdgeSegment>) -> Fill {
        Fill { edges: edges.map(|edge| (edge, bounds(&edge))).collect() }
    }

    pub fn scanline(&self, y: f64) -> Scanline {
        let mut crossings = Vec::new();
        for (edge, bounds) in &self.edges {
            cross_edge(edge, bounds, y, |x, direction| crossings.push((x, direction)));
        }
        crossings.sort_by(|a, b| a.0.total_cmp(&b.0));
        let mut winding = 0;
        for crossing in &mut crossings {
            winding += crossing.1;
            crossing.1 = winding;
        }
        Scanline { crossings }
    }

    pub fn inside(&self, point: Vector2) -> bool {
        self.scanline(point.y).inside(point.x)
    }
}

impl Scanline {
    pub fn inside(&self, x: f64) -> bool {
        let right = self.crossings.partition_point(|crossing| crossing.0 <= x);
        right > 0 && self.crossings[right - 1].1 != 0
    }

    /// The stretches that are inside.
    pub fn stretches(&self) -> Vec<(f64, f64)> {
        let pairs = self.crossings.windows(2).filter(|pair| pair[0].1 != 0);
        pairs.map(|pair| (pair[0].0, pair[1].0)).collect()
    }
}

/// The contours of a shape, to be crossed by horizontal lines.
struct Contours(Vec<Vec<(EdgeSegment, Bounds)>>);

impl Contours {
    fn new(shape: &Shape) -> Contours {
        let boxed = |segments: &[EdgeSegment]| segments.iter().map(|edge| (*edge, bounds(edge))).collect();
        Contours(shape.contours.iter().map(|contour| boxed(&contour.segments)).collect())
    }

    /// The crossings of a line, those at one place together, from the left, with the winding before and after them.
    fn each_place(&self, y: f64, mut each: impl FnMut(&[Crossing], i32, i32)) {
        let mut crossings = Vec::new();
        for (contour, edges) in self.0.iter().enumerate() {
            for (edge, bounds) in edges {
                cross_edge(edge, bounds, y, |x, direction| crossings.push(Crossing { x, contour, direction }));
            }
        }
        crossings.sort_by(|a, b| a.x.total_cmp(&b.x));
        let mut before = 0;
        for together in crossings.chunk_by(|a, b| b.x - a.x <= TOGETHER) {
            let after = before + together.iter().map(|crossing| crossing.direction).sum::<i32>();
            each(together, before, after);
            before = after;
        }
    }

    /// By how much more often a contour has the inside on its right than on its left; none where it never parts inside
    /// and outside.
    fn vote(&self, contour: usize) -> Option<i32> {
        let edges = &self.0[contour];
        let low = edges.iter().map(|(_, bounds)| bounds.b).fold(f64::MAX, f64::min);
        let high = edges.iter().map(|(_, bounds)| bounds.t).fold(f64::MIN, f64::max);
        let (mut vote, mut parts) = (0, false);
        for height in HEIGHTS {
            self.each_place(low + (high - low) * height, |together, before, after| {
                if (before != 0) != (after != 0) {
                    for crossing in together.iter().filter(|crossing| crossing.contour == contour) {
                        parts = true;
                        vote += if (after != 0) == (crossing.direction > 0) { 1 } else { -1 };
                    }
                }
            });
        }
        parts.then_some(vote)
    }

    /// The heights in the middle between ends of edges that follow each other.
    fn heights(&self) -> Vec<f64> {
        let edges = self.0.iter().flatten();
        let mut ends: Vec<f64> = edges.flat_map(|(edge, bounds)| [bounds.b, bounds.t, edge.point(0.0).y]).collect();
        ends.sort_by(f64::total_cmp);
        ends.windows(2).filter(|pair| pair[1] - pair[0] > TOGETHER).map(|pair| 0.5 * (pair[0] + pair[1])).collect()
    }
}

/// 1 for a contour that goes clockwise, -1 for one that does not, by its area.
pub fn winding(contour: &Contour) -> i32 {
    const PIECES: usize = 8;
    let piece = |edge: &EdgeSegment, i: usize| {
        let (a, b) = (edge.point(i as f64 / PIECES as f64), edge.point((i + 1) as f64 / PIECES as f64));
        (b.x - a.x) * (a.y + b.y)
    };
    let area: f64 = contour.segments.iter().flat_map(|edge| (0..PIECES).map(move |i| piece(edge, i))).sum();
    if area < 0.0 { -1 } else { 1 }
}

/// Turns contours round, each for itself, so that the inside of the outline is on its right. Fonts draw either way, and
/// some draw parts of one glyph either way; inside is where the winding is not zero, so that a contour's own direction
/// does not tell. One that is inside on both its sides goes clockwise, as one that holds the inside does.
pub fn orient(shape: &mut Shape) {
    let contours = Contours::new(shape);
    let votes: Vec<Option<i32>> = (0..shape.contours.len()).map(|contour| contours.vote(contour)).collect();
    for (contour, vote) in shape.contours.iter_mut().zip(votes) {
        if vote.unwrap_or_else(|| winding(contour)) < 0 {
            contour.reverse();
        }
    }
}

/// Whether contours of an oriented shape overlap: somewhere the winding is neither 0 nor 1.
pub fn overlaps(shape: &Shape) -> bool {
    let contours = Contours::new(shape);
    let mut found = false;
    shape.contours.len() > 1
        && contours.heights().into_iter().any(|y| {
            contours.each_place(y, |_, _, after| found |= after != 0 && after != 1);
            found
        })
}

#[cfg(test)]
mod tests {
    use super::*;

    /// A square by its lower left corner and its side, clockwise or not.
    fn square(x: f64, y: f64, side: f64, clockwise: bool) -> Contour {
        let corners = [(x, y), (x, y + side), (x + side, y + side), (x + side, y)].map(|(x, y)| Vector2::new(x, y));
        let mut contour = Contour::new();
        (0..4).for_each(|i| contour.add_edge(EdgeSegment::line(corners[i], corners[(i + 1) % 4])));
        if !clockwise {
            contour.reverse();
        }
        contour
    }

    fn shape(contours: &[(f64, f64, f64, bool)]) -> Shape {
        let mut shape = Shape::new();
        contours.iter().for_each(|&(x, y, side, clockwise)| shape.add_contour(square(x, y, side, clockwise)));
        shape
    }

    /// Which contours go clockwise once they are oriented.
    fn oriented(contours: &[(f64, f64, f64, bool)]) -> Vec<bool> {
        let mut shape = shape(contours);
        orient(&mut shape);
        shape.contours.iter().map(|contour| winding(contour) > 0).collect()
    }

    #[test]
    fn alone_and_beside_each_other() {
        for clockwise in [true, false] {
            assert_eq!(oriented(&[(0.0, 0.0, 4.0, clockwise)]), [true]);
            assert_eq!(oriented(&[(0.0, 0.0, 4.0, clockwise), (9.0, 0.0, 4.0, !clockwise)]), [true, true]);
        }
    }

    /// A hole turns the other way than what it is in; an island in it turns as the outermost does.
    #[test]
    fn holes_and_islands() {
        for clockwise in [true, false] {
            let ring = [(0.0, 0.0, 9.0, clockwise), (1.0, 1.0, 7.0, !clockwise), (3.0, 3.0, 2.0, clockwise)];
            assert_eq!(oriented(&ring), [true, false, true]);
        }
    }

    /// What turns as the square that it is in makes no hole: inside is where the winding is not zero.
    #[test]
    fn no_hole_by_winding() {
        for clockwise in [true, false] {
            assert_eq!(oriented(&[(0.0, 0.0, 9.0, clockwise), (1.0, 1.0, 7.0, clockwise)]), [true, true]);
            // within two squares one that turns the other way makes none either
            let twice = [(0.0, 0.0, 9.0, clockwise), (0.5, 0.5, 8.0, clockwise), (3.0, 3.0, 2.0, !clockwise)];
            assert_eq!(oriented(&twice), [true, true, true]);
        }
    }

    /// The island may be there twice, and the far square decides nothing.
    #[test]
    fn the_same_twice() {
        let twice = [(0.0, 0.0, 4.0, false), (0.0, 0.0, 4.0, false), (-99.0, -99.0, 1.0, true)];
        assert_eq!(oriented(&twice), [true, true, true]);
    }

    #[test]
    fn overlapping() {
        let ring = [(0.0, 0.0, 9.0, true), (1.0, 1.0, 7.0, false), (3.0, 3.0, 2.0, true), (20.0, 0.0, 5.0, true)];
        assert!(!overlaps(&shape(&ring)));
        assert!(!overlaps(&shape(&ring[..1])));
        assert!(overlaps(&shape(&[(0.0, 0.0, 4.0, true), (3.0, 3.0, 4.0, true)])));
        assert!(overlaps(&shape(&[(0.0, 0.0, 4.0, true), (3.0, 3.0, 4.0, false)])));
        // by a sliver
        assert!(overlaps(&shape(&[(0.0, 0.0, 4.0, true), (0.0, 3.99, 4.0, true)])));
    }

    #[test]
    fn filled() {
        let fill = Fill::new(&shape(&[(0.0, 0.0, 9.0, false), (1.0, 1.0, 7.0, true), (3.0, 3.0, 2.0, true)]));
        let inside = |x: f64, y: f64| fill.inside(Vector2::new(x, y));
        assert!(inside(0.5, 0.5) && !inside(2.0, 2.0) && inside(4.0, 4.0) && !inside(10.0, 4.0) && !inside(4.0, -1.0));
        assert_eq!(fill.scanline(4.0).stretches(), [(0.0, 1.0), (3.0, 5.0), (8.0, 9.0)]);
    }
}
