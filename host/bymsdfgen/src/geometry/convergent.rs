//! Which of two edges that meet in a cusp is on which side of the other, after msdfgen's convergent-curve-ordering.

use super::edge_segment::EdgeSegment;
use crate::math::scalar::sign;
use crate::math::{Vector2, cross};

/// The side of the edge `b`, which starts where `a` ends, when both leave that point the same way: the sign of the
/// first derivative of cross(A(u), B(u)) there that is not zero, 0 where all are.
pub fn convergent_curve_ordering(a: &EdgeSegment, b: &EdgeSegment) -> i32 {
    let (before, after) = (points(a), points(b));
    let (Some(&corner), Some(&first)) = (before.last(), after.first()) else { return 0 };
    if corner != first {
        return 0;
    }
    let (mut before, after) = (simplified(before), simplified(after));
    before.reverse();
    if before.len() < 2 || after.len() < 2 {
        return 0;
    }
    ordering(derivatives(&before), derivatives(&after))
}

fn points(edge: &EdgeSegment) -> Vec<Vector2> {
    let (points, order) = edge.control_points();
    points[..=order].to_vec()
}

/// A curve whose control points are its ends is a line, and a line of no length is its point.
fn simplified(mut points: Vec<Vector2>) -> Vec<Vector2> {
    let (first, last) = (points[0], points[points.len() - 1]);
    let inner = &points[1..points.len() - 1];
    if !inner.is_empty() && inner.iter().all(|&point| point == first || point == last) {
        points = vec![first, last];
    }
    if points == [first, first] {
        points.pop();
    }
    points
}

/// The derivatives of a curve at its first point, up to factors that are the same for both curves.
fn derivatives(points: &[Vector2]) -> [Vector2; 3] {
    let order = points.len() - 1;
    let step = |i: usize| points[i] - points[i - 1];
    let first = step(1);
    let second = if order >= 2 { step(2) - first } else { Vector2::ZERO };
    let third = if order >= 3 { step(3) - step(2) - second } else { Vector2::ZERO };
    [order as f64 * first, if order >= 3 { 3.0 * second } else { second }, third]
}

fn ordering([a1, a2, a3]: [Vector2; 3], [b1, b2, b3]: [Vector2; 3]) -> i32 {
    let half = |a: [Vector2; 2], b: [Vector2; 3]| {
        first_sign(&[cross(a[1], b[0]), cross(a[0], b[1]), cross(a[1], b[1]), cross(a[0], b[2]), cross(a[1], b[2])])
    };
    match (a1.is_nonzero(), b1.is_nonzero()) {
        (true, true) => {
            let (s, t) = (a1.length(), b1.length());
            first_sign(&[
                s * cross(a1, b2) + t * cross(a2, b1),
                s * s * cross(a1, b3) + s * t * cross(a2, b2) + t * t * cross(a3, b1),
                s * cross(a2, b3) + t * cross(a3, b2),
                cross(a3, b3),
            ])
        }
        (false, true) => half([a2, a3], [b1, b2, b3]),
        (true, false) => -half([b2, b3], [a1, a2, a3]),
        (false, false) => {
            let (s, t) = (a2.length().sqrt(), b2.length().sqrt());
            first_sign(&[s * cross(a3, b2) + t * cross(a2, b3), cross(a3, b3)])
        }
    }
}

fn first_sign(values: &[f64]) -> i32 {
    values.iter().map(|&value| sign(value)).find(|&sign| sign != 0).unwrap_or(0)
}

#[cfg(test)]
mod tests {
    use super::*;

    fn quadratic(points: [[f64; 2]; 3]) -> EdgeSegment {
        EdgeSegment::Quadratic(points.map(|[x, y]| Vector2::new(x, y)))
    }

    fn cubic(points: [[f64; 2]; 4]) -> EdgeSegment {
        EdgeSegment::Cubic(points.map(|[x, y]| Vector2::new(x, y)))
    }

    /// Both leave (0, 0) to the right; one bends up and the other one down.
    #[test]
    fn up_and_down() {
        let to_corner = |y: f64| quadratic([[4.0, y], [2.0, 0.0], [0.0, 0.0]]);
        let from_corner = |y: f64| quadratic([[0.0, 0.0], [2.0, 0.0], [4.0, y]]);
        assert_eq!(convergent_curve_ordering(&to_corner(-1.0), &from_corner(1.0)), 1);
        assert_eq!(convergent_curve_ordering(&to_corner(1.0), &from_corner(-1.0)), -1);
        assert_eq!(convergent_curve_ordering(&to_corner(1.0), &from_corner(2.0)), 1);
        assert_eq!(convergent_curve_ordering(&to_corner(1.0), &from_corner(1.0)), 0);
        let line = EdgeSegment::line(Vector2::ZERO, Vector2::new(1.0, 0.0));
        assert_eq!(convergent_curve_ordering(&to_corner(1.0), &line), -1);
    }

    /// Curves that bend alike at first, and control points at the corner.
    #[test]
    fn later_derivatives() {
        let to_corner = |y: f64| cubic([[6.0, y], [4.0, 0.0], [2.0, 0.0], [0.0, 0.0]]);
        let from_corner = |y: f64| cubic([[0.0, 0.0], [2.0, 0.0], [4.0, 0.0], [6.0, y]]);
        assert_eq!(convergent_curve_ordering(&to_corner(-1.0), &from_corner(1.0)), 1);
        assert_eq!(convergent_curve_ordering(&to_corner(1.0), &from_corner(-1.0)), -1);
        let resting = cubic([[0.0, 0.0], [0.0, 0.0], [4.0, 0.0], [6.0, 1.0]]);
        assert_eq!(convergent_curve_ordering(&to_corner(-1.0), &resting), 1);
        assert_eq!(convergent_curve_ordering(&to_corner(0.0), &resting), 1);
    }

    /// Two edges that meet in a cusp are pushed apart, each to its own side.
    #[test]
    fn a_cusp_is_pushed_apart() {
        use crate::geometry::Shape;
        for side in [1.0, -1.0] {
            let mut shape = Shape::new();
            let contour = shape.add_contour_mut();
            contour.add_edge(quadratic([[4.0, -side], [2.0, 0.0], [0.0, 0.0]]));
            contour.add_edge(quadratic([[0.0, 0.0], [2.0, 0.0], [4.0, side]]));
            contour.add_edge(EdgeSegment::line(Vector2::new(4.0, side), Vector2::new(4.0, -side)));
            shape.normalize();
            let segments = &shape.contours[0].segments;
            assert!(side * segments[0].direction(1.0).y > 0.0, "it comes from below where side is 1");
            assert!(side * segments[1].direction(0.0).y > 0.0, "it goes up where side is 1");
        }
    }
}
