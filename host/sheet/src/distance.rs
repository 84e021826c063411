//! The signed distance of a point from an edge. Lines and cubics are measured by docs/src. Quadratics are measured here
//! after it, with a solver that calls `cbrt` in place of `pow`.

use crate::source::{EdgeSegment, SignedDistance, Vector2, cross, dot, non_zero_sign, solve_quadratic};
use std::f64::consts::PI;

/// The distance, and the parameter of the nearest point: below 0 and above 1 beyond the ends.
pub fn signed_distance(edge: &EdgeSegment, point: Vector2) -> (SignedDistance, f64) {
    match edge {
        EdgeSegment::Quadratic(points) => quadratic(edge, points, point),
        _ => edge.signed_distance(point),
    }
}

fn quadratic(edge: &EdgeSegment, points: &[Vector2; 3], point: Vector2) -> (SignedDistance, f64) {
    let qa = points[0] - point;
    let ab = points[1] - points[0];
    let br = points[2] - points[1] - ab;
    let qb = points[2] - point;
    let signed = |way: Vector2, to: Vector2, length: f64| f64::from(non_zero_sign(cross(way, to))) * length;

    let first = edge.direction(0.0);
    let mut distance = signed(first, qa, qa.length());
    let mut param = -dot(qa, first) / dot(first, first);
    let to_end = qb.length();
    if to_end < distance.abs() {
        let last = edge.direction(1.0);
        distance = signed(last, qb, to_end);
        param = dot(point - points[1], last) / dot(last, last);
    }
    let (roots, count) = solve_cubic(dot(br, br), 3.0 * dot(ab, br), 2.0 * dot(ab, ab) + dot(qa, br), dot(qa, ab));
    for &t in &roots[..count] {
        if t > 0.0 && t < 1.0 {
            let to = qa + 2.0 * t * ab + (t * t) * br;
            let length = to.length();
            if length <= distance.abs() {
                distance = signed(ab + t * br, to, length);
                param = t;
            }
        }
    }
    if (0.0..=1.0).contains(&param) {
        return (SignedDistance::new(distance, 0.0), param);
    }
    let (way, to) = if param < 0.5 { (first, qa) } else { (edge.direction(1.0), qb) };
    (SignedDistance::new(distance, dot(way.normalize(false), to.normalize(false)).abs()), param)
}

/// The real roots of a x³ + b x² + c x + d, and how many there are.
fn solve_cubic(a: f64, b: f64, c: f64, d: f64) -> ([f64; 3], usize) {
    if a != 0.0 && (b / a).abs() < 1e6 {
        return solve_monic(b / a, c / a, d / a);
    }
    let found = solve_quadratic(b, c, d).roots();
    let mut roots = [0.0; 3];
    roots[..found.len()].copy_from_slice(&found);
    (roots, found.len())
}

/// The real roots of x³ + a x² + b x + c.
fn solve_monic(a: f64, b: f64, c: f64) -> ([f64; 3], usize) {
    let q = (a * a - 3.0 * b) / 9.0;
    let r = (a * (2.0 * a * a - 9.0 * b) + 27.0 * c) / 54.0;
    let (shift, q3) = (a / 3.0, q * q * q);
    if r * r < q3 {
        let angle = (r / q3.sqrt()).clamp(-1.0, 1.0).acos() / 3.0;
        let root = |turn: f64| -2.0 * q.sqrt() * (angle + turn).cos() - shift;
        return ([root(0.0), root(2.0 * PI / 3.0), root(-2.0 * PI / 3.0)], 3);
    }
    let u = -(r.abs() + (r * r - q3).sqrt()).cbrt().copysign(r);
    let v = if u == 0.0 { 0.0 } else { q / u };
    let double = u == v || (u - v).abs() < 1e-12 * (u + v).abs();
    ([u + v - shift, -0.5 * (u + v) - shift, 0.0], 1 + usize::from(double))
}

#[cfg(test)]
mod tests {
    use super::*;

    /// The distances of docs/src, at all places about some curves.
    #[test]
    fn as_in_docs_src() {
        for points in
            [[(0, 0), (10, 30), (40, 0)], [(0, 0), (20, 0), (20, 20)], [(0, 0), (30, 1), (5, 2)], [(0, 0), (10, 1), (20, 0)]]
        {
            let edge = EdgeSegment::Quadratic(points.map(|(x, y)| Vector2::new(x.into(), y.into())));
            for (x, y) in (-40..80).flat_map(|y| (-40..80).map(move |x| (x, y))) {
                let point = Vector2::new(f64::from(x) + 0.25, f64::from(y) + 0.125);
                let ((a, t), (b, u)) = (signed_distance(&edge, point), edge.signed_distance(point));
                let near = |a: f64, b: f64| (a - b).abs() < 1e-9 * (1.0 + b.abs());
                assert!(near(a.distance, b.distance) && near(a.dot, b.dot) && (t - u).abs() < 1e-6, "{points:?} at {point:?}");
            }
        }
    }
}
