//! Outlines drawn by hand, in font units.

use crate::contours::{Edges, edge};
use crate::math::Vector2;

fn v((x, y): (f64, f64)) -> Vector2 {
    Vector2::new(x, y)
}

/// A closed path of lines.
pub fn polygon(points: &[(f64, f64)]) -> Edges {
    let at = |i: usize| v(points[i % points.len()]);
    (0..points.len()).map(|i| edge(&[at(i), at(i + 1)])).collect()
}

pub fn square() -> Edges {
    polygon(&[(0.0, 0.0), (1.0, 0.0), (1.0, 1.0), (0.0, 1.0)])
}

/// A path from a point on: each edge by its further points.
fn path(from: (f64, f64), edges: &[&[(f64, f64)]]) -> Edges {
    let mut at = v(from);
    let mut path = Vec::new();
    for further in edges {
        let mut points = vec![at];
        points.extend(further.iter().map(|&p| v(p)));
        at = *points.last().unwrap();
        path.push(edge(&points));
    }
    path
}

/// Four cubics, against the clock, or with it where the radius is below 0.
pub fn circle(x: f64, y: f64, radius: f64) -> Edges {
    let (a, k) = (radius.abs(), radius * 0.5523);
    let b = a * 0.5523;
    path(
        (x + a, y),
        &[
            &[(x + a, y + k), (x + b, y + radius), (x, y + radius)],
            &[(x - b, y + radius), (x - a, y + k), (x - a, y)],
            &[(x - a, y - k), (x - b, y - radius), (x, y - radius)],
            &[(x + b, y - radius), (x + a, y - k), (x + a, y)],
        ],
    )
}

/// Two triangles that meet in a point.
pub fn bow_tie() -> Vec<Edges> {
    let left = polygon(&[(0.0, 0.0), (-400.0, 300.0), (-400.0, -300.0)]);
    let right = polygon(&[(0.0, 0.0), (400.0, -300.0), (400.0, 300.0)]);
    vec![left, right]
}

/// Two cubics that meet smoothly at the foot and in a corner at the tip.
pub fn teardrop() -> Edges {
    path(
        (300.0, 700.0),
        &[
            &[(240.0, 480.0), (60.0, 0.0), (300.0, 0.0)],
            &[(540.0, 0.0), (360.0, 480.0), (300.0, 700.0)],
        ],
    )
}

/// A drop of 47 edges: a line from the tip, three quarters of a circle in 45 quadratics, and a line back. The tip is
/// the one corner. All points are to the nearest 1/64.
pub fn long_teardrop() -> Edges {
    let nearest = |x: f64| (x * 64.0).round() / 64.0;
    let at = |degrees: f64, radius: f64| {
        let (y, x) = degrees.to_radians().sin_cos();
        (nearest(300.0 + radius * x), nearest(300.0 + radius * y))
    };
    let tip = at(90.0, 300.0 * 2.0f64.sqrt());
    let mut edges = vec![vec![at(135.0, 300.0)]];
    for i in 0..45 {
        let from = 135.0 + 6.0 * i as f64;
        let control = at(from + 3.0, 300.0 / 3.0f64.to_radians().cos());
        edges.push(vec![control, at(from + 6.0, 300.0)]);
    }
    edges.push(vec![tip]);
    path(tip, &edges.iter().map(|edge| &edge[..]).collect::<Vec<_>>())
}

/// A flag and a pennant that have a point twice each; the flag has an edge straight up, and a cubic whose control
/// points are both at its start.
pub fn doubled() -> Vec<Edges> {
    let flag = path(
        (100.0, 0.0),
        &[
            &[(100.0, 700.0)],
            &[(100.0, 700.0)],
            &[(400.0, 700.0), (400.0, 400.0)],
            &[(400.0, 400.0), (400.0, 400.0), (200.0, 100.0)],
            &[(100.0, 0.0)],
        ],
    );
    let pennant = polygon(&[(500.0, 0.0), (600.0, 0.0), (600.0, 0.0), (550.0, 80.0)]);
    vec![flag, pennant]
}

/// The sign of a registered trade mark: a ring of cubics, and an R of lines and quadratics.
pub fn registered() -> Vec<Edges> {
    let letter = path(
        (260.0, 160.0),
        &[
            &[(260.0, 590.0)],
            &[(430.0, 590.0)],
            &[(500.0, 590.0), (537.0, 558.0)],
            &[(574.0, 526.0), (574.0, 468.0)],
            &[(574.0, 422.0), (549.0, 390.0)],
            &[(524.0, 358.0), (478.0, 348.0)],
            &[(592.0, 160.0)],
            &[(504.0, 160.0)],
            &[(400.0, 340.0)],
            &[(336.0, 340.0)],
            &[(336.0, 160.0)],
            &[(260.0, 160.0)],
        ],
    );
    let bowl = path(
        (336.0, 402.0),
        &[
            &[(424.0, 402.0)],
            &[(460.0, 402.0), (480.0, 419.0)],
            &[(500.0, 436.0), (500.0, 466.0)],
            &[(500.0, 496.0), (480.0, 512.0)],
            &[(460.0, 528.0), (424.0, 528.0)],
            &[(336.0, 528.0)],
            &[(336.0, 402.0)],
        ],
    );
    vec![circle(400.0, 370.0, -370.0), circle(400.0, 370.0, 320.0), letter, bowl]
}
