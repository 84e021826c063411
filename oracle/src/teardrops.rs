//! Teardrops, contours with one corner, and their two divisions: the rules in whole numbers, where the results by the
//! two differ, and outlines to try.

use crate::contours::{self, Edges, KINDS, corners, planned};
use crate::numbers::Random;
use crate::shapes::{Buffers, some};

/// The lengths up to 256 at which the divisions differ: n - 1 is a multiple of 46.
pub const TIES: [usize; 5] = [47, 93, 139, 185, 231];

// ---- the rules

/// The source's division (SCOPE, Leaves).
pub fn by_the_source(p: i32, n: i32) -> i32 {
    match 46 * p {
        x if x < 15 * (n - 1) => -1,
        x if x < 31 * (n - 1) => 0,
        _ => 1,
    }
}

/// The balanced one.
pub fn balanced(p: i32, n: i32) -> i32 {
    match 46 * p {
        x if x < 15 * (n - 1) => -1,
        x if x <= 31 * (n - 1) => 0,
        _ => 1,
    }
}

// ---- where they differ

/// How many edges a contour with so many corners has in the result.
fn in_result(m: usize, corners: usize) -> usize {
    if corners == 1 && m < 3 { 3 * m } else { m }
}

/// The edges of the result, by their places through all contours, that the two divisions give to different runs.
pub fn ties(contours: &[Edges], threshold: f64) -> Vec<usize> {
    let mut first = 0;
    let mut places = Vec::new();
    for edges in contours {
        let (m, corners) = (edges.len(), corners(edges, threshold));
        if let ([corner], true) = (&corners[..], TIES.contains(&m)) {
            places.push(first + (corner + 31 * (m - 1) / 46) % m);
        }
        first += in_result(m, corners.len());
    }
    places
}

/// Whether two results of one outline, by the source's division and by the balanced one, differ. They must do so at
/// its ties and nowhere else, and have `middle` there by the balanced division.
pub fn divided(
    contours: &[Edges],
    threshold: f64,
    source: &Buffers,
    balanced: &Buffers,
    middle: u8,
) -> bool {
    let ties = ties(contours, threshold);
    assert_eq!(source.sizes(), balanced.sizes());
    assert!(
        source.lengths == balanced.lengths
            && source.kinds == balanced.kinds
            && source.points == balanced.points
    );
    let pairs = source.colors.iter().zip(&balanced.colors).enumerate();
    let other: Vec<usize> = pairs.filter(|(_, (a, b))| a != b).map(|(i, _)| i).collect();
    assert_eq!(other, ties, "the divisions differ elsewhere");
    assert!(ties.iter().all(|&i| balanced.colors[i] == middle), "a tie that is not in the middle");
    !ties.is_empty()
}

// ---- outlines to try

/// A contour of m edges whose one corner is at a place; of one edge it is a curve.
pub fn teardrop(r: &mut Random, m: usize, corner: usize, threshold: f64) -> Edges {
    let mut flags = vec![false; m];
    flags[corner] = true;
    loop {
        let kinds: &[usize] = r.pick(&[&[1], &[1, 3], &KINDS]);
        let edges = planned(r, &flags, threshold, kinds);
        if corners(&edges, threshold) == [corner] {
            return edges;
        }
    }
}

/// Several contours, most of them teardrops of the lengths at which the divisions differ, with others between them.
pub fn several(r: &mut Random, threshold: f64) -> Vec<Edges> {
    let mut room = 256;
    let mut shape = Vec::new();
    while room > 0 && shape.len() < 12 {
        let any = 1 + some(r, 60);
        let m = r.pick(&[0, 1, 2, 3, 47, 47, 47, 93, 93, 139, 185, 231, any]).min(room);
        room -= m;
        shape.push(match r.below(6) {
            _ if m == 0 => Vec::new(),
            0 => contours::contour(r, m, threshold),
            _ => {
                let corner = some(r, m);
                teardrop(r, m, corner, threshold)
            }
        });
    }
    shape
}
