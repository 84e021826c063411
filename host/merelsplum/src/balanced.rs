//! Colouring with balanced teardrops.
//!
//! A contour with one corner, a teardrop, is coloured in three runs, of which the middle one is White. Of n edges, 3 or
//! more, the functions here have place p, counted from 0 at the corner, in the middle run where
//! 15 (n - 1) <= 46 p <= 31 (n - 1), so that the two outer runs are equally long. The functions of the same names
//! outside this module, after msdfgen, have the place with 46 p = 31 (n - 1) in the last run. So the two differ only
//! where n - 1 is a multiple of 46, and there in one edge.
//!
//! ```
//! use merelsplum::{Colored, Outline, balanced, edge_coloring_simple};
//! use std::f64::consts::TAU;
//!
//! // a drop of 47 lines, the first and the last of which meet in its tip
//! let point = |t: f64| [t.cos(), t.sin() * (0.5 * t).sin()];
//! let points: Vec<_> = (0..47).map(|i| point(f64::from(i) / 47.0 * TAU)).collect();
//! let drop = Outline::polygon(&points);
//! let runs = |colored: Colored| colored.contours[0].chunk_by(|a, b| a.1 == b.1).map(<[_]>::len).collect::<Vec<_>>();
//! assert_eq!(runs(balanced::edge_coloring_simple(&drop, 0.25, 0)?), [15, 17, 15]);
//! assert_eq!(runs(edge_coloring_simple(&drop, 0.25, 0)?), [15, 16, 16]);
//! # Ok::<(), merelsplum::Refusal>(())
//! ```

use crate::coloring::{by_distance, ink_trap, simple, splines};
use crate::ffi::Division::Balanced;
use crate::outline::{Collected, Colored, Outline};
use crate::refusal::Refusal;

/// As [`edge_coloring_simple`](crate::edge_coloring_simple), with balanced teardrops.
///
/// # Errors
///
/// The same.
pub fn edge_coloring_simple(outline: &Outline, threshold: f64, seed: u64) -> Result<Colored, Refusal> {
    simple(Balanced, outline, threshold, seed)
}

/// As [`edge_coloring_ink_trap`](crate::edge_coloring_ink_trap), with balanced teardrops.
///
/// # Errors
///
/// The same.
pub fn edge_coloring_ink_trap(outline: &Outline, threshold: f64, seed: u64) -> Result<Colored, Refusal> {
    ink_trap(Balanced, outline, threshold, seed)
}

/// As [`edge_coloring_by_distance`](crate::edge_coloring_by_distance), with balanced teardrops. The distances are those
/// of the splines that [`collect_splines`] of this module numbers.
///
/// # Errors
///
/// The same.
pub fn edge_coloring_by_distance(outline: &Outline, threshold: f64, seed: u64, distances: &[f64]) -> Result<Colored, Refusal> {
    by_distance(Balanced, outline, threshold, seed, distances)
}

/// As [`collect_splines`](crate::collect_splines), with balanced teardrops, for [`edge_coloring_by_distance`] of this
/// module.
///
/// # Errors
///
/// The same.
pub fn collect_splines(outline: &Outline, threshold: f64) -> Result<Collected, Refusal> {
    splines(Balanced, outline, threshold)
}
