use crate::ffi::{self, Counts, Division, FlatResult};
use crate::outline::{self, Collected, Colored, EdgeColor, Outline};
use crate::refusal::Refusal;

const REFUSED: u64 = 1 << 32;
const NO_SPLINE: u8 = 255;

/// The number that a call answers, or its refusal.
pub(crate) fn answer(code: u64) -> Result<u64, Refusal> {
    if ffi::is_refusal(code) { Err(Refusal::from_code(code - REFUSED)) } else { Ok(code) }
}

/// The counts that a call answers, or its refusal.
pub(crate) fn counts(code: u64) -> Result<Counts, Refusal> {
    answer(code).map(Counts::of)
}

/// The result of a colouring, by its answer and its buffers.
pub(crate) fn colored(code: u64, out: &FlatResult) -> Result<Colored, Refusal> {
    let Counts { stand_ins, .. } = counts(code)?;
    let contours = outline::contours(out.lengths(), &out.kinds, &out.points, &out.bytes, EdgeColor::from_bits);
    Ok(Colored { contours, stand_ins })
}

fn color(outline: &Outline, entry: impl FnOnce(&ffi::Flat, &mut FlatResult) -> u64) -> Result<Colored, Refusal> {
    let mut out = outline.room();
    let code = entry(&outline.flat(), &mut out);
    colored(code, &out)
}

pub(crate) fn simple(division: Division, outline: &Outline, threshold: f64, seed: u64) -> Result<Colored, Refusal> {
    color(outline, |flat, out| ffi::edge_coloring_simple(division, flat, threshold, seed, out))
}

pub(crate) fn ink_trap(division: Division, outline: &Outline, threshold: f64, seed: u64) -> Result<Colored, Refusal> {
    color(outline, |flat, out| ffi::edge_coloring_ink_trap(division, flat, threshold, seed, out))
}

pub(crate) fn by_distance(
    division: Division,
    outline: &Outline,
    threshold: f64,
    seed: u64,
    distances: &[f64],
) -> Result<Colored, Refusal> {
    color(outline, |flat, out| ffi::edge_coloring_by_distance(division, flat, threshold, seed, distances, out))
}

pub(crate) fn splines(division: Division, outline: &Outline, threshold: f64) -> Result<Collected, Refusal> {
    let mut out = outline.room();
    let Counts { splines, stand_ins, .. } = counts(ffi::collect_splines(division, &outline.flat(), threshold, &mut out))?;
    let spline = |number: u8| Some(number).filter(|&number| number != NO_SPLINE);
    let contours = outline::contours(out.lengths(), &out.kinds, &out.points, &out.bytes, spline);
    Ok(Collected { contours, splines, stand_ins })
}

/// The threshold for an angle in radians from which a turn is a corner: its sine.
///
/// ```
/// use merelsplum::{Outline, edge_coloring_simple, threshold};
///
/// let almost_straight = Outline::polygon(&[[0.0, 0.0], [4.0, 1.0], [8.0, 0.0], [4.0, 9.0]]);
/// let colors = |angle: f64| edge_coloring_simple(&almost_straight, threshold(angle), 0);
/// assert_ne!(colors(3.0)?, colors(1.6)?);
/// # Ok::<(), merelsplum::Refusal>(())
/// ```
#[must_use]
pub fn threshold(angle: f64) -> f64 {
    angle.sin()
}

/// Goes round each contour and changes the colour at every corner. `threshold` is the sine of the angle from which a
/// turn is a corner, -1 to 1; `seed` picks among colours that are as good as each other.
///
/// # Errors
///
/// [`Refusal::TooMany`], [`Refusal::BadThreshold`] or [`Refusal::BadCoordinate`].
///
/// ```
/// use merelsplum::{Outline, Refusal, edge_coloring_simple};
///
/// let triangle = Outline::polygon(&[[0.0, 0.0], [8.0, 0.0], [4.0, 7.0]]);
/// assert_eq!(edge_coloring_simple(&triangle, 0.125, 0)?.edge_count(), 3);
/// assert_eq!(edge_coloring_simple(&triangle, 2.0, 0), Err(Refusal::BadThreshold));
/// // a point that stands twice makes a line without length: its two directions are stand-ins
/// let doubled = Outline::polygon(&[[0.0, 0.0], [8.0, 0.0], [8.0, 0.0], [4.0, 7.0]]);
/// assert_eq!(edge_coloring_simple(&doubled, 0.125, 0)?.stand_ins, 2);
/// # Ok::<(), Refusal>(())
/// ```
pub fn edge_coloring_simple(outline: &Outline, threshold: f64, seed: u64) -> Result<Colored, Refusal> {
    simple(Division::Source, outline, threshold, seed)
}

/// As [`edge_coloring_simple`], but a spline that is shorter than both its neighbours, as at an ink trap, takes the
/// colour that they leave over, and they change colours as if it was not there.
///
/// # Errors
///
/// As [`edge_coloring_simple`].
///
/// ```
/// use merelsplum::{Colored, EdgeColor::*, Outline, edge_coloring_ink_trap, edge_coloring_simple};
///
/// let colors = |colored: Colored| colored.contours[0].iter().map(|&(_, color)| color).collect::<Vec<_>>();
/// let cut_square = Outline::polygon(&[[0.0, 0.0], [9.0, 0.0], [9.0, 8.0], [8.0, 9.0], [0.0, 9.0]]);
/// assert_eq!(colors(edge_coloring_simple(&cut_square, 0.125, 0)?), [Magenta, Yellow, Cyan, Magenta, Yellow]);
/// assert_eq!(colors(edge_coloring_ink_trap(&cut_square, 0.125, 0)?), [Magenta, Yellow, Magenta, Cyan, Yellow]);
/// # Ok::<(), merelsplum::Refusal>(())
/// ```
pub fn edge_coloring_ink_trap(outline: &Outline, threshold: f64, seed: u64) -> Result<Colored, Refusal> {
    ink_trap(Division::Source, outline, threshold, seed)
}

/// Gives splines that are near each other different colours. `distances` has one for each pair i < j of the splines
/// that [`collect_splines`] numbers, by i and then by j: finite, not below zero, and 0 where the two touch.
///
/// # Errors
///
/// As [`edge_coloring_simple`], and [`Refusal::LengthMismatch`] or [`Refusal::BadDistance`].
///
/// ```
/// use merelsplum::{EdgeColor::*, Outline, collect_splines, edge_coloring_by_distance};
///
/// let square = Outline::polygon(&[[0.0, 0.0], [1.0, 0.0], [1.0, 1.0], [0.0, 1.0]]);
/// assert_eq!(collect_splines(&square, 0.125)?.splines, 4);
/// // 0 beside each other, 1 across
/// let colored = edge_coloring_by_distance(&square, 0.125, 0, &[0.0, 1.0, 0.0, 0.0, 1.0, 0.0])?;
/// let colors: Vec<_> = colored.contours[0].iter().map(|&(_, color)| color).collect();
/// assert_eq!(colors, [Yellow, Cyan, Magenta, Cyan]);
/// # Ok::<(), merelsplum::Refusal>(())
/// ```
pub fn edge_coloring_by_distance(outline: &Outline, threshold: f64, seed: u64, distances: &[f64]) -> Result<Colored, Refusal> {
    by_distance(Division::Source, outline, threshold, seed, distances)
}

/// Cuts an outline into splines, for [`edge_coloring_by_distance`].
///
/// # Errors
///
/// As [`edge_coloring_simple`].
///
/// ```
/// use merelsplum::{Edge, Outline, collect_splines};
///
/// // a teardrop: one curve with one corner, split in thirds, of which the middle one belongs to no spline
/// let drop = Outline::from(vec![vec![Edge::Cubic([[0.0, 0.0], [3.0, 3.0], [-3.0, 3.0], [0.0, 0.0]])]]);
/// let collected = collect_splines(&drop, 0.125)?;
/// let splines: Vec<_> = collected.contours[0].iter().map(|&(_, spline)| spline).collect();
/// assert_eq!(splines, [Some(0), None, Some(1)]);
/// # Ok::<(), merelsplum::Refusal>(())
/// ```
pub fn collect_splines(outline: &Outline, threshold: f64) -> Result<Collected, Refusal> {
    splines(Division::Source, outline, threshold)
}
