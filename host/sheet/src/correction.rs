//! Takes out what channels that cross each other put between pixels, after msdfgen's error correction. Where two
//! channels meet on the way from a pixel to its neighbour, the middle value can be far from both: a speck, a notch or a
//! tear. The pixel of the two that is further from the outline then gets its middle value in all channels.

use crate::field::middle;
use crate::source::solve_quadratic;
use std::f64::consts::SQRT_2;

pub type Pixel = [f64; 3];

/// Which pixels may be changed.
#[derive(Clone, Copy, Debug, PartialEq, Eq)]
pub enum Mode {
    Disabled,
    /// All.
    Indiscriminate,
    /// Those that form edges and corners only where the side changes between pixels.
    EdgePriority,
    /// All only where the side changes between pixels.
    EdgeOnly,
}

/// What is measured exactly before a pixel is changed.
#[derive(Clone, Copy, Debug, PartialEq, Eq)]
pub enum Check {
    Nothing,
    /// Places where the side changes.
    AtEdge,
    /// All places.
    Always,
}

#[derive(Clone, Copy, Debug, PartialEq)]
pub struct Correction {
    pub mode: Mode,
    pub check: Check,
    /// How much faster than a distance the middle value may change.
    pub deviation: f64,
    /// How much nearer to the exact distance the value must come.
    pub improve: f64,
}

impl Default for Correction {
    fn default() -> Correction {
        Correction { mode: Mode::EdgePriority, check: Check::AtEdge, deviation: 10.0 / 9.0, improve: 10.0 / 9.0 }
    }
}

/// No nearer than this to a pixel is a place looked at.
const NEAR: f64 = 0.01;

/// A field's values, 0.5 on the outline, by rows from the top.
pub struct Raster<'a> {
    pub values: &'a mut [Pixel],
    pub width: usize,
    /// How much a distance changes from a pixel to the next.
    pub step: f64,
}

/// What is known of a place between pixels.
#[derive(Clone, Copy, PartialEq)]
enum Finding {
    Nothing,
    /// The value is not between those of the pixels.
    Candidate,
    /// And it is further from them than a distance can be.
    Artifact,
}

/// A pixel with what is looked for about it.
struct Around<'a> {
    values: &'a [Pixel],
    notes: &'a [Note],
    width: usize,
    height: usize,
    x: usize,
    y: usize,
    protected: bool,
}

impl Correction {
    /// Corrects a field. `corners` are places in pixels, from the top left, where colours change; `exact` measures the
    /// value of such a place.
    pub fn apply(&self, raster: Raster, corners: &[(f64, f64)], mut exact: impl FnMut(f64, f64) -> f64) {
        let Raster { values, width, step } = raster;
        if self.mode == Mode::Disabled || values.is_empty() {
            return;
        }
        let height = values.len() / width;
        let notes: Vec<Note> = values.iter().map(Note::new).collect();
        let mut protected = vec![self.mode == Mode::EdgeOnly; values.len()];
        if self.mode == Mode::EdgePriority {
            protect_corners(&mut protected, width, height, corners);
            protect_edges(&mut protected, values, &notes, width, step);
        }
        let mut errors = vec![false; values.len()];
        let span = self.deviation * step;
        let around = |at: usize, protected: bool| {
            let (x, y) = (at % width, at / width);
            Around { values, notes: &notes, width, height, x, y, protected }
        };
        if self.check == Check::Nothing || (self.check == Check::AtEdge && self.mode != Mode::EdgeOnly) {
            for at in 0..values.len() {
                errors[at] = around(at, protected[at]).is_error(span, &mut |_, _, finding| finding == Finding::Artifact);
            }
            if self.check == Check::AtEdge {
                protected.fill(true);
            }
        }
        if self.check != Check::Nothing {
            for at in (0..values.len()).filter(|&at| !errors[at]).collect::<Vec<_>>() {
                let around = around(at, protected[at]);
                errors[at] = around.is_error(span, &mut |across, down, finding| match finding {
                    Finding::Nothing => false,
                    Finding::Artifact => true,
                    Finding::Candidate => self.improves(&around, across, down, &mut exact),
                });
            }
        }
        for (value, _) in values.iter_mut().zip(errors).filter(|(_, error)| *error) {
            *value = [middle(value); 3];
        }
    }

    /// Whether a place's value comes nearer to the exact one when the pixel gets its middle value in all channels.
    fn improves(&self, around: &Around, across: f64, down: f64, exact: &mut impl FnMut(f64, f64) -> f64) -> bool {
        let (x, y) = (around.x as f64 + across, around.y as f64 + down);
        let before = around.between(x, y);
        let pixel = around.at(0, 0);
        let weight = (1.0 - across.abs()) * (1.0 - down.abs());
        let after = [0, 1, 2].map(|i| before[i] + weight * (middle(pixel) - pixel[i]));
        let truth = exact(x + 0.5, y + 0.5);
        self.improve * (middle(&after) - truth).abs() < (middle(&before) - truth).abs()
    }
}

/// Protects the four pixels about each corner.
fn protect_corners(protected: &mut [bool], width: usize, height: usize, corners: &[(f64, f64)]) {
    for &(x, y) in corners {
        let (left, top) = ((x - 0.5).floor(), (y - 0.5).floor());
        for (x, y) in [(left, top), (left + 1.0, top), (left, top + 1.0), (left + 1.0, top + 1.0)] {
            if x >= 0.0 && y >= 0.0 && x < width as f64 && y < height as f64 {
                protected[y as usize * width + x as usize] = true;
            }
        }
    }
}

/// Protects the pixels whose extreme channels form an edge.
fn protect_edges(protected: &mut [bool], values: &[Pixel], notes: &[Note], width: usize, step: f64) {
    let mut pair = |a: usize, b: usize, reach: f64| {
        let (first, last) = (notes[a].middle, notes[b].middle);
        let crosses = notes[a].inside != notes[b].inside;
        if crosses && (first - 0.5).abs() + (last - 0.5).abs() < 1.001 * reach {
            for channel in (0..3).filter(|&channel| forms_edge(&values[a], &values[b], channel)) {
                protected[a] |= values[a][channel] != first;
                protected[b] |= values[b][channel] != last;
            }
        }
    };
    for at in 0..values.len() {
        let (right, below) = (at % width + 1 < width, at + width < values.len());
        if right {
            pair(at, at + 1, step);
        }
        if below {
            pair(at, at + width, step);
        }
        if right && below {
            pair(at, at + width + 1, SQRT_2 * step);
            pair(at + 1, at + width, SQRT_2 * step);
        }
    }
}

/// Whether a channel is the middle one where it crosses the outline between two pixels.
fn forms_edge(a: &Pixel, b: &Pixel, channel: usize) -> bool {
    let t = (a[channel] - 0.5) / (a[channel] - b[channel]);
    let between = [0, 1, 2].map(|i| a[i] * (1.0 - t) + b[i] * t);
    t > 0.0 && t < 1.0 && middle(&between) == between[channel]
}

impl Around<'_> {
    fn place(&self, across: isize, down: isize) -> usize {
        (self.y as isize + down) as usize * self.width + (self.x as isize + across) as usize
    }

    fn at(&self, across: isize, down: isize) -> &Pixel {
        &self.values[self.place(across, down)]
    }

    fn has(&self, across: isize, down: isize) -> bool {
        let within = |at: usize, by: isize, limit: usize| at.checked_add_signed(by).is_some_and(|at| at < limit);
        within(self.x, across, self.width) && within(self.y, down, self.height)
    }

    /// The values of a place, linear between pixels.
    fn between(&self, x: f64, y: f64) -> Pixel {
        let (left, top) = (x.floor(), y.floor());
        let at = |x: f64, y: f64| {
            let (x, y) = ((x.max(0.0) as usize).min(self.width - 1), (y.max(0.0) as usize).min(self.height - 1));
            &self.values[y * self.width + x]
        };
        let mix = |a: f64, b: f64, t: f64| a + (b - a) * t;
        let across = |y: f64, i: usize| mix(at(left, y)[i], at(left + 1.0, y)[i], x - left);
        [0, 1, 2].map(|i| mix(across(top, i), across(top + 1.0, i), y - top))
    }

    /// Whether nothing can be found on the way to any of the neighbours.
    fn is_quiet(&self) -> bool {
        let near = |at: usize, limit: usize| at.saturating_sub(1)..(at + 2).min(limit);
        let rows = near(self.y, self.height).map(|y| y * self.width);
        let notes = || rows.clone().flat_map(|row| &self.notes[row..][near(self.x, self.width)]);
        !Note::meet(notes()) || (self.protected && Note::one_side(notes()))
    }

    /// Whether the judge calls a place on the way to one of the eight neighbours an error: it is given the way there
    /// and the finding.
    fn is_error(&self, span: f64, judge: &mut impl FnMut(f64, f64, Finding) -> bool) -> bool {
        if self.is_quiet() {
            return false;
        }
        let straight = [(-1, 0), (1, 0), (0, -1), (0, 1)].into_iter().filter(|&(across, down)| self.has(across, down));
        let diagonal = [(-1, -1), (1, -1), (-1, 1), (1, 1)].into_iter().filter(|&(across, down)| self.has(across, down));
        straight.into_iter().any(|(across, down)| self.straight(across, down, span, judge))
            || diagonal.into_iter().any(|(across, down)| self.diagonal(across, down, SQRT_2 * span, judge))
    }

    /// Whether nothing can be found between these pixels, the first of which is this one and the last its neighbour.
    fn passes(&self, notes: &[&Note]) -> bool {
        let [first, .., last] = notes else { return true };
        let is_further = (first.middle - 0.5).abs() >= (last.middle - 0.5).abs();
        !is_further || !Note::meet(notes.iter().copied()) || (self.protected && Note::one_side(notes.iter().copied()))
    }

    fn straight(&self, across: isize, down: isize, span: f64, judge: &mut impl FnMut(f64, f64, Finding) -> bool) -> bool {
        let notes = [(0, 0), (across, down)].map(|(across, down)| &self.notes[self.place(across, down)]);
        if self.passes(&notes) {
            return false;
        }
        let [first, last] = notes.map(|note| note.middle);
        let (a, b) = (self.at(0, 0), self.at(across, down));
        PAIRS.into_iter().any(|(i, j)| {
            let (here, there) = (a[j] - a[i], b[j] - b[i]);
            let t = if here * there < 0.0 { here / (here - there) } else { 0.0 };
            t > NEAR && t < 1.0 - NEAR && {
                let value = middle(&[0, 1, 2].map(|i| a[i] * (1.0 - t) + b[i] * t));
                judge(t * across as f64, t * down as f64, self.test(span, [0.0, t, 1.0], [first, value, last]))
            }
        })
    }

    fn diagonal(&self, across: isize, down: isize, span: f64, judge: &mut impl FnMut(f64, f64, Finding) -> bool) -> bool {
        let places = [(0, 0), (across, 0), (0, down), (across, down)].map(|(across, down)| self.place(across, down));
        let notes = places.map(|at| &self.notes[at]);
        if self.passes(&notes) {
            return false;
        }
        let (first, last) = (notes[0].middle, notes[3].middle);
        let [a, b, c, d] = places.map(|at| &self.values[at]);
        let linear = [0, 1, 2].map(|i| b[i] + c[i] - 2.0 * a[i]);
        let square = [0, 1, 2].map(|i| a[i] - b[i] - c[i] + d[i]);
        let value = |t: f64| middle(&[0, 1, 2].map(|i| a[i] + t * (linear[i] + t * square[i])));
        let extreme = [0, 1, 2].map(|i| -0.5 * linear[i] / square[i]);
        PAIRS.into_iter().any(|(i, j)| {
            // they cannot meet where the difference has one sign at both ends and in its middle control point
            let differences = [a[j] - a[i], b[j] - b[i] + c[j] - c[i], d[j] - d[i]];
            if differences.iter().all(|&x| x >= 0.0) || differences.iter().all(|&x| x <= 0.0) {
                return false;
            }
            let meet = solve_quadratic(square[j] - square[i], linear[j] - linear[i], a[j] - a[i]).roots();
            meet.iter().any(|&t| {
                t > NEAR && t < 1.0 - NEAR && {
                    let mut finding = self.test(span, [0.0, t, 1.0], [first, value(t), last]);
                    for e in [extreme[i], extreme[j]].into_iter().filter(|&e| e > 0.0 && e < 1.0) {
                        let other = if e > t {
                            self.test(span, [0.0, t, e], [first, value(t), value(e)])
                        } else {
                            self.test(span, [e, t, 1.0], [value(e), value(t), last])
                        };
                        finding = finding.or(other);
                    }
                    judge(t * across as f64, t * down as f64, finding)
                }
            })
        })
    }

    /// Tests the value at a place against those before and after it.
    fn test(&self, span: f64, places: [f64; 3], values: [f64; 3]) -> Finding {
        let [before, value, after] = values;
        let inverted = (before > 0.5 && after > 0.5 && value <= 0.5) || (before < 0.5 && after < 0.5 && value >= 0.5);
        if !inverted && (self.protected || middle(&values) == value) {
            return Finding::Nothing;
        }
        let near = |other: f64, way: f64| (value - other).abs() <= way * span;
        if near(before, places[1] - places[0]) && near(after, places[2] - places[1]) {
            Finding::Candidate
        } else {
            Finding::Artifact
        }
    }
}

/// The pairs of channels.
const PAIRS: [(usize, usize); 3] = [(0, 1), (1, 2), (2, 0)];

/// What is asked often of a pixel. The bits of `inside` are the channels that are inside; those of `above` and `below`
/// are the pairs whose second channel is above or below the first.
#[derive(Clone, Copy)]
pub struct Note {
    pub middle: f64,
    inside: u8,
    above: u8,
    below: u8,
}

impl Note {
    pub fn new(pixel: &Pixel) -> Note {
        let bits = |holds: [bool; 3]| holds.iter().rev().fold(0, |bits, &holds| 2 * bits + u8::from(holds));
        Note {
            middle: middle(pixel),
            inside: bits(pixel.map(|value| value > 0.5)),
            above: bits(PAIRS.map(|(i, j)| pixel[j] > pixel[i])),
            below: bits(PAIRS.map(|(i, j)| pixel[j] < pixel[i])),
        }
    }

    /// Whether two channels can meet between pixels: one is above the other in one of them, and below in another one.
    fn meet<'a>(notes: impl Iterator<Item = &'a Note>) -> bool {
        let (above, below) = notes.fold((0, 0), |(above, below), note| (above | note.above, below | note.below));
        above & below != 0
    }

    /// Whether two channels are on one side in all these pixels, so that the middle value between them is.
    pub fn one_side<'a>(notes: impl Iterator<Item = &'a Note>) -> bool {
        let (any, all) = notes.fold((0u8, 7u8), |(any, all), note| (any | note.inside, all & note.inside));
        all.count_ones() >= 2 || any.count_ones() <= 1
    }
}

impl Finding {
    fn or(self, other: Finding) -> Finding {
        match (self, other) {
            (Finding::Artifact, _) | (_, Finding::Artifact) => Finding::Artifact,
            (Finding::Nothing, Finding::Nothing) => Finding::Nothing,
            _ => Finding::Candidate,
        }
    }
}

#[cfg(test)]
mod tests {
    use super::*;

    const FAST: Correction =
        Correction { mode: Mode::EdgePriority, check: Check::Nothing, deviation: 10.0 / 9.0, improve: 10.0 / 9.0 };

    /// What becomes of a row or a square of pixels; what is exact is not asked.
    fn corrected<const M: usize>(mode: Mode, mut values: [Pixel; M], width: usize, pxrange: f64) -> [Pixel; M] {
        let raster = Raster { values: &mut values, width, step: 1.0 / pxrange };
        Correction { mode, ..FAST }.apply(raster, &[], |_, _| panic!("nothing is measured"));
        values
    }

    #[test]
    fn specks_are_taken_out() {
        let values = [[0.9, 0.9, 0.1], [0.1, 0.9, 0.9]];
        for mode in [Mode::Indiscriminate, Mode::EdgePriority, Mode::EdgeOnly] {
            assert_eq!(corrected(mode, values, 2, 4.0), [[0.9; 3]; 2]);
        }
        assert_eq!(corrected(Mode::Disabled, values, 2, 4.0), values);
    }

    /// From the first pixel to the last, and not along the sides.
    #[test]
    fn specks_on_a_diagonal_are_taken_out() {
        let [a, b, c, d] = [[0.02, 0.93, 0.59], [0.55, 0.99, 0.6], [0.59, 0.71, 0.82], [0.53, 0.65, 0.0]];
        assert_eq!(corrected(Mode::EdgeOnly, [a, b, c, d], 2, 16.0), [[0.59; 3], b, c, d]);
        assert_eq!(corrected(Mode::EdgeOnly, [a, b, d, c], 4, 16.0), [a, b, d, c]);
    }

    #[test]
    fn an_edge_is_kept() {
        let before = [[0.9, 0.6, 0.1], [0.9, 0.4, 0.1], [0.6, 0.3, 0.2], [0.4, 0.7, 0.2]];
        for width in [1, 2, 4] {
            assert_eq!(corrected(Mode::EdgeOnly, before, width, 2.0), before);
        }
        corrected(Mode::EdgePriority, [], 0, 2.0);
    }

    /// On one side, with a value between that is beyond both: an error only where the side need not change for it.
    #[test]
    fn errors_on_one_side() {
        let values = [[0.95, 0.9, 0.6], [0.6, 0.9, 0.95]];
        assert_eq!(corrected(Mode::Indiscriminate, values, 2, 16.0), [[0.9; 3]; 2]);
        assert_eq!(corrected(Mode::EdgeOnly, values, 2, 16.0), values);
    }

    #[test]
    fn what_is_protected() {
        let mut protected = vec![false; 12];
        protect_corners(&mut protected, 4, 3, &[(2.2, 1.7), (-0.1, 9.0)]);
        let places: Vec<usize> = (0..12).filter(|&at| protected[at]).collect();
        assert_eq!(places, [5, 6, 9, 10]);

        // the middle channel crosses between the first two pixels, and is the middle one in both
        let protect = |protected: &mut Vec<bool>, values: [Pixel; 3]| {
            protect_edges(protected, &values, &values.each_ref().map(Note::new), 3, 0.25);
        };
        let mut protected = vec![false; 3];
        protect(&mut protected, [[1.0, 0.6, 0.0], [1.0, 0.4, 0.0], [1.0, 0.3, 0.0]]);
        assert_eq!(protected, [false; 3]);
        protect(&mut protected, [[0.5, 0.6, 0.4], [1.0, 0.4, 0.3], [1.0, 0.3, 0.0]]);
        assert_eq!(protected, [true, false, false]);
    }

    /// A slow inversion is taken out only where the exact distance says that this is better.
    #[test]
    fn the_exact_distance_decides() {
        let before = [[0.52, 0.6, 0.48], [0.48, 0.6, 0.52]];
        for (truth, expected) in [(0.52, [[0.52; 3]; 2]), (0.5, before)] {
            let mut values = before;
            let raster = Raster { values: &mut values, width: 2, step: 0.25 };
            let mut asked = 0;
            Correction { check: Check::AtEdge, ..FAST }.apply(raster, &[], |x, y| {
                asked += 1;
                assert_eq!((x, y), (1.0, 0.5));
                truth
            });
            assert_eq!((values, asked), (expected, 2));
        }
    }
}
