//! Holds places between pixels to the side that they are on. A field has one number of each channel a pixel, and can
//! put the outline somewhere else between pixels whose own sides are right. Where a place is on the wrong side and more
//! than half a pixel from the outline, the pixels about it get their true distance in all channels: a corner there is
//! round, and where it should be. Where this does not help, since a stroke or a gap goes between the middles of all
//! four pixels, its two borders get a channel each.

use crate::correction::{Note, Pixel};
use crate::field::middle;
use crate::frame::Frame;
use crate::winding::{Fill, Scanline};

/// How many places are looked at on the way from a pixel to the next.
const PLACES: usize = 4;

/// The same where borders get channels of their own.
const CLOSE: usize = 8;

/// How often the pixels are gone through at most: a pixel that is changed can put places on its other sides wrong.
const ROUNDS: usize = 4;

/// How far a wrong place may be from the outline, in pixels.
const REACH: f64 = 0.4;

/// What the distances of two pixels across from each other come to at most, in pixels, where a place between four
/// pixels of one side is on the other side and out of reach.
const ACROSS: f64 = 0.88;

/// Values by rows from the top; `distance` measures the true value of a place in pixels, from the top left, and `step`
/// is how much a distance changes from a pixel to the next.
pub fn correct(values: &mut [Pixel], frame: &Frame, fill: &Fill, step: f64, mut distance: impl FnMut(f64, f64) -> f64) {
    let (width, height) = (frame.width, frame.height);
    let mut notes: Vec<Note> = values.iter().map(Note::new).collect();
    let mut rows: Vec<bool> = vec![true; height.saturating_sub(1)];
    let mut lost: Vec<(usize, usize)> = Vec::new();
    for _ in 0..ROUNDS {
        let mut changed = vec![false; rows.len()];
        for y in (0..rows.len()).filter(|&y| rows[y]) {
            let mut lines: Lines<PLACES> = Lines::new(frame, fill, y);
            for x in 0..width.saturating_sub(1) {
                let corners = corners(width, x, y);
                let one_side = Note::one_side(corners.iter().map(|&at| &notes[at]));
                if one_side && !is_thin(corners.map(|at| notes[at].middle), step) {
                    continue;
                }
                let square = corners.map(|at| values[at]);
                if wrong_place(&square, x, &mut lines, step, &mut distance) {
                    let truth = true_values(x, y, &mut distance).map(|value| [value; 3]);
                    if one_side || square == truth {
                        lost.push((y, x));
                        continue;
                    }
                    for (at, value) in corners.into_iter().zip(truth) {
                        (values[at], notes[at]) = (value, Note::new(&value));
                    }
                    changed[y.saturating_sub(1)..(y + 2).min(rows.len())].fill(true);
                }
            }
        }
        if !changed.contains(&true) {
            break;
        }
        rows = changed;
    }
    lost.sort_unstable();
    lost.dedup();
    for (y, x) in lost {
        let square = corners(width, x, y).map(|at| values[at]);
        if wrong_place(&square, x, &mut Lines::new(frame, fill, y), step, &mut distance) {
            let truth = true_values(x, y, &mut distance);
            split(values, corners(width, x, y), truth, Place::about(frame, fill, x, y), step, &mut distance);
        }
    }
}

/// The four pixels about a square of places, by the first of them: two of a row, and the two below.
fn corners(width: usize, x: usize, y: usize) -> [usize; 4] {
    let first = y * width + x;
    [first, first + 1, first + width, first + width + 1]
}

/// The true values of those four.
fn true_values(x: usize, y: usize, distance: &mut impl FnMut(f64, f64) -> f64) -> [f64; 4] {
    [0, 1, 2, 3].map(|i| distance((x + i % 2) as f64 + 0.5, (y + i / 2) as f64 + 0.5))
}

/// Whether something of the other side can be between four pixels of one side. Each pixel is then nearer to the outline
/// than to a place there that is out of reach, by more than the reach.
fn is_thin(values: [f64; 4], step: f64) -> bool {
    let [a, b, c, d] = values.map(|value| (value - 0.5).abs());
    a + d <= ACROSS * step && b + c <= ACROSS * step
}

/// Gives the two borders of a stroke or of a gap that goes between four pixels a channel each, across or down, where
/// fewer places are wrong then, and none that was right. Of a pixel the channel of the border beyond is the one that
/// changes, so that its middle value stays the true one.
fn split(
    values: &mut [Pixel],
    corners: [usize; 4],
    truth: [f64; 4],
    mut places: Vec<Place>,
    step: f64,
    mut distance: impl FnMut(f64, f64) -> f64,
) {
    let mut far = |x: f64, y: f64| (distance(x, y) - 0.5).abs() > REACH * step;
    let wrong: Vec<bool> = places.iter_mut().map(|place| place.is_wrong(values, &mut far)).collect();
    let mut best = (wrong.iter().filter(|&&wrong| wrong).count(), corners.map(|at| values[at]));
    let channels = (0..9).map(|i| (i / 3, i % 3)).filter(|(first, second)| first != second);
    // the pixel beyond is beside this one or above or below it
    let ways = [1, 2].into_iter().flat_map(|way| [step, -step].map(|step| (way, step)));
    for ((first, second), (way, step)) in channels.flat_map(|channels| ways.clone().map(move |way| (channels, way))) {
        for (i, at) in corners.into_iter().enumerate() {
            values[at] = [truth[i]; 3];
            values[at][if i & way == 0 { first } else { second }] = (truth[i ^ way] + step).clamp(0.0, 1.0);
        }
        let count = places.iter_mut().zip(&wrong).try_fold(0, |count, (place, &before)| {
            let wrong = place.is_wrong(values, &mut far);
            (before || !wrong).then_some(count + usize::from(wrong))
        });
        if let Some(count) = count.filter(|&count| count < best.0) {
            best = (count, corners.map(|at| values[at]));
        }
    }
    corners.into_iter().zip(best.1).for_each(|(at, value)| values[at] = value);
}

/// A place between four pixels.
struct Place {
    corners: [usize; 4],
    /// How far it is on the way from the first of them to the next, across and down.
    parts: (f64, f64),
    /// Where it is, in pixels.
    at: (f64, f64),
    inside: bool,
    /// Whether it is out of reach of the outline, once that was asked.
    far: Option<bool>,
}

impl Place {
    /// The places about four pixels.
    fn about(frame: &Frame, fill: &Fill, x: usize, y: usize) -> Vec<Place> {
        let near = |at: usize, limit: usize| at.saturating_sub(1)..(at + 2).min(limit - 1);
        let mut places = Vec::new();
        for y in near(y, frame.height) {
            let mut lines: Lines<CLOSE> = Lines::new(frame, fill, y);
            for (x, j, i) in near(x, frame.width).flat_map(|x| (0..CLOSE * CLOSE).map(move |at| (x, at / CLOSE, at % CLOSE))) {
                let (across, down, inside) = lines.place(x, i, j);
                let parts = (part::<CLOSE>(i), part::<CLOSE>(j));
                places.push(Place { corners: corners(frame.width, x, y), parts, at: (across, down), inside, far: None });
            }
        }
        places
    }

    /// Whether it is on the wrong side and too far from the outline.
    fn is_wrong(&mut self, values: &[Pixel], far: impl FnOnce(f64, f64) -> bool) -> bool {
        let [a, b, c, d] = self.corners.map(|at| &values[at]);
        let (across, down) = self.parts;
        let drawn = middle(&mix(&mix(a, c, down), &mix(b, d, down), across)) > 0.5;
        drawn != self.inside && *self.far.get_or_insert_with(|| far(self.at.0, self.at.1))
    }
}

/// How far one of N places is on the way from a pixel to the next.
fn part<const N: usize>(i: usize) -> f64 {
    (i as f64 + 0.5) / N as f64
}

/// The values on the way from a pixel to the next.
fn mix(a: &Pixel, b: &Pixel, part: f64) -> Pixel {
    [0, 1, 2].map(|c| a[c] + (b[c] - a[c]) * part)
}

/// The lines through the places between two rows of pixels, each made when it is asked for.
struct Lines<'a, const N: usize> {
    frame: &'a Frame,
    fill: &'a Fill,
    top: usize,
    scanlines: [Option<Scanline>; N],
}

impl<'a, const N: usize> Lines<'a, N> {
    fn new(frame: &'a Frame, fill: &'a Fill, top: usize) -> Lines<'a, N> {
        Lines { frame, fill, top, scanlines: [const { None }; N] }
    }

    /// A place on the way from a pixel of the upper row to the next, in steps and from the pixel's middle; and whether
    /// it is inside.
    fn place(&mut self, x: usize, i: usize, j: usize) -> (f64, f64, bool) {
        let (across, down) = (x as f64 + 0.5 + part::<N>(i), self.top as f64 + 0.5 + part::<N>(j));
        let point = self.frame.point(across, self.frame.height as f64 - down);
        let line = self.scanlines[j].get_or_insert_with(|| self.fill.scanline(point.y));
        (across, down, line.inside(point.x))
    }
}

/// Whether a place between four pixels is on the wrong side and too far from the outline.
fn wrong_place(
    square: &[Pixel; 4],
    x: usize,
    lines: &mut Lines<PLACES>,
    step: f64,
    distance: &mut impl FnMut(f64, f64) -> f64,
) -> bool {
    (0..PLACES).any(|j| {
        let [left, right] = [0, 1].map(|side| mix(&square[side], &square[2 + side], part::<PLACES>(j)));
        (0..PLACES).any(|i| {
            let drawn = middle(&mix(&left, &right, part::<PLACES>(i))) > 0.5;
            let (across, down, inside) = lines.place(x, i, j);
            drawn != inside && (distance(across, down) - 0.5).abs() > REACH * step
        })
    })
}

#[cfg(test)]
mod tests {
    use super::*;
    use crate::source::{EdgeSegment, Shape, Vector2};

    /// Boxes by their left, bottom, right and top.
    fn boxes(bounds: &[[f64; 4]]) -> Fill {
        let mut shape = Shape::new();
        for &[l, b, r, t] in bounds {
            let corners = [(l, b), (l, t), (r, t), (r, b)].map(|(x, y)| Vector2::new(x, y));
            let contour = shape.add_contour_mut();
            (0..4).for_each(|i| contour.add_edge(EdgeSegment::line(corners[i], corners[(i + 1) % 4])));
        }
        Fill::new(&shape)
    }

    /// A box of four pixels by four whose left half is inside.
    fn left_half() -> (Frame, Fill) {
        (Frame::at_origin(4, 4), boxes(&[[0.0, 0.0, 2.0, 4.0]]))
    }

    fn truth(x: f64, _: f64) -> f64 {
        (2.0 - x) / 4.0 + 0.5
    }

    #[test]
    fn right_values_stay() {
        let (frame, fill) = left_half();
        let right: Vec<Pixel> = (0..16).map(|at| [truth((at % 4) as f64 + 0.5, 0.0); 3]).collect();
        let mut values = right.clone();
        correct(&mut values, &frame, &fill, 0.25, truth);
        assert_eq!(values, right);
        // half a pixel off
        let mut values: Vec<Pixel> = right.iter().map(|value| value.map(|v| v - 0.124)).collect();
        let before = values.clone();
        correct(&mut values, &frame, &fill, 0.25, truth);
        assert_eq!(values, before);
    }

    /// Two channels that cross each other between the first two pixels of a row put a hole there.
    #[test]
    fn a_hole_is_filled() {
        let (frame, fill) = left_half();
        let right: Vec<Pixel> = (0..16).map(|at| [truth((at % 4) as f64 + 0.5, 0.0); 3]).collect();
        let mut values = right.clone();
        (values[4], values[5]) = ([1.0, 0.9, 0.0], [0.0, 0.6, 0.6]);
        correct(&mut values, &frame, &fill, 0.25, truth);
        assert_eq!(values, right);
    }

    /// An outline that is drawn a pixel too far to the right comes back.
    #[test]
    fn an_edge_is_put_back() {
        let (frame, fill) = left_half();
        let right: Vec<Pixel> = (0..16).map(|at| [truth((at % 4) as f64 + 0.5, 0.0); 3]).collect();
        let mut values: Vec<Pixel> = right.iter().map(|value| value.map(|v| v + 0.24)).collect();
        correct(&mut values, &frame, &fill, 0.25, truth);
        assert!(values.iter().zip(&right).all(|(a, b)| (a[0] > 0.5) == (b[0] > 0.5)), "{values:?}");
    }

    /// Two strokes that cross between the middles of four pixels, or two gaps.
    #[test]
    fn a_crossing_is_drawn() {
        const HALF: f64 = 0.45;
        let (low, high) = (3.0 - HALF, 3.0 + HALF);
        let strokes = boxes(&[[0.0, low, 6.0, high], [low, 0.0, high, 6.0]]);
        let squares = [[0.0, 0.0], [0.0, high], [high, 0.0], [high, high]].map(|[l, b]| [l, b, l + low, b + low]);
        for (fill, sign) in [(strokes, 1.0), (boxes(&squares), -1.0)] {
            let cross = |x: f64, y: f64| {
                let (x, y) = (HALF - (x - 3.0).abs(), HALF - (y - 3.0).abs());
                0.5 + sign / 4.0 * if x > 0.0 && y > 0.0 { x.hypot(y) } else { x.max(y) }
            };
            let frame = Frame::at_origin(6, 6);
            let right: Vec<Pixel> = (0..36).map(|at| [cross((at % 6) as f64 + 0.5, (at / 6) as f64 + 0.5); 3]).collect();
            let wrong = |values: &[Pixel]| {
                let far = |x: f64, y: f64| (cross(x, y) - 0.5).abs() > REACH / 4.0;
                Place::about(&frame, &fill, 2, 2)
                    .iter_mut()
                    .map(|place| place.is_wrong(values, far))
                    .filter(|&wrong| wrong)
                    .count()
            };
            assert!(wrong(&right) > 0);
            let mut values = right.clone();
            correct(&mut values, &frame, &fill, 0.25, cross);
            assert_eq!(wrong(&values), 0, "{values:?}");
            assert!(values.iter().zip(&right).all(|(a, b)| middle(a) == b[0]), "{values:?}");
            assert_eq!(values.iter().zip(&right).filter(|(a, b)| a != b).count(), 4);
        }
    }

    /// What is beside a straight edge is not thin; what a stroke goes through is.
    #[test]
    fn thin() {
        for sign in [1.0, -1.0] {
            let values = |distances: [f64; 4]| distances.map(|distance| 0.5 + sign * distance / 4.0);
            assert!(!is_thin(values([0.0, 0.0, 1.0, 1.0]), 0.25));
            assert!(!is_thin(values([0.0, 0.7, 0.7, 1.4]), 0.25));
            assert!(is_thin(values([0.1, 0.1, 0.1, 0.1]), 0.25));
            assert!(is_thin(values([0.0, 0.0, 0.8, 0.8]), 0.25));
        }
    }
}
