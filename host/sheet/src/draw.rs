//! A glyph's field as pixels: measured, held to the true fill, corrected.

use crate::between;
use crate::correction::{Correction, Mode, Raster};
use crate::field::{Field, Measure};
use crate::frame::Frame;
use crate::sign;
use crate::source::segment;
use crate::winding::Fill;
use merelsplum::{Colored, Edge, EdgeColor};
use rayon::prelude::*;

/// The side of the squares that pixels are measured in.
const SQUARE: usize = 4;

/// The kinds of fields, named as in msdf-atlas-gen.
#[derive(Clone, Copy, Debug, PartialEq, Eq)]
pub enum Type {
    /// The true distance.
    Sdf,
    /// The distance, perpendicular beyond the ends of edges.
    Psdf,
    /// A distance in each of three channels.
    Msdf,
    /// Those three, and the true distance in a fourth.
    Mtsdf,
}

impl Type {
    pub fn name(self) -> &'static str {
        match self {
            Type::Sdf => "sdf",
            Type::Psdf => "psdf",
            Type::Msdf => "msdf",
            Type::Mtsdf => "mtsdf",
        }
    }

    /// How many channels a pixel has.
    pub fn channels(self) -> usize {
        match self {
            Type::Sdf | Type::Psdf => 1,
            Type::Msdf => 3,
            Type::Mtsdf => 4,
        }
    }
}

/// How fields are drawn.
#[derive(Clone, Copy, Debug)]
pub struct Drawing {
    pub kind: Type,
    /// How many pixels the field goes from 0 to 1 in.
    pub pxrange: f64,
    /// Whether contours that overlap are joined.
    pub overlap: bool,
    /// Whether every pixel is held to the side that it is on.
    pub scanline: bool,
    pub correction: Correction,
    /// Whether the field is written as numbers that are not rounded to bytes.
    pub floats: bool,
}

impl Drawing {
    /// As it is preset, at some range.
    pub fn new(pxrange: f64) -> Drawing {
        let correction = Correction::default();
        Drawing { kind: Type::Msdf, pxrange, overlap: true, scanline: true, correction, floats: false }
    }

    /// A glyph's field, by rows from the top: red, green, blue, and the true distance, which stands in all four where
    /// the field has one channel. 0.5 is on the outline, 0 half a range outside, 1 half a range inside. `fill` is what
    /// the font draws.
    pub fn values(&self, colored: &Colored, fill: &Fill, frame: &Frame) -> Vec<[f64; 4]> {
        let field = Field::with(colored, self.overlap, true);
        match self.kind {
            Type::Sdf => self.single(fill, frame, || field.distance()).into_iter().map(|[value]| [value; 4]).collect(),
            Type::Psdf => self.single(fill, frame, || field.perpendicular()).into_iter().map(|[value]| [value; 4]).collect(),
            Type::Msdf => self.colors(&field, colored, fill, frame).into_iter().map(|[r, g, b]| [r, g, b, 1.0]).collect(),
            Type::Mtsdf => {
                let alpha = self.single(fill, frame, || field.distance());
                let colors = self.colors(&field, colored, fill, frame);
                colors.into_iter().zip(alpha).map(|([r, g, b], [a])| [r, g, b, a]).collect()
            }
        }
    }

    /// Distances of one kind, held to the fill.
    fn single<'a, const N: usize>(
        &self,
        fill: &Fill,
        frame: &Frame,
        measure: impl Fn() -> Measure<'a, N> + Sync,
    ) -> Vec<[f64; N]> {
        let mut values = self.measured(frame, measure);
        if self.scanline {
            sign::correct(&mut values, frame, fill);
        }
        values
    }

    /// The three channels, corrected.
    fn colors(&self, field: &Field, colored: &Colored, fill: &Fill, frame: &Frame) -> Vec<[f64; 3]> {
        let mut values = self.single(fill, frame, || field.channels());
        if self.correction.mode == Mode::Disabled {
            return values;
        }
        // what is drawn back are bytes
        if !self.floats {
            values.iter_mut().for_each(|value| *value = value.map(|v| f64::from(byte(v)) / 255.0));
        }
        let exact = |measure: &mut Measure<1>, x: f64, y: f64| {
            let point = frame.point(x, frame.height as f64 - y);
            let value = self.value(measure.at(point)[0], frame).clamp(0.0, 1.0);
            if self.scanline && (value > 0.5) != fill.inside(point) { 1.0 - value } else { value }
        };
        let mut perpendicular = field.perpendicular();
        let step = 1.0 / self.pxrange;
        let raster = Raster { values: &mut values, width: frame.width, step };
        self.correction.apply(raster, &corners(colored, frame), |x, y| exact(&mut perpendicular, x, y));
        if self.scanline {
            let mut distance = field.distance();
            between::correct(&mut values, frame, fill, step, |x, y| exact(&mut distance, x, y));
        }
        values
    }

    /// The same as bytes.
    pub fn pixels(&self, colored: &Colored, fill: &Fill, frame: &Frame) -> Vec<[u8; 4]> {
        self.values(colored, fill, frame).into_iter().map(|value| value.map(byte)).collect()
    }

    fn value(&self, distance: f64, frame: &Frame) -> f64 {
        distance * frame.scale / self.pxrange + 0.5
    }

    /// Measures the middles of all pixels, in small squares, and bands of squares in parallel.
    fn measured<'a, const N: usize>(&self, frame: &Frame, measure: impl Fn() -> Measure<'a, N> + Sync) -> Vec<[f64; N]> {
        let mut values = vec![[0.0; N]; frame.width * frame.height];
        values.par_chunks_mut(SQUARE * frame.width.max(1)).enumerate().for_each(|(band, values)| {
            let mut measure = measure();
            let (top, bottom) = (band * SQUARE, (band * SQUARE + SQUARE).min(frame.height));
            for left in (0..frame.width).step_by(SQUARE) {
                let right = (left + SQUARE).min(frame.width);
                let corners = (frame.middle(left, top), frame.middle(right - 1, bottom - 1));
                measure.within(0.5 * (corners.0 + corners.1), 0.5 * (corners.1 - corners.0).length());
                for (row, x) in (top..bottom).flat_map(|row| (left..right).map(move |x| (row, x))) {
                    let distances = measure.at(frame.middle(x, row));
                    values[(row - top) * frame.width + x] = distances.map(|distance| self.value(distance, frame));
                }
            }
        });
        values
    }
}

/// A value as a byte.
pub fn byte(value: f64) -> u8 {
    (255.0 * value.clamp(0.0, 1.0)).round() as u8
}

/// The places in pixels, from the top left, where edges meet that share one channel or none.
fn corners(colored: &Colored, frame: &Frame) -> Vec<(f64, f64)> {
    let corner = |(before, edge): (&(Edge, EdgeColor), &(Edge, EdgeColor))| {
        let shared = before.1.bits() & edge.1.bits();
        let place = frame.place(segment(&edge.0).point(0.0));
        (shared.count_ones() < 2).then_some((place.x, frame.height as f64 - place.y))
    };
    let contours = colored.contours.iter();
    contours.flat_map(|edges| edges.iter().cycle().skip(edges.len().max(1) - 1).zip(edges).filter_map(corner)).collect()
}
