//! A sheet: glyphs coloured, their fields drawn and packed into one picture.

use crate::draw::{Drawing, Type, byte};
use crate::font::{Glyph, Name};
use crate::frame::{self, Frame};
use crate::layout::{Arrangement, Cells, Layout};
use crate::source::{self, Bounds, EdgeSegment, Shape, spline_distances};
use crate::unproved;
use crate::winding::Fill;
use merelsplum::job::{Job, Strategy};
use merelsplum::{Colored, Outline, Refusal, balanced, collect_splines, edge_directions};
use rayon::prelude::*;

/// How a sheet is made.
#[derive(Clone, Copy, Debug)]
pub struct Settings {
    pub strategy: Strategy,
    /// In radians.
    pub angle: f64,
    pub seed: u64,
    /// Whether the two outer runs of a contour with one corner are to be equally long.
    pub balanced: bool,
    pub layout: Layout,
    /// Its range is the layout's.
    pub drawing: Drawing,
    /// Whether docs/src colours what is above the library's limits.
    pub unproved: bool,
}

/// Pixels by rows from the top: red, green, blue, and the true distance where the type has it.
pub struct Image {
    pub kind: Type,
    pub width: usize,
    pub height: usize,
    /// None where only the places of the glyphs are wanted.
    pub pixels: Vec<[u8; 4]>,
    /// The same as numbers that are not rounded, where those are wanted.
    pub floats: Vec<[f32; 4]>,
}

/// A glyph of a sheet.
pub struct Cell {
    /// Which font it is of.
    pub font: usize,
    pub name: Name,
    pub advance: f64,
    /// None where the library refused the glyph, and docs/src coloured it.
    pub job: Option<Job>,
    pub colored: Colored,
    /// How many directions of its edges, as the font draws them, have no length.
    pub stand_ins: usize,
    pub fill: Fill,
    /// Of its outline, in units.
    bounds: Option<Bounds>,
    units_per_em: f64,
    pub frame: Frame,
    /// Its first pixel in the sheet, from the left.
    pub x: usize,
    /// From the top.
    pub y: usize,
}

pub struct Sheet {
    pub size: f64,
    pub pxrange: f64,
    pub cells: Vec<Cell>,
    pub grid: Option<Cells>,
    pub image: Image,
}

/// The seed of the `place`-th glyph, 0 for 0, as msdf-atlas-gen draws it: by distance from the seed and the place, else
/// from the seed of the glyph before.
pub fn glyph_seed(strategy: Strategy, seed: u64, place: usize) -> u64 {
    const MULTIPLIER: u64 = 6364136223846793005;
    match strategy {
        Strategy::ByDistance if seed != 0 => MULTIPLIER.wrapping_mul(seed ^ place as u64).wrapping_add(1442695040888963407),
        Strategy::ByDistance => 0,
        Strategy::Simple | Strategy::InkTrap => MULTIPLIER.wrapping_pow(place as u32 + 1).wrapping_mul(seed),
    }
}

/// What is to be coloured, with the distances that its strategy needs.
pub fn job(outline: Outline, strategy: Strategy, threshold: f64, seed: u64, balanced: bool) -> Result<Job, Refusal> {
    let collect = if balanced { balanced::collect_splines } else { collect_splines };
    let distances = match strategy {
        Strategy::ByDistance => spline_distances(&collect(&outline, threshold)?),
        Strategy::Simple | Strategy::InkTrap => vec![],
    };
    Ok(Job { strategy, seed, threshold, balanced, outline, distances })
}

/// How many directions of edges have no length: by the library, or above its limits by docs/src.
fn stand_ins(drawn: &[EdgeSegment]) -> usize {
    let outline = Outline::from(vec![drawn.iter().map(source::edge).collect()]);
    match edge_directions(&outline) {
        Ok(directions) => directions[0].iter().flat_map(|edge| [edge.start, edge.end]).filter(|end| end.stand_in).count(),
        Err(_) => source::stand_ins(drawn.iter()),
    }
}

impl Settings {
    /// Where balanced teardrops are wanted, the number of edges of a contour that docs/src would divide otherwise.
    pub fn unbalanced(&self, shape: &Shape) -> Option<usize> {
        unproved::unbalanced(shape, self.angle).filter(|_| self.balanced)
    }

    /// Colours a glyph of a font, the `place`-th of the sheet. One above the library's limits is coloured by docs/src
    /// where that is allowed and divides its contours as is wanted.
    pub fn color(&self, glyph: Glyph, font: usize, place: usize, units_per_em: f64) -> Result<Cell, Refusal> {
        let seed = glyph_seed(self.strategy, self.seed, place);
        let job = job(source::outline(&glyph.shape), self.strategy, self.angle.sin(), seed, self.balanced);
        let (job, colored) = match job.and_then(|job| job.color().map(|colored| (job, colored))) {
            Ok((job, colored)) => (Some(job), colored),
            Err(Refusal::TooMany) if self.unproved && self.unbalanced(&glyph.shape).is_none() => {
                (None, unproved::color(&glyph.shape, self.strategy, self.angle, seed))
            }
            Err(refusal) => return Err(refusal),
        };
        let Glyph { name, advance, drawn, shape, fill } = glyph;
        let (stand_ins, bounds, frame) = (stand_ins(&drawn), frame::bounds(&shape), Frame::empty(1.0));
        Ok(Cell { font, name, advance, job, colored, stand_ins, fill, bounds, units_per_em, frame, x: 0, y: 0 })
    }

    /// Lays glyphs that are coloured out in a sheet without pixels; none where no sheet holds them.
    pub fn lay_out(&self, mut cells: Vec<Cell>) -> Option<Sheet> {
        let items: Vec<_> = cells.iter().map(|cell| (cell.bounds, cell.units_per_em)).collect();
        let Arrangement { size, width, height, frames, places, grid } = self.layout.arrange(&items)?;
        for (cell, (frame, place)) in cells.iter_mut().zip(frames.into_iter().zip(places)) {
            (cell.frame, (cell.x, cell.y)) = (frame, place);
        }
        let image = Image { kind: self.drawing.kind, width, height, pixels: vec![], floats: vec![] };
        Some(Sheet { size, pxrange: self.layout.range.at(size), cells, grid, image })
    }

    /// Draws the fields of a sheet's glyphs, with a call of `each` after each.
    pub fn draw(&self, sheet: &mut Sheet, each: impl Fn() + Sync) {
        let drawing = Drawing { pxrange: sheet.pxrange, ..self.drawing };
        let Sheet { cells, image, .. } = sheet;
        // outside all glyphs
        let outside = if image.kind == Type::Msdf { [0.0, 0.0, 0.0, 1.0] } else { [0.0; 4] };
        if drawing.floats {
            let value = |value: [f64; 4]| value.map(|v| v as f32);
            image.floats = image.put(cells, value(outside), each, |cell| {
                drawing.values(&cell.colored, &cell.fill, &cell.frame).into_iter().map(value).collect()
            });
            let bytes = |value: &[f32; 4]| value.map(|v| byte(v.into()));
            image.pixels = image.floats.par_iter().map(bytes).collect();
        } else {
            image.pixels =
                image.put(cells, outside.map(byte), each, |cell| drawing.pixels(&cell.colored, &cell.fill, &cell.frame));
        }
    }
}

impl Image {
    /// The pixels of glyphs, each at its place.
    fn put<T: Copy + Send>(
        &self,
        cells: &[Cell],
        outside: T,
        each: impl Fn() + Sync,
        draw: impl Fn(&Cell) -> Vec<T> + Sync,
    ) -> Vec<T> {
        let draw = |cell: &Cell| {
            let pixels = draw(cell);
            each();
            pixels
        };
        let fields: Vec<Vec<T>> = cells.par_iter().map(draw).collect();
        let mut pixels = vec![outside; self.width * self.height];
        for (cell, field) in cells.iter().zip(fields) {
            for (row, line) in field.chunks(cell.frame.width.max(1)).enumerate() {
                let start = (cell.y + row) * self.width + cell.x;
                pixels[start..start + line.len()].copy_from_slice(line);
            }
        }
        pixels
    }
}

#[cfg(test)]
mod tests {
    use super::*;
    use merelsplum::Edge;

    /// Of 47 lines with one corner the 32nd is the last run's, or balanced the middle one's: then the line at its end
    /// is nearest to the 33rd.
    #[test]
    fn distances_of_balanced_splines() {
        let from = |i: i32, near: f64, far: f64| {
            let (y, x) = (f64::from(i) * 3.0 / 46.0).sin_cos();
            Edge::Line([near, far].map(|length| [length * x, length * y]))
        };
        let outline = Outline::from(vec![(0..47).map(|i| from(i, 0.0, 1.0)).collect(), vec![from(31, 2.0, 3.0)]]);
        let distances = |balanced| job(outline.clone(), Strategy::ByDistance, 0.125, 0, balanced).unwrap().distances;
        let [source, balanced] = [false, true].map(distances);
        assert_eq!((source.len(), &source[..2]), (3, &balanced[..2]));
        assert!((source[2] - 1.0).abs() < 1e-9 && balanced[2] > 1.001, "{source:?}, {balanced:?}");
    }

    /// The second glyph's seed is the first one's times 6364136223846793005, and so on; by distance each has one of its
    /// own.
    #[test]
    fn seeds() {
        for strategy in [Strategy::Simple, Strategy::InkTrap] {
            assert_eq!(
                [0, 1, 2].map(|i| glyph_seed(strategy, 1, i)),
                [6364136223846793005, 7520897724310334953, 793875393913628917]
            );
            assert_eq!(glyph_seed(strategy, 0, 5), 0);
        }
        assert_eq!(
            [0, 1, 2].map(|i| glyph_seed(Strategy::ByDistance, 7, i)),
            [9098160460397411210, 2734024236550618205, 14816632086413376816]
        );
        assert_eq!(glyph_seed(Strategy::ByDistance, 0, 5), 0);
    }
}
