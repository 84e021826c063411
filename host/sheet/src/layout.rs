//! How glyphs are laid out in a sheet: their boxes, their places and its size, as msdf-atlas-gen has them.

use crate::frame::{Frame, Span};
use crate::pack::{Constraint, Dimensions, MAX_SIDE, Packing, pack};
use crate::source::Bounds;

/// The largest number of pixels an em.
pub const MAX_SIZE: f64 = 1024.0;

/// A length that may grow with the glyphs.
#[derive(Clone, Copy, Debug, Default, PartialEq)]
pub struct Length {
    pub ems: f64,
    pub pixels: f64,
}

impl Length {
    pub fn of_pixels(pixels: f64) -> Length {
        Length { ems: 0.0, pixels }
    }

    /// In pixels, at so many pixels an em.
    pub fn at(self, size: f64) -> f64 {
        self.ems * size + self.pixels
    }
}

/// Along which axes.
#[derive(Clone, Copy, Debug, PartialEq, Eq)]
pub struct Axes {
    pub horizontal: bool,
    pub vertical: bool,
}

/// Pixels an em.
#[derive(Clone, Copy, Debug, PartialEq)]
pub enum Size {
    Fixed(f64),
    /// The largest at which the glyphs fit in the sheet that holds them at this one.
    AtLeast(f64),
    /// The largest that fits.
    Largest,
}

/// Cells of one size, by rows from the top.
#[derive(Clone, Copy, Debug, PartialEq)]
pub struct Grid {
    pub columns: Option<usize>,
    pub cell: Option<(usize, usize)>,
    pub constraint: Constraint,
    /// Whether the font's origin is at the same place in all cells.
    pub origin: Axes,
}

#[derive(Clone, Copy, Debug, PartialEq)]
pub struct Layout {
    pub size: Size,
    /// How wide the field goes from 0 to 1.
    pub range: Length,
    /// What is free about a glyph beside the range, and belongs to it.
    pub padding: Length,
    /// What is free and does not belong to it.
    pub outer: Length,
    /// Whether the font's origin is between two pixels.
    pub align: Axes,
    pub dimensions: Dimensions,
    pub grid: Option<Grid>,
}

/// What is laid out: the bounds of an outline, and how many of their units make an em.
pub type Item = (Option<Bounds>, f64);

/// Boxes and their places, from the top left.
#[derive(Debug, PartialEq)]
pub struct Arrangement {
    pub size: f64,
    pub width: usize,
    pub height: usize,
    pub frames: Vec<Frame>,
    pub places: Vec<(usize, usize)>,
    pub grid: Option<Cells>,
}

/// The cells of a grid.
#[derive(Clone, Copy, Debug, PartialEq)]
pub struct Cells {
    pub width: usize,
    pub height: usize,
    pub columns: usize,
    pub rows: usize,
    /// Where the font's origin is, in pixels from a cell's left and bottom, where that is the same for all.
    pub origin: [Option<f64>; 2],
}

impl Layout {
    /// As it is preset, at some size and range in pixels.
    pub fn new(size: f64, pxrange: f64) -> Layout {
        Layout {
            size: Size::Fixed(size),
            range: Length::of_pixels(pxrange),
            padding: Length::default(),
            outer: Length::default(),
            align: Axes { horizontal: false, vertical: true },
            dimensions: Dimensions::Least(Constraint::Square(4)),
            grid: None,
        }
    }

    /// None where no sheet holds the glyphs.
    pub fn arrange(&self, items: &[Item]) -> Option<Arrangement> {
        match self.size {
            Size::Fixed(size) => self.at(items, size, self.dimensions),
            Size::Largest => self.largest(items, 1.0, self.dimensions),
            Size::AtLeast(least) => {
                let Arrangement { width, height, .. } = self.at(items, least, self.dimensions)?;
                self.largest(items, least, Dimensions::Fixed(width, height))
            }
        }
    }

    /// At the largest size, to a thousandth, that fits.
    fn largest(&self, items: &[Item], least: f64, dimensions: Dimensions) -> Option<Arrangement> {
        let mut found = self.at(items, least, dimensions)?;
        let mut above = MAX_SIZE;
        while above > 1.001 * found.size {
            let size = 0.5 * (found.size + above);
            match self.at(items, size, dimensions) {
                Some(larger) => found = larger,
                None => above = size,
            }
        }
        Some(found)
    }

    fn at(&self, items: &[Item], size: f64, dimensions: Dimensions) -> Option<Arrangement> {
        let border = 0.5 * self.range.at(size) + self.padding.at(size) + self.outer.at(size);
        let stretch = |&(bounds, em): &Item| {
            let Bounds { l, b, r, t } = bounds?;
            let scale = size / em;
            Some([(scale * l - border, scale * r + border), (scale * b - border, scale * t + border)])
        };
        let stretches: Vec<Option<[(f64, f64); 2]>> = items.iter().map(stretch).collect();
        let aligned = [self.align.horizontal, self.align.vertical];
        let mut spans = [0, 1].map(|axis| {
            let span = |stretch: &Option<[(f64, f64); 2]>| stretch.map(|s| Span::new(s[axis].0, s[axis].1, aligned[axis]));
            stretches.iter().map(span).collect::<Vec<Option<Span>>>()
        });
        let cell = match &self.grid {
            Some(grid) => Some(grid.cell(&stretches, &mut spans, aligned)?),
            None => None,
        };
        let outer = self.outer.at(size);
        let frame = |((&(_, em), across), up): ((&Item, &Option<Span>), &Option<Span>)| {
            let frame = across.zip(*up).map(|(across, up)| Frame::of_spans(across, up, size / em, outer));
            frame.unwrap_or(Frame::empty(size / em))
        };
        let frames: Vec<Frame> = items.iter().zip(&spans[0]).zip(&spans[1]).map(frame).collect();
        let (Packing { width, height, places }, grid) = match (&self.grid, cell) {
            (Some(grid), Some(cell)) => {
                let (packing, cells) = grid.pack(&frames, cell, dimensions)?;
                (packing, Some(cells))
            }
            _ => {
                let sizes: Vec<_> = frames.iter().map(|frame| (frame.width, frame.height)).collect();
                (pack(&sizes, dimensions)?, None)
            }
        };
        Some(Arrangement { size, width, height, frames, places, grid })
    }
}

/// The size of a cell and the font's origin in it.
type Cell = ((usize, usize), [Option<f64>; 2]);

impl Grid {
    /// The cell that holds all glyphs; their spans become as long as it.
    fn cell(
        &self,
        stretches: &[Option<[(f64, f64); 2]>],
        spans: &mut [Vec<Option<Span>>; 2],
        aligned: [bool; 2],
    ) -> Option<Cell> {
        let fixed = [self.origin.horizontal, self.origin.vertical];
        for axis in [0, 1].into_iter().filter(|&axis| fixed[axis]) {
            let all = stretches.iter().flatten().map(|stretch| stretch[axis]);
            if let Some((low, high)) = all.reduce(|a, b| (a.0.min(b.0), a.1.max(b.1))) {
                spans[axis].iter_mut().flatten().for_each(|span| *span = Span::new(low, high, aligned[axis]));
            }
        }
        let longest = [0, 1].map(|axis| spans[axis].iter().flatten().map(|span| span.length).max().unwrap_or(0));
        let cell = self.cell.unwrap_or_else(|| self.constraint.raise(longest.into()));
        if longest[0] > cell.0 || longest[1] > cell.1 {
            return None;
        }
        let mut origin = [None; 2];
        for (axis, length) in [(0, cell.0), (1, cell.1)] {
            spans[axis].iter_mut().flatten().for_each(|span| *span = span.widened(length, aligned[axis]));
            origin[axis] = spans[axis].iter().flatten().next().filter(|_| fixed[axis]).map(|span| -span.start);
        }
        Some((cell, origin))
    }

    fn pack(&self, frames: &[Frame], ((width, height), origin): Cell, dimensions: Dimensions) -> Option<(Packing, Cells)> {
        let count = frames.iter().filter(|frame| !frame.is_empty()).count();
        let sides = |columns: usize| {
            let needed = (columns * width, count.div_ceil(columns) * height);
            match dimensions {
                Dimensions::Fixed(across, down) => (needed.0 <= across && needed.1 <= down).then_some((across, down)),
                Dimensions::Least(constraint) => Some(constraint.raise(needed)),
            }
        };
        let fits = |&(_, sides): &(usize, (usize, usize))| sides.0.max(sides.1) <= MAX_SIDE;
        let columns = self.columns.map_or(1..=count.max(1), |columns| columns..=columns);
        let all = columns.filter_map(|columns| Some((columns, sides(columns)?))).filter(fits);
        // of the least sheets that with the most columns
        let (columns, sides) =
            all.min_by_key(|&(columns, (width, height))| (width.max(height), width * height, usize::MAX - columns))?;
        let mut number = 0;
        let place = |frame: &Frame| {
            if frame.is_empty() {
                return (0, 0);
            }
            number += 1;
            ((number - 1) % columns * width, (number - 1) / columns * height)
        };
        let places = frames.iter().map(place).collect();
        let cells = Cells { width, height, columns, rows: count.div_ceil(columns), origin };
        Some((Packing { width: sides.0, height: sides.1, places }, cells))
    }
}

#[cfg(test)]
mod tests {
    use super::*;

    /// Ten boxes of different sizes, and one that is empty.
    fn items() -> Vec<Item> {
        let bounds = |i: i32| Bounds { l: 0.0, b: -f64::from(i % 3), r: f64::from(10 + i), t: f64::from(20 + 2 * i) };
        (0..10).map(|i| (Some(bounds(i)), 32.0)).chain([(None, 32.0)]).collect()
    }

    fn grid() -> Grid {
        let origin = Axes { horizontal: false, vertical: true };
        Grid { columns: None, cell: None, constraint: Constraint::Rectangle, origin }
    }

    #[test]
    fn padding() {
        let layout = Layout::new(32.0, 4.0);
        let padded = Layout { padding: Length::of_pixels(3.0), ..layout };
        let outer = Layout { outer: Length { ems: 3.0 / 32.0, pixels: 0.0 }, ..layout };
        let [layout, padded, outer] = [layout, padded, outer].map(|layout| layout.arrange(&items()).unwrap());
        for ((plain, padded), outer) in layout.frames.iter().zip(&padded.frames).zip(&outer.frames).take(10) {
            assert_eq!((padded.width, padded.height), (plain.width + 6, plain.height + 6));
            assert_eq!((outer.width, outer.height), (plain.width + 6, plain.height + 6));
            let [plain, padded, outer] = [plain, padded, outer].map(Frame::bounds);
            assert_eq!((outer.l, outer.b, outer.r, outer.t), (plain.l, plain.b, plain.r, plain.t));
            assert_eq!((padded.l, padded.b, padded.r, padded.t), (plain.l - 3.0, plain.b - 3.0, plain.r + 3.0, plain.t + 3.0));
        }
    }

    #[test]
    fn sizes() {
        let fixed = Layout { size: Size::Largest, dimensions: Dimensions::Fixed(300, 200), ..Layout::new(32.0, 4.0) };
        let found = fixed.arrange(&items()).unwrap();
        assert_eq!((found.width, found.height), (300, 200));
        assert!(found.size > 32.0, "{}", found.size);
        let larger = Layout { size: Size::Fixed(1.01 * found.size), ..fixed };
        assert_eq!(larger.arrange(&items()), None);
        let least = Layout { size: Size::AtLeast(32.0), dimensions: Dimensions::Least(Constraint::PowerOfTwoSquare), ..fixed };
        let found = least.arrange(&items()).unwrap();
        assert_eq!((found.width, found.height), (128, 128));
        assert!(found.size > 32.0 && found.size < 64.0, "{}", found.size);
    }

    /// All boxes are of one size, apart, and have the baseline at the same place.
    #[test]
    fn grids() {
        let layout =
            Layout { grid: Some(grid()), dimensions: Dimensions::Least(Constraint::Rectangle), ..Layout::new(32.0, 4.0) };
        let found = layout.arrange(&items()).unwrap();
        let cells = found.grid.unwrap();
        // from -2 to 38, and half the range and half a pixel on both sides
        assert_eq!((cells.width, cells.height), (19 + 4 + 1, 46));
        assert_eq!(
            (cells.columns * cells.rows >= 10, found.width, found.height),
            (true, cells.columns * cells.width, cells.rows * 46)
        );
        assert_eq!(cells.origin, [None, Some(5.0)]);
        for (i, frame) in found.frames[..10].iter().enumerate() {
            assert_eq!((frame.width, frame.height), (cells.width, cells.height));
            assert_eq!(found.places[i], (i % cells.columns * cells.width, i / cells.columns * cells.height));
            assert_eq!(frame.point(0.0, 5.0).y, 0.0);
        }
        let columns = Layout { grid: Some(Grid { columns: Some(3), ..grid() }), ..layout }.arrange(&items()).unwrap();
        assert_eq!(columns.grid.map(|cells| (cells.columns, cells.rows)), Some((3, 4)));
        let square = Grid { constraint: Constraint::PowerOfTwoSquare, ..grid() };
        let square = Layout { grid: Some(square), ..layout }.arrange(&items()).unwrap();
        assert_eq!(square.grid.map(|cells| (cells.width, cells.height)), Some((64, 64)));
        let small = Layout { grid: Some(Grid { cell: Some((24, 45)), ..grid() }), ..layout };
        assert_eq!(small.arrange(&items()), None);
        let largest = Layout { size: Size::Largest, ..small }.arrange(&items()).unwrap();
        assert!(largest.size < 32.0 && largest.size > 28.0, "{}", largest.size);
    }
}
