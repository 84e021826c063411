//! Where a glyph is drawn: its box in pixels, laid out as msdf-atlas-gen does.

use crate::source::{Bounds, Shape, Vector2};

/// A box of pixels about a glyph. Rows are counted from the bottom.
#[derive(Clone, Copy, Debug, PartialEq)]
pub struct Frame {
    pub width: usize,
    pub height: usize,
    /// Pixels a unit of the font.
    pub scale: f64,
    /// How wide the outer padding is on each side, in pixels.
    pub outer: f64,
    /// What is added to a point, in units, so that the box begins at (0, 0).
    translate: Vector2,
}

/// A row of whole pixels about a stretch.
#[derive(Clone, Copy, Debug, PartialEq)]
pub struct Span {
    /// Where it begins, in pixels from the font's origin.
    pub start: f64,
    pub length: usize,
}

impl Span {
    /// The pixels from `low` to `high`: with their borders in line with the origin, or with the stretch in their
    /// middle.
    pub fn new(low: f64, high: f64, aligned: bool) -> Span {
        if aligned {
            let (start, end) = ((low - 0.5).floor(), (high + 0.5).ceil());
            return Span { start, length: (end - start) as usize };
        }
        let length = (high - low).ceil() + 1.0;
        Span { start: low - 0.5 * (length - (high - low)), length: length as usize }
    }

    /// As long as wanted, with what is added on both sides.
    pub fn widened(self, length: usize, aligned: bool) -> Span {
        let more = (length - self.length) as f64 / 2.0;
        Span { start: self.start - if aligned { more.floor() } else { more }, length }
    }
}

/// The bounds of a shape, in units; none where it has no edges.
pub fn bounds(shape: &Shape) -> Option<Bounds> {
    (shape.edge_count() > 0).then(|| shape.get_bounds(0.0))
}

impl Frame {
    /// The box that holds a shape and half the range about it, with the baseline between two rows. A shape without
    /// edges gets none.
    pub fn new(shape: &Shape, scale: f64, pxrange: f64) -> Frame {
        let border = 0.5 * pxrange;
        bounds(shape).map_or(Frame::empty(scale), |Bounds { l, b, r, t }| {
            let across = Span::new(scale * l - border, scale * r + border, false);
            Frame::of_spans(across, Span::new(scale * b - border, scale * t + border, true), scale, 0.0)
        })
    }

    /// The box of what has nothing to draw.
    pub fn empty(scale: f64) -> Frame {
        Frame { width: 0, height: 0, scale, outer: 0.0, translate: Vector2::ZERO }
    }

    pub fn of_spans(across: Span, up: Span, scale: f64, outer: f64) -> Frame {
        let translate = Vector2::new(-across.start / scale, -up.start / scale);
        Frame { width: across.length, height: up.length, scale, outer, translate }
    }

    pub fn is_empty(&self) -> bool {
        self.width == 0
    }

    /// The point of the font at a place in pixels.
    pub fn point(&self, x: f64, y: f64) -> Vector2 {
        Vector2::new(x, y) / self.scale - self.translate
    }

    /// The point in the middle of a pixel, the rows counted from the top.
    pub fn middle(&self, x: usize, row: usize) -> Vector2 {
        self.point(x as f64 + 0.5, (self.height - row) as f64 - 0.5)
    }

    /// A box at the font's origin with a pixel a unit.
    #[cfg(test)]
    pub fn at_origin(width: usize, height: usize) -> Frame {
        Frame { width, height, scale: 1.0, outer: 0.0, translate: Vector2::ZERO }
    }

    /// The place in pixels of a point of the font.
    pub fn place(&self, point: Vector2) -> Vector2 {
        (point + self.translate) * self.scale
    }

    /// The part that is shown as a glyph: from the middle of the first pixel to the middle of the last one, without the
    /// outer padding. Its left, bottom, right and top in pixels of the box.
    pub fn shown(&self) -> [f64; 4] {
        let first = self.outer + 0.5;
        [first, first, self.width as f64 - first, self.height as f64 - first]
    }

    /// The same in units of the font.
    pub fn bounds(&self) -> Bounds {
        let [l, b, r, t] = self.shown();
        let (min, max) = (self.point(l, b), self.point(r, t));
        Bounds { l: min.x, b: min.y, r: max.x, t: max.y }
    }
}

#[cfg(test)]
mod tests {
    use super::*;

    #[test]
    fn spans() {
        assert_eq!(Span::new(-1.25, 3.5, true), Span { start: -2.0, length: 6 });
        assert_eq!(Span::new(-1.25, 3.5, false), Span { start: -1.875, length: 6 });
        assert_eq!(Span::new(-1.25, 3.5, true).widened(9, true), Span { start: -3.0, length: 9 });
        assert_eq!(Span::new(-1.25, 3.5, false).widened(9, false), Span { start: -3.375, length: 9 });
    }
}
