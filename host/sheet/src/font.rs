//! A font's glyphs, their outlines read by ttf-parser.

use crate::kerning::Kerning;
use crate::source::{Contour, EdgeSegment, Shape, Vector2, cross};
use crate::winding::{Fill, orient};
use std::fmt;
use ttf_parser::{Face, GlyphId, OutlineBuilder, Tag};

/// What a glyph is called: by its character, or by its place in the font.
#[derive(Clone, Copy, Debug, PartialEq, Eq)]
pub enum Name {
    Character(char),
    Index(u16),
}

impl fmt::Display for Name {
    fn fmt(&self, f: &mut fmt::Formatter) -> fmt::Result {
        match self {
            Name::Character(c) => write!(f, "U+{:04X}", *c as u32),
            Name::Index(index) => write!(f, "glyph{index:05}"),
        }
    }
}

/// A glyph, in units of the font.
pub struct Glyph {
    pub name: Name,
    pub advance: f64,
    /// Its edges as the font draws them, through all contours.
    pub drawn: Vec<EdgeSegment>,
    /// Its contours with the inside on their right, and its cusps pushed apart.
    pub shape: Shape,
    /// What the font draws.
    pub fill: Fill,
}

/// Lengths that belong to the font as a whole, in ems.
pub struct Metrics {
    pub line_height: f64,
    pub ascender: f64,
    pub descender: f64,
    pub underline_y: f64,
    pub underline_thickness: f64,
}

pub struct Font<'a> {
    face: Face<'a>,
    /// What the font is called in a description.
    pub name: Option<String>,
}

impl<'a> Font<'a> {
    /// The first face of a file.
    pub fn new(file: &'a [u8]) -> Result<Font<'a>, String> {
        Font::face(file, 0)
    }

    /// A face of a file, which may be a collection.
    pub fn face(file: &'a [u8], number: u32) -> Result<Font<'a>, String> {
        let count = ttf_parser::fonts_in_collection(file).unwrap_or(1);
        if number >= count {
            return Err(format!("no face {number}: there are {count}, counted from 0"));
        }
        let face = Face::from_slice(file, number).map_err(|error| format!("not a font ({error})"))?;
        let tables = face.tables();
        if tables.glyf.is_none() && tables.cff.is_none() && tables.cff2.is_none() {
            return Err("a font without outlines".to_owned());
        }
        Ok(Font { face, name: None })
    }

    /// Sets an axis of a variable font, by its tag of four letters.
    pub fn vary(&mut self, tag: &str, value: f64) -> Result<(), String> {
        let known: Vec<String> = self.face.variation_axes().into_iter().map(|axis| axis.tag.to_string()).collect();
        let bytes: Option<[u8; 4]> = tag.as_bytes().try_into().ok();
        let set = bytes.and_then(|bytes| self.face.set_variation(Tag::from_bytes(&bytes), value as f32));
        set.ok_or_else(|| {
            format!("no axis {tag}: there are {}", if known.is_empty() { "none".to_owned() } else { known.join(" ") })
        })
    }

    pub fn units_per_em(&self) -> f64 {
        self.face.units_per_em().into()
    }

    /// The names of all glyphs, by place.
    pub fn all(&self) -> Vec<Name> {
        (0..self.face.number_of_glyphs()).map(Name::Index).collect()
    }

    pub fn has(&self, name: Name) -> bool {
        self.id(name).is_some()
    }

    fn id(&self, name: Name) -> Option<GlyphId> {
        match name {
            Name::Character(c) => self.face.glyph_index(c),
            Name::Index(index) => Some(GlyphId(index)).filter(|id| id.0 < self.face.number_of_glyphs()),
        }
    }

    /// A glyph's outline; none where there is no such glyph or its outline is damaged, and empty where it has nothing
    /// to draw.
    pub fn glyph(&self, name: Name) -> Option<Glyph> {
        let id = self.id(name)?;
        let mut pen = Pen::default();
        let read = self.face.outline_glyph(id, &mut pen);
        let Pen { drawn, mut shape, .. } = pen;
        // a part was drawn, and then came what cannot be read
        if read.is_none() && shape.edge_count() > 0 {
            return None;
        }
        let fill = prepare(&mut shape);
        Some(Glyph { name, advance: self.face.glyph_hor_advance(id).unwrap_or(0).into(), drawn, shape, fill })
    }

    pub fn metrics(&self) -> Metrics {
        let face = &self.face;
        let em = |units: i32| f64::from(units) / self.units_per_em();
        let (ascender, descender, gap) = (face.ascender().into(), face.descender().into(), i32::from(face.line_gap()));
        let underline = face.underline_metrics().map_or((0, 0), |line| (line.position.into(), line.thickness.into()));
        Metrics {
            line_height: em(ascender - descender + gap),
            ascender: em(ascender),
            descender: em(descender),
            underline_y: em(underline.0 - underline.1 / 2),
            underline_thickness: em(underline.1),
        }
    }

    /// The pairs of these glyphs that go nearer or further apart, and by how much, in units.
    pub fn kerning(&self, names: &[Name]) -> Vec<(Name, Name, f64)> {
        let ids: Vec<(Name, GlyphId)> = names.iter().filter_map(|&name| Some((name, self.id(name)?))).collect();
        let kerning = Kerning::new(&self.face);
        let mut pairs = Vec::new();
        for &(first, left) in ids.iter().filter(|(_, id)| kerning.has(*id)) {
            for &(second, right) in &ids {
                let units = kerning.pair(left, right);
                if units != 0.0 {
                    pairs.push((first, second, units));
                }
            }
        }
        pairs
    }
}

/// Turns the contours of a shape so that the inside is on their right, and pushes its cusps apart; what the font draws.
fn prepare(shape: &mut Shape) -> Fill {
    let fill = Fill::new(shape);
    orient(shape);
    shape.normalize();
    fill
}

/// Collects what a font draws: all edges as they are, and contours in which edges of no length are dropped and curves
/// that are lines become lines.
#[derive(Default)]
struct Pen {
    drawn: Vec<EdgeSegment>,
    shape: Shape,
    start: Vector2,
    at: Vector2,
}

impl Pen {
    fn add(&mut self, drawn: EdgeSegment, edge: EdgeSegment, end: Vector2) {
        self.drawn.push(drawn);
        // a curve may end where it starts
        if end != self.at || edge.order() > 1 {
            self.shape.contours.last_mut().expect("a font moves before it draws").add_edge(edge);
            self.at = end;
        }
    }

    fn line(&mut self, end: Vector2) {
        let line = EdgeSegment::line(self.at, end);
        self.add(line, line, end);
    }
}

fn v(x: f32, y: f32) -> Vector2 {
    Vector2::new(x.into(), y.into())
}

/// A cubic as docs/src makes it, but one whose control points are at one place is no line for that.
fn cubic(p0: Vector2, p1: Vector2, p2: Vector2, p3: Vector2) -> EdgeSegment {
    if p1 == p2 && cross(p1 - p0, p3 - p2) != 0.0 {
        return EdgeSegment::Cubic([p0, p1, p2, p3]);
    }
    EdgeSegment::cubic(p0, p1, p2, p3)
}

impl OutlineBuilder for Pen {
    fn move_to(&mut self, x: f32, y: f32) {
        self.shape.add_contour(Contour::new());
        self.start = v(x, y);
        self.at = self.start;
    }

    fn line_to(&mut self, x: f32, y: f32) {
        self.line(v(x, y));
    }

    fn quad_to(&mut self, x1: f32, y1: f32, x: f32, y: f32) {
        let [p0, p1, p2] = [self.at, v(x1, y1), v(x, y)];
        self.add(EdgeSegment::Quadratic([p0, p1, p2]), EdgeSegment::quadratic(p0, p1, p2), p2);
    }

    fn curve_to(&mut self, x1: f32, y1: f32, x2: f32, y2: f32, x: f32, y: f32) {
        let [p0, p1, p2, p3] = [self.at, v(x1, y1), v(x2, y2), v(x, y)];
        self.add(EdgeSegment::Cubic([p0, p1, p2, p3]), cubic(p0, p1, p2, p3), p3);
    }

    fn close(&mut self) {
        if self.at != self.start {
            self.line(self.start);
        }
        if self.shape.contours.last().is_some_and(Contour::is_empty) {
            self.shape.contours.pop();
        }
    }
}

#[cfg(test)]
mod tests {
    use super::*;

    /// A curve may end where it starts, but a line there and back has no length.
    #[test]
    fn a_teardrop_is_kept() {
        let mut pen = Pen::default();
        pen.move_to(0.0, 0.0);
        pen.curve_to(2.0, 2.0, 1.0, 1.0, 0.0, 0.0);
        pen.curve_to(6.0, 6.0, -6.0, 6.0, 0.0, 0.0);
        pen.close();
        let edge = EdgeSegment::cubic(v(0.0, 0.0), v(6.0, 6.0), v(-6.0, 6.0), v(0.0, 0.0));
        assert_eq!(pen.shape.contours[0].segments, [edge]);
        assert_eq!(pen.drawn.len(), 2);
    }

    /// Its two curves meet at the origin in a turn of 180 degrees, and inside is what the font draws, whichever way it
    /// draws.
    #[test]
    fn a_cusp_is_pushed_apart() {
        for reversed in [false, true] {
            let mut pen = Pen::default();
            pen.move_to(0.0, 0.0);
            pen.quad_to(20.0, 0.0, 40.0, 20.0);
            pen.line_to(40.0, -20.0);
            pen.quad_to(20.0, 0.0, 0.0, 0.0);
            pen.close();
            let mut shape = pen.shape;
            if reversed {
                shape.contours[0].reverse();
            }
            let fill = prepare(&mut shape);
            let edges = &shape.contours[0].segments;
            let ways = |edge: &EdgeSegment| [-edge.direction(1.0), edge.direction(0.0)];
            let from_origin = edges.iter().flat_map(|edge| {
                [edge.point(1.0), edge.point(0.0)].into_iter().zip(ways(edge)).filter(|(point, _)| *point == Vector2::ZERO)
            });
            let mut heights: Vec<f64> = from_origin.map(|(_, way)| way.y).collect();
            heights.sort_by(f64::total_cmp);
            assert!(heights.len() == 2 && heights[0] < 0.0 && heights[1] > 0.0, "{heights:?}");
            assert!(fill.inside(v(30.0, 0.0)) && !fill.inside(v(-1.0, 0.0)) && !fill.inside(v(30.0, 15.0)));
        }
    }

    #[test]
    fn control_points_at_one_place() {
        let points = [v(0.0, 0.0), v(3.0, 5.0), v(3.0, 5.0), v(6.0, 0.0)];
        let [p0, p1, p2, p3] = points;
        assert_eq!(cubic(p0, p1, p2, p3), EdgeSegment::Cubic(points));
        let [p0, p1, p2, p3] = [v(0.0, 0.0), v(2.0, 2.0), v(2.0, 2.0), v(6.0, 6.0)];
        assert_eq!(cubic(p0, p1, p2, p3), EdgeSegment::Line([p0, p3]));
    }

    #[test]
    fn either_way_round() {
        let mut pen = Pen::default();
        pen.move_to(0.0, 0.0);
        pen.line_to(0.0, 2.0);
        pen.line_to(0.0, 2.0);
        pen.quad_to(1.0, 2.0, 2.0, 2.0);
        pen.line_to(2.0, 0.0);
        pen.close();
        pen.move_to(5.0, 5.0);
        pen.close();
        let kinds: Vec<usize> = pen.drawn.iter().map(EdgeSegment::order).collect();
        assert_eq!(kinds, [1, 1, 2, 1, 1], "all are drawn");
        let clockwise = pen.shape;
        assert_eq!(clockwise.contours.len(), 1, "empty contours are dropped");
        assert!(
            clockwise.contours[0].segments.iter().all(|edge| matches!(edge, EdgeSegment::Line(_))),
            "a straight curve is a line"
        );
        assert_eq!(clockwise.edge_count(), 4, "an edge of no length is dropped, and the contour closed");
        let mut other = clockwise.clone();
        other.contours[0].reverse();
        for mut shape in [clockwise.clone(), other] {
            orient(&mut shape);
            assert_eq!(shape.contours[0].segments, clockwise.contours[0].segments);
        }
    }
}
