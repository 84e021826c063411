//! The description of a sheet, as msdf-atlas-gen writes it: JSON, or a table of comma-separated values.

use crate::font::{Font, Metrics, Name};
use crate::sheet::{Cell, Sheet};
use crate::source::Bounds;
use serde::{Serialize, Serializer};

/// Where y is 0: it goes up from the bottom, or down from the top.
#[derive(Clone, Copy, Debug, PartialEq, Eq, Serialize)]
#[serde(rename_all = "lowercase")]
pub enum YOrigin {
    Bottom,
    Top,
}

impl YOrigin {
    /// A height above the baseline.
    fn height(self, y: f64) -> f64 {
        match self {
            YOrigin::Bottom => y,
            YOrigin::Top => 0.0 - y,
        }
    }
}

#[derive(Serialize)]
struct Description<'a> {
    atlas: Atlas,
    #[serde(flatten)]
    font: Option<FontPart<'a>>,
    /// Where there are several fonts.
    #[serde(skip_serializing_if = "Vec::is_empty")]
    variants: Vec<FontPart<'a>>,
}

#[derive(Serialize)]
#[serde(rename_all = "camelCase")]
struct Atlas {
    #[serde(rename = "type")]
    kind: &'static str,
    distance_range: f64,
    distance_range_middle: f64,
    size: f64,
    width: usize,
    height: usize,
    y_origin: YOrigin,
    #[serde(skip_serializing_if = "Option::is_none")]
    grid: Option<GridPart>,
}

#[derive(Serialize)]
#[serde(rename_all = "camelCase")]
struct GridPart {
    cell_width: usize,
    cell_height: usize,
    columns: usize,
    rows: usize,
    /// Where the font's origin is in a cell, in ems.
    #[serde(skip_serializing_if = "Option::is_none")]
    origin_x: Option<f64>,
    #[serde(skip_serializing_if = "Option::is_none")]
    origin_y: Option<f64>,
}

#[derive(Serialize)]
struct FontPart<'a> {
    #[serde(skip_serializing_if = "Option::is_none")]
    name: Option<&'a str>,
    metrics: MetricsPart,
    glyphs: Vec<GlyphPart>,
    kerning: Vec<Pair>,
}

#[derive(Serialize)]
#[serde(rename_all = "camelCase")]
struct MetricsPart {
    em_size: f64,
    line_height: f64,
    ascender: f64,
    descender: f64,
    underline_y: f64,
    underline_thickness: f64,
}

#[derive(Serialize)]
#[serde(rename_all = "camelCase")]
struct GlyphPart {
    #[serde(flatten)]
    name: NamePart,
    advance: f64,
    #[serde(skip_serializing_if = "Option::is_none")]
    plane_bounds: Option<Sides>,
    #[serde(skip_serializing_if = "Option::is_none")]
    atlas_bounds: Option<Sides>,
}

#[derive(Serialize)]
#[serde(rename_all = "lowercase")]
enum NamePart {
    Unicode(u32),
    Index(u32),
}

#[derive(Clone, Copy, Serialize)]
struct Sides {
    left: f64,
    bottom: f64,
    right: f64,
    top: f64,
}

/// Two glyphs and by how much the second one goes nearer or further away.
struct Pair(Name, Name, f64);

impl Serialize for Pair {
    fn serialize<S: Serializer>(&self, serializer: S) -> Result<S::Ok, S::Error> {
        let keys = if matches!(self.0, Name::Character(_)) { ["unicode1", "unicode2"] } else { ["index1", "index2"] };
        use serde::ser::SerializeMap;
        let mut map = serializer.serialize_map(Some(3))?;
        map.serialize_entry(keys[0], &number(self.0))?;
        map.serialize_entry(keys[1], &number(self.1))?;
        map.serialize_entry("advance", &self.2)?;
        map.end()
    }
}

/// The sheet of the glyphs of some fonts.
pub fn describe(fonts: &[Font], sheet: &Sheet, origin: YOrigin) -> String {
    let mut parts: Vec<FontPart> = fonts.iter().enumerate().map(|(i, font)| font_part(font, i, sheet, origin)).collect();
    let font = if let [_] = fonts { parts.pop() } else { None };
    let description = Description { atlas: atlas(sheet, origin), font, variants: parts };
    serde_json::to_string(&description).expect("there is nothing that JSON has not") + "\n"
}

fn atlas(sheet: &Sheet, origin: YOrigin) -> Atlas {
    let grid = sheet.grid.map(|cells| {
        // from the middle of a cell's first pixel
        let [origin_x, up] = cells.origin.map(|pixels| Some((pixels? - 0.5) / sheet.size));
        let down = |up: f64| (cells.height - 1) as f64 / sheet.size - up;
        let origin_y = if origin == YOrigin::Bottom { up } else { up.map(down) };
        GridPart {
            cell_width: cells.width,
            cell_height: cells.height,
            columns: cells.columns,
            rows: cells.rows,
            origin_x,
            origin_y,
        }
    });
    Atlas {
        kind: sheet.image.kind.name(),
        distance_range: sheet.pxrange,
        distance_range_middle: 0.0,
        size: sheet.size,
        width: sheet.image.width,
        height: sheet.image.height,
        y_origin: origin,
        grid,
    }
}

fn font_part<'a>(font: &'a Font, number: usize, sheet: &Sheet, origin: YOrigin) -> FontPart<'a> {
    let em = font.units_per_em();
    let Metrics { line_height, ascender, descender, underline_y, underline_thickness } = font.metrics();
    let [ascender, descender, underline_y] = [ascender, descender, underline_y].map(|height| origin.height(height));
    let cells: Vec<&Cell> = sheet.cells.iter().filter(|cell| cell.font == number).collect();
    let names: Vec<Name> = cells.iter().map(|cell| cell.name).collect();
    let glyph = |cell: &&Cell| GlyphPart {
        name: match cell.name {
            Name::Character(c) => NamePart::Unicode(c.into()),
            Name::Index(index) => NamePart::Index(index.into()),
        },
        advance: cell.advance / em,
        plane_bounds: (!cell.frame.is_empty()).then(|| plane_bounds(cell, em, origin)),
        atlas_bounds: (!cell.frame.is_empty()).then(|| atlas_bounds(cell, sheet.image.height, origin)),
    };
    FontPart {
        name: font.name.as_deref(),
        metrics: MetricsPart { em_size: 1.0, line_height, ascender, descender, underline_y, underline_thickness },
        glyphs: cells.iter().map(glyph).collect(),
        kerning: font.kerning(&names).into_iter().map(|(left, right, units)| Pair(left, right, units / em)).collect(),
    }
}

fn number(name: Name) -> u32 {
    match name {
        Name::Character(c) => c.into(),
        Name::Index(index) => index.into(),
    }
}

/// A line for each glyph: the number of its font where there are several, its character or place, its advance, its box
/// about the baseline in ems and its box in the sheet in pixels. A box is its left, bottom, right and top, or left,
/// top, right and bottom where y goes down; without one all are 0.
pub fn table(fonts: &[Font], sheet: &Sheet, origin: YOrigin) -> String {
    let row = |cell: &Cell| {
        let em = fonts[cell.font].units_per_em();
        let boxes = [plane_bounds(cell, em, origin), atlas_bounds(cell, sheet.image.height, origin)];
        let sides = |Sides { left, bottom, right, top }: Sides| match origin {
            YOrigin::Bottom => [left, bottom, right, top],
            YOrigin::Top => [left, top, right, bottom],
        };
        let boxes = if cell.frame.is_empty() { [[0.0; 4]; 2] } else { boxes.map(sides) };
        let font = (fonts.len() > 1).then(|| cell.font.to_string());
        let numbers = font.into_iter().chain([number(cell.name).to_string(), (cell.advance / em).to_string()]);
        numbers.chain(boxes.concat().iter().map(f64::to_string)).collect::<Vec<String>>().join(",") + "\n"
    };
    sheet.cells.iter().map(row).collect()
}

fn plane_bounds(cell: &Cell, em: f64, origin: YOrigin) -> Sides {
    let Bounds { l, b, r, t } = cell.frame.bounds();
    Sides { left: l / em, bottom: origin.height(b / em), right: r / em, top: origin.height(t / em) }
}

/// From the middle of the first pixel to the middle of the last one.
fn atlas_bounds(cell: &Cell, sheet_height: usize, origin: YOrigin) -> Sides {
    let Cell { frame, x, y, .. } = cell;
    let [left, bottom, right, top] = frame.shown();
    let (left, right) = (*x as f64 + left, *x as f64 + right);
    let below = (sheet_height - y - frame.height) as f64;
    let height = |up: f64| if origin == YOrigin::Bottom { below + up } else { sheet_height as f64 - below - up };
    Sides { left, bottom: height(bottom), right, top: height(top) }
}
