//! Wrong pixels: how much of a sheet's pixels is on the wrong side of the outline when the glyphs are drawn back, where
//! that is more than half a pixel of the sheet away from the true edge.

use crate::drawing::{Drawer, Drawing};
use serde_json::Value;

/// How much larger than the sheet the glyphs are drawn.
pub const ZOOM: usize = 8;

/// A sheet: three bytes a pixel, by rows from the top.
pub struct Sheet<'a> {
    pub width: usize,
    pub pixels: &'a [[u8; 3]],
    /// As msdf-atlas-gen writes it.
    pub json: &'a Value,
}

/// A glyph of a sheet and its wrong pixels.
pub struct Wrong {
    pub name: String,
    pub pixels: f64,
}

/// What each glyph of a sheet has wrong; glyphs without a box are left out.
pub fn measure(sheet: &Sheet, file: &[u8]) -> Result<Vec<Wrong>, String> {
    let size = number(&sheet.json["atlas"]["size"])?;
    let drawer = Drawer::new(file, ZOOM as f64 * size)?;
    let glyphs = sheet.json["glyphs"].as_array().ok_or("no glyphs")?;
    let boxed = glyphs.iter().filter(|glyph| glyph["atlasBounds"].is_object());
    boxed.map(|glyph| measure_glyph(sheet, glyph, &drawer, size)).collect()
}

fn number(value: &Value) -> Result<f64, String> {
    value.as_f64().ok_or_else(|| format!("{value} is no number"))
}

fn measure_glyph(sheet: &Sheet, glyph: &Value, drawer: &Drawer, size: f64) -> Result<Wrong, String> {
    let bound = |bounds: &str, side: &str| number(&glyph[bounds][side]);
    let [left, bottom, right, top] = ["left", "bottom", "right", "top"].map(|side| bound("atlasBounds", side));
    let (left, bottom, right, top) = (left?, bottom?, right?, top?);
    let (index, name) = match glyph["unicode"].as_u64() {
        Some(character) => (drawer.index(character as u32), format!("U+{character:04X}")),
        None => (number(&glyph["index"])? as u32, format!("glyph {}", glyph["index"])),
    };
    let zoom = ZOOM as f64;
    let place = |side: &str| Ok::<f64, String>(zoom * size * bound("planeBounds", side)?);
    let [width, height] = [right - left, top - bottom].map(|length| (zoom * length).round() as usize);
    let truth = drawer.draw(index, place("left")?, place("bottom")?, width, height)?;
    let above = sheet.pixels.len() as f64 / sheet.width as f64 - top;
    let drawn = |x: usize, y: usize| sheet.inside(left + (x as f64 + 0.5) / zoom, above + (y as f64 + 0.5) / zoom);
    let places = (0..height).flat_map(|y| (0..width).map(move |x| (x, y)));
    let wrong = places.filter(|&(x, y)| drawn(x, y) != truth.inside[y * width + x] && !truth.near_edge(x, y)).count();
    Ok(Wrong { name, pixels: wrong as f64 / (zoom * zoom) })
}

impl Sheet<'_> {
    /// Whether a place in pixels, from the top left, is inside: linear between the middles of the pixels.
    fn inside(&self, x: f64, y: f64) -> bool {
        let (x, y) = (x - 0.5, y - 0.5);
        let (column, row) = (x.floor(), y.floor());
        let at = |i: usize, j: usize| {
            let (x, y) = ((column as usize + i).min(self.width - 1), row as usize + j);
            self.pixels[(y * self.width + x).min(self.pixels.len() - 1)].map(f64::from)
        };
        let mix = |a: [f64; 3], b: [f64; 3], t: f64| [0, 1, 2].map(|i| a[i] + (b[i] - a[i]) * t);
        let across = |j: usize| mix(at(0, j), at(1, j), x - column);
        let mut value = mix(across(0), across(1), y - row);
        value.sort_by(f64::total_cmp);
        value[1] > 127.5
    }
}

impl Drawing {
    /// Whether a pixel on the other side is at most half a pixel of the sheet away.
    fn near_edge(&self, x: usize, y: usize) -> bool {
        let reach = 0.5 * ZOOM as f64;
        let near = |x: usize, limit: usize| x.saturating_sub(reach as usize)..(x + reach as usize + 1).min(limit);
        let here = self.inside[y * self.width + x];
        near(y, self.height).any(|row| {
            near(x, self.width).any(|column| {
                let (across, down) = (column.abs_diff(x) as f64, row.abs_diff(y) as f64);
                across.hypot(down) <= reach && self.inside[row * self.width + column] != here
            })
        })
    }
}
