//! Pictures: the sheet itself, its glyphs drawn back from it, and the coloured outlines.

use crate::frame::Frame;
use crate::sheet::{Image, Sheet};
use crate::source::{EdgeSegment, Vector2, dot, median, segment};
use crate::winding::Fill;
use merelsplum::{Colored, EdgeColor};
use rayon::prelude::*;
use std::io::{self, Cursor, Write};
use tiff::encoder::{TiffEncoder, colortype};

/// How much larger than the sheet the other two pictures are.
pub const ZOOM: usize = 8;

pub const PAPER: [u8; 3] = [24, 24, 28];
pub const INK: [u8; 3] = [60, 60, 68];

/// How many rows of the sheet are drawn at once as outlines.
const BAND: usize = 8;

/// Half the width of a drawn outline, in pixels.
const PEN: f64 = 1.6;

/// Writes a picture that comes in bands from the top.
fn write_png(
    out: impl Write,
    (width, height): (usize, usize),
    color: png::ColorType,
    bands: impl Iterator<Item = Vec<u8>>,
) -> io::Result<()> {
    let mut encoder = png::Encoder::new(out, width as u32, height as u32);
    encoder.set_color(color);
    encoder.set_depth(png::BitDepth::Eight);
    let mut writer = encoder.write_header()?;
    let mut stream = writer.stream_writer()?;
    for band in bands {
        stream.write_all(&band)?;
    }
    stream.finish()?;
    Ok(writer.finish()?)
}

pub fn write_rgb(out: impl Write, size: (usize, usize), pixels: &[[u8; 3]]) -> io::Result<()> {
    write_png(out, size, png::ColorType::Rgb, pixels.chunks(size.0).map(|row| row.concat()))
}

/// The formats of a sheet.
#[derive(Clone, Copy, Debug, PartialEq, Eq)]
pub enum Format {
    Png,
    /// Without compression.
    Bmp,
    /// With numbers of 32 bits.
    Tiff,
    /// The bytes of the pixels by rows from the bottom, as msdf-atlas-gen writes them.
    Bin,
    /// The same with numbers of 32 bits, the lowest byte first.
    BinFloat,
    /// The same, the highest byte first.
    BinFloatBe,
}

impl Format {
    /// All of them, by their names.
    pub const ALL: [(&'static str, Format); 6] = [
        ("png", Format::Png),
        ("bmp", Format::Bmp),
        ("tiff", Format::Tiff),
        ("bin", Format::Bin),
        ("binfloat", Format::BinFloat),
        ("binfloatbe", Format::BinFloatBe),
    ];

    /// Whether it has numbers that are not rounded to bytes.
    pub fn has_floats(self) -> bool {
        matches!(self, Format::Tiff | Format::BinFloat | Format::BinFloatBe)
    }
}

impl Image {
    /// The channels of some pixels.
    fn channels<T: Copy>(&self, pixels: &[[T; 4]]) -> Vec<T> {
        pixels.iter().flat_map(|pixel| &pixel[..self.kind.channels()]).copied().collect()
    }

    /// Writes numbers by rows from the bottom.
    fn write_floats(&self, mut out: impl Write, bytes: impl Fn(f32) -> [u8; 4]) -> io::Result<()> {
        let rows = self.floats.chunks(self.width).rev();
        rows.map(|row| self.channels(row))
            .try_for_each(|row| out.write_all(&row.into_iter().flat_map(&bytes).collect::<Vec<u8>>()))
    }
}

pub fn write_sheet(mut out: impl Write, image: &Image, format: Format) -> io::Result<()> {
    let (width, height) = (image.width, image.height);
    let kind = image.kind.channels() / 2;
    match format {
        Format::Png => {
            let color = [png::ColorType::Grayscale, png::ColorType::Rgb, png::ColorType::Rgba][kind];
            write_png(out, (width, height), color, image.pixels.chunks(width).map(|row| image.channels(row)))
        }
        Format::Bmp => {
            let color = [image::ColorType::L8, image::ColorType::Rgb8, image::ColorType::Rgba8][kind];
            let mut encoder = image::codecs::bmp::BmpEncoder::new(&mut out);
            encoder.encode(&image.channels(&image.pixels), width as u32, height as u32, color).map_err(io::Error::other)
        }
        Format::Tiff => {
            let mut file = Cursor::new(Vec::new());
            write_tiff(&mut file, image).map_err(io::Error::other)?;
            out.write_all(file.get_ref())
        }
        Format::Bin => image.pixels.chunks(width).rev().try_for_each(|row| out.write_all(&image.channels(row))),
        Format::BinFloat => image.write_floats(out, f32::to_le_bytes),
        Format::BinFloatBe => image.write_floats(out, f32::to_be_bytes),
    }
}

fn write_tiff(file: &mut Cursor<Vec<u8>>, image: &Image) -> tiff::TiffResult<()> {
    let mut encoder = TiffEncoder::new(file)?;
    let (width, height, floats) = (image.width as u32, image.height as u32, image.channels(&image.floats));
    match image.kind.channels() {
        1 => encoder.write_image::<colortype::Gray32Float>(width, height, &floats),
        3 => encoder.write_image::<colortype::RGB32Float>(width, height, &floats),
        _ => encoder.write_image::<colortype::RGBA32Float>(width, height, &floats),
    }
}

impl Image {
    /// The channels at a place in pixels, from 0 to 1, linear between the middles of the pixels.
    fn sample(&self, x: f64, y: f64) -> [f64; 3] {
        let [right, bottom] = [self.width, self.height].map(|length| (length - 1) as f64);
        let (x, y) = ((x - 0.5).clamp(0.0, right), (y - 0.5).clamp(0.0, bottom));
        let at = |x: f64, y: f64| self.pixels[y as usize * self.width + x as usize];
        let [left, right, top, bottom] = [x.floor(), x.ceil(), y.floor(), y.ceil()];
        let mix = |a: f64, b: f64, t: f64| a + (b - a) * t;
        let across = |y: f64, i: usize| mix(at(left, y)[i].into(), at(right, y)[i].into(), x - left);
        [0, 1, 2].map(|i| mix(across(top, i), across(bottom, i), y - top) / 255.0)
    }

    /// How much of a pixel is inside, drawn back with `zoom` pixels for one of the sheet's.
    pub fn coverage(&self, x: f64, y: f64, pxrange: f64, zoom: f64) -> f64 {
        let [red, green, blue] = self.sample(x, y);
        ((median(red, green, blue) - 0.5) * pxrange * zoom + 0.5).clamp(0.0, 1.0)
    }
}

/// The glyphs drawn back from the sheet, black on white.
pub fn write_test_render(out: impl Write, sheet: &Sheet) -> io::Result<()> {
    let (width, height) = (sheet.image.width, sheet.image.height);
    let at = |i: usize| (i as f64 + 0.5) / ZOOM as f64;
    let row = |y: usize| (0..ZOOM * width).map(move |x| sheet.image.coverage(at(x), at(y), sheet.pxrange, ZOOM as f64));
    let bands = (0..height).map(|y| {
        let rows = (ZOOM * y..ZOOM * (y + 1)).into_par_iter();
        rows.flat_map_iter(|y| row(y).map(|inside| (255.0 * (1.0 - inside)).round() as u8)).collect()
    });
    write_png(out, (ZOOM * width, ZOOM * height), png::ColorType::Grayscale, bands)
}

/// The coloured outlines, each where its glyph is in the test render.
pub fn write_outlines(out: impl Write, sheet: &Sheet) -> io::Result<()> {
    let (width, height) = (sheet.image.width, sheet.image.height);
    let bands = (0..height).step_by(BAND).map(|top| {
        let bottom = (top + BAND).min(height);
        let mut canvas = Canvas::new(ZOOM * width, ZOOM * (bottom - top));
        for cell in sheet.cells.iter().filter(|cell| cell.y < bottom && top < cell.y + cell.frame.height) {
            let [x, y, top] = [cell.x, cell.y, top].map(|pixels| (ZOOM * pixels) as f64);
            canvas.outline(&cell.colored, &cell.frame, ZOOM as f64, x, y - top);
        }
        canvas.pixels.concat()
    });
    write_png(out, (ZOOM * width, ZOOM * height), png::ColorType::Rgb, bands)
}

/// A picture to draw on, by rows from the top.
pub struct Canvas {
    pub width: usize,
    pub pixels: Vec<[u8; 3]>,
    /// How much of each pixel a line covers.
    covered: Vec<f64>,
}

impl Canvas {
    pub fn new(width: usize, height: usize) -> Canvas {
        Canvas { width, pixels: vec![PAPER; width * height], covered: vec![0.0; width * height] }
    }

    pub fn height(&self) -> usize {
        self.pixels.len() / self.width
    }

    /// Draws a glyph with `zoom` pixels for one of its frame, the frame's top left corner at (x, y): its inside, then
    /// its edges. What is above or below the picture is left out.
    pub fn outline(&mut self, colored: &Colored, frame: &Frame, zoom: f64, x: f64, y: f64) {
        let top = frame.height as f64;
        let place = |point: Vector2| {
            let Vector2 { x: along, y: up } = frame.place(point);
            Vector2::new(x + zoom * along, y + zoom * (top - up))
        };
        let (edges, colors): (Vec<_>, Vec<_>) = colored.contours.iter().flatten().map(|(e, c)| (segment(e), rgb(*c))).unzip();
        let fill = Fill::of_edges(edges.iter().copied());
        for row in y as usize..((y + zoom * top) as usize).min(self.height()) {
            let up = top - (row as f64 + 0.5 - y) / zoom;
            for (from, to) in fill.scanline(frame.point(0.0, up).y).stretches() {
                let [from, to] = [from, to].map(|along| place(Vector2::new(along, 0.0)).x.round() as usize);
                self.pixels[row * self.width..][from..to].fill(INK);
            }
        }
        for (edge, color) in edges.into_iter().zip(colors) {
            let pieces = if matches!(edge, EdgeSegment::Line(_)) { 1 } else { 24 };
            let point = |i: usize| place(edge.point(i as f64 / pieces as f64));
            (0..pieces).for_each(|i| self.line(point(i), point(i + 1), color));
        }
    }

    fn line(&mut self, a: Vector2, b: Vector2, color: [u8; 3]) {
        let reach = PEN + 1.0;
        let pixel = |x: f64, limit: usize| (x.max(0.0) as usize).min(limit);
        let columns = pixel(a.x.min(b.x) - reach, self.width)..pixel(a.x.max(b.x) + reach, self.width);
        for row in pixel(a.y.min(b.y) - reach, self.height())..pixel(a.y.max(b.y) + reach, self.height()) {
            for column in columns.clone() {
                let way = Vector2::new(column as f64 + 0.5, row as f64 + 0.5) - a;
                let t = (dot(way, b - a) / dot(b - a, b - a)).clamp(0.0, 1.0);
                let covered = (PEN + 0.5 - (way - (b - a) * t).length()).clamp(0.0, 1.0);
                self.blend(column, row, color, covered);
            }
        }
    }

    /// Lays a line's color over a pixel that no line covers more.
    fn blend(&mut self, column: usize, row: usize, color: [u8; 3], covered: f64) {
        let at = row * self.width + column;
        if covered > self.covered[at] {
            self.pixels[at] = mix(self.pixels[at], color, covered);
            self.covered[at] = covered;
        }
    }
}

pub fn mix(a: [u8; 3], b: [u8; 3], t: f64) -> [u8; 3] {
    [0, 1, 2].map(|i| (f64::from(a[i]) * (1.0 - t) + f64::from(b[i]) * t).round() as u8)
}

/// A colour to look at: its channels full.
pub fn rgb(color: EdgeColor) -> [u8; 3] {
    [0, 1, 2].map(|channel| if color.has_channel(channel) { 255 } else { 0 })
}

/// The stretches of the line at height y that are inside, by winding.
pub fn inside(edges: &[EdgeSegment], y: f64) -> Vec<(f64, f64)> {
    Fill::of_edges(edges.iter().copied()).scanline(y).stretches()
}

#[cfg(test)]
mod tests {
    use super::*;

    /// A picture that is cut anywhere is told of.
    #[test]
    fn no_room() {
        let mut file = Vec::new();
        write_rgb(&mut file, (2, 1), &[PAPER, INK]).unwrap();
        for length in 0..file.len() {
            assert!(write_rgb(&mut vec![0; length][..], (2, 1), &[PAPER, INK]).is_err(), "{length}");
        }
        write_rgb(&mut vec![0; file.len()][..], (2, 1), &[PAPER, INK]).unwrap();
    }
}
