//! Draws the pictures of docs/pictures: `pictures FONT FOLDER`. One letter's outline coloured by each strategy; and the
//! same letter drawn back from a small field with the right colouring beside one whose edges are all White.

use merelsplum::job::Strategy;
use merelsplum::{Colored, EdgeColor};
use sheet::draw::{Drawing, Type};
use sheet::field::{Field, middle};
use sheet::font::{Font, Glyph, Name};
use sheet::frame::Frame;
use sheet::output::Outputs;
use sheet::picture::{Canvas, mix, write_rgb};
use sheet::sheet::{Image, job};
use sheet::source;
use std::env;
use std::path::Path;

const LETTER: char = 'R';
const ANGLE: f64 = 3.0;

/// A panel's side, what is left free about the letter, and the height of the line below it.
const PANEL: usize = 320;
const MARGIN: f64 = 20.0;
const LINE: usize = 44;

/// The small field: pixels an em, and the range.
const SIZE: f64 = 24.0;
const PXRANGE: f64 = 4.0;

const TEXT: [u8; 3] = [225, 225, 230];

fn main() -> Result<(), String> {
    let arguments: Vec<String> = env::args().skip(1).collect();
    let [path, folder] = &arguments[..] else { return Err("usage: pictures FONT FOLDER".to_owned()) };
    let file = std::fs::read(path).map_err(|error| format!("{path}: {error}"))?;
    let font = Font::new(&file)?;
    let mut outputs = Outputs::default();
    for (name, picture) in [("strategies.png", strategies(&font)?), ("corners.png", corners(&font)?)] {
        outputs.write(&Path::new(folder).join(name), |out| write_rgb(out, (picture.width, picture.height()), &picture.pixels))?;
    }
    outputs.finish()
}

fn glyph(font: &Font, c: char) -> Result<Glyph, String> {
    font.glyph(Name::Character(c)).ok_or_else(|| format!("no glyph for {c}"))
}

fn color(glyph: &Glyph, strategy: Strategy) -> Result<Colored, String> {
    let job = job(source::outline(&glyph.shape), strategy, ANGLE.sin(), 0, false).map_err(|refusal| refusal.to_string())?;
    job.color().map_err(|refusal| refusal.to_string())
}

fn white(mut colored: Colored) -> Colored {
    colored.contours.iter_mut().flatten().for_each(|edge| edge.1 = EdgeColor::White);
    colored
}

/// The outline, once for each strategy.
fn strategies(font: &Font) -> Result<Canvas, String> {
    let glyph = glyph(font, LETTER)?;
    let mut picture = Canvas::new(3 * PANEL, PANEL + LINE);
    let strategies = [(Strategy::Simple, "simple"), (Strategy::InkTrap, "ink trap"), (Strategy::ByDistance, "by distance")];
    for (i, (strategy, name)) in strategies.into_iter().enumerate() {
        let (frame, zoom) = fitted(font, &glyph, 64.0, 1.0);
        let left = (i * PANEL) as f64 + 0.5 * (PANEL as f64 - zoom * frame.width as f64);
        picture.outline(&color(&glyph, strategy)?, &frame, zoom, left, MARGIN);
        caption(&mut picture, font, name, i * PANEL + PANEL / 2)?;
    }
    Ok(picture)
}

/// The field and what is drawn back from it: with the right colouring, then with White alone.
fn corners(font: &Font) -> Result<Canvas, String> {
    let glyph = glyph(font, LETTER)?;
    let right = color(&glyph, Strategy::Simple)?;
    let mut picture = Canvas::new(4 * PANEL, PANEL + LINE);
    let panels = [(right.clone(), "coloured", "drawn back"), (white(right), "all White", "drawn back")];
    for (i, (colored, field, back)) in panels.into_iter().enumerate() {
        let (frame, zoom) = fitted(font, &glyph, SIZE, PXRANGE);
        let pixels = Drawing::new(PXRANGE).pixels(&colored, &glyph.fill, &frame);
        let image = Image { kind: Type::Msdf, width: frame.width, height: frame.height, pixels, floats: vec![] };
        for (panel, name, drawn_back) in [(2 * i, field, false), (2 * i + 1, back, true)] {
            let left = panel * PANEL + (PANEL - (zoom * frame.width as f64) as usize) / 2;
            for (x, y) in (0..PANEL).flat_map(|y| (0..PANEL).map(move |x| (x, y))) {
                let (across, down) = ((x as f64 + 0.5) / zoom, (y as f64 + 0.5) / zoom);
                if across < frame.width as f64 && down < frame.height as f64 {
                    let inside = image.coverage(across, down, PXRANGE, zoom);
                    let [r, g, b, _] = image.pixels[down as usize * image.width + across as usize];
                    let row = y + MARGIN as usize;
                    picture.pixels[row * 4 * PANEL + left + x] =
                        if drawn_back { mix([255; 3], [0; 3], inside) } else { [r, g, b] };
                }
            }
            caption(&mut picture, font, name, panel * PANEL + PANEL / 2)?;
        }
    }
    Ok(picture)
}

/// A glyph's frame, and how much larger it is drawn to fill a panel.
fn fitted(font: &Font, glyph: &Glyph, size: f64, pxrange: f64) -> (Frame, f64) {
    let frame = Frame::new(&glyph.shape, size / font.units_per_em(), pxrange);
    (frame, (PANEL as f64 - 2.0 * MARGIN) / frame.width.max(frame.height) as f64)
}

/// Writes a word below a panel, drawn from its glyphs' fields.
fn caption(picture: &mut Canvas, font: &Font, word: &str, center: usize) -> Result<(), String> {
    let scale = 20.0 / font.units_per_em();
    let glyphs: Vec<Glyph> = word.chars().map(|c| glyph(font, c)).collect::<Result<_, _>>()?;
    let length: f64 = glyphs.iter().map(|glyph| scale * glyph.advance).sum();
    let mut at = (center as f64 - 0.5 * length).round();
    let baseline = PANEL as f64 + 22.0;
    for glyph in glyphs {
        let frame = Frame::new(&glyph.shape, scale, 1.0);
        let field = Field::new(&color(&glyph, Strategy::Simple)?);
        let mut channels = field.channels();
        let origin = frame.place(source::Vector2::ZERO);
        for (x, y) in (0..frame.height).flat_map(|y| (0..frame.width).map(move |x| (x, y))) {
            let distance = middle(&channels.at(frame.point(x as f64 + 0.5, y as f64 + 0.5)));
            let column = (at - origin.x).round() as usize + x;
            let row = (baseline + origin.y) as usize - y;
            let pixel = &mut picture.pixels[row * picture.width + column];
            *pixel = mix(*pixel, TEXT, (distance * scale + 0.5).clamp(0.0, 1.0));
        }
        at += scale * glyph.advance;
    }
    Ok(())
}
