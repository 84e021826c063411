//! Glyphs drawn back from their fields are the glyphs, and colours are what keeps their corners.

mod common;

use merelsplum::job::Strategy;
use merelsplum::{Colored, EdgeColor};
use sheet::draw::{Drawing, Type};
use sheet::field::Field;
use sheet::font::{Font, Name};
use sheet::frame::Frame;
use sheet::picture::{ZOOM, inside};
use sheet::sheet::{Image, job};
use sheet::source;
use sheet::winding::Fill;

const SIZE: f64 = 24.0;
const PXRANGE: f64 = 4.0;

/// By how much of its area a glyph that is drawn back differs from its outline.
fn error(colored: &Colored, fill: &Fill, frame: &Frame) -> f64 {
    let pixels = Drawing::new(PXRANGE).pixels(colored, fill, frame);
    let image = Image { kind: Type::Msdf, width: frame.width, height: frame.height, pixels, floats: vec![] };
    let edges: Vec<_> = colored.contours.iter().flatten().map(|(edge, _)| source::segment(edge)).collect();
    let zoom = ZOOM as f64;
    let (mut wrong, mut area) = (0.0, 0.0);
    for y in 0..ZOOM * frame.height {
        let down = (y as f64 + 0.5) / zoom;
        let stretches = inside(&edges, frame.point(0.0, frame.height as f64 - down).y);
        for x in 0..ZOOM * frame.width {
            let across = (x as f64 + 0.5) / zoom;
            let at = frame.point(across, 0.0).x;
            let truth = f64::from(u8::from(stretches.iter().any(|&(from, to)| from <= at && at < to)));
            let drawn = image.coverage(across, down, PXRANGE, zoom).round();
            wrong += (drawn - truth).abs();
            area += truth;
        }
    }
    wrong / area
}

#[test]
fn letters_come_back() {
    let file = std::fs::read(common::dejavu_sans()).unwrap();
    let font = Font::new(&file).unwrap();
    for strategy in [Strategy::Simple, Strategy::InkTrap, Strategy::ByDistance] {
        let (mut colors, mut white) = (0.0, 0.0);
        for letter in 'A'..='Z' {
            let glyph = font.glyph(Name::Character(letter)).unwrap();
            let frame = Frame::new(&glyph.shape, SIZE / font.units_per_em(), PXRANGE);
            let mut colored = job(source::outline(&glyph.shape), strategy, 3f64.sin(), 0, false).unwrap().color().unwrap();
            let e = error(&colored, &glyph.fill, &frame);
            assert!(e < 0.02, "{strategy:?}, {letter}: {e}");
            colors += e;
            colored.contours.iter_mut().flatten().for_each(|edge| edge.1 = EdgeColor::White);
            white += error(&colored, &glyph.fill, &frame);
        }
        assert!(3.0 * colors < white, "{strategy:?}: {colors} and {white}");
    }
}

/// Fields of letters are the same, to the bit, whether or not edges are left out that cannot be nearest.
#[test]
fn nothing_is_lost_by_skipping() {
    let file = std::fs::read(common::dejavu_sans()).unwrap();
    let font = Font::new(&file).unwrap();
    for c in "AaBgR&@%Ω❤".chars() {
        let glyph = font.glyph(Name::Character(c)).unwrap();
        let frame = Frame::new(&glyph.shape, SIZE / font.units_per_em(), PXRANGE);
        let colored = job(source::outline(&glyph.shape), Strategy::InkTrap, 3f64.sin(), 0, false).unwrap().color().unwrap();
        let (all, some) = (Field::with(&colored, true, false), Field::with(&colored, true, true));
        let (mut all, mut some) = (all.channels(), some.channels());
        for (row, left) in (0..frame.height).flat_map(|row| (0..frame.width).step_by(5).map(move |x| (row, x))) {
            some.within(frame.middle(left + 2, row), 2.0 / frame.scale);
            for x in left..left + 5 {
                let point = frame.middle(x, row);
                assert_eq!(some.at(point).map(f64::to_bits), all.at(point).map(f64::to_bits), "{c} at {x}, {row}");
            }
        }
    }
}
