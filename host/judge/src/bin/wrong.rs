//! Prints how much of a sheet is wrong: `wrong FONT SHEET.png SHEET.json [LIMIT]`. A line for each glyph with more
//! wrong pixels than the limit (0.5 where none is given), and a line for all together.

use judge::wrong::{Sheet, measure};
use std::fs::File;
use std::{env, fs};

fn main() -> Result<(), String> {
    let arguments: Vec<String> = env::args().skip(1).collect();
    let [font, image, json, limit @ ..] = &arguments[..] else {
        return Err("usage: wrong FONT SHEET.png SHEET.json [LIMIT]".to_owned());
    };
    let limit: f64 = limit.first().map_or(Ok(0.5), |text| text.parse()).map_err(|_| "the limit is no number")?;
    let file = fs::read(font).map_err(|error| format!("{font}: {error}"))?;
    let text = fs::read(json).map_err(|error| format!("{json}: {error}"))?;
    let description = serde_json::from_slice(&text).map_err(|error| format!("{json}: {error}"))?;
    let (width, pixels) = picture(image).map_err(|error| format!("{image}: {error}"))?;
    let wrong = measure(&Sheet { width, pixels: &pixels, json: &description }, &file)?;
    let above: Vec<_> = wrong.iter().filter(|glyph| glyph.pixels > limit).collect();
    for glyph in &above {
        println!("{} {:.3}", glyph.name, glyph.pixels);
    }
    let total: f64 = wrong.iter().map(|glyph| glyph.pixels).sum();
    println!("{total:.3} wrong pixels, {} of {} glyphs with more than {limit}", above.len(), wrong.len());
    Ok(())
}

/// A picture of three bytes a pixel: its width, and its pixels by rows.
fn picture(path: &str) -> Result<(usize, Vec<[u8; 3]>), String> {
    let file = File::open(path).map_err(|error| error.to_string())?;
    let mut reader = png::Decoder::new(file).read_info().map_err(|error| error.to_string())?;
    let mut bytes = vec![0; reader.output_buffer_size()];
    let info = reader.next_frame(&mut bytes).map_err(|error| error.to_string())?;
    if (info.color_type, info.bit_depth) != (png::ColorType::Rgb, png::BitDepth::Eight) {
        return Err("not three bytes a pixel".to_owned());
    }
    Ok((info.width as usize, bytes.chunks_exact(3).map(|p| [p[0], p[1], p[2]]).collect()))
}
