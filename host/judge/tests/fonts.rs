//! Sheets of whole fonts against FreeType's drawing: TrueType and cubic outlines, a variable font, icons.

use judge::wrong::{Sheet, measure};
use merelsplum::job::Strategy;
use sheet::draw::Drawing;
use sheet::font::{Font, Name};
use sheet::json::{YOrigin, describe};
use sheet::layout::Layout;
use sheet::sheet::Settings;
use std::fs;
use std::path::{Path, PathBuf};
use std::process::Command;

const PXRANGE: f64 = 4.0;

/// The file of a Debian package whose path ends so.
fn file(package: &str, end: &str) -> Vec<u8> {
    let list = Command::new("dpkg").args(["-L", package]).output().expect("dpkg").stdout;
    let list = String::from_utf8(list).unwrap();
    let path = list.lines().find(|path| path.ends_with(end)).unwrap_or_else(|| panic!("host/setup installs {package}"));
    fs::read(path).unwrap()
}

/// A sheet as it is preset.
fn draw(font: &Font, names: &[Name], size: f64) -> sheet::sheet::Sheet {
    let (layout, drawing) = (Layout::new(size, PXRANGE), Drawing::new(PXRANGE));
    let settings =
        Settings { strategy: Strategy::InkTrap, angle: 3.0, seed: 0, balanced: false, layout, drawing, unproved: true };
    let glyphs = names.iter().enumerate().filter_map(|(place, &name)| Some((place, font.glyph(name)?)));
    let color = |(place, glyph)| settings.color(glyph, 0, place, font.units_per_em()).ok();
    let mut sheet = settings.lay_out(glyphs.filter_map(color).collect()).unwrap();
    settings.draw(&mut sheet, || ());
    sheet
}

fn colors(sheet: &sheet::sheet::Sheet) -> Vec<[u8; 3]> {
    sheet.image.pixels.iter().map(|&[r, g, b, _]| [r, g, b]).collect()
}

/// No glyph has more than half a pixel wrong, and all together have no more than the limit for each size.
fn check(file: &[u8], names: impl Fn(&Font) -> Vec<Name>, limits: &[(f64, f64)]) {
    let font = Font::new(file).unwrap();
    for &(size, limit) in limits {
        let names = names(&font);
        let sheet = draw(&font, &names, size);
        let json = serde_json::from_str(&describe(std::slice::from_ref(&font), &sheet, YOrigin::Bottom)).unwrap();
        let wrong = measure(&Sheet { width: sheet.image.width, pixels: &colors(&sheet), json: &json }, file).unwrap();
        let total: f64 = wrong.iter().map(|glyph| glyph.pixels).sum();
        println!("{size} pixels an em: {total:.3} wrong pixels in {} glyphs", wrong.len());
        assert_eq!(wrong.len(), sheet.cells.iter().filter(|cell| !cell.frame.is_empty()).count());
        assert_eq!(sheet.cells.len(), names.len(), "none is left out");
        if let Some(glyph) = wrong.iter().find(|glyph| glyph.pixels > 0.5) {
            panic!("{} at {size} pixels an em: {} wrong pixels", glyph.name, glyph.pixels);
        }
        assert!(total <= limit, "{size} pixels an em: {total} wrong pixels");
    }
}

fn all(font: &Font) -> Vec<Name> {
    font.all()
}

/// The characters of ASCII and the European ones after them, where the font has them.
fn european(font: &Font) -> Vec<Name> {
    (' '..='\u{24F}').map(Name::Character).filter(|&name| font.has(name)).collect()
}

fn ascii(_: &Font) -> Vec<Name> {
    (' '..='~').map(Name::Character).collect()
}

#[test]
fn dejavu_sans() {
    check(&file("fonts-dejavu-core", "/DejaVuSans.ttf"), all, &[(32.0, 1.5)]);
    check(&file("fonts-dejavu-core", "/DejaVuSans.ttf"), european, &[(24.0, 0.25), (48.0, 0.25)]);
}

#[test]
fn liberation() {
    for end in ["/LiberationSans-Regular.ttf", "/LiberationSerif-Regular.ttf"] {
        check(&file("fonts-liberation", end), european, &[(24.0, 1.0), (32.0, 0.25), (48.0, 0.25)]);
    }
}

#[test]
fn cubic_outlines() {
    let file = file("fonts-freefont-otf", "/FreeSerif.otf");
    check(&file, european, &[(24.0, 0.5), (32.0, 0.5), (48.0, 0.25)]);
    check(&file, ascii, &[(32.0, 0.2)]);
}

/// Strokes thinner than a pixel that cross between the middles of pixels.
#[test]
fn thin_strokes() {
    let file = file("fonts-freefont-otf", "/FreeSerif.otf");
    check(&file, |_| vec![Name::Character('\u{1D1B5}')], &[(24.0, 0.25), (32.0, 0.25), (48.0, 0.25)]);
}

#[test]
fn noto() {
    for end in ["/NotoSans-Regular.ttf", "/NotoSerif-Regular.ttf"] {
        check(&file("fonts-noto-core", end), european, &[(24.0, 0.5), (32.0, 0.5), (48.0, 0.25)]);
    }
}

/// As rustdoc puts it beside its pages.
#[test]
fn source_code_pro() {
    let folder = Path::new(env!("CARGO_TARGET_TMPDIR")).join("source_code_pro");
    fs::create_dir_all(&folder).unwrap();
    fs::write(folder.join("empty.rs"), "").unwrap();
    let run = |program: &str, arguments: &[&str]| {
        let status = Command::new(program).args(arguments).current_dir(&folder).status();
        assert!(status.unwrap_or_else(|error| panic!("{program}: {error}")).success(), "{program} {arguments:?}");
    };
    run("rustdoc", &["empty.rs", "--crate-name", "empty", "--output", "."]);
    let names = fs::read_dir(folder.join("static.files")).unwrap().map(|entry| entry.unwrap().path());
    let is_regular =
        |path: &PathBuf| path.to_str().is_some_and(|path| path.contains("/SourceCodePro-Regular") && path.ends_with("woff2"));
    fs::copy(names.into_iter().find(is_regular).expect("rustdoc has it"), folder.join("regular.woff2")).unwrap();
    run("woff2_decompress", &["regular.woff2"]);
    check(&fs::read(folder.join("regular.ttf")).unwrap(), all, &[(24.0, 0.5), (32.0, 0.5), (48.0, 0.25)]);
}

#[test]
fn a_variable_font() {
    check(&file("fonts-inter-variable", "/Inter.var.ttf"), european, &[(24.0, 0.5), (32.0, 0.25), (48.0, 0.25)]);
    check(&file("fonts-inter-variable", "/Inter.var.ttf"), ascii, &[(32.0, 0.03)]);
}

#[test]
fn icons() {
    check(&file("fonts-font-awesome", "/FontAwesome.otf"), all, &[(24.0, 1.25), (32.0, 1.0), (48.0, 1.0)]);
    let file = file("fonts-materialdesignicons-webfont", "/materialdesignicons-webfont.ttf");
    check(&file, all, &[(24.0, 1.0), (32.0, 1.0), (48.0, 0.25)]);
}

#[test]
fn symbols() {
    check(&file("fonts-opensymbol", "/opens___.ttf"), all, &[(32.0, 1.5)]);
}

/// The first 512 characters of Chinese.
#[test]
fn chinese() {
    let names = |_: &Font| ('\u{4E00}'..='\u{4FFF}').map(Name::Character).collect();
    check(&file("fonts-noto-cjk", "/NotoSerifCJK-Regular.ttc"), names, &[(32.0, 1.5)]);
}

/// What is wrong is found: a hole of a pixel in a stem, a speck beside it, and a glyph inside out.
#[test]
fn faults_are_found() {
    let file = file("fonts-dejavu-core", "/DejaVuSans.ttf");
    let font = Font::new(&file).unwrap();
    let sheet = draw(&font, &[Name::Character('█')], 32.0);
    let json = serde_json::from_str(&describe(std::slice::from_ref(&font), &sheet, YOrigin::Bottom)).unwrap();
    let side = sheet.image.width;
    let wrong = |pixels: &[[u8; 3]]| measure(&Sheet { width: side, pixels, json: &json }, &file).unwrap()[0].pixels;
    assert_eq!(wrong(&colors(&sheet)), 0.0);
    let (height, width) = (sheet.cells[0].frame.height, sheet.cells[0].frame.width);
    let mut pixels = colors(&sheet);
    pixels[height / 2 * side + width / 2] = [0; 3];
    let hole = wrong(&pixels);
    assert!(hole > 0.25 && hole < 4.0, "{hole}");
    pixels.iter_mut().for_each(|pixel| *pixel = pixel.map(|value| 255 - value));
    let inside_out = wrong(&pixels);
    assert!(inside_out > 0.5 * (width * height) as f64, "{inside_out} of {width} by {height}");
}
