//! The options, named and preset as msdf-atlas-gen has them.

use clap::error::ContextKind;
use clap::{Args, CommandFactory, Parser, ValueEnum};
use merelsplum::job::Strategy;
use sheet::charset::Charset;
use sheet::correction::{Check, Correction, Mode};
use sheet::draw::{Drawing, Type};
use sheet::font::{Font, Name};
use sheet::json::YOrigin;
use sheet::layout::{Axes, Grid, Layout, Length, MAX_SIZE, Size};
use sheet::pack::{Constraint, Dimensions, MAX_SIDE};
use sheet::picture::Format;
use sheet::sheet::Settings;
use std::f64::consts::PI;
use std::ffi::OsString;
use std::fs;
use std::ops::RangeInclusive;
use std::path::{Path, PathBuf};

/// Makes a sheet of multi-channel distance fields from fonts. Options are those of msdf-atlas-gen, with one dash or
/// two.
#[derive(Parser)]
#[command(name = "sheet", version)]
pub struct Options {
    /// The kind of field: msdf, mtsdf, sdf or psdf
    #[arg(long = "type", value_name = "TYPE", default_value = "msdf", value_parser = kind)]
    kind: Type,

    /// How edges are coloured
    #[arg(long, value_enum, value_name = "NAME", default_value = "inktrap")]
    coloringstrategy: ColoringStrategy,

    /// The angle from which a turn is a corner, in radians, or in degrees with a D behind it
    #[arg(long, value_name = "ANGLE", default_value = "3", value_parser = angle)]
    angle: f64,

    /// Picks among colours that are as good as each other
    #[arg(long, value_name = "NUMBER", default_value = "0", allow_negative_numbers = true)]
    seed: u64,

    /// Gives the two outer runs of a contour with one corner equal lengths; a glyph above the limits of the proved
    /// library gets no field where docs/src, which cannot do this, would colour it otherwise
    #[arg(long)]
    balanced: bool,

    /// Pixels an em, 1 to 1024 [default: 32, or the largest that fits where --dimensions or --uniformcell is given]
    #[arg(long, value_name = "PIXELS", value_parser = |text: &str| number(text, 1.0..=MAX_SIZE))]
    size: Option<f64>,

    /// The largest number of pixels an em that fits in a sheet which this one needs
    #[arg(long, value_name = "PIXELS", conflicts_with = "size", value_parser = |text: &str| number(text, 1.0..=MAX_SIZE))]
    minsize: Option<f64>,

    /// Width of the range in which distances are told apart, in pixels, 1 to 128
    #[arg(long, value_name = "PIXELS", default_value = "2", value_parser = |text: &str| number(text, 1.0..=128.0))]
    pxrange: f64,

    /// The same width in ems, above 0
    #[arg(long, value_name = "EMS", conflicts_with = "pxrange", value_parser = |text: &str| number(text, 1e-6..=128.0))]
    emrange: Option<f64>,

    /// What is left free about each glyph beside the range, in pixels, 0 to 128
    #[arg(long, value_name = "PIXELS", default_value = "0", value_parser = padding)]
    pxpadding: f64,

    /// The same in ems
    #[arg(long, value_name = "EMS", default_value = "0", value_parser = padding)]
    empadding: f64,

    /// What is left free about each glyph and is in no glyph's box, in pixels, 0 to 128
    #[arg(long, value_name = "PIXELS", default_value = "0", value_parser = padding)]
    outerpxpadding: f64,

    /// The same in ems
    #[arg(long, value_name = "EMS", default_value = "0", value_parser = padding)]
    outerempadding: f64,

    /// Along which axes the glyphs' origins are between pixels: off, on, horizontal, vertical
    #[arg(long, value_name = "AXES", default_value = "vertical", value_parser = axes)]
    pxalign: Axes,

    /// The width and the height of the sheet, in pixels
    #[arg(long, value_names = ["WIDTH", "HEIGHT"], num_args = 2, group = "shape", value_parser = side)]
    dimensions: Option<Vec<usize>>,

    /// The sheet is a square whose side is a power of two
    #[arg(long, group = "shape")]
    pots: bool,

    /// The sheet's sides are powers of two
    #[arg(long, group = "shape")]
    potr: bool,

    /// The sheet is a square
    #[arg(long, group = "shape")]
    square: bool,

    /// The sheet is a square whose side is even
    #[arg(long, group = "shape")]
    square2: bool,

    /// The sheet is a square whose side is a multiple of four (preset, but for grids)
    #[arg(long, group = "shape")]
    square4: bool,

    /// All glyphs have cells of one size, in order
    #[arg(long)]
    uniformgrid: bool,

    /// How many columns the grid has
    #[arg(long, value_name = "NUMBER", value_parser = side)]
    uniformcols: Option<usize>,

    /// The width and the height of the grid's cells, in pixels
    #[arg(long, value_names = ["WIDTH", "HEIGHT"], num_args = 2, value_parser = side)]
    uniformcell: Option<Vec<usize>>,

    /// What the cells are: none, pots, potr, square, square2, square4
    #[arg(long, value_name = "SHAPE", conflicts_with = "uniformcell", value_parser = constraint)]
    uniformcellconstraint: Option<Constraint>,

    /// Along which axes the glyphs' origins are at the same place of each cell: off, on, horizontal, vertical
    #[arg(long, value_name = "AXES", value_parser = axes)]
    uniformorigin: Option<Axes>,

    /// What is corrected between pixels, and by how much measuring: auto-mixed, auto-fast, auto-full, edge-fast,
    /// edge-full, distance-fast, distance-full, disabled
    #[arg(long, value_name = "MODE", default_value = "auto-mixed", value_parser = error_correction)]
    errorcorrection: (Mode, Check),

    /// How much faster than a distance a value may change between pixels before it counts as an error
    #[arg(long, value_name = "RATIO", default_value_t = Correction::default().deviation, value_parser = |text: &str| number(text, 1.0..=1e6))]
    errordeviationratio: f64,

    /// How much nearer to the exact distance a correction must come
    #[arg(long, value_name = "RATIO", default_value_t = Correction::default().improve, value_parser = |text: &str| number(text, 1.0..=1e6))]
    errorimproveratio: f64,

    /// Joins contours that overlap (preset)
    #[arg(long, overrides_with = "nooverlap")]
    overlap: bool,

    /// Takes it that no contours overlap
    #[arg(long, overrides_with = "overlap")]
    nooverlap: bool,

    /// Holds every place to the side of the outline that it is on (preset)
    #[arg(long, overrides_with = "noscanline")]
    scanline: bool,

    /// Lets the distance alone decide the side
    #[arg(long, overrides_with = "scanline")]
    noscanline: bool,

    /// Threads; 0 for as many as the machine has
    #[arg(long, value_name = "NUMBER", default_value = "0", value_parser = threads)]
    pub threads: usize,

    /// Gives no field to glyphs above the limits of the proved library, in place of one that docs/src colours
    #[arg(long)]
    provedonly: bool,

    /// Writes the sheet; the file's name shows its format. All files may be -, standard output
    #[arg(long, value_name = "FILE")]
    pub imageout: Option<PathBuf>,

    /// The format of the sheet: png, bmp, tiff (numbers of 32 bits), or by rows from the bottom bin (bytes), binfloat
    /// (numbers of 32 bits) and binfloatbe (their highest byte first)
    #[arg(long, value_name = "FORMAT", value_parser = image_format)]
    format: Option<Format>,

    /// Writes where the glyphs are, and the font's metrics
    #[arg(long, value_name = "FILE")]
    pub json: Option<PathBuf>,

    /// Writes where the glyphs are, a line for each
    #[arg(long, value_name = "FILE")]
    pub csv: Option<PathBuf>,

    /// Where y is 0 in both: bottom, from where it goes up, or top, from where it goes down
    #[arg(long, value_name = "SIDE", default_value = "bottom", value_parser = y_origin)]
    yorigin: YOrigin,

    /// Writes the glyphs drawn back from the sheet at eight times the size, a PNG picture
    #[arg(long, value_name = "FILE")]
    pub testrender: Option<PathBuf>,

    /// Writes the coloured outlines at eight times the size, a PNG picture
    #[arg(long, value_name = "FILE")]
    pub outlines: Option<PathBuf>,

    /// Writes a job file for each glyph
    #[arg(long, value_name = "FOLDER")]
    pub jobs: Option<PathBuf>,

    // last, for the heading is that of all that follows
    #[command(flatten)]
    input: Input,

    #[arg(skip)]
    more: Vec<Input>,
}

/// A font and what is wanted of it.
#[derive(Args)]
#[command(next_help_heading = "Of each font; --and comes before those of a further one")]
pub struct Input {
    /// The font, TrueType or OpenType
    #[arg(long, value_name = "FILE")]
    pub font: PathBuf,

    /// The face of a collection, counted from 0
    #[arg(long, value_name = "NUMBER", default_value = "0")]
    face: u32,

    /// An axis of a variable font and where it is set, like wght=700; may be given several times
    #[arg(long, value_name = "TAG=VALUE", value_parser = axis)]
    axis: Vec<(String, f64)>,

    /// What the font is called in the JSON
    #[arg(long, value_name = "NAME")]
    fontname: Option<String>,

    /// Characters: A..Z, 'A', "ABC", 65, 0x41, ['A','Z'], with commas between [default: ASCII]
    #[arg(long, value_name = "SET")]
    chars: Option<Charset>,

    /// A file of characters, written as for --chars
    #[arg(long, value_name = "FILE", conflicts_with = "chars")]
    charset: Option<PathBuf>,

    /// All glyphs of the font, by their places in it
    #[arg(long, conflicts_with_all = ["chars", "charset"])]
    allglyphs: bool,
}

/// A further font.
#[derive(Parser)]
#[command(name = "sheet")]
struct Further {
    #[command(flatten)]
    input: Input,
}

#[derive(Clone, Copy, ValueEnum)]
enum ColoringStrategy {
    Simple,
    Inktrap,
    Distance,
}

fn number(text: &str, range: RangeInclusive<f64>) -> Result<f64, String> {
    let number = text.parse().map_err(|_| "not a number".to_owned())?;
    if range.contains(&number) { Ok(number) } else { Err(format!("not from {} to {}", range.start(), range.end())) }
}

fn threads(text: &str) -> Result<usize, String> {
    text.parse().ok().filter(|&n| n <= 256).ok_or_else(|| "not a whole number from 0 to 256".to_owned())
}

/// Above 0 and below a half turn.
fn angle(text: &str) -> Result<f64, String> {
    let degrees = text.strip_suffix(['D', 'd']);
    let number: f64 = degrees.unwrap_or(text).parse().map_err(|_| "not an angle".to_owned())?;
    let angle = if degrees.is_some() { number.to_radians() } else { number };
    if angle > 0.0 && angle < PI { Ok(angle) } else { Err("not above 0 and below 180D".to_owned()) }
}

fn axis(text: &str) -> Result<(String, f64), String> {
    let (tag, value) = text.split_once('=').ok_or_else(|| "not TAG=VALUE".to_owned())?;
    Ok((tag.to_owned(), number(value, -32768.0..=32767.0)?))
}

fn kind(name: &str) -> Result<Type, String> {
    let kinds = [Type::Msdf, Type::Mtsdf, Type::Sdf, Type::Psdf];
    kinds.into_iter().find(|kind| kind.name() == name).ok_or_else(|| "the types are msdf, mtsdf, sdf and psdf".to_owned())
}

fn image_format(name: &str) -> Result<Format, String> {
    let found = Format::ALL.iter().find(|format| format.0 == name || (format.0 == "tiff" && name == "tif"));
    found.map(|format| format.1).ok_or_else(|| {
        let names = Format::ALL.map(|format| format.0);
        let (last, others) = names.split_last().expect("there are some");
        format!("the formats are {} and {last}", others.join(", "))
    })
}

fn padding(text: &str) -> Result<f64, String> {
    number(text, 0.0..=128.0)
}

fn side(text: &str) -> Result<usize, String> {
    let side = text.parse().ok().filter(|side| (1..=MAX_SIDE).contains(side));
    side.ok_or_else(|| format!("not a whole number from 1 to {MAX_SIDE}"))
}

fn axes(name: &str) -> Result<Axes, String> {
    let (horizontal, vertical) = match name {
        "off" => (false, false),
        "on" => (true, true),
        "horizontal" => (true, false),
        "vertical" => (false, true),
        _ => return Err("it is off, on, horizontal or vertical".to_owned()),
    };
    Ok(Axes { horizontal, vertical })
}

fn constraint(name: &str) -> Result<Constraint, String> {
    match name {
        "none" => Ok(Constraint::Rectangle),
        "pots" => Ok(Constraint::PowerOfTwoSquare),
        "potr" => Ok(Constraint::PowerOfTwoRectangle),
        "square" => Ok(Constraint::Square(1)),
        "square2" => Ok(Constraint::Square(2)),
        "square4" => Ok(Constraint::Square(4)),
        _ => Err("it is none, pots, potr, square, square2 or square4".to_owned()),
    }
}

fn y_origin(name: &str) -> Result<YOrigin, String> {
    match name {
        "bottom" => Ok(YOrigin::Bottom),
        "top" => Ok(YOrigin::Top),
        _ => Err("it is bottom or top".to_owned()),
    }
}

/// An option with one dash as msdf-atlas-gen has it, with two.
fn two_dashes(argument: OsString) -> OsString {
    let is_word = |text: &str| text.len() > 1 && text.bytes().all(|byte| byte.is_ascii_lowercase() || byte.is_ascii_digit());
    match argument.to_str().and_then(|text| text.strip_prefix('-')) {
        Some(name) if is_word(name) && !name.starts_with(|c: char| c.is_ascii_digit()) => format!("--{name}").into(),
        _ => argument,
    }
}

/// Options of msdf-atlas-gen that are not there, and what there is in their place.
const INSTEAD: [(&str, &str); 18] = [
    ("varfont", "--font and --axis"),
    ("fontscale", "--size"),
    ("glyphset", "--allglyphs"),
    ("glyphs", "--allglyphs"),
    ("apxrange", "--pxrange"),
    ("aemrange", "--emrange"),
    ("apxpadding", "--pxpadding"),
    ("aempadding", "--empadding"),
    ("aouterpxpadding", "--outerpxpadding"),
    ("aouterempadding", "--outerempadding"),
    ("miterlimit", "--pxpadding"),
    ("kerning", "--json, which has the kerning"),
    ("nokerning", "--csv, which has no kerning"),
    ("preprocess", "--overlap"),
    ("nopreprocess", "--nooverlap"),
    ("arfont", "--imageout and --json"),
    ("shadronpreview", "--testrender"),
    ("edgecolors", "--outlines"),
];

/// For an option that is not there, what is.
pub fn instead(error: &clap::Error) -> String {
    let name = error.get(ContextKind::InvalidArg).map(ToString::to_string).unwrap_or_default();
    let known = INSTEAD.iter().find(|(option, _)| name.strip_prefix("--") == Some(option));
    known.map_or(String::new(), |(_, other)| format!(": not there; use {other}"))
}

/// The modes of msdf-atlas-gen by all their names there.
fn error_correction(name: &str) -> Result<(Mode, Check), String> {
    Ok(match name {
        "disabled" | "none" | "0" => (Mode::Disabled, Check::Nothing),
        "auto-mixed" | "auto" | "default" | "mixed" => (Mode::EdgePriority, Check::AtEdge),
        "auto-fast" | "fast" => (Mode::EdgePriority, Check::Nothing),
        "auto-full" | "full" => (Mode::EdgePriority, Check::Always),
        "distance-fast" | "distance" | "indiscriminate-fast" | "indiscriminate" => (Mode::Indiscriminate, Check::Nothing),
        "distance-full" | "indiscriminate-full" => (Mode::Indiscriminate, Check::Always),
        "edge-fast" => (Mode::EdgeOnly, Check::Nothing),
        "edge-full" | "edge" => (Mode::EdgeOnly, Check::Always),
        _ => {
            let names = "auto-mixed, auto-fast, auto-full, edge-fast, edge-full, distance-fast, distance-full and disabled";
            return Err(format!("the modes are {names}"));
        }
    })
}

impl Input {
    /// The font of a file that was read, as it is wanted.
    pub fn open<'a>(&self, file: &'a [u8]) -> Result<Font<'a>, String> {
        let mut font = Font::face(file, self.face)?;
        self.axis.iter().try_for_each(|(tag, value)| font.vary(tag, *value))?;
        font.name = self.fontname.clone();
        Ok(font)
    }

    pub fn names(&self, font: &Font) -> Result<Vec<Name>, String> {
        if self.allglyphs {
            return Ok(font.all());
        }
        let from_file = |path: &PathBuf| {
            let text = fs::read_to_string(path).map_err(|error| error.to_string());
            text.and_then(|text| text.parse()).map_err(|error| format!("{}: {error}", path.display()))
        };
        let Charset(chars) = match (&self.chars, &self.charset) {
            (Some(chars), _) => chars.clone(),
            (None, Some(path)) => from_file(path)?,
            (None, None) => Charset::ascii(),
        };
        Ok(chars.into_iter().map(Name::Character).collect())
    }
}

impl Options {
    /// The options of a call. Those that belong to a font are the ones of the font that --and comes before.
    pub fn parse(arguments: impl Iterator<Item = OsString>) -> Result<Options, clap::Error> {
        let command = Further::command();
        // whether an option belongs to a font, and has a value as its next argument
        let of_font = |argument: &OsString| {
            let name = argument.to_str()?.strip_prefix("--")?;
            let (name, with_value) = name.split_once('=').map_or((name, false), |(name, _)| (name, true));
            let option = command.get_arguments().find(|option| option.get_long() == Some(name) && name != "help")?;
            Some(!with_value && option.get_action().takes_values())
        };
        let mut arguments = arguments.map(two_dashes);
        let mut all: Vec<OsString> = arguments.next().into_iter().collect();
        let mut further: Vec<Vec<OsString>> = vec![];
        while let Some(argument) = arguments.next() {
            if argument == "--and" {
                further.push(vec!["sheet".into()]);
                continue;
            }
            let value = of_font(&argument).map(|has_value| if has_value { arguments.next() } else { None });
            let list = further.last_mut().filter(|_| value.is_some()).unwrap_or(&mut all);
            list.push(argument);
            list.extend(value.flatten());
        }
        let mut options = Options::try_parse_from(all)?;
        for arguments in further {
            options.more.push(Further::try_parse_from(arguments)?.input);
        }
        Ok(options)
    }

    pub fn inputs(&self) -> impl Iterator<Item = &Input> {
        [&self.input].into_iter().chain(&self.more)
    }

    fn layout(&self) -> Layout {
        let shapes = [self.pots, self.potr, self.square, self.square2];
        let constraints = ["pots", "potr", "square", "square2"].map(constraint);
        let chosen = shapes.into_iter().zip(constraints).find_map(|(chosen, constraint)| constraint.ok().filter(|_| chosen));
        let pair = |sides: &Vec<usize>| (sides[0], sides[1]);
        let has_grid = self.uniformgrid
            || self.uniformcols.is_some()
            || self.uniformcell.is_some()
            || self.uniformcellconstraint.is_some()
            || self.uniformorigin.is_some();
        let grid = has_grid.then(|| Grid {
            columns: self.uniformcols,
            cell: self.uniformcell.as_ref().map(pair),
            constraint: self.uniformcellconstraint.unwrap_or(Constraint::Rectangle),
            origin: self.uniformorigin.unwrap_or(Axes { horizontal: false, vertical: true }),
        });
        let preset = if has_grid && !self.square4 { Constraint::Rectangle } else { Constraint::Square(4) };
        let fixed = self.dimensions.as_ref().map(pair);
        let size = match (self.size, self.minsize) {
            (Some(size), _) => Size::Fixed(size),
            (None, Some(least)) => Size::AtLeast(least),
            (None, None) if fixed.is_some() || self.uniformcell.is_some() => Size::Largest,
            (None, None) => Size::Fixed(32.0),
        };
        Layout {
            size,
            range: self.emrange.map_or(Length::of_pixels(self.pxrange), |ems| Length { ems, pixels: 0.0 }),
            padding: Length { ems: self.empadding, pixels: self.pxpadding },
            outer: Length { ems: self.outerempadding, pixels: self.outerpxpadding },
            align: self.pxalign,
            dimensions: fixed
                .map_or(Dimensions::Least(chosen.unwrap_or(preset)), |(width, height)| Dimensions::Fixed(width, height)),
            grid,
        }
    }

    fn files(&self) -> [&Option<PathBuf>; 5] {
        [&self.imageout, &self.json, &self.csv, &self.testrender, &self.outlines]
    }

    /// What no single option shows.
    pub fn check(&self) -> Result<(), String> {
        if self.files().iter().all(|path| path.is_none()) && self.jobs.is_none() {
            return Err("nothing to write: give --imageout, --json, --csv, --testrender, --outlines or --jobs".to_owned());
        }
        if let Some(path) = &self.imageout {
            self.format(path)?;
        }
        let is_png = |path: &Path| path.extension().is_none_or(|extension| extension.eq_ignore_ascii_case("png"));
        match [&self.testrender, &self.outlines].into_iter().flatten().find(|path| !is_png(path)) {
            Some(path) => Err(format!("{}: this is written as PNG", path.display())),
            None => Ok(()),
        }
    }

    /// The format of the sheet: as it is given, or as the file's name shows it, or PNG.
    pub fn format(&self, path: &Path) -> Result<Format, String> {
        match (self.format, path.extension().map(|extension| extension.to_string_lossy().to_ascii_lowercase())) {
            (Some(format), _) => Ok(format),
            (None, None) => Ok(Format::Png),
            (None, Some(extension)) => image_format(&extension).map_err(|error| format!("{}: {error}", path.display())),
        }
    }

    pub fn y_origin(&self) -> YOrigin {
        self.yorigin
    }

    pub fn wants_pixels(&self) -> bool {
        self.imageout.is_some() || self.testrender.is_some()
    }

    pub fn writes_to_stdout(&self) -> bool {
        self.files().into_iter().flatten().any(|path| path == Path::new("-"))
    }

    pub fn settings(&self) -> Settings {
        Settings {
            strategy: match self.coloringstrategy {
                ColoringStrategy::Simple => Strategy::Simple,
                ColoringStrategy::Inktrap => Strategy::InkTrap,
                ColoringStrategy::Distance => Strategy::ByDistance,
            },
            angle: self.angle,
            seed: self.seed,
            balanced: self.balanced,
            layout: self.layout(),
            unproved: !self.provedonly,
            drawing: Drawing {
                kind: self.kind,
                pxrange: self.pxrange,
                overlap: !self.nooverlap,
                scanline: !self.noscanline,
                floats: self.imageout.as_ref().and_then(|path| self.format(path).ok()).is_some_and(Format::has_floats),
                correction: Correction {
                    mode: self.errorcorrection.0,
                    check: self.errorcorrection.1,
                    deviation: self.errordeviationratio,
                    improve: self.errorimproveratio,
                },
            },
        }
    }
}
