//! The program as its users call it.

mod common;

use merelsplum::job::{self, Job};
use merelsplum::{Edge, EdgeColor, Outline, Point, edge_directions};
use serde_json::Value;
use sheet::picture::{INK, PAPER, inside};
use sheet::source::{EdgeSegment, median, segment};
use std::collections::BTreeSet;
use std::f64::consts::TAU;
use std::fs::{self, File};
use std::ops::Range;
use std::os::unix::fs::{FileTypeExt, PermissionsExt, symlink};
use std::path::Path;
use std::process::{Command, Output, Stdio};
use std::thread::sleep;
use std::time::{Duration, Instant};
use tempfile::TempDir;
use ttf_parser::{Face, OutlineBuilder};

/// An empty folder of a test's own, taken away at its end.
struct Folder(TempDir);

impl Folder {
    fn new(name: &str) -> Folder {
        Folder(tempfile::Builder::new().prefix(name).tempdir_in(env!("CARGO_TARGET_TMPDIR")).unwrap())
    }

    fn path(&self) -> &Path {
        self.0.path()
    }

    fn file(&self, name: &str) -> String {
        self.path().join(name).to_str().unwrap().to_owned()
    }

    fn names(&self) -> Vec<String> {
        names(self.path())
    }

    fn json(&self, name: &str) -> Value {
        serde_json::from_slice(&fs::read(self.file(name)).unwrap()).unwrap()
    }
}

/// What is in a folder.
fn names(folder: &Path) -> Vec<String> {
    let entries = fs::read_dir(folder).unwrap();
    let mut names: Vec<String> = entries.map(|entry| entry.unwrap().file_name().into_string().unwrap()).collect();
    names.sort();
    names
}

fn sheet(folder: &Folder, arguments: &[&str]) -> Output {
    Command::new(env!("CARGO_BIN_EXE_sheet")).args(arguments).current_dir(folder.path()).output().unwrap()
}

fn with_font(folder: &Folder, arguments: &[&str]) -> Output {
    sheet(folder, &[&["--font", &common::dejavu_sans()], arguments].concat())
}

fn lines(output: &Output) -> Vec<String> {
    String::from_utf8(output.stderr.clone()).unwrap().lines().map(str::to_owned).collect()
}

/// Standard output.
fn words(output: &Output) -> String {
    String::from_utf8(output.stdout.clone()).unwrap()
}

/// A picture: its width, its height, and the bytes of its pixels by rows.
fn picture<const CHANNELS: usize>(path: &str) -> (u32, u32, Vec<[u8; CHANNELS]>) {
    let mut reader = png::Decoder::new(File::open(path).unwrap()).read_info().unwrap();
    let mut bytes = vec![0; reader.output_buffer_size()];
    let info = reader.next_frame(&mut bytes).unwrap();
    (info.width, info.height, bytes.chunks_exact(CHANNELS).map(|pixel| pixel.try_into().unwrap()).collect())
}

/// The number after a key, looked for from the first place of `from` on.
fn number(json: &str, from: &str, key: &str) -> f64 {
    let after = &json[json.find(from).unwrap_or_else(|| panic!("no {from}"))..];
    let value = &after[after.find(&format!("\"{key}\":")).unwrap() + key.len() + 3..];
    value[..value.find([',', '}', ']']).unwrap()].parse().unwrap()
}

#[test]
fn all_files() {
    let folder = Folder::new("all_files");
    let output = with_font(
        &folder,
        &[
            ["--chars", "A..Z", "--coloringstrategy", "simple", "--angle", "3", "--seed", "0", "--size", "32", "--pxrange", "4"]
                .as_slice(),
            &[
                "--imageout",
                "sheet.png",
                "--json",
                "sheet.json",
                "--testrender",
                "back.png",
                "--outlines",
                "lines.png",
                "--jobs",
                "jobs",
            ],
        ]
        .concat(),
    );
    assert_eq!((output.status.code(), lines(&output)), (Some(0), vec![]));
    assert_eq!(folder.names(), ["back.png", "jobs", "lines.png", "sheet.json", "sheet.png"]);

    let json = fs::read_to_string(folder.file("sheet.json")).unwrap();
    assert!(
        json.starts_with(
            "{\"atlas\":{\"type\":\"msdf\",\"distanceRange\":4.0,\"distanceRangeMiddle\":0.0,\"size\":32.0,\"width\":"
        )
    );
    assert_eq!(json.matches("\"unicode\":").count(), 26);
    assert_eq!(number(&json, "metrics", "lineHeight"), 1.1640625);
    assert_eq!(number(&json, "metrics", "underlineY"), -0.04150390625);
    let side = number(&json, "atlas", "width") as u32;

    for letter in 'A'..='Z' {
        // the plane's bounds in pixels are as large as the sheet's
        let glyph = format!("\"unicode\":{},", letter as u32);
        let part = &json[json.find(&glyph).unwrap()..];
        for (low, high) in [("left", "right"), ("bottom", "top")] {
            let plane = number(part, "planeBounds", high) - number(part, "planeBounds", low);
            let atlas = number(part, "atlasBounds", high) - number(part, "atlasBounds", low);
            assert!((32.0 * plane - atlas).abs() < 1e-9, "{letter}: {plane} and {atlas}");
            assert!(number(part, "atlasBounds", low) > 0.0 && number(part, "atlasBounds", high) < f64::from(side));
        }
        let file = fs::read(folder.file(&format!("jobs/U+{:04X}.job", letter as u32))).unwrap();
        let job = Job::read(&file).unwrap();
        assert_eq!((job.strategy, job.seed, job.threshold), (job::Strategy::Simple, 0, 3f64.sin()));
        assert_eq!(job::color(&file), job.color());
    }
    check_pictures(&folder, &json, side);
    assert_eq!(names(&folder.path().join("jobs")).len(), 26);
    assert!(number(&json, "\"unicode1\":65,\"unicode2\":86,", "advance") < 0.0, "A and V go nearer");
    assert_eq!(json.matches("\"unicode1\":").count(), 66);
}

/// The pictures are what the jobs' outlines and the places of the JSON say, at 32 pixels an em and a range of 4.
fn check_pictures(folder: &Folder, json: &str, side: u32) {
    let (width, height, field) = picture::<3>(&folder.file("sheet.png"));
    assert_eq!((width, height), (side, side));
    let (width, height, back) = picture::<1>(&folder.file("back.png"));
    assert_eq!((width, height), (8 * side, 8 * side));
    let (width, height, lines) = picture::<3>(&folder.file("lines.png"));
    assert_eq!((width, height), (8 * side, 8 * side));

    let (mut ink, mut paper, mut colors) = (0, 0, BTreeSet::new());
    for letter in 'A'..='Z' {
        let part = &json[json.find(&format!("\"unicode\":{},", letter as u32)).unwrap()..];
        let [l, b, r, t] = ["left", "bottom", "right", "top"].map(|key| number(part, "atlasBounds", key));
        let [left, bottom] = ["left", "bottom"].map(|key| number(part, "planeBounds", key));
        let colored = job::color(&fs::read(folder.file(&format!("jobs/U+{:04X}.job", letter as u32))).unwrap()).unwrap();
        let edges: Vec<EdgeSegment> = colored.contours.iter().flatten().map(|(edge, _)| segment(edge)).collect();
        // of a picture that is `zoom` times as large as the sheet, from its top left
        let index = |x: f64, y: f64, zoom: f64| {
            (zoom * (f64::from(side) - y)) as usize * (zoom as usize * side as usize) + (zoom * x) as usize
        };

        for (i, j) in (0..=(t - b) as u32).flat_map(|j| (0..=(r - l) as u32).map(move |i| (f64::from(i), f64::from(j)))) {
            let (x, y) = (l + i, b + j);
            let [red, green, blue] = field[index(x, y, 1.0)].map(f64::from);
            let distance = 4.0 * (median(red, green, blue) / 255.0 - 0.5);
            let (along, up) = (2048.0 * (left + i / 32.0), 2048.0 * (bottom + j / 32.0));
            let truth = inside(&edges, up).iter().any(|&(from, to)| from <= along && along < to);
            if distance.abs() > 0.75 {
                assert_eq!(distance > 0.0, truth, "{letter} at {x}, {y}");
                assert_eq!(back[index(x, y, 8.0)], [if truth { 0 } else { 255 }], "{letter} at {x}, {y}");
                assert_eq!(lines[index(x, y, 8.0)], if truth { INK } else { PAPER }, "{letter} at {x}, {y}");
                *if truth { &mut ink } else { &mut paper } += 1;
            }
        }

        for (edge, color) in colored.contours.iter().flatten() {
            let edge = segment(edge);
            let middle = edge.point(0.5);
            // an edge that is shorter than a pixel of the sheet may be drawn over by its neighbours
            if (edge.point(1.0) - edge.point(0.0)).length() > 64.0 {
                let (x, y) = (l + 32.0 * (middle.x / 2048.0 - left), b + 32.0 * (middle.y / 2048.0 - bottom));
                let expected = [1, 2, 4].map(|bit| if color.bits() & bit != 0 { 255 } else { 0 });
                assert_eq!(lines[index(x, y, 8.0)], expected, "{letter} at {x}, {y}");
                colors.insert(expected);
            }
        }
    }
    assert!(ink > 1000 && paper > 1000 && colors.len() == 3, "{ink}, {paper}, {colors:?}");
}

/// A job has the seed of its glyph: by distance one of its own, else the seed of the glyph before times a constant.
#[test]
fn seeds() {
    let folder = Folder::new("seeds");
    const MULTIPLIER: u64 = 6364136223846793005;
    for strategy in ["simple", "inktrap", "distance"] {
        let output = with_font(&folder, &["--chars", "A..C", "--coloringstrategy", strategy, "--seed", "7", "--jobs", "jobs"]);
        assert_eq!(output.status.code(), Some(0));
        let mut before = 7u64;
        for (place, letter) in ["41", "42", "43"].into_iter().enumerate() {
            before = before.wrapping_mul(MULTIPLIER);
            let own = MULTIPLIER.wrapping_mul(7 ^ place as u64).wrapping_add(1442695040888963407);
            let job = Job::read(&fs::read(folder.file(&format!("jobs/U+00{letter}.job"))).unwrap()).unwrap();
            assert_eq!(job.seed, if strategy == "distance" { own } else { before }, "{strategy}, {letter}");
        }
    }
}

#[test]
fn a_space_has_no_box() {
    let folder = Folder::new("a_space_has_no_box");
    let output = with_font(&folder, &["--chars", "' '", "--json", "sheet.json", "--imageout", "sheet.png"]);
    assert_eq!(output.status.code(), Some(0));
    let json = fs::read_to_string(folder.file("sheet.json")).unwrap();
    assert!(json.contains("\"glyphs\":[{\"unicode\":32,\"advance\":0.31787109375}],\"kerning\":[]}"), "{json}");
    assert_eq!(picture(&folder.file("sheet.png")), (4, 4, vec![[0; 3]; 16]));
}

#[test]
fn defaults_and_threads() {
    let folder = Folder::new("defaults_and_threads");
    with_font(&folder, &["--imageout", "a.png", "--json", "a.json"]);
    let presets = ["--coloringstrategy", "inktrap", "--angle", "3", "--seed", "0", "--size", "32", "--pxrange", "2"];
    let ascii = ["--chars", "[0x20, 0x7E]", "--threads", "1", "--imageout", "b.png", "--json", "b.json"];
    with_font(&folder, &[presets.as_slice(), &ascii].concat());
    let read = |name: &str| fs::read(folder.file(name)).unwrap();
    assert_eq!(read("a.png"), read("b.png"));
    assert_eq!(read("a.json"), read("b.json"));
    assert_eq!(String::from_utf8(read("a.json")).unwrap().matches("\"unicode\":").count(), 95);
}

#[test]
fn options_change_the_colors() {
    let folder = Folder::new("options_change_the_colors");
    let mut sheets = Vec::new();
    for option in [
        ["--seed", "0"],
        ["--seed", "1"],
        ["--coloringstrategy", "simple"],
        ["--coloringstrategy", "distance"],
        ["--angle", "90D"],
    ] {
        let output = with_font(&folder, &[option.as_slice(), &["--chars", "K..T", "--imageout", "sheet.png"]].concat());
        assert_eq!(output.status.code(), Some(0));
        sheets.push(fs::read(folder.file("sheet.png")).unwrap());
    }
    for i in 0..sheets.len() {
        assert!(!sheets[..i].contains(&sheets[i]), "{i}");
    }
}

/// Each mode draws another sheet than without correction, and the names of msdf-atlas-gen are known.
#[test]
fn modes_of_correction() {
    let folder = Folder::new("modes_of_correction");
    let sheet = |options: &[&str]| {
        let common = ["--chars", "K..T", "--size", "20", "--pxrange", "4", "--imageout", "sheet.png"];
        let output = with_font(&folder, &[options, &common].concat());
        assert_eq!((output.status.code(), lines(&output)), (Some(0), vec![]), "{options:?}");
        fs::read(folder.file("sheet.png")).unwrap()
    };
    let preset = sheet(&[]);
    let same: [&[&str]; 5] = [
        &["--errorcorrection", "auto-mixed"],
        &["--errorcorrection", "auto"],
        &["--overlap", "--scanline"],
        &["--noscanline", "--scanline"],
        &["--errordeviationratio", "1.1111111111111112", "--errorimproveratio", "1.1111111111111112"],
    ];
    same.iter().for_each(|options| assert_eq!(sheet(options), preset, "{options:?}"));
    let disabled = sheet(&["--errorcorrection", "disabled"]);
    for mode in ["auto-mixed", "auto-fast", "auto-full", "edge-fast", "edge-full", "distance-fast", "distance-full"] {
        assert_ne!(sheet(&["--errorcorrection", mode]), disabled, "{mode}");
    }
}

/// A font's ✦ has its contour the other way round than its letters; A and ✦ are drawn back as they are.
#[test]
fn either_way_round() {
    let folder = Folder::new("either_way_round");
    let output = with_font(&folder, &["--chars", "0x2726", "--size", "32", "--pxrange", "4", "--imageout", "sheet.png"]);
    assert_eq!(output.status.code(), Some(0));
    let (width, _, field) = picture::<3>(&folder.file("sheet.png"));
    let inside = |pixel: &[u8; 3]| median(pixel[0].into(), pixel[1].into(), pixel[2].into()) > 127.5;
    assert!(!inside(&field[0]), "a corner of the box");
    let part = field.iter().filter(|pixel| inside(pixel)).count() as f64 / f64::from(width * width);
    assert!(part > 0.1 && part < 0.5, "{part} is inside");
}

/// The snowman has 543 edges: it is coloured by docs/src, or refused where that is not wanted.
#[test]
fn above_the_limits() {
    let folder = Folder::new("above_the_limits");
    let arguments = ["--chars", "A, 0x2603, B", "--json", "sheet.json", "--jobs", "jobs"];
    let excess = "543 edges, 287 above the limit of 256";
    let output = with_font(&folder, &arguments);
    let expected = format!("sheet: U+2603: coloured by docs/src, not proved: {excess}");
    assert_eq!((output.status.code(), lines(&output)), (Some(0), vec![expected]));
    assert!(words(&output).starts_with("3 glyphs, "), "{}", words(&output));
    assert!(words(&output).contains(" 0 left out, 1 coloured by docs/src, 0 not in the font, "), "{}", words(&output));
    assert!(fs::read_to_string(folder.file("sheet.json")).unwrap().contains("\"unicode\":9731,"));
    assert_eq!(names(&folder.path().join("jobs")), ["U+0041.job", "U+0042.job"]);

    let output = with_font(&folder, &[arguments.as_slice(), &["--provedonly"]].concat());
    let expected = format!("sheet: U+2603: overfull: {excess}");
    assert_eq!((output.status.code(), lines(&output)), (Some(1), vec![expected]));
    assert!(words(&output).contains(" 1 left out, 0 coloured by docs/src, "), "{}", words(&output));
    let json = fs::read_to_string(folder.file("sheet.json")).unwrap();
    assert!(json.contains("\"unicode\":65,") && json.contains("\"unicode\":66,") && !json.contains("9731"));
}

/// Where in a file of DejaVu Sans the outline of a character is.
fn outline_place(file: &[u8], character: char) -> Range<usize> {
    let glyph = usize::from(Face::from_slice(file, 0).unwrap().glyph_index(character).unwrap().0);
    let number = |at: usize| u32::from_be_bytes(file[at..at + 4].try_into().unwrap()) as usize;
    let table = |tag: &[u8]| number(8 + (12..).step_by(16).find(|&at| &file[at..at + 4] == tag).unwrap());
    let start = |glyph: usize| table(b"glyf") + number(table(b"loca") + 4 * glyph);
    start(glyph)..start(glyph + 1)
}

/// DejaVu Sans with other contours in the place of its snowman, all of lines.
fn other_snowman(contours: &[Vec<[i16; 2]>]) -> Vec<u8> {
    let mut file = fs::read(common::dejavu_sans()).unwrap();
    let ends = contours.iter().scan(-1, |end, contour| {
        *end += contour.len() as i16;
        Some(*end)
    });
    // the bounds are not looked at, and there are no instructions
    let numbers = [contours.len() as i16, 0, 0, 2048, 2048].into_iter().chain(ends).chain([0]);
    let mut outline: Vec<u8> = numbers.flat_map(i16::to_be_bytes).collect();
    let points = contours.concat();
    // all points are on the curve, and have two bytes a coordinate
    outline.extend(points.iter().map(|_| 1));
    for axis in [0, 1] {
        let before = [0].into_iter().chain(points.iter().map(|point| point[axis]));
        outline.extend(points.iter().zip(before).flat_map(|(point, before)| (point[axis] - before).to_be_bytes()));
    }
    let place = outline_place(&file, '\u{2603}');
    assert!(outline.len() <= place.len());
    file[place.start..][..outline.len()].copy_from_slice(&outline);
    file
}

/// A drop whose tip is its first point, and its one corner at an angle of 2.9.
fn drop(edges: u32) -> Vec<[i16; 2]> {
    let point = |t: f64| [1000.0 + 800.0 * t.cos(), 1000.0 + 800.0 * t.sin() * (0.5 * t).sin()];
    (0..edges).map(|i| point(TAU * f64::from(i) / f64::from(edges)).map(|x| x.round() as i16)).collect()
}

/// With a drop of 47 edges the two outer runs are equally long in every strategy where that is wanted, and the field is
/// another one.
#[test]
fn balanced_teardrops() {
    let folder = Folder::new("balanced_teardrops");
    fs::write(folder.file("drop.ttf"), other_snowman(&[drop(47)])).unwrap();
    for strategy in ["simple", "inktrap", "distance"] {
        let drawn = [("source", [].as_slice(), [15, 16, 16]), ("balanced", &["--balanced"], [15, 17, 15])];
        let fields = drawn.map(|(name, option, expected)| {
            let arguments = ["--font", "drop.ttf", "--chars", "0x2603", "--angle", "2.9", "--coloringstrategy", strategy];
            let outputs = ["--jobs", name, "--imageout", "sheet.png"];
            let output = sheet(&folder, &[arguments.as_slice(), option, &outputs].concat());
            assert_eq!((output.status.code(), lines(&output)), (Some(0), vec![]));
            let file = fs::read(folder.file(&format!("{name}/U+2603.job"))).unwrap();
            let job = Job::read(&file).unwrap();
            assert_eq!(job.balanced, name == "balanced");
            let mut colors: Vec<EdgeColor> = job::color(&file).unwrap().contours[0].iter().map(|edge| edge.1).collect();
            // the drop may be the other way round, with its tip elsewhere
            let first = job.outline.contours[0].iter().position(|edge| edge.points()[0] == [1800.0, 1000.0]).unwrap();
            colors.rotate_left(first);
            let runs: Vec<&[EdgeColor]> = colors.chunk_by(|a, b| a == b).collect();
            assert_eq!(runs.iter().map(|run| run.len()).collect::<Vec<_>>(), expected, "{strategy}");
            assert_eq!(runs[1][0], EdgeColor::White);
            fs::read(folder.file("sheet.png")).unwrap()
        });
        assert_ne!(fields[0], fields[1], "{strategy}");
    }
}

/// Job files say that balanced contours are wanted; of ordinary glyphs all else is as it is without.
#[test]
fn balanced_letters() {
    let folder = Folder::new("balanced_letters");
    for strategy in ["simple", "inktrap", "distance"] {
        let [source, balanced] = [[].as_slice(), &["--balanced"]].map(|option| {
            let arguments = ["--chars", "A..Z", "--coloringstrategy", strategy, "--seed", "7", "--jobs", "jobs"];
            let outputs = ["--imageout", "sheet.png", "--json", "sheet.json"];
            let output = with_font(&folder, &[arguments.as_slice(), &outputs, option].concat());
            assert_eq!((output.status.code(), lines(&output)), (Some(0), vec![]));
            let jobs = names(&folder.path().join("jobs")).into_iter().map(|name| format!("jobs/{name}"));
            let files: Vec<Vec<u8>> = jobs.map(|name| fs::read(folder.file(&name)).unwrap()).collect();
            (files, ["sheet.png", "sheet.json"].map(|name| fs::read(folder.file(name)).unwrap()))
        });
        assert_eq!(source.0.len(), 26);
        for (file, with_mark) in source.0.iter().zip(&balanced.0) {
            assert_eq!(*with_mark, [&file[..19], b"BL", &file[19..]].concat());
        }
        assert!(source.0.len() == balanced.0.len() && source.1 == balanced.1, "{strategy}");
    }
}

/// Docs/src does not balance: a glyph above the limits gets no field where that would be seen, else that of docs/src.
#[test]
fn balanced_above_the_limits() {
    let folder = Folder::new("balanced_above_the_limits");
    let square = |i: i16| [[0, 0], [0, 20], [20, 20], [20, 0]].map(|[x, y]: [i16; 2]| [30 * i + x, y]).to_vec();
    for edges in [47, 48] {
        let contours: Vec<Vec<[i16; 2]>> = (0..53).map(square).chain([drop(edges)]).collect();
        fs::write(folder.file("drop.ttf"), other_snowman(&contours)).unwrap();
        let excess = format!("{} edges, {} above the limit of 256", 212 + edges, edges - 44);
        let by_source = format!("sheet: U+2603: coloured by docs/src, not proved: {excess}");
        let left_out = format!("sheet: U+2603: overfull: {excess}");
        let unbalanced = format!("{left_out}; docs/src cannot balance its contour of 47 edges");
        let balanced = if edges == 47 { (1, &unbalanced) } else { (0, &by_source) };
        for (options, (status, line)) in [
            ([].as_slice(), (0, &by_source)),
            (&["--balanced"], balanced),
            (&["--provedonly"], (1, &left_out)),
            (&["--provedonly", "--balanced"], (1, if edges == 47 { &unbalanced } else { &left_out })),
        ] {
            let arguments = ["--font", "drop.ttf", "--chars", "A, 0x2603", "--angle", "2.9", "--json", "sheet.json"];
            let output = sheet(&folder, &[arguments.as_slice(), options].concat());
            assert_eq!((output.status.code(), lines(&output)), (Some(status), vec![line.clone()]), "{edges}, {options:?}");
            let json = fs::read_to_string(folder.file("sheet.json")).unwrap();
            assert_eq!(json.contains("\"unicode\":9731,"), status == 0, "{edges}, {options:?}");
        }
    }
}

/// Characters that are not in the font are named and counted, and the others drawn.
#[test]
fn missing_characters() {
    let folder = Folder::new("missing_characters");
    let output = with_font(&folder, &["--chars", "A, 0x4, 0x5", "--json", "sheet.json"]);
    assert_eq!((output.status.code(), lines(&output)), (Some(0), vec!["sheet: not in the font: U+0004 U+0005".to_owned()]));
    assert!(words(&output).contains(" 2 not in the font, "), "{}", words(&output));
    assert_eq!(fs::read_to_string(folder.file("sheet.json")).unwrap().matches("\"unicode\":").count(), 1);
    let output = with_font(&folder, &["--chars", "A, [0, 0x1F]", "--json", "sheet.json"]);
    let before =
        |text: &str, end: &str| text.split(end).next().unwrap().split(' ').next_back().unwrap().parse::<usize>().unwrap();
    assert_eq!(before(&lines(&output)[0], " more") + 8, before(&words(&output), " not in the font"));
}

/// The edges of a glyph as its font draws them.
#[derive(Default)]
struct Drawn {
    edges: Vec<Edge>,
    at: Point,
}

impl Drawn {
    fn point(x: f32, y: f32) -> Point {
        [x.into(), y.into()]
    }

    fn add(&mut self, edge: Edge) {
        self.at = *edge.points().last().unwrap();
        self.edges.push(edge);
    }
}

impl OutlineBuilder for Drawn {
    fn move_to(&mut self, x: f32, y: f32) {
        self.at = Drawn::point(x, y);
    }

    fn line_to(&mut self, x: f32, y: f32) {
        self.add(Edge::Line([self.at, Drawn::point(x, y)]));
    }

    fn quad_to(&mut self, x1: f32, y1: f32, x: f32, y: f32) {
        self.add(Edge::Quadratic([self.at, Drawn::point(x1, y1), Drawn::point(x, y)]));
    }

    fn curve_to(&mut self, x1: f32, y1: f32, x2: f32, y2: f32, x: f32, y: f32) {
        self.add(Edge::Cubic([self.at, Drawn::point(x1, y1), Drawn::point(x2, y2), Drawn::point(x, y)]));
    }

    fn close(&mut self) {}
}

/// The characters whose glyphs have directions without length, and how many the library finds, in parts of 256 edges.
fn without_length(font: &str, characters: impl Iterator<Item = char>) -> Vec<String> {
    let file = fs::read(font).unwrap();
    let face = Face::from_slice(&file, 0).unwrap();
    let count = |character: char| {
        let mut drawn = Drawn::default();
        face.outline_glyph(face.glyph_index(character)?, &mut drawn)?;
        let parts = drawn.edges.chunks(256).map(|edges| Outline::from(vec![edges.to_vec()]));
        let ends = parts.flat_map(|part| edge_directions(&part).unwrap().concat()).flat_map(|edge| [edge.start, edge.end]);
        Some(ends.filter(|end| end.stand_in).count()).filter(|&count| count > 0)
    };
    let named = |character: char| Some(format!("U+{:04X} ({})", character as u32, count(character)?));
    characters.filter_map(named).collect()
}

/// The glyphs in which a direction has no length are named behind the summary, the first eight of them.
#[test]
fn directions_without_length() {
    let folder = Folder::new("directions_without_length");
    let named = |font: &str, characters: &str| {
        let output = sheet(&folder, &["--font", font, "--chars", characters, "--json", "a.json"]);
        assert_eq!(output.status.code(), Some(0));
        words(&output).lines().skip(1).map(str::to_owned).collect::<Vec<_>>()
    };
    let sans = common::dejavu_sans();
    assert_eq!(named(&sans, "A..Z"), [""; 0]);
    // its last point is its first: a line of no length
    assert_eq!(named(&sans, "A..C u"), ["directions without length in the font: U+0075 (2)"]);
    let all = without_length(&sans, '\u{20}'..='\u{24F}');
    assert!(all.len() > 8);
    assert_eq!(named(&sans, "[0x20, 0x24F]"), [format!("directions without length in the font: {}", all.join(" "))]);

    // far above the limits, so that docs/src counts too
    let italic = common::installed("fonts-linuxlibertine", "/LinLibertine_I.otf");
    let circled = without_length(&italic, '\u{24B6}'..='\u{24B8}').join(" ");
    assert!(circled.starts_with("U+24B6 (30) "), "{circled}");
    assert_eq!(named(&italic, "[0x24B6, 0x24B8]"), [format!("directions without length in the font: {circled}")]);

    // a font that has none
    let liberation = common::installed("fonts-liberation", "/LiberationSans-Regular.ttf");
    let output = sheet(&folder, &["--font", &liberation, "--allglyphs", "--json", "a.json"]);
    assert_eq!((output.status.code(), words(&output).lines().count()), (Some(0), 1));
}

/// Of several fonts each has its line; a curve may have no direction at one end only. All goes where the summary goes.
#[test]
fn directions_without_length_in_several_fonts() {
    let folder = Folder::new("directions_without_length_in_several_fonts");
    let (sans, serif) = (common::dejavu_sans(), common::installed("fonts-freefont-otf", "/FreeSerif.otf"));
    let fonts = ["--font", &sans, "--chars", "A u", "--and", "--font", &serif, "--chars", "A 0xA8E2"];
    let expected = [(sans.as_str(), "U+0075 (2)"), (&serif, "U+A8E2 (1)")]
        .map(|(font, glyph)| format!("directions without length in {font}: {glyph}"));
    let output = sheet(&folder, &[fonts.as_slice(), &["--json", "a.json"]].concat());
    assert_eq!(words(&output).lines().skip(1).collect::<Vec<_>>(), expected);
    let output = sheet(&folder, &[fonts.as_slice(), &["--json", "-"]].concat());
    assert_eq!(output.stdout, fs::read(folder.file("a.json")).unwrap());
    assert_eq!(lines(&output)[1..], expected);
}

/// Each type has its channels; the true distance of mtsdf is that of sdf, and its colours are those of msdf.
#[test]
fn types() {
    let folder = Folder::new("types");
    for (kind, output) in ["msdf", "mtsdf", "sdf", "psdf"].map(|kind| {
        (kind, with_font(&folder, &["--type", kind, "--chars", "A..D", "--imageout", &format!("{kind}.png"), "--json", kind]))
    }) {
        assert_eq!((output.status.code(), lines(&output)), (Some(0), vec![]));
        assert!(fs::read_to_string(folder.file(kind)).unwrap().starts_with(&format!("{{\"atlas\":{{\"type\":\"{kind}\",")));
    }
    let (_, _, msdf) = picture::<3>(&folder.file("msdf.png"));
    let (_, _, mtsdf) = picture::<4>(&folder.file("mtsdf.png"));
    let [(_, _, sdf), (_, _, psdf)] = ["sdf.png", "psdf.png"].map(|name| picture::<1>(&folder.file(name)));
    assert!(mtsdf.iter().zip(&msdf).all(|(a, b)| a[..3] == b[..]));
    assert!(mtsdf.iter().zip(&sdf).all(|(a, b)| a[3] == b[0]));
    assert_ne!(sdf, psdf);
    // at a place beyond a corner the perpendicular distance is the smaller one
    assert!(sdf.iter().zip(&psdf).all(|(a, b)| a[0].abs_diff(128) + 1 >= b[0].abs_diff(128)));
    let inside = |value: f64| value > 127.5;
    let near = |pixel: &[u8; 3]| median(pixel[0].into(), pixel[1].into(), pixel[2].into());
    assert!(msdf.iter().zip(&sdf).all(|(a, b)| inside(near(a)) == inside(b[0].into())));
}

/// The name of a file shows its format: rows from the bottom in raw ones, and blue before red in a bitmap.
#[test]
fn formats() {
    let folder = Folder::new("formats");
    for name in ["sheet.png", "sheet.bmp", "sheet.bin"] {
        let output = with_font(&folder, &["--chars", "A..D", "--square", "--imageout", name]);
        assert_eq!((output.status.code(), lines(&output)), (Some(0), vec![]), "{name}");
    }
    let (width, height, pixels) = picture::<3>(&folder.file("sheet.png"));
    assert_ne!(width % 4, 0, "rows of a bitmap are filled");
    let rows: Vec<_> = pixels.chunks(width as usize).rev().collect();
    assert_eq!(fs::read(folder.file("sheet.bin")).unwrap(), rows.concat().concat());
    let bmp = fs::read(folder.file("sheet.bmp")).unwrap();
    let number = |at: usize| u32::from_le_bytes(bmp[at..at + 4].try_into().unwrap());
    assert_eq!((&bmp[..2], number(2) as usize, number(10), number(18), number(22)), (&b"BM"[..], bmp.len(), 54, width, height));
    assert_eq!((number(26), number(30)), (1 | 24 << 16, 0));
    let filled = |row: &&[[u8; 3]]| {
        let mut bytes: Vec<u8> = row.iter().flat_map(|&[r, g, b]| [b, g, r]).collect();
        bytes.resize(bytes.len().next_multiple_of(4), 0);
        bytes
    };
    assert_eq!(bmp[54..], rows.iter().map(filled).collect::<Vec<_>>().concat());
    let output = with_font(&folder, &["--chars", "A..D", "--square", "--format", "bin", "--imageout", "-"]);
    assert_eq!(output.stdout, fs::read(folder.file("sheet.bin")).unwrap(), "standard output has nothing else");
    assert!(lines(&output)[0].starts_with("4 glyphs, "), "{:?}", lines(&output));
}

/// Numbers of 32 bits: not rounded, and without corrections the bytes' own values; the same in each format.
#[test]
fn numbers() {
    let folder = Folder::new("numbers");
    for (kind, channels) in [("sdf", 1), ("msdf", 3), ("mtsdf", 4)] {
        for (name, format) in
            [("sheet.bin", "bin"), ("sheet.tif", "tiff"), ("little", "binfloat"), ("big", "binfloatbe"), ("sheet.tiff", "tiff")]
        {
            let by_name = name.ends_with(format) || name == "sheet.tif";
            let format = if by_name { vec![] } else { vec!["--format", format] };
            let arguments = ["--type", kind, "--chars", "A..D", "--errorcorrection", "disabled", "--imageout", name];
            let output = with_font(&folder, &[&format, arguments.as_slice()].concat());
            assert_eq!((output.status.code(), lines(&output)), (Some(0), vec![]), "{kind}, {name}");
        }
        let read = |name: &str| fs::read(folder.file(name)).unwrap();
        let floats = |name: &str, from: fn([u8; 4]) -> f32| {
            read(name).chunks_exact(4).map(|bytes| from(bytes.try_into().unwrap())).collect::<Vec<f32>>()
        };
        let little = floats("little", f32::from_le_bytes);
        assert_eq!(little, floats("big", f32::from_be_bytes), "{kind}");
        let rounded = |value: f32| (255.0 * value.clamp(0.0, 1.0)).round();
        assert!(little.iter().map(|&value| rounded(value) as u8).eq(read("sheet.bin")), "{kind}");
        let between = little.iter().filter(|&&value| (rounded(value) - 255.0 * value).abs() > 0.01).count();
        assert!(between > little.len() / 20, "{kind}: {between} of {}", little.len());
        for name in ["sheet.tif", "sheet.tiff"] {
            let mut decoder = tiff::decoder::Decoder::new(File::open(folder.file(name)).unwrap()).unwrap();
            let (width, height) = decoder.dimensions().unwrap();
            let tiff::decoder::DecodingResult::F32(values) = decoder.read_image().unwrap() else { panic!("{name}: no floats") };
            assert_eq!(values.len(), (width * height) as usize * channels);
            let rows: Vec<&[f32]> = values.chunks(width as usize * channels).rev().collect();
            assert_eq!(rows.concat(), little, "{kind}, {name}");
        }
    }
}

/// One dash or two, characters from a file, a range in ems: all the same sheet.
#[test]
fn other_ways_to_say_it() {
    let folder = Folder::new("other_ways_to_say_it");
    fs::write(folder.file("set.txt"), "A..C\n\"xyz\"\n").unwrap();
    let font = common::dejavu_sans();
    for (name, arguments) in [
        ("a.png", ["--font", &font, "--chars", "A..C \"xyz\"", "--pxrange", "4"].as_slice()),
        ("b.png", &["-font", &font, "-charset", "set.txt", "-pxrange", "4"]),
        ("c.png", &["-font", &font, "--charset", "set.txt", "-emrange", "0.125"]),
    ] {
        let output = sheet(&folder, &[arguments, &["-imageout", name]].concat());
        assert_eq!((output.status.code(), lines(&output)), (Some(0), vec![]));
    }
    let read = |name: &str| fs::read(folder.file(name)).unwrap();
    assert!(read("a.png") == read("b.png") && read("a.png") == read("c.png"));
}

fn dejavu_serif() -> String {
    common::dejavu_sans().replace("DejaVuSans.ttf", "DejaVuSerif.ttf")
}

/// A glyph of a sheet's JSON by its character, in its only font or in one of several.
fn glyph(json: &Value, font: Option<usize>, character: char) -> &Value {
    let part = font.map_or(json, |font| &json["variants"][font]);
    let mut glyphs = part["glyphs"].as_array().unwrap().iter();
    glyphs.find(|glyph| glyph["unicode"] == u32::from(character)).unwrap_or_else(|| panic!("no {character}"))
}

/// The sides of a glyph's box: its left, bottom, right and top.
fn sides(glyph: &Value, bounds: &str) -> [f64; 4] {
    ["left", "bottom", "right", "top"].map(|side| glyph[bounds][side].as_f64().unwrap())
}

/// The pixels of a glyph's box in a sheet.
fn cut_out(path: &str, glyph: &Value) -> Vec<[u8; 3]> {
    let (width, height, pixels) = picture::<3>(path);
    let [left, bottom, right, top] = sides(glyph, "atlasBounds").map(|side| side as usize);
    let rows = height as usize - 1 - top..height as usize - bottom;
    rows.flat_map(|row| pixels[row * width as usize..][left..=right].to_vec()).collect()
}

/// Two fonts in one sheet: each glyph's field is that of its font alone, and options of the sheet may stand anywhere.
#[test]
fn several_fonts() {
    let folder = Folder::new("several_fonts");
    let (sans, serif) = (common::dejavu_sans(), dejavu_serif());
    let first = ["-font", &sans, "-chars", "A..C, 0x4", "-size", "24", "-json", "both.json"];
    let second = ["-and", "--font", &serif, "-fontname", "A \"name\"", "--chars=B..E, 0x5, 0x6"];
    let outputs = ["-pxrange", "4", "-imageout", "both.png", "-csv", "both.csv", "-jobs", "jobs"];
    let output = sheet(&folder, &[first.as_slice(), &second, &outputs].concat());
    let expected = [format!("sheet: not in {sans}: U+0004"), format!("sheet: not in {serif}: U+0005 U+0006")];
    assert_eq!((output.status.code(), lines(&output)), (Some(0), expected.to_vec()));
    assert!(words(&output).starts_with("7 glyphs, ") && words(&output).contains(" 3 not in the font, "), "{}", words(&output));
    let both = folder.json("both.json");
    let keys: Vec<&str> = both.as_object().unwrap().keys().map(String::as_str).collect();
    assert_eq!((keys, both["variants"].as_array().unwrap().len()), (vec!["atlas", "variants"], 2));
    assert_eq!((both["variants"][0].get("name"), &both["variants"][1]["name"]), (None, &Value::from("A \"name\"")));
    for (i, font, letters) in [(0, &sans, 'A'..='C'), (1, &serif, 'B'..='E')] {
        let alone = sheet(
            &folder,
            &["--font", font, "--chars", "A..E", "--size", "24", "--pxrange", "4", "--imageout", "one.png", "--json", "one.json"],
        );
        assert_eq!((alone.status.code(), lines(&alone)), (Some(0), vec![]));
        let one = folder.json("one.json");
        assert_eq!(both["variants"][i]["metrics"], one["metrics"]);
        assert_eq!(both["variants"][i]["glyphs"].as_array().unwrap().len(), letters.clone().count());
        for letter in letters {
            let (among, alone) = (glyph(&both, Some(i), letter), glyph(&one, None, letter));
            assert_eq!((&among["advance"], &among["planeBounds"]), (&alone["advance"], &alone["planeBounds"]));
            assert_eq!(cut_out(&folder.file("both.png"), among), cut_out(&folder.file("one.png"), alone), "{i}, {letter}");
        }
    }
    let table = fs::read_to_string(folder.file("both.csv")).unwrap();
    let heads: Vec<String> = table.lines().map(|line| line.split(',').take(2).collect::<Vec<_>>().join(",")).collect();
    assert_eq!(heads, ["0,65", "0,66", "0,67", "1,66", "1,67", "1,68", "1,69"]);
    assert_eq!(names(&folder.path().join("jobs"))[2..4], ["0-U+0043.job", "1-U+0042.job"]);
    let missing = sheet(&folder, &["-font", &sans, "-and", "-chars", "A", "-json", "c.json"]);
    assert_eq!((missing.status.code(), lines(&missing).len()), (Some(2), 1));
    assert!(lines(&missing)[0].contains("--font"), "{:?}", lines(&missing));
}

/// A sheet has the shape that is asked for, and glyphs are as large as it lets them.
#[test]
fn shapes_of_the_sheet() {
    let folder = Folder::new("shapes_of_the_sheet");
    let atlas = |options: &[&str]| {
        let output = with_font(&folder, &[options, &["--chars", "A..Z", "--json", "a.json", "--imageout", "a.png"]].concat());
        assert_eq!((output.status.code(), lines(&output)), (Some(0), vec![]), "{options:?}");
        let json = folder.json("a.json");
        let [width, height] = ["width", "height"].map(|key| json["atlas"][key].as_u64().unwrap());
        let (across, down, _) = picture::<3>(&folder.file("a.png"));
        assert_eq!((u64::from(across), u64::from(down)), (width, height), "{options:?}");
        for letter in 'A'..='Z' {
            let [left, bottom, right, top] = sides(glyph(&json, None, letter), "atlasBounds");
            assert!(left >= 0.5 && bottom >= 0.5 && right <= width as f64 - 0.5 && top <= height as f64 - 0.5, "{options:?}");
        }
        (width, height, json["atlas"]["size"].as_f64().unwrap())
    };
    let (side, other, size) = atlas(&[]);
    assert_eq!((side % 4, other, size), (0, side, 32.0));
    let exact = atlas(&["--square"]).0;
    assert!(exact <= side && exact + 4 > side, "{exact} and {side}");
    assert_eq!(atlas(&["--square2"]), (exact.next_multiple_of(2), exact.next_multiple_of(2), 32.0));
    assert_eq!(atlas(&["--pots"]), (256, 256, 32.0));
    assert_eq!(atlas(&["--potr"]), (256, 128, 32.0));
    assert_eq!(atlas(&["--dimensions", "400", "300", "--size", "20"]), (400, 300, 20.0));
    let (width, height, size) = atlas(&["--dimensions", "400", "300"]);
    assert!((width, height) == (400, 300) && size > 45.0 && size < 110.0, "{size}");
    let (width, height, size) = atlas(&["--pots", "--minsize", "32"]);
    assert!((width, height) == (256, 256) && size > 32.0 && size < 64.0, "{size}");
    let output = with_font(&folder, &["--dimensions", "100", "100", "--size", "32", "--json", "a.json"]);
    assert_eq!(
        (output.status.code(), lines(&output)),
        (Some(2), vec!["sheet: the glyphs do not fit into 100 by 100 pixels".to_owned()])
    );
}

/// In a grid all boxes are of one size, in order, with the baseline at one height.
#[test]
fn a_uniform_grid() {
    let folder = Folder::new("a_uniform_grid");
    let atlas = |options: &[&str]| {
        let arguments = ["--chars", "' ' A..Z", "--json", "a.json", "--imageout", "a.png"];
        let output = with_font(&folder, &[options, &arguments].concat());
        assert_eq!((output.status.code(), lines(&output)), (Some(0), vec![]), "{options:?}");
        folder.json("a.json")
    };
    let json = atlas(&["--uniformgrid"]);
    let grid = |key: &str| json["atlas"]["grid"][key].as_f64().unwrap();
    let [width, height] = ["width", "height"].map(|key| json["atlas"][key].as_f64().unwrap());
    assert_eq!((width, height), (grid("columns") * grid("cellWidth"), grid("rows") * grid("cellHeight")));
    assert!(json["atlas"]["grid"].get("originX").is_none());
    for (i, letter) in ('A'..='Z').enumerate() {
        let [left, bottom, right, top] = sides(glyph(&json, None, letter), "atlasBounds");
        assert_eq!((right - left + 1.0, top - bottom + 1.0), (grid("cellWidth"), grid("cellHeight")));
        let (column, row) = (i % grid("columns") as usize, i / grid("columns") as usize);
        assert_eq!((left - 0.5, height - top - 0.5), (column as f64 * grid("cellWidth"), row as f64 * grid("cellHeight")));
        let plane = sides(glyph(&json, None, letter), "planeBounds");
        assert!((plane[1] + grid("originY")).abs() < 1e-9, "{letter}");
    }
    // a letter is drawn as it is elsewhere: with the same baseline, its pixels in rows are the same
    let sharp =
        |json: &Value| cut_out(&folder.file("a.png"), glyph(json, None, 'H')).concat().into_iter().filter(|&v| v > 200).count();
    assert!(sharp(&json) > 50);
    let cells = |options: &[&str]| {
        let json = atlas(options);
        ["columns", "rows", "cellWidth", "cellHeight"].map(|key| json["atlas"]["grid"][key].as_u64().unwrap())
    };
    assert_eq!(cells(&["--uniformcols", "5"])[..2], [5, 6]);
    assert_eq!(cells(&["--uniformcellconstraint", "pots"])[2..], [64, 64]);
    assert_eq!(cells(&["--uniformcell", "50", "60"])[2..], [50, 60]);
    assert!(atlas(&["--uniformcell", "50", "60"])["atlas"]["size"].as_f64().unwrap() > 33.0);
    let on = atlas(&["--uniformorigin", "on"]);
    let lefts: BTreeSet<String> = ('A'..='Z').map(|c| glyph(&on, None, c)["planeBounds"]["left"].to_string()).collect();
    assert!(lefts.len() == 1 && on["atlas"]["grid"]["originX"].is_f64(), "{lefts:?}");
    let output = with_font(&folder, &["--uniformcell", "9", "9", "--size", "32", "--json", "b.json"]);
    assert!(output.status.code() == Some(2) && lines(&output)[0].contains("cells of 9 by 9"), "{:?}", lines(&output));
}

/// Padding widens a glyph's box; outer padding keeps boxes apart and is in none.
#[test]
fn paddings() {
    let folder = Folder::new("paddings");
    let a = |options: &[&str]| {
        let output = with_font(&folder, &[options, &["--chars", "A..C", "--json", "a.json", "--imageout", "a.png"]].concat());
        assert_eq!((output.status.code(), lines(&output)), (Some(0), vec![]), "{options:?}");
        let json = folder.json("a.json");
        let letter = glyph(&json, None, 'A');
        let shown = cut_out(&folder.file("a.png"), letter);
        (
            sides(letter, "planeBounds").map(|side| (32.0 * side * 1e6).round() / 1e6),
            json["atlas"]["width"].as_u64().unwrap(),
            shown,
        )
    };
    let (plain, side, pixels) = a(&[]);
    let wider = [plain[0] - 8.0, plain[1] - 8.0, plain[2] + 8.0, plain[3] + 8.0];
    assert_eq!(a(&["--pxpadding", "8"]).0, wider);
    assert_eq!(a(&["--empadding", "0.25"]).0, wider);
    assert_eq!(a(&["--pxpadding", "4", "--empadding", "0.125"]).0, wider);
    for outer in [["--outerpxpadding", "8"], ["--outerempadding", "0.25"]] {
        let (bounds, wide, shown) = a(&outer);
        assert_eq!((bounds, &shown), (plain, &pixels), "{outer:?}");
        assert!(wide > side + 16, "{outer:?}");
    }
    // the left side of the box is then between pixels
    let aligned = a(&["--pxalign", "on"]).0;
    assert!((aligned[0] + 0.5).fract().abs() < 1e-6 && (plain[0] + 0.5).fract().abs() > 1e-3, "{aligned:?}, {plain:?}");
}

/// A field takes long at this size; where only words are wanted none is drawn.
#[test]
fn no_field_where_none_is_wanted() {
    let folder = Folder::new("no_field_where_none_is_wanted");
    let time = |options: &[&str]| {
        let start = Instant::now();
        let output = with_font(&folder, &[options, &["--chars", "A..Z", "--size", "300", "--threads", "1"]].concat());
        assert_eq!((output.status.code(), lines(&output)), (Some(0), vec![]));
        start.elapsed()
    };
    let drawn = time(&["--imageout", "sheet.bin"]);
    for options in [["--json", "a.json"], ["--csv", "a.csv"], ["--jobs", "jobs"]] {
        let undrawn = time(&options);
        assert!(4 * undrawn < drawn, "{options:?}: {undrawn:?} and {drawn:?}");
    }
}

/// On a terminal a bar is there from the start.
#[test]
fn progress() {
    let folder = Folder::new("progress");
    let call = format!("{} --font {} --json a.json", env!("CARGO_BIN_EXE_sheet"), common::dejavu_sans());
    let mut command = Command::new("script");
    let output = command.args(["-q", "-e", "-c", &call, "log"]).current_dir(folder.path()).stdin(Stdio::null()).output().unwrap();
    let text = String::from_utf8_lossy(&output.stdout).into_owned();
    assert_eq!(output.status.code(), Some(0), "{text}");
    assert!(text.contains("0/95") && text.contains("95 glyphs, "), "{text}");
}

/// Options of msdf-atlas-gen that are not there are refused with what is; each of those is an option.
#[test]
fn options_that_are_not_there() {
    let folder = Folder::new("options_that_are_not_there");
    let help = words(&sheet(&folder, &["--help"]));
    let known = ["varfont", "fontscale", "glyphset", "glyphs", "apxrange", "aemrange", "apxpadding", "aempadding"];
    let others = ["aouterpxpadding", "aouterempadding", "miterlimit", "kerning", "nokerning", "preprocess", "nopreprocess"];
    for name in known.iter().chain(&others).chain(&["arfont", "shadronpreview", "edgecolors"]) {
        let output = with_font(&folder, &[&format!("-{name}"), "--json", "a.json"]);
        assert_eq!((output.status.code(), lines(&output).len()), (Some(2), 1), "{name}");
        let line = &lines(&output)[0];
        let there = line.split("not there; use ").nth(1).unwrap_or_else(|| panic!("{line}"));
        for option in there.split([' ', ',']).filter(|word| word.starts_with("--")) {
            assert!(help.contains(&format!("{option} ")) || help.contains(&format!("{option}\n")), "{line}");
        }
    }
    assert_eq!(folder.names(), [""; 0]);
}

/// There may be more job files than a program may have open.
#[test]
fn more_jobs_than_open_files() {
    let folder = Folder::new("more_jobs_than_open_files");
    let call = r#"ulimit -n 64; exec "$0" --font "$1" --chars '[0x20, 0x17F]' --jobs jobs"#;
    let mut command = Command::new("sh");
    let arguments = ["-c", call, env!("CARGO_BIN_EXE_sheet"), &common::dejavu_sans()];
    let output = command.args(arguments).current_dir(folder.path()).output().unwrap();
    assert_eq!(output.status.code(), Some(0), "{:?}", lines(&output));
    assert!(names(&folder.path().join("jobs")).len() > 300);
}

/// Two fonts in one file.
#[test]
fn faces_of_a_collection() {
    let folder = Folder::new("faces_of_a_collection");
    let mut file = b"ttcf\0\x01\0\0\0\0\0\x02\0\0\0\0\0\0\0\0".to_vec();
    for (i, path) in [common::dejavu_sans(), dejavu_serif()].into_iter().enumerate() {
        let (start, mut font) = (file.len() as u32, fs::read(path).unwrap());
        file[12 + 4 * i..][..4].copy_from_slice(&start.to_be_bytes());
        let tables = usize::from(u16::from_be_bytes([font[4], font[5]]));
        for at in (0..tables).map(|table| 12 + 16 * table + 8) {
            let offset = u32::from_be_bytes(font[at..at + 4].try_into().unwrap()) + start;
            font[at..at + 4].copy_from_slice(&offset.to_be_bytes());
        }
        file.extend(font);
    }
    fs::write(folder.file("both.ttc"), file).unwrap();
    let read = |arguments: &[&str]| {
        let output = sheet(&folder, &[arguments, &["--chars", "A..C", "--json", "-"]].concat());
        assert_eq!(output.status.code(), Some(0), "{:?}", lines(&output));
        words(&output)
    };
    let (sans, serif) = (read(&["--font", &common::dejavu_sans()]), read(&["--font", &dejavu_serif()]));
    assert_ne!(sans, serif);
    assert_eq!((read(&["--font", "both.ttc"]), read(&["--font", "both.ttc", "--face", "1"])), (sans, serif));
    let output = sheet(&folder, &["--font", "both.ttc", "--face", "2", "--json", "a.json"]);
    assert_eq!(lines(&output), ["sheet: both.ttc: no face 2: there are 2, counted from 0"]);
}

/// From the top, heights are turned round; the table has the numbers of the JSON.
#[test]
fn origins_and_tables() {
    let folder = Folder::new("origins_and_tables");
    for origin in ["bottom", "top"] {
        let [json, csv] = ["json", "csv"].map(|end| format!("{origin}.{end}"));
        let output = with_font(&folder, &["--chars", "' ' A..C", "--yorigin", origin, "--json", &json, "--csv", &csv]);
        assert_eq!((output.status.code(), lines(&output)), (Some(0), vec![]));
    }
    let read = |name: &str| fs::read_to_string(folder.file(name)).unwrap();
    let (bottom, top) = (read("bottom.json"), read("top.json"));
    let side = number(&bottom, "atlas", "height");
    assert_eq!(number(&bottom, "metrics", "ascender"), -number(&top, "metrics", "ascender"));
    for (low, high) in [("bottom", "top"), ("top", "bottom")] {
        assert_eq!(number(&bottom, "planeBounds", low), -number(&top, "planeBounds", low));
        assert_eq!(number(&bottom, "atlasBounds", high), side - number(&top, "atlasBounds", high));
    }
    for (json, csv, sides) in
        [(bottom, "bottom.csv", ["left", "bottom", "right", "top"]), (top, "top.csv", ["left", "top", "right", "bottom"])]
    {
        let table = read(csv);
        let rows: Vec<Vec<f64>> = table.lines().map(|line| line.split(',').map(|n| n.parse().unwrap()).collect()).collect();
        assert_eq!(rows.len(), 4);
        assert_eq!((rows[0].len(), rows[0][0], &rows[0][2..]), (10, 32.0, &[0.0; 8][..]));
        let part = &json[json.find("\"unicode\":66,").unwrap()..];
        assert_eq!(rows[2][..2], [66.0, number(part, "unicode", "advance")]);
        assert_eq!(rows[2][2..6], sides.map(|side| number(part, "planeBounds", side)));
        assert_eq!(rows[2][6..], sides.map(|side| number(part, "atlasBounds", side)));
    }
}

/// Inter has no table `kern`: its pairs are from GPOS. A and V go nearer, H and I do not.
#[test]
fn kerning_without_a_kern_table() {
    let folder = Folder::new("kerning_without_a_kern_table");
    let inter = inter();
    let file = fs::read(&inter).unwrap();
    assert!(Face::from_slice(&file, 0).unwrap().tables().kern.is_none());
    let output = sheet(&folder, &["--font", &inter, "--chars", "A..Z", "--json", "sheet.json"]);
    assert_eq!((output.status.code(), lines(&output)), (Some(0), vec![]));
    let json = fs::read_to_string(folder.file("sheet.json")).unwrap();
    let advance = number(&json, "\"unicode1\":65,\"unicode2\":86,", "advance");
    assert!(advance < -0.02 && advance > -0.2, "{advance}");
    assert!(!json.contains("\"unicode1\":72,\"unicode2\":73,"));
}

fn inter() -> String {
    common::installed("fonts-inter-variable", "/Inter.var.ttf")
}

/// An axis makes letters wider; what is no axis is told of.
#[test]
fn a_variable_font() {
    let folder = Folder::new("a_variable_font");
    let inter = &inter();
    let width = |axis: &[&str]| {
        let output = sheet(&folder, &[["--font", inter, "--chars", "I", "--json", "-"].as_slice(), axis].concat());
        assert_eq!(output.status.code(), Some(0), "{:?}", lines(&output));
        let json = String::from_utf8(output.stdout).unwrap();
        number(&json, "planeBounds", "right") - number(&json, "planeBounds", "left")
    };
    assert!(width(&["--axis", "wght=100"]) < width(&[]) && width(&[]) < width(&["--axis", "wght=900"]));
    let output = sheet(&folder, &["--font", inter, "--json", "a.json", "--axis", "high=1"]);
    assert_eq!(output.status.code(), Some(2));
    assert!(lines(&output)[0].contains("no axis high: there are ") && lines(&output)[0].contains("wght"), "{:?}", lines(&output));
}

/// A program that is killed while it writes leaves nothing.
#[test]
fn a_killed_run_leaves_no_files() {
    let folder = Folder::new("a_killed_run_leaves_no_files");
    let mut command = Command::new(env!("CARGO_BIN_EXE_sheet"));
    command.args(["--font", &common::dejavu_sans(), "--chars", "A..Z", "--size", "200", "--testrender", "back.png"]);
    let mut running = command.current_dir(folder.path()).stdout(Stdio::null()).spawn().unwrap();
    let open = format!("/proc/{}/fd", running.id());
    let writes = || {
        let files = fs::read_dir(&open).into_iter().flatten().flatten();
        files.filter_map(|file| fs::read_link(file.path()).ok()).any(|file| file.starts_with(folder.path()))
    };
    while !writes() {
        assert!(running.try_wait().unwrap().is_none(), "it ended before it was seen to write");
        sleep(Duration::from_millis(5));
    }
    running.kill().unwrap();
    running.wait().unwrap();
    assert_eq!(folder.names(), [""; 0]);
}

/// The dieresis cannot be read, and so cannot the letters that have it; the others can.
#[test]
fn a_damaged_glyph() {
    let folder = Folder::new("a_damaged_glyph");
    let mut file = fs::read(common::dejavu_sans()).unwrap();
    let outline = outline_place(&file, '\u{A8}').start;
    // as many contours as there can be
    file[outline..outline + 2].copy_from_slice(&i16::MAX.to_be_bytes());
    fs::write(folder.file("damaged.ttf"), file).unwrap();
    let output = sheet(&folder, &["--font", "damaged.ttf", "--chars", "a, 0xE4, b", "--json", "sheet.json"]);
    let expected = "sheet: U+00E4: outline damaged, or beyond the coordinates of a font";
    assert_eq!((output.status.code(), lines(&output)), (Some(1), vec![expected.to_owned()]));
    assert_eq!(fs::read_to_string(folder.file("sheet.json")).unwrap().matches("\"unicode\":").count(), 2);
}

#[test]
fn glyphs_by_place() {
    let folder = Folder::new("glyphs_by_place");
    let output = sheet(&folder, &["--font", &dejavu_serif(), "--allglyphs", "--size", "4", "--json", "sheet.json"]);
    assert!(matches!(output.status.code(), Some(0 | 1)), "{:?}", lines(&output));
    let json = fs::read_to_string(folder.file("sheet.json")).unwrap();
    assert_eq!(number(&json, "glyphs", "index"), 0.0);
    assert!(json.matches("\"index\":").count() > 1000);
}

#[test]
fn help() {
    let folder = Folder::new("help");
    let output = sheet(&folder, &["--help"]);
    assert_eq!((output.status.code(), lines(&output)), (Some(0), vec![]));
    let text = String::from_utf8(output.stdout).unwrap();
    let options = "font chars allglyphs coloringstrategy angle seed balanced size pxrange imageout json testrender \
        errorcorrection errordeviationratio errorimproveratio nooverlap noscanline dimensions and";
    for option in options.split(' ') {
        assert!(text.contains(&format!("--{option}")), "{option}");
    }
}

/// One line on standard error, status 2, and nothing written.
#[test]
fn bad_input() {
    let folder = Folder::new("bad_input");
    let font = common::dejavu_sans();
    fs::write(folder.file("text.ttf"), "no font").unwrap();
    let mut file = fs::read(&font).unwrap();
    fs::write(folder.file("cut.ttf"), &file[..2000]).unwrap();
    fs::write(folder.file("copy.ttf"), &file).unwrap();
    let outlines = file.windows(4).position(|tag| tag == b"glyf").unwrap();
    file[outlines..outlines + 4].copy_from_slice(b"glyx");
    fs::write(folder.file("no_outlines.ttf"), &file).unwrap();
    File::create(folder.file("large.ttf")).unwrap().set_len((1 << 28) + 1).unwrap();
    fs::create_dir(folder.file("taken")).unwrap();
    let before = folder.names();
    let out = ["--imageout", "sheet.png"];
    let cases: &[&[&str]] = &[
        &["--font", "missing.ttf"],
        &["--font", "text.ttf"],
        &["--font", "cut.ttf"],
        &["--font", "taken"],
        &["--font", "no_outlines.ttf"],
        &[],
        &["--font", &font, "--chars", "0x4"],
        &["--font", &font, "--chars", "Z..A"],
        &["--font", &font, "--chars", ""],
        &["--font", &font, "--chars", "A", "--allglyphs"],
        &["--font", &font, "--coloringstrategy", "random"],
        &["--font", &font, "--angle", "0"],
        &["--font", &font, "--angle", "3.15"],
        &["--font", &font, "--angle", "180D"],
        &["--font", &font, "--angle", "NaN"],
        &["--font", &font, "--seed", "-1"],
        &["--font", &font, "--seed", "18446744073709551616"],
        &["--font", &font, "--size", "0"],
        &["--font", &font, "--size", "1025"],
        &["--font", &font, "--size", "NaN"],
        &["--font", &font, "--size", "large"],
        &["--font", &font, "--pxrange", "0"],
        &["--font", &font, "--pxrange", "inf"],
        &["--font", &font, "--errorcorrection", "some"],
        &["--font", &font, "--errordeviationratio", "0.5"],
        &["--font", &font, "--threads", "-1"],
        &["--font", &font, "--threads", "0.5"],
        &["--font", &font, "--threads", "257"],
        &["--font", &font, "--allglyphs", "--size", "1024"],
        &["--font", "large.ttf"],
        &["--font", &font, "--face", "1"],
        &["--font", &font, "--axis", "wght=400"],
        &["--font", &font, "--axis", "wght"],
        &["--font", &font, "--charset", "missing.txt"],
        &["--font", &font, "--type", "hardmask"],
        &["--font", &font, "--format", "jpg"],
        &["--font", &font, "--emrange", "0"],
        &["--font", &font, "--emrange", "0.01"],
        &["--font", &font, "--yorigin", "left"],
        &["--font", &font, "--pots", "--square"],
        &["--font", &font, "--dimensions", "100"],
        &["--font", &font, "--dimensions", "100", "0"],
        &["--font", &font, "--dimensions", "100", "8193"],
        &["--font", &font, "--size", "32", "--minsize", "16"],
        &["--font", &font, "--pxpadding", "-1"],
        &["--font", &font, "--pxalign", "left"],
        &["--font", &font, "--uniformcols", "0"],
        &["--font", &font, "--uniformcell", "20"],
        &["--font", &font, "--uniformcellconstraint", "round"],
        &["--font", &font, "--uniformorigin", "left"],
        &["--font", &font, "--and"],
        &["--font", &font, "--and", "--font", "missing.ttf"],
        &["--font", &font, "--and", "--font", &font, "--chars", "Z..A"],
        &["--font", "copy.ttf", "--and", "--font", &font, "--json", "copy.ttf"],
        &["--font", &font, "--testrender", "back.bmp"],
        &["--font", &font, "--json", "-", "--csv", "-"],
        &["--font", &font, "--colour", "red"],
        &["--font", &font, "extra"],
        &["--font", &font, "--json", "nowhere/sheet.json"],
        &["--font", &font, "--json", "taken"],
        &["--font", &font, "--json", "sheet.png"],
        &["--font", &font, "--json", "./taken/../sheet.png"],
        &["--font", "copy.ttf", "--json", "./copy.ttf"],
        &["--font", &font, "--json", ""],
        &["--font", &font, "--jobs", "nowhere/jobs"],
        &["--font", &font, "--jobs", "text.ttf"],
        &["--font", &font, "--jobs", "jobs", "--json", "jobs/sheet.json", "--testrender", "nowhere/back.png"],
    ];
    for case in cases {
        let output = sheet(&folder, &[case, out.as_slice()].concat());
        let lines = lines(&output);
        assert_eq!(output.status.code(), Some(2), "{case:?}: {lines:?}");
        assert!(lines.len() == 1 && lines[0].starts_with("sheet: "), "{case:?}: {lines:?}");
        assert!(output.stdout.is_empty(), "{case:?}");
        assert_eq!(folder.names(), before, "{case:?}");
    }
    let unknown = sheet(&folder, &["--font", &font, "--imageout", "sheet.jpg"]);
    assert_eq!(lines(&unknown), ["sheet: sheet.jpg: the formats are png, bmp, tiff, bin, binfloat and binfloatbe"]);
    assert_eq!(folder.names(), before);
    let nothing = sheet(&folder, &["--font", &font]);
    assert_eq!((nothing.status.code(), lines(&nothing).len()), (Some(2), 1));
}

/// What is no plain file that can be written stays as it is.
#[test]
fn what_is_left_alone() {
    let folder = Folder::new("what_is_left_alone");
    let path = |name: &str| folder.path().join(name);
    fs::write(path("read_only"), "old").unwrap();
    fs::set_permissions(path("read_only"), fs::Permissions::from_mode(0o444)).unwrap();
    assert!(Command::new("mkfifo").arg(path("fifo")).status().unwrap().success());
    symlink("missing", path("nowhere")).unwrap();
    symlink("/dev/null", path("device")).unwrap();
    let before = folder.names();
    for name in ["read_only", "fifo", "nowhere", "device"] {
        let output = with_font(&folder, &["--chars", "A", "--imageout", "sheet.png", "--json", name]);
        assert_eq!((output.status.code(), lines(&output).len()), (Some(2), 1), "{name}");
        assert_eq!(folder.names(), before, "{name}");
    }
    assert_eq!(fs::read(path("read_only")).unwrap(), b"old");
    assert!(path("fifo").metadata().unwrap().file_type().is_fifo());
    assert!(path("nowhere").is_symlink() && path("device").is_symlink());
    assert!(path("device").metadata().unwrap().file_type().is_char_device());
}

/// A file is replaced, a link is followed, and a folder for jobs is there before what goes into it.
#[test]
fn what_is_replaced() {
    let folder = Folder::new("what_is_replaced");
    let path = |name: &str| folder.path().join(name);
    fs::write(path("old"), "old").unwrap();
    fs::write(path("target"), "old").unwrap();
    symlink("target", path("link")).unwrap();
    let arguments = ["--chars", "A", "--json", "jobs/sheet.json", "--jobs", "jobs", "--imageout", "old", "--testrender", "link"];
    let output = with_font(&folder, &arguments);
    assert_eq!((output.status.code(), lines(&output)), (Some(0), vec![]));
    assert_eq!(folder.names(), ["jobs", "link", "old", "target"]);
    assert_eq!(names(&path("jobs")), ["U+0041.job", "sheet.json"]);
    assert!(path("link").is_symlink());
    assert_eq!(picture::<1>(&folder.file("target")).0, 8 * picture::<3>(&folder.file("old")).0);
}

/// Words that cannot be written change nothing else.
#[test]
fn no_room_for_words() {
    let folder = Folder::new("no_room_for_words");
    let font = common::dejavu_sans();
    let full = || File::options().write(true).open("/dev/full").unwrap();
    for (arguments, status) in [
        (["--font", &font, "--chars", "A, 0x2603", "--json", "sheet.json", "--provedonly"].as_slice(), 1),
        (&["--font", "missing.ttf", "--json", "sheet.json"], 2),
        (&["--colour"], 2),
        (&["--help"], 0),
    ] {
        let mut command = Command::new(env!("CARGO_BIN_EXE_sheet"));
        let output = command.args(arguments).current_dir(folder.path()).stdout(full()).stderr(full()).output().unwrap();
        assert_eq!(output.status.code(), Some(status), "{arguments:?}");
    }
}
