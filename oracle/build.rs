// Makes, in OUT_DIR, copies of the two colouring files with the few changes that a comparison
// needs, and says where the archives of the proved code are. Each change is a replacement of
// a text that must occur as often as said, so that a change of the source stops the build.

use std::path::{Path, PathBuf};
use std::{env, fs};

const SINE: &str = "let cross_threshold = angle_threshold.sin();";
const GIVEN: &str = "let cross_threshold = angle_threshold;";

const LIMIT: &str = "const MAX_RECOLOR_STEPS: i32 = 16;";
const LONGER: &str = "const MAX_RECOLOR_STEPS: i32 = 18;";

// What is private in coloring/mod.rs, for the comparison.
const PROBE: &str = "
pub mod by_distance_collected;
pub mod by_distance_counted;
pub mod by_distance_given;
pub mod by_distance_longer;
pub mod by_distance_measured;
pub mod noted;

pub mod probe {
    use super::*;

    pub fn trichotomy(position: i32, n: i32) -> i32 {
        symmetrical_trichotomy(position, n)
    }

    pub fn corners(contour: &Contour, threshold: f64) -> Vec<usize> {
        identify_corners(contour, threshold)
    }

    pub fn offer(coloring: &mut [i32], matrix: &mut [i32], n: usize, a: usize, b: usize) {
        by_distance::offer(coloring, matrix, n, a, b)
    }

    pub fn offers(coloring: &mut [i32], matrix: &mut [i32], n: usize, pairs: &[(usize, usize)]) {
        by_distance::offers(coloring, matrix, n, pairs)
    }
}
";

// What is private in coloring/by_distance.rs.
const OFFER: &str = "
pub fn offer(coloring: &mut [i32], matrix: &mut [i32], n: usize, a: usize, b: usize) {
    let mut buffer = vec![0i32; n];
    try_add_edge(coloring, matrix, n, a, b, &mut buffer)
}

pub fn offers(coloring: &mut [i32], matrix: &mut [i32], n: usize, pairs: &[(usize, usize)]) {
    let mut buffer = vec![0i32; n];
    for &(a, b) in pairs {
        try_add_edge(coloring, matrix, n, a, b, &mut buffer);
    }
}
";

const OFFER_COUNTED: &str = "
pub fn offer(coloring: &mut [i32], matrix: &mut [i32], n: usize, a: usize, b: usize) -> i32 {
    let mut buffer = vec![0i32; n];
    let mut steps = 0;
    try_add_edge(coloring, matrix, n, a, b, &mut buffer, &mut steps);
    steps
}
";

const BY_DISTANCE: &str =
    "pub fn edge_coloring_by_distance(shape: &mut Shape, angle_threshold: f64, mut seed: u64) {\n";

// The source's distance of two splines, i then j above it.
const DISTANCE: &str = "            let d = spline_to_spline_distance(
                &segments,
                spline_starts[i],
                spline_starts[i + 1],
                spline_starts[j],
                spline_starts[j + 1],
                EDGE_DISTANCE_PRECISION,
            );
";

// The last lines, and how many pairs were declined, since every pair is kept or declined once.
const END: &str = "        shape.contours[ci].colors[si] = COLORS[coloring[spline as usize] as usize];
    }
}
";
const DECLINED: &str =
    "graph_edges.iter().filter(|&&(i, j)| edge_matrix[i * spline_count + j] == 0).count()";

// What comes after the matrix, and its entries by i then j.
const SORTED: &str = "    // Sorted list of graph edges (i<j) by distance.\n";
const ENTRIES: &str = "    let above = |i: usize| &distance_matrix[i * spline_count..][i + 1..spline_count];
    (0..spline_count).flat_map(above).copied().collect()
}
";

// What follows the two colourings, and what has its place in the copy that tells which directions it normalises.
const VARIANT: &str = "// Re-export the experimental distance-based variant.\n";
const NOTED: &str = "use crate::stand_ins::noted;

pub mod by_distance_collected;
";

// The source's division of a contour with one corner, which nothing else calls than the teardrop and the collecting
// pass. The balanced one has its tie in the middle; every other place is still what the source's expression says.
const DIVISION: &str = "fn symmetrical_trichotomy(position: i32, n: i32) -> i32 {\n";
const TIE: &str = "    if 46 * position == 31 * (n - 1) {
        return 0;
    }
";
const DIVIDED: &str = "symmetrical_trichotomy(";
const ITS_OWN: &str = "use super::{identify_corners, symmetrical_trichotomy};\n";
const BALANCED: &str = "
pub mod by_distance_collected;
pub mod by_distance_given;

pub mod probe {
    pub fn trichotomy(position: i32, n: i32) -> i32 {
        super::symmetrical_trichotomy(position, n)
    }
}
";

const MATRIX: &str = "    // Distance matrix between splines.\n";

const COUNT: &str = "    let spline_count = spline_starts.len() - 1;\n";

fn replace(text: &str, times: usize, from: &str, to: &str) -> String {
    assert_eq!(text.matches(from).count(), times, "text not found as expected: {from}");
    text.replace(from, to)
}

// The offer with its step counter handed out: `step` is declared before the walk's block and
// copied to `steps` after it.
fn counted(by_distance: &str) -> String {
    let t = replace(
        by_distance,
        1,
        "    coloring_buffer: &mut [i32],\n) {",
        "    coloring_buffer: &mut [i32],\n    steps: &mut i32,\n) {",
    );
    let t = replace(&t, 1, "        let mut step = 0;\n", "");
    let t = replace(
        &t,
        1,
        "    let mut uncolored: VecDeque<usize> = VecDeque::new();\n",
        "    let mut uncolored: VecDeque<usize> = VecDeque::new();\n    let mut step = 0;\n",
    );
    let t = replace(
        &t,
        1,
        "    if !uncolored.is_empty() {",
        "    *steps = step;\n    if !uncolored.is_empty() {",
    );
    replace(&t, 1, "            &mut buffer,\n", "            &mut buffer,\n            &mut 0,\n")
}

// By-distance colouring whose matrix holds the distances that are given, by i then j. It answers how
// many pairs were declined.
fn given(by_distance: &str) -> String {
    let t = replace(
        by_distance,
        1,
        BY_DISTANCE,
        "pub fn edge_coloring_by_distance_given(shape: &mut Shape, angle_threshold: f64, mut seed: u64, distances: &[f64]) -> usize {\n",
    );
    let none = "    if spline_count == 0 {\n        return";
    let t = replace(&t, 1, none, &format!("{none} 0"));
    let t = replace(&t, 1, END, &format!("{}    {DECLINED}\n}}\n", END.strip_suffix("}\n").unwrap()));
    let t = replace(&t, 1, MATRIX, "    let mut given = distances.iter();\n");
    replace(&t, 1, DISTANCE, "            let d = *given.next().unwrap();\n")
}

// Its collecting pass alone: the contour and the place of each collected edge, and where the splines
// start among them.
fn collected(by_distance: &str) -> String {
    let t = replace(
        by_distance,
        1,
        BY_DISTANCE,
        "pub fn collect_splines(shape: &mut Shape, angle_threshold: f64) -> (Vec<(usize, usize)>, Vec<usize>) {\n",
    );
    assert_eq!(t.matches(COUNT).count(), 1);
    let (pass, _) = t.split_once(COUNT).unwrap();
    format!("{pass}    (refs, spline_starts)\n}}\n")
}

// Simple and ink-trap colouring and the corner search, with each direction that they normalise told to `noted`.
fn noted(coloring: &str) -> String {
    let t = replace(coloring, 2, "prev_direction.normalize(false)", "noted(prev_direction)");
    let t = replace(&t, 2, "edge.direction(0.0).normalize(false)", "noted(edge.direction(0.0))");
    assert!(!t.contains(".normalize("));
    instead_of_variant(&t, NOTED)
}

// Simple and ink-trap colouring with the balanced division. What is by distance calls that of its parent module.
fn balanced(coloring: &str, by_distance: &str) -> String {
    let count = |text: &str, part: &str| text.matches(part).count();
    assert_eq!([count(coloring, DIVIDED), count(by_distance, DIVIDED), count(by_distance, ITS_OWN)], [2, 1, 1]);
    let t = replace(coloring, 1, DIVISION, &format!("{DIVISION}{TIE}"));
    instead_of_variant(&t, BALANCED)
}

fn instead_of_variant(coloring: &str, other: &str) -> String {
    assert_eq!(coloring.matches(VARIANT).count(), 1);
    let (colorings, _) = coloring.split_once(VARIANT).unwrap();
    format!("{colorings}{other}")
}

// By-distance colouring up to its matrix: the source's own distances of the splines, by i then j.
fn measured(by_distance: &str) -> String {
    let t = replace(
        by_distance,
        1,
        BY_DISTANCE,
        "pub fn spline_distances(shape: &mut Shape, angle_threshold: f64) -> Vec<f64> {\n",
    );
    let none = "    if spline_count == 0 {\n        return";
    let t = replace(&t, 1, none, &format!("{none} Vec::new()"));
    assert_eq!(t.matches(SORTED).count(), 1);
    let (matrix, _) = t.split_once(SORTED).unwrap();
    format!("{matrix}{ENTRIES}")
}

fn main() {
    let here = PathBuf::from(env::var("CARGO_MANIFEST_DIR").unwrap());
    let out = PathBuf::from(env::var("OUT_DIR").unwrap());
    let source = here.join("../docs/src/crates/bymsdfgen-core/src/coloring");
    let read = |name: &str| -> String {
        let path = source.join(name);
        println!("cargo:rerun-if-changed={}", path.display());
        fs::read_to_string(&path).unwrap()
    };
    let coloring = replace(&read("mod.rs"), 2, SINE, GIVEN);
    let by_distance = replace(&read("by_distance.rs"), 1, SINE, GIVEN);

    let copy = out.join("coloring");
    let balanced_copy = out.join("balanced");
    fs::create_dir_all(copy.join("noted")).unwrap();
    fs::create_dir_all(&balanced_copy).unwrap();
    let write_to =
        |folder: &Path, name: &str, text: String| fs::write(folder.join(name), text).unwrap();
    write_to(&balanced_copy, "mod.rs", balanced(&coloring, &by_distance));
    write_to(&balanced_copy, "by_distance_given.rs", given(&by_distance));
    write_to(&balanced_copy, "by_distance_collected.rs", collected(&by_distance));
    let write = |name: &str, text: String| write_to(&copy, name, text);
    write("noted.rs", noted(&coloring));
    write("noted/by_distance_collected.rs", collected(&by_distance));
    write("mod.rs", coloring + PROBE);
    write("by_distance_given.rs", given(&by_distance));
    write("by_distance_collected.rs", collected(&by_distance));
    write("by_distance_measured.rs", measured(&by_distance));
    let counted = counted(&by_distance) + OFFER_COUNTED;
    write("by_distance_longer.rs", replace(&counted, 1, LIMIT, LONGER));
    write("by_distance_counted.rs", counted);
    write("by_distance.rs", by_distance + OFFER);
    // the shortened copies have functions that nothing calls any more
    let module = |folder: &Path, name: &str| {
        let path = folder.join("mod.rs");
        format!("#[allow(dead_code)]\n#[path = {path:?}]\npub mod {name};\n")
    };
    let modules = module(&copy, "given") + &module(&balanced_copy, "balanced");
    fs::write(out.join("copies.rs"), modules).unwrap();

    let library = here.join("../target/staticlib");
    println!("cargo:rustc-link-search=native={}", library.display());
    for archive in ["libcapi.a", "libvectors.a"] {
        println!("cargo:rerun-if-changed={}", library.join(archive).display());
    }
    println!("cargo:rerun-if-changed=build.rs");
}
