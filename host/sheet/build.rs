//! Copies the distance of two splines out of docs/src, where it is private: its functions and their precision, as they
//! stand there.

use std::path::Path;
use std::{env, fs};

const PRECISION: &str = "const EDGE_DISTANCE_PRECISION";
const FIRST: &str = "fn edge_to_edge_distance(";
const AFTER: &str = "fn vertex_possible_colors(";

fn main() {
    let source = Path::new(env!("CARGO_MANIFEST_DIR")).join("../../docs/src/crates/bymsdfgen-core/src/coloring/by_distance.rs");
    println!("cargo:rerun-if-changed={}", source.display());
    let text = fs::read_to_string(&source).unwrap();
    let precision = text.lines().find(|line| line.starts_with(PRECISION)).unwrap();
    let (start, end) = (text.find(FIRST).unwrap(), text.find(AFTER).unwrap());
    let out = Path::new(&env::var_os("OUT_DIR").unwrap()).join("distance.rs");
    fs::write(out, format!("{precision}\n{}", &text[start..end])).unwrap();
}
