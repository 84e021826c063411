//! The Rust of docs/src, built as it is, with what makes inputs for it.
//!
//! `math`, `geometry` and `coloring` are the source; `given` is the copy of `coloring` that build.rs
//! makes, in which the threshold is the one that is given and not its sine; `balanced` is that copy with the
//! balanced division of teardrops.

// `use arrayvec::ArrayVec` of equation_solver.rs finds the stand-in below.
extern crate self as arrayvec;
pub use glue::ArrayVec;

pub mod geometry;
pub mod glue;
pub mod math;

#[path = "../../docs/src/crates/bymsdfgen-core/src/coloring/mod.rs"]
pub mod coloring;

include!(concat!(env!("OUT_DIR"), "/copies.rs"));

pub mod clashes;
pub mod contours;
pub mod direction_sample;
pub mod directions;
pub mod distances;
pub mod edges;
pub mod glyphs;
pub mod guess;
pub mod job_faults;
pub mod job_files;
pub mod job_sample;
pub mod jobs;
pub mod leaves;
pub mod numbers;
pub mod roots;
pub mod shape_sample;
pub mod shapes;
pub mod spoilt;
pub mod stand_ins;
pub mod tables;
pub mod teardrops;
