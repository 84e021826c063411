//! The Rust of docs/src, built as it is: shapes, their distances, their colouring. What it calls and has not, the
//! ordering of edges that meet in a cusp, is in `geometry/convergent.rs`.
#![allow(dead_code, unused_imports, clippy::all)]

pub mod geometry;
pub mod math;

#[path = "../../../docs/src/crates/bymsdfgen-core/src/coloring/mod.rs"]
pub mod coloring;
