//! Colours the edges of glyph outlines for multi-channel distance fields.
//!
//! A distance field of three channels keeps corners sharp where each side of a corner feeds channels of its own. This
//! crate says which: it gives every edge of an [`Outline`] an [`EdgeColor`]. The work is done by a library whose every
//! function is proved to meet its contract; here are safe calls of it and the types of a Rust program. There are no
//! dependencies, and `unsafe` is in one file.
//!
//! ```
//! use merelsplum::{EdgeColor::*, Outline, edge_coloring_simple};
//!
//! let square = Outline::polygon(&[[0.0, 0.0], [1.0, 0.0], [1.0, 1.0], [0.0, 1.0]]);
//! let colored = edge_coloring_simple(&square, 3f64.sin(), 0)?;
//! let colors: Vec<_> = colored.contours[0].iter().map(|&(_, color)| color).collect();
//! assert_eq!(colors, [Magenta, Yellow, Cyan, Yellow]);
//! # Ok::<(), merelsplum::Refusal>(())
//! ```
//!
//! - [`edge_coloring_simple`], [`edge_coloring_ink_trap`] and [`edge_coloring_by_distance`] colour an outline. The last needs the distances
//!   between its splines, which [`collect_splines`] numbers.
//! - [`balanced`] has the same four functions with balanced teardrops: the two outer runs of a contour with one corner
//!   are equally long.
//! - [`edge_directions`] gives the unit directions of each edge, from which corners follow, and says for which of them (0, 1) stands in
//!   since it had no length. Colourings count those, [`Colored::stand_ins`].
//! - [`SplineTable::offer`] is one step of the colouring by distance, by itself.
//! - [`job`] reads, writes and colours job files.
//!
//! Input that cannot be coloured gives a [`Refusal`]; nothing panics. Calls keep no state, so threads may make them at
//! the same time; a thread needs 128 KiB of stack for one. The processor's floating-point state must be the usual one:
//! round to nearest, no flush to zero.

#![deny(unsafe_code)]
#![warn(missing_docs)]

pub mod balanced;
mod coloring;
mod directions;
#[allow(unsafe_code)]
mod ffi;
pub mod job;
mod outline;
mod refusal;
mod spline_table;

pub use coloring::{collect_splines, edge_coloring_by_distance, edge_coloring_ink_trap, edge_coloring_simple, threshold};
pub use directions::{Direction, Directions, edge_directions};
pub use outline::{Collected, Colored, Edge, EdgeColor, Outline, Point};
pub use refusal::Refusal;
pub use spline_table::{Offer, SplineTable};
