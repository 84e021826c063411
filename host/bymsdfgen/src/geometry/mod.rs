//! The modules of geometry/, and what its mod.rs re-exports.

#[path = "../../../../docs/src/crates/bymsdfgen-core/src/geometry/contour.rs"]
pub mod contour;
pub mod convergent;
#[path = "../../../../docs/src/crates/bymsdfgen-core/src/geometry/edge_color.rs"]
pub mod edge_color;
#[path = "../../../../docs/src/crates/bymsdfgen-core/src/geometry/edge_segment.rs"]
pub mod edge_segment;
#[path = "../../../../docs/src/crates/bymsdfgen-core/src/geometry/equation_solver.rs"]
pub mod equation_solver;
#[path = "../../../../docs/src/crates/bymsdfgen-core/src/geometry/shape.rs"]
pub mod shape;

pub use contour::Contour;
pub use edge_color::EdgeColor;
pub use edge_segment::EdgeSegment;
pub use shape::Shape;
