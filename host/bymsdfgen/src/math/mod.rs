//! The modules of math/, and what its mod.rs re-exports.

#[path = "../../../../docs/src/crates/bymsdfgen-core/src/math/scalar.rs"]
pub mod scalar;
#[path = "../../../../docs/src/crates/bymsdfgen-core/src/math/signed_distance.rs"]
pub mod signed_distance;
#[path = "../../../../docs/src/crates/bymsdfgen-core/src/math/vector2.rs"]
pub mod vector2;

pub use signed_distance::SignedDistance;
pub use vector2::{Vector2, cross, dot};
