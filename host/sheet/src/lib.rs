//! `sheet`: a font in, a sheet of multi-channel distance fields out.

pub mod between;
pub mod charset;
pub mod correction;
pub mod distance;
pub mod draw;
pub mod field;
pub mod font;
pub mod frame;
pub mod json;
pub mod kerning;
pub mod layout;
pub mod output;
pub mod pack;
pub mod picture;
pub mod sheet;
pub mod sign;
pub mod source;
pub mod unproved;
pub mod winding;
