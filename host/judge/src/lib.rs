//! Measures a sheet: its glyphs, drawn back from it, against FreeType's drawing of the font at eight times the size.

pub mod drawing;
pub mod wrong;
