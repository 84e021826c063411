//! Glyphs as FreeType draws them, not hinted.

use freetype_sys::*;
use std::ffi::c_int;
use std::marker::PhantomData;
use std::ptr::null_mut;

/// A face of a font at one size.
pub struct Drawer<'a> {
    library: FT_Library,
    face: FT_Face,
    file: PhantomData<&'a [u8]>,
}

fn check(error: FT_Error) -> Result<(), String> {
    if error == 0 { Ok(()) } else { Err(format!("FreeType's error {error}")) }
}

/// Which pixels of a box are inside a glyph, by rows from the top.
pub struct Drawing {
    pub width: usize,
    pub height: usize,
    pub inside: Vec<bool>,
}

impl<'a> Drawer<'a> {
    /// The first face of a font file, at so many pixels an em.
    pub fn new(file: &'a [u8], size: f64) -> Result<Drawer<'a>, String> {
        let mut drawer = Drawer { library: null_mut(), face: null_mut(), file: PhantomData };
        let length = file.len() as FT_Long;
        // SAFETY: the file outlives the face, which is done with before the library
        unsafe {
            check(FT_Init_FreeType(&mut drawer.library))?;
            check(FT_New_Memory_Face(drawer.library, file.as_ptr(), length, 0, &mut drawer.face))?;
            check(FT_Set_Char_Size(drawer.face, 0, (64.0 * size).round() as FT_F26Dot6, 72, 72))?;
        }
        Ok(drawer)
    }

    /// The place of a character's glyph in the font.
    pub fn index(&self, character: u32) -> u32 {
        // SAFETY: the face is there as long as this is
        unsafe { FT_Get_Char_Index(self.face, FT_ULong::from(character)) }
    }

    /// What is inside of a box whose lower left corner is at (left, bottom) in pixels: where more than half of a pixel
    /// is covered.
    pub fn draw(&self, index: u32, left: f64, bottom: f64, width: usize, height: usize) -> Result<Drawing, String> {
        let mut covered = vec![0u8; width * height];
        let bitmap = FT_Bitmap {
            rows: height as c_int,
            width: width as c_int,
            pitch: width as c_int,
            buffer: covered.as_mut_ptr(),
            num_grays: 256,
            pixel_mode: FT_PIXEL_MODE_GRAY as _,
            palette_mode: 0,
            palette: null_mut(),
        };
        // SAFETY: the bitmap is as large as it says, and the outline is the face's own until the next glyph is loaded
        unsafe {
            check(FT_Load_Glyph(self.face, index, FT_LOAD_NO_HINTING | FT_LOAD_NO_BITMAP))?;
            let outline = &mut (*(*self.face).glyph).outline;
            FT_Outline_Translate(outline, (-64.0 * left).round() as FT_Pos, (-64.0 * bottom).round() as FT_Pos);
            check(FT_Outline_Get_Bitmap(self.library, outline, &bitmap))?;
        }
        Ok(Drawing { width, height, inside: covered.into_iter().map(|c| c >= 128).collect() })
    }
}

impl Drop for Drawer<'_> {
    fn drop(&mut self) {
        // SAFETY: nothing else has them
        unsafe {
            if !self.face.is_null() {
                FT_Done_Face(self.face);
            }
            if !self.library.is_null() {
                FT_Done_FreeType(self.library);
            }
        }
    }
}
