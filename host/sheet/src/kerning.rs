//! By how much pairs of glyphs go nearer or further apart: from the table `kern`, or from GPOS where that is missing.

use ttf_parser::gpos::{PairAdjustment, PositioningSubtable};
use ttf_parser::kern::{Format, Subtable};
use ttf_parser::opentype_layout::LayoutTable;
use ttf_parser::{Face, GlyphId, Tag};

/// The tables of a font that kern.
pub enum Kerning<'a> {
    Kern(Vec<Subtable<'a>>),
    /// The pair adjustments of each lookup of the feature `kern`.
    Gpos(Vec<Vec<PairAdjustment<'a>>>),
}

impl<'a> Kerning<'a> {
    pub fn new(face: &Face<'a>) -> Kerning<'a> {
        let tables = face.tables();
        let plain = |t: &Subtable| t.horizontal && !t.variable && !t.has_state_machine && !t.has_cross_stream;
        match (tables.kern, tables.gpos) {
            (None, Some(gpos)) => Kerning::Gpos(lookups(&gpos)),
            (kern, _) => Kerning::Kern(kern.into_iter().flat_map(|kern| kern.subtables).filter(plain).collect()),
        }
    }

    /// In units; 0 where the pair is not there.
    pub fn pair(&self, left: GlyphId, right: GlyphId) -> f64 {
        match self {
            Kerning::Kern(tables) => tables.iter().filter_map(|table| table.glyphs_kerning(left, right)).map(f64::from).sum(),
            Kerning::Gpos(lookups) => lookups.iter().filter_map(|subtables| adjustment(subtables, left, right)).sum(),
        }
    }

    /// Whether a glyph can be the first of a pair.
    pub fn has(&self, left: GlyphId) -> bool {
        match self {
            // only a list of pairs shows what it has nothing for
            Kerning::Kern(tables) => tables.iter().any(|table| match table.format {
                Format::Format0(list) => list.pairs.into_iter().any(|pair| pair.left() == left),
                _ => true,
            }),
            Kerning::Gpos(lookups) => lookups.iter().flatten().any(|subtable| subtable.coverage().contains(left)),
        }
    }
}

/// The lookups that features called `kern` have, each once and in order.
fn lookups<'a>(gpos: &LayoutTable<'a>) -> Vec<Vec<PairAdjustment<'a>>> {
    let features = (0..gpos.features.len()).filter_map(|i| gpos.features.get(i));
    let kern = features.filter(|feature| feature.tag == Tag::from_bytes(b"kern"));
    let mut numbers: Vec<u16> = kern.flat_map(|feature| feature.lookup_indices).collect();
    numbers.sort_unstable();
    numbers.dedup();
    let pairs = |number: u16| {
        let subtables = gpos.lookups.get(number)?.subtables.into_iter::<PositioningSubtable>();
        Some(subtables.filter_map(|table| if let PositioningSubtable::Pair(pair) = table { Some(pair) } else { None }).collect())
    };
    numbers.into_iter().filter_map(pairs).collect()
}

/// Of a lookup's tables the first that has the pair decides.
fn adjustment(subtables: &[PairAdjustment], left: GlyphId, right: GlyphId) -> Option<f64> {
    let found = subtables.iter().find_map(|subtable| {
        let place = subtable.coverage().get(left)?;
        match subtable {
            PairAdjustment::Format1 { sets, .. } => sets.get(place)?.get(right),
            PairAdjustment::Format2 { classes, matrix, .. } => matrix.get((classes.0.get(left), classes.1.get(right))),
        }
    });
    found.map(|(first, _)| first.x_advance.into())
}
