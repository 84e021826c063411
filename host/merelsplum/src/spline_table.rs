use crate::ffi;
use crate::refusal::Refusal;

/// What became of an offer that was not refused, and how many colours were forced on the way.
#[derive(Clone, Copy, Debug, PartialEq, Eq)]
pub enum Offer {
    /// The pair is kept; the two splines have different colours.
    Kept {
        /// 0 to 15.
        steps: u8,
    },
    /// The pair could not be kept; if it was kept before, it no longer is. All else is as it was.
    Declined {
        /// 16 or 17.
        steps: u8,
    },
}

/// The colours of splines, and which pairs of them are kept apart.
#[derive(Clone, Debug, Default, PartialEq, Eq)]
pub struct SplineTable {
    colors: Vec<u8>,
    pairs: Vec<u8>,
}

impl SplineTable {
    /// Splines of these colours, 0, 1 or 2 (Yellow, Cyan, Magenta), with no pair kept.
    #[must_use]
    pub fn new(colors: &[u8]) -> SplineTable {
        SplineTable { colors: colors.to_vec(), pairs: vec![0; colors.len() * colors.len()] }
    }

    /// With a table of pairs by rows, 1 where a pair is kept. The table is looked at when an offer is made, and not
    /// here.
    #[must_use]
    pub fn from_parts(colors: Vec<u8>, pairs: Vec<u8>) -> SplineTable {
        SplineTable { colors, pairs }
    }

    /// The splines' colours.
    #[must_use]
    pub fn colors(&self) -> &[u8] {
        &self.colors
    }

    /// The table of pairs, by rows.
    #[must_use]
    pub fn pairs(&self) -> &[u8] {
        &self.pairs
    }

    /// Whether the pair of `a` and `b` is kept; false where one is out of range.
    #[must_use]
    pub fn is_kept(&self, a: usize, b: usize) -> bool {
        let n = self.colors.len();
        a < n && b < n && self.pairs.get(a * n + b).is_some_and(|&entry| entry != 0)
    }

    /// Offers to keep `a` and `b` apart. Colours are changed as needed; where that does not end within some steps, the
    /// offer is declined.
    ///
    /// A table may start with clashes, kept pairs of one colour. No offer makes one: two splines that clash after any
    /// list of offers clashed with each other before it, and no offer of them was kept. A declined offer drops its pair
    /// if that was kept before; only a pair that clashes can come to that. Of a list in which no offer drops its pair,
    /// declined and refused offers can be left out: the others get the same answers, and the table ends the same. It is
    /// enough that none of the offered pairs clashes before the first offer.
    ///
    /// # Errors
    ///
    /// [`Refusal::TooMany`] above 64 splines, [`Refusal::LengthMismatch`] or [`Refusal::BadTable`].
    ///
    /// ```
    /// use merelsplum::{Offer, Refusal, SplineTable};
    ///
    /// let mut table = SplineTable::new(&[0, 0]);
    /// assert_eq!(table.offer(0, 1), Ok(Offer::Kept { steps: 0 }));
    /// assert_eq!(table.colors(), [0, 1]);
    /// assert!(table.is_kept(1, 0));
    /// assert_eq!(table.offer(1, 1), Err(Refusal::BadTable));
    /// ```
    pub fn offer(&mut self, a: usize, b: usize) -> Result<Offer, Refusal> {
        let code = ffi::try_add_edge(&mut self.colors, &mut self.pairs, a, b);
        let [steps, outcome, ..] = code.to_le_bytes();
        match outcome {
            1 => Ok(Offer::Kept { steps }),
            2 => Ok(Offer::Declined { steps }),
            _ => Err(Refusal::from_code(steps.into())),
        }
    }
}
