use std::error::Error;
use std::fmt;

/// Why a call is refused. Of several reasons the first that applies is given.
#[derive(Clone, Copy, Debug, PartialEq, Eq, Hash)]
#[non_exhaustive]
pub enum Refusal {
    /// 1: a file ends inside a record or before `EN`.
    Truncated = 1,
    /// 2: a mark is unknown.
    UnknownMark,
    /// 3: a mark is not allowed where it stands, `EN` while `DS` is due, or bytes after `EN`.
    MisplacedMark,
    /// 4: more than 64 contours, 256 edges, 64 splines or 2,016 distances.
    TooMany,
    /// 5: a strategy or a kind of edge is unknown.
    UnknownKind,
    /// 6: the threshold is NaN or outside -1 to 1.
    BadThreshold,
    /// 7: a coordinate is not finite or beyond 1,048,576.
    BadCoordinate,
    /// 8: lengths disagree, or distances are not as many as pairs of splines.
    LengthMismatch,
    /// 9: a distance is NaN, infinite or below zero.
    BadDistance,
    /// 10: a spline table is at fault, or the two splines of an offer are out of range or equal.
    BadTable,
    /// 11: the result would not fit. The functions of this crate make room for every result.
    ResultTooShort,
}

impl Refusal {
    /// All of them, by number.
    pub const ALL: [Refusal; 11] = [
        Refusal::Truncated,
        Refusal::UnknownMark,
        Refusal::MisplacedMark,
        Refusal::TooMany,
        Refusal::UnknownKind,
        Refusal::BadThreshold,
        Refusal::BadCoordinate,
        Refusal::LengthMismatch,
        Refusal::BadDistance,
        Refusal::BadTable,
        Refusal::ResultTooShort,
    ];

    /// Its number, 1 to 11, as a listing has it.
    ///
    /// ```
    /// # use merelsplum::Refusal;
    /// assert_eq!(Refusal::TooMany.number(), 4);
    /// assert!(Refusal::ALL.iter().zip(1..).all(|(refusal, number)| refusal.number() == number));
    /// ```
    #[must_use]
    pub fn number(self) -> u8 {
        self as u8
    }

    /// The refusal of a number.
    #[must_use]
    pub fn from_number(number: u8) -> Option<Refusal> {
        Self::ALL.get((number as usize).wrapping_sub(1)).copied()
    }

    pub(crate) fn from_code(number: u64) -> Refusal {
        let refusal = number.try_into().ok().and_then(Refusal::from_number);
        refusal.expect("the library has a refusal that this crate does not know")
    }

    /// Its short name.
    ///
    /// ```
    /// # use merelsplum::Refusal;
    /// assert_eq!(Refusal::TooMany.word(), "overfull");
    /// ```
    #[must_use]
    pub fn word(self) -> &'static str {
        match self {
            Refusal::Truncated => "torn",
            Refusal::UnknownMark => "unmarked",
            Refusal::MisplacedMark => "stray",
            Refusal::TooMany => "overfull",
            Refusal::UnknownKind => "no such kind",
            Refusal::BadThreshold => "bad threshold",
            Refusal::BadCoordinate => "off the sheet",
            Refusal::LengthMismatch => "miscounted",
            Refusal::BadDistance => "bad distance",
            Refusal::BadTable => "bad table",
            Refusal::ResultTooShort => "short tray",
        }
    }

    fn reason(self) -> &'static str {
        match self {
            Refusal::Truncated => "the file ends inside a record or before EN",
            Refusal::UnknownMark => "a mark is unknown",
            Refusal::MisplacedMark => "a mark is not allowed where it stands, or bytes follow EN",
            Refusal::TooMany => "more than 64 contours, 256 edges, 64 splines or 2016 distances",
            Refusal::UnknownKind => "a strategy or a kind of edge is unknown",
            Refusal::BadThreshold => "the threshold is no number from -1 to 1",
            Refusal::BadCoordinate => "a coordinate is no number from -1048576 to 1048576",
            Refusal::LengthMismatch => "lengths disagree, or distances are not as many as pairs of splines",
            Refusal::BadDistance => "a distance is no finite number from 0 on",
            Refusal::BadTable => "a spline table is at fault, or the two splines are out of range or equal",
            Refusal::ResultTooShort => "the result does not fit",
        }
    }
}

/// The word and the reason.
///
/// ```
/// # use merelsplum::Refusal;
/// assert_eq!(Refusal::BadThreshold.to_string(), "bad threshold: the threshold is no number from -1 to 1");
/// ```
impl fmt::Display for Refusal {
    fn fmt(&self, f: &mut fmt::Formatter) -> fmt::Result {
        write!(f, "{}: {}", self.word(), self.reason())
    }
}

impl Error for Refusal {}
