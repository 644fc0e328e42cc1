//! Why a call refused.

use crate::{LIMIT, LINE_LIMIT};
use core::error::Error;
use core::fmt;

/// Why a call refused. Each refusal has the number that the library returns for it.
///
/// ```
/// use cegridom::{judge_split, Edition, Refusal};
///
/// let refusal = judge_split(b"aabaabaa", Edition::One, &[3, 8]).unwrap_err();
/// assert_eq!(refusal, Refusal::NotBlock { index: 1 });
/// assert_eq!((refusal.number(), refusal.index()), (4, Some(1)));
/// ```
#[derive(Clone, Copy, Debug, PartialEq, Eq, Hash)]
#[non_exhaustive]
pub enum Refusal {
    /// 1: the word, or either of two, is longer than [`LIMIT`]; in a plan line of four digits a
    /// number, than [`LINE_LIMIT`].
    TooLong,
    /// 2: no split exists; of two words, neither has one; for squares, no split into squares.
    NoSplit,
    /// 3: an end is not above the one before it (0 before the first), or is above the length.
    BadEnd {
        /// Which end, from 1.
        index: u32,
    },
    /// 4: the piece up to this end is not a block; for squares, not a square; for a path, no run has
    /// the number given, or its unit is above 256, or the run does not enclose the piece, or the piece
    /// is shorter than twice (in edition 2, three times) the run's unit.
    NotBlock {
        /// Which end, from 1.
        index: u32,
    },
    /// 5: the last end (0 if there are none) is not the length.
    Unfinished,
    /// 6: positions outside the word, or in the wrong order.
    BadPosition,
    /// 7: fewer output places (for writing a plan or a page, bytes) than the answer needs.
    TooFewPlaces,
    /// 8: a choice other than 1 or 2. Only the functions in [`raw`](crate::raw) take such a one.
    BadChoice,
    /// 9: a working table of fewer than [`work_places`](crate::work_places) places; of two words,
    /// for the longer.
    ShortTable,
    /// 10: a path with an odd count of numbers. Only the functions in [`raw`](crate::raw) take such
    /// a one.
    OddPath,
    /// 11: bytes that are not one plan line, or whose count of ends differs from the one stated. A
    /// line of six digits a number whose length is [`LINE_LIMIT`] or less is none.
    NotPlan,
    /// 12: an edition other than 1 or 2. Only the functions in [`raw`](crate::raw) take such a one.
    BadEdition,
    /// A number that this version of the crate does not know, from a newer archive. Only
    /// [`Refusal::check`] makes it.
    #[non_exhaustive]
    Unknown {
        /// The number, above 12.
        number: u32,
        /// The index that came with it; 0 where there is none.
        index: u32,
    },
}

impl Refusal {
    /// What the result and the index of a function in [`raw`](crate::raw) say: `Ok` for 0, else the
    /// refusal. A number that is not known is an error like any other.
    ///
    /// ```
    /// use cegridom::Refusal;
    ///
    /// assert_eq!(Refusal::check(0, 0), Ok(()));
    /// assert_eq!(Refusal::check(3, 2), Err(Refusal::BadEnd { index: 2 }));
    /// assert_eq!(Refusal::check(99, 0).unwrap_err().number(), 99);
    /// ```
    pub const fn check(result: u32, index: u32) -> Result<(), Refusal> {
        Err(match result {
            0 => return Ok(()),
            1 => Refusal::TooLong,
            2 => Refusal::NoSplit,
            3 => Refusal::BadEnd { index },
            4 => Refusal::NotBlock { index },
            5 => Refusal::Unfinished,
            6 => Refusal::BadPosition,
            7 => Refusal::TooFewPlaces,
            8 => Refusal::BadChoice,
            9 => Refusal::ShortTable,
            10 => Refusal::OddPath,
            11 => Refusal::NotPlan,
            12 => Refusal::BadEdition,
            number => Refusal::Unknown { number, index },
        })
    }

    /// The number of the refusal.
    pub const fn number(self) -> u32 {
        match self {
            Refusal::TooLong => 1,
            Refusal::NoSplit => 2,
            Refusal::BadEnd { .. } => 3,
            Refusal::NotBlock { .. } => 4,
            Refusal::Unfinished => 5,
            Refusal::BadPosition => 6,
            Refusal::TooFewPlaces => 7,
            Refusal::BadChoice => 8,
            Refusal::ShortTable => 9,
            Refusal::OddPath => 10,
            Refusal::NotPlan => 11,
            Refusal::BadEdition => 12,
            Refusal::Unknown { number, .. } => number,
        }
    }

    /// The index of the end, from 1, where the refusal has one.
    pub const fn index(self) -> Option<u32> {
        match self {
            Refusal::BadEnd { index } | Refusal::NotBlock { index } => Some(index),
            Refusal::Unknown { index, .. } if index > 0 => Some(index),
            _ => None,
        }
    }
}

impl fmt::Display for Refusal {
    fn fmt(&self, f: &mut fmt::Formatter<'_>) -> fmt::Result {
        match self {
            Refusal::TooLong => write!(
                f,
                "a word is longer than {LIMIT} (in a plan line of four digits, than {LINE_LIMIT})"
            ),
            Refusal::NoSplit => write!(f, "no split exists"),
            Refusal::BadEnd { index } => write!(
                f,
                "end {index} is not above the one before it, or is above the length"
            ),
            Refusal::NotBlock { index } => write!(
                f,
                "the piece up to end {index} is not a block (for squares, not a square), or not one \
                 of the run given"
            ),
            Refusal::Unfinished => write!(f, "the last end is not the length"),
            Refusal::BadPosition => write!(f, "positions outside the word, or in the wrong order"),
            Refusal::TooFewPlaces => write!(f, "fewer output places than the answer needs"),
            Refusal::BadChoice => write!(f, "a choice other than 1 or 2"),
            Refusal::ShortTable => write!(f, "the working table is too short"),
            Refusal::OddPath => write!(f, "a path with an odd count of numbers"),
            Refusal::NotPlan => write!(f, "the bytes are not one plan line"),
            Refusal::BadEdition => write!(f, "an edition other than 1 or 2"),
            Refusal::Unknown { number, index } => {
                write!(f, "refusal {number} with index {index}, which is not known")
            }
        }
    }
}

impl Error for Refusal {}
