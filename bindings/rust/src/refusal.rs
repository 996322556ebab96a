//! Why a call was refused.

use std::error::Error;
use std::fmt;

/// Why a call was refused. A refused call has written nothing.
#[derive(Clone, Copy, Debug, PartialEq, Eq, Hash)]
#[repr(u32)]
pub enum Refusal {
    /// Not 21 weights.
    WeightCount = 1,
    /// A weight outside the box; in filling, also an entry that is not finite.
    WeightBox = 2,
    /// Rows or columns over the limit, or an input slice too short; columns of first recalls that are not of one length.
    Sizes = 3,
    /// Too few records, or step gradients, for the longest column.
    Room = 4,
    /// Not 21 gradient slots.
    SlotCount = 5,
    /// A rating that is read is not 0, 1, 2, 3 or 4.
    Rating = 6,
    /// A day that is read is outside -100000..100000; of a first recall also one that is not above 0.
    Day = 7,
    /// A review weight or label that is read is out of range, or a share or count of first recalls.
    Review = 8,
    /// A prefix of length 0.
    EmptyPrefix = 9,
    /// A kernel's argument is outside its domain.
    Kernel = 10,
    /// A malformed batch file.
    File = 11,
    /// A weight set to fill has not 0, 17, 19 or 21 entries.
    FillingCount = 12,
    /// An argument of a formula, of a single step or of the pull toward the old weights, or a default stability.
    Scalar = 13,
    /// A card from SM-2 gets no finite state, as by a retention not inside 0..1.
    Import = 14,
    /// A review on an earlier day than the one on which the card was last seen.
    Earlier = 15,
}

impl Refusal {
    /// All of them, by their numbers.
    pub const ALL: [Refusal; 15] = [
        Refusal::WeightCount,
        Refusal::WeightBox,
        Refusal::Sizes,
        Refusal::Room,
        Refusal::SlotCount,
        Refusal::Rating,
        Refusal::Day,
        Refusal::Review,
        Refusal::EmptyPrefix,
        Refusal::Kernel,
        Refusal::File,
        Refusal::FillingCount,
        Refusal::Scalar,
        Refusal::Import,
        Refusal::Earlier,
    ];

    /// The refusal's number, from 1 to 15, as the C functions return it.
    ///
    /// ```
    /// assert_eq!(fsrs6::Refusal::Day.number(), 7);
    /// ```
    pub const fn number(self) -> u32 {
        self as u32
    }

    /// What a returned number says. The library is proved to return no number above 15, so what stands here for such a
    /// number, the last refusal, is never seen; it spares every caller a panic or a variant of its own.
    pub(crate) fn accepted<T>(number: u32, answer: T) -> Result<T, Refusal> {
        match number {
            0 => Ok(answer),
            n => Err(Refusal::ALL.get(n as usize - 1).copied().unwrap_or(Refusal::Earlier)),
        }
    }
}

impl fmt::Display for Refusal {
    fn fmt(&self, f: &mut fmt::Formatter<'_>) -> fmt::Result {
        f.write_str(match self {
            Refusal::WeightCount => "not 21 weights",
            Refusal::WeightBox => "a weight is outside its range",
            Refusal::Sizes => "rows or columns are over the limit, or an input slice is too short",
            Refusal::Room => "too few records or step gradients for the longest column",
            Refusal::SlotCount => "not 21 gradient slots",
            Refusal::Rating => "a rating is not 0, 1, 2, 3 or 4",
            Refusal::Day => "a day is out of range",
            Refusal::Review => "a review weight, a label, a share or a count is out of range",
            Refusal::EmptyPrefix => "a prefix has the length 0",
            Refusal::Kernel => "an argument is outside the kernel's domain",
            Refusal::File => "the batch file is malformed",
            Refusal::FillingCount => "a weight set to fill has not 0, 17, 19 or 21 entries",
            Refusal::Scalar => "an argument is not finite or out of range",
            Refusal::Import => "a card from SM-2 gets no finite stability or difficulty",
            Refusal::Earlier => "the day is earlier than the one on which the card was last seen",
        })
    }
}

impl Error for Refusal {}
