//! Why a card moved.

use crate::{raw, Refusal, Step};
use std::fmt;

/// Which rule gave the stability after a training step: one of these holds of a step, and no other.
///
/// The numbers up to 5 are those of the [`Branch`](crate::Branch) in a record; a success is told by its rating.
#[derive(Clone, Copy, Debug, PartialEq, Eq, Hash)]
#[repr(u32)]
pub enum Reason {
    /// Padding, which is no review: the state was only clamped.
    Padding = 0,
    /// A first review: a weight.
    First = 1,
    /// A review on the same day: the raw multiplier, which is 1 or more, or the rating is 1.
    SameDayRaw = 2,
    /// A review on the same day: the raw multiplier was below 1, and 1 was taken.
    SameDayOne = 3,
    /// A lapse: the raw stability, which the floor is not below.
    LapseRaw = 4,
    /// A lapse: the floor, which is below the raw stability.
    LapseFloor = 5,
    /// A success, rated 3.
    Success = 6,
    /// A success, rated 2: with weight 15.
    SuccessHard = 7,
    /// A success, rated 4: with weight 16.
    SuccessEasy = 8,
}

impl Reason {
    /// All of them, by their numbers.
    pub const ALL: [Reason; 9] = [
        Reason::Padding,
        Reason::First,
        Reason::SameDayRaw,
        Reason::SameDayOne,
        Reason::LapseRaw,
        Reason::LapseFloor,
        Reason::Success,
        Reason::SuccessHard,
        Reason::SuccessEasy,
    ];

    /// Its number, as the C function gives it.
    pub const fn number(self) -> u32 {
        self as u32
    }

    /// The C function gives no number above 8.
    pub(crate) fn of_number(number: u32) -> Reason {
        Reason::ALL.get(number as usize).copied().unwrap_or(Reason::SuccessEasy)
    }
}

impl fmt::Display for Reason {
    fn fmt(&self, f: &mut fmt::Formatter<'_>) -> fmt::Result {
        f.write_str(match self {
            Reason::Padding => "padding",
            Reason::First => "first review",
            Reason::SameDayRaw => "same day, raw multiplier taken",
            Reason::SameDayOne => "same day, multiplier 1 taken",
            Reason::LapseRaw => "lapse, raw value taken",
            Reason::LapseFloor => "lapse, floor taken",
            Reason::Success => "success",
            Reason::SuccessHard => "success, hard",
            Reason::SuccessEasy => "success, easy",
        })
    }
}

/// Whether a number of the state after a step was held at an end of its range: the number before the last clamp, or in
/// padding the given one, lay outside. One that is exactly at an end was not held.
#[derive(Clone, Copy, Debug, PartialEq, Eq, Hash)]
#[repr(u32)]
pub enum Held {
    /// It was not.
    Free = 0,
    /// At the low end, 0.0001 (stability) or 1 (difficulty).
    Low = 1,
    /// At the high end, 36500 (stability) or 10 (difficulty).
    High = 2,
}

impl Held {
    /// All three, by their numbers.
    pub const ALL: [Held; 3] = [Held::Free, Held::Low, Held::High];

    /// Its number, as the C function gives it.
    pub const fn number(self) -> u32 {
        self as u32
    }

    /// The C function gives no number above 2.
    pub(crate) fn of_number(number: u32) -> Held {
        Held::ALL.get(number as usize).copied().unwrap_or(Held::High)
    }
}

impl fmt::Display for Held {
    fn fmt(&self, f: &mut fmt::Formatter<'_>) -> fmt::Result {
        f.write_str(match self {
            Held::Free => "not held",
            Held::Low => "held at its low end",
            Held::High => "held at its high end",
        })
    }
}

/// Why a step gave what it gave.
#[derive(Clone, Copy, Debug, PartialEq, Eq, Hash)]
pub struct Explanation {
    /// Which rule gave the stability.
    pub reason: Reason,
    /// Whether the stability was held at an end.
    pub stability_held: Held,
    /// Whether the difficulty was held at an end.
    pub difficulty_held: Held,
}

/// The reason of the step that [`training_step`](crate::training_step) makes of the same arguments, and which of its two
/// numbers were held.
///
/// Refusals: those of that step.
///
/// ```
/// use fsrs6::{check_and_fill_parameters, explain_step, Held, Reason, Refusal, State, Step};
/// let w = check_and_fill_parameters(&[])?;
/// let step = Step { state: State { stability: 5.0, difficulty: 9.9 }, day: 4.0, rating: 1.0, row: 1 };
/// let lapse = explain_step(&w, step)?;
/// assert_eq!(lapse.reason, Reason::LapseRaw);
/// assert_eq!(lapse.reason.to_string(), "lapse, raw value taken");
/// assert_eq!(explain_step(&w, Step { rating: 2.0, ..step })?.reason, Reason::SuccessHard);
/// // padding is held where the given state lies outside its range
/// let padding = explain_step(&w, Step::default())?;
/// assert_eq!((padding.reason, padding.stability_held), (Reason::Padding, Held::Low));
/// assert_eq!(explain_step(&w, Step { rating: 5.0, ..step }), Err(Refusal::Rating));
/// # Ok::<(), Refusal>(())
/// ```
pub fn explain_step(w: &[f32], step: Step) -> Result<Explanation, Refusal> {
    raw::explain_step(w, step)
}
