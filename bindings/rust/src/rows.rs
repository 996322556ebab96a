//! Rows that an app has worked out for itself, held to the formulas.

use crate::{raw, Refusal, State};

/// What an app says of a review: the state after it, and the next interval, each as the 32 bits of a single.
///
/// Any bits may stand in them. A float would not do: a NaN need not keep its bits on its way.
#[derive(Clone, Copy, Debug, Default, PartialEq, Eq, Hash)]
pub struct Claimed {
    /// The bits of the stability after the review.
    pub stability: u32,
    /// The bits of the difficulty after the review.
    pub difficulty: u32,
    /// The bits of the next interval, in days.
    pub interval: u32,
}

impl Claimed {
    /// The bits of three singles.
    pub fn of_floats(after: State, interval: f32) -> Claimed {
        Claimed {
            stability: after.stability.to_bits(),
            difficulty: after.difficulty.to_bits(),
            interval: interval.to_bits(),
        }
    }
}

/// What is to be said of a row: that it is accepted, or which field is the first wrong one.
#[derive(Clone, Copy, Debug, PartialEq, Eq, Hash)]
#[repr(u32)]
pub enum Verdict {
    /// All three fields have the bits of the formulas.
    Accepted = 0,
    /// The stability after the review has other bits.
    Stability = 1,
    /// The stability is right, and the difficulty after the review has other bits.
    Difficulty = 2,
    /// The state is right, and the next interval has other bits.
    Interval = 3,
}

impl Verdict {
    /// The C function gives no other number.
    pub(crate) fn of_number(number: u32) -> Verdict {
        match number {
            0 => Verdict::Accepted,
            1 => Verdict::Stability,
            2 => Verdict::Difficulty,
            _ => Verdict::Interval,
        }
    }
}

/// Checks a row that an app has worked out for itself: a state before a review, the days since the review before, the
/// rating, the state after, and the next interval at `retention`.
///
/// It is accepted where the claimed bits are those of [`next_state`](crate::next_state) and, from the stability after, of
/// [`next_interval`](crate::next_interval); -0.0 is not 0.0, and a claimed NaN is judged like every other number.
///
/// Refusals: [`Refusal::WeightCount`], [`Refusal::WeightBox`] and [`Refusal::Scalar`], before any verdict.
///
/// ```
/// use fsrs6::{check_and_fill_parameters, check_row, next_interval, next_state, Claimed, State, Verdict};
/// let w = check_and_fill_parameters(&[])?;
/// let before = State { stability: 5.0, difficulty: 6.0 };
/// let after = next_state(&w, before, 4.0, 3)?;
/// let mut claimed = Claimed::of_floats(after, next_interval(&w, after.stability, 0.9)?);
/// assert_eq!(check_row(&w, before, 4.0, 3, 0.9, claimed)?, Verdict::Accepted);
/// claimed.interval ^= 1; // the next single
/// assert_eq!(check_row(&w, before, 4.0, 3, 0.9, claimed)?, Verdict::Interval);
/// # Ok::<(), fsrs6::Refusal>(())
/// ```
pub fn check_row(
    w: &[f32],
    before: State,
    day: f32,
    rating: u32,
    retention: f32,
    claimed: Claimed,
) -> Result<Verdict, Refusal> {
    raw::check_row(w, before, day, rating, retention, claimed)
}
