//! The scalar core of FSRS-6: kernels, formulas, the training step, the two losses, a pull toward the old weights and starting
//! stabilities, each proved to be its definition.
//!
//! These are safe functions over the C library of `include/fsrs6.h`, one for each of its functions and under its name; a
//! loss has one, and its batch tells the mode ([`Align`]). A call answers, or gives the [`Refusal`] by which it was refused
//! and has then written nothing. Every argument is checked: no input panics, and any bits may stand in any number. The
//! header has the range of each, and which cells of a loss call are read.
//!
//! ```
//! use fsrs6::{check_and_fill_parameters, first_state, next_interval, next_state_on, Refusal, Seen};
//!
//! let w = check_and_fill_parameters(&[])?; // the default weights
//! let mut card = Seen { state: first_state(&w, 3)?, day: 19000 }; // a new card, rated 3 on its first day
//! for (day, rating) in [(19002, 3), (19013, 1), (19013, 3)] {
//!     card = next_state_on(&w, card, day, rating)?;
//!     let days = next_interval(&w, card.state.stability, 0.9)?;
//!     println!("day {}: see it again on day {}", card.day, card.day + days.round().max(1.0) as u32);
//! }
//! assert_eq!(card.day, 19013);
//! assert_eq!(next_state_on(&w, card, 19012, 3), Err(Refusal::Earlier)); // and the card is as it was
//! # Ok::<(), fsrs6::Refusal>(())
//! ```
//!
//! A card begins with its first review, whose rating alone gives its state: [`first_state`]. Every later review is a call
//! of [`next_state_on`], which is told its day and carries it on with the state ([`Seen`]); or of [`next_state`], which is
//! told the days between. After each [`next_interval`] tells when to show the card again.
//!
//! Why a step moved a card is told by [`explain_step`], and where a loss call has its first bad cell by [`card_loss_fault`] and
//! its like.
//!
//! No function keeps anything from one call to the next, so any number of calls may run at once, on any threads. One duty
//! of the header's no type can see to: a thread's floats are as they start, rounded to nearest and subnormals not flushed.
#![deny(missing_docs)]
#![deny(unsafe_code)]

mod explain;
mod faults;
mod formulas;
mod initial;
mod kernels;
mod losses;
mod penalty;
#[allow(unsafe_code)]
mod raw;
mod record;
mod refusal;
mod rows;
mod step;

pub use explain::{explain_step, Explanation, Held, Reason};
pub use faults::{
    batch_file_fault, batch_loss_and_grad_fault, batch_loss_fault, card_loss_and_grad_fault, card_loss_fault, Fault,
    Place,
};
pub use formulas::{
    check_and_fill_parameters, first_state, init_difficulty, mean_reversion, memory_state_from_sm2, next_difficulty,
    next_interval, next_state, next_state_on, power_forgetting_curve, stability_after_failure, stability_after_success,
    stability_short_term,
};
pub use initial::initial_stability;
pub use kernels::{
    exp_f32, exp_f64, expm1_f32, fma_f32, fma_f64, ln_f32, ln_f64, pow_f32, pow_f64, round_f32, round_f64,
};
pub use losses::{
    batch_file, batch_loss, batch_loss_and_grad, card_loss, card_loss_and_grad, Align, Cards, Gradient, Prefixes,
};
pub use penalty::l2_penalty;
pub use record::{record, Branch, Record};
pub use refusal::Refusal;
pub use rows::{check_row, Claimed, Verdict};
pub use step::{training_step, training_step_backward, StateGradient, Step, Stepped};

/// How many weights a set has, and slots a gradient.
pub const WEIGHTS: usize = 21;
/// How many singles the record of a step has, and columns the room that is lent for records: [`record`] reads it.
pub const RECORD: usize = 10;
/// In the record of a step: the stability before it, as given.
pub const RECORD_STABILITY: usize = 0;
/// In the record of a step: the difficulty before it, as given.
pub const RECORD_DIFFICULTY: usize = 1;
/// In the record of a step: the day, +0.0 where it goes unread.
pub const RECORD_DAY: usize = 2;
/// In the record of a step: the rating.
pub const RECORD_RATING: usize = 3;
/// In the record of a step: the retrievability.
pub const RECORD_RETRIEVABILITY: usize = 4;
/// In the record of a step: the stability after it, before its last clamp.
pub const RECORD_PRE_STABILITY: usize = 5;
/// In the record of a step: the difficulty after it, before its last clamp.
pub const RECORD_PRE_DIFFICULTY: usize = 6;
/// In the record of a step: the branch that it took, such as [`BRANCH_FIRST`].
pub const RECORD_BRANCH: usize = 7;
/// In the record of a step: the raw multiplier (same day) or the raw stability (lapse), else +0.0.
pub const RECORD_BRANCH_RAW: usize = 8;
/// In the record of a step: the multiplier that was used (same day) or the floor (lapse), else +0.0.
pub const RECORD_BRANCH_OTHER: usize = 9;
/// The branch of padding.
pub const BRANCH_PADDING: u32 = 0;
/// The branch of a first review.
pub const BRANCH_FIRST: u32 = 1;
/// The branch of a review on the same day.
pub const BRANCH_SAME_DAY: u32 = 2;
/// The branch of a review on the same day whose raw multiplier was below 1, so that 1 was used.
pub const BRANCH_SAME_DAY_ONE: u32 = 3;
/// The branch of a lapse.
pub const BRANCH_LAPSE: u32 = 4;
/// The branch of a lapse whose floor was below the raw stability, and was used.
pub const BRANCH_LAPSE_FLOORED: u32 = 5;
/// The branch of a review that succeeded.
pub const BRANCH_SUCCESS: u32 = 6;
/// The most rows of a loss call.
pub const MAX_ROWS: u32 = 2048;
/// The most columns of a loss call.
pub const MAX_COLUMNS: u32 = 512;
/// The most bytes of a batch file.
pub const FILE_BYTES: usize = 65536;
/// The most rows of a batch file.
pub const FILE_ROWS: u32 = 512;
/// The last day number ([`Seen`]).
pub const MAX_DAY: u32 = 100000;
/// The most rows of [`initial_stability`].
pub const MAX_RECALLS: usize = 4096;
/// The most that a batch size or a total of [`l2_penalty`] is: 2^31.
pub const MAX_SIZE: u64 = 1 << 31;

/// What the memory of a card is after a review. A card that has had none has no state: [`first_state`] gives its first.
///
/// The default, (0, 0), is what a training step at row 0 begins from ([`Step`]); [`next_state`] would clamp it.
#[derive(Clone, Copy, Debug, Default, PartialEq)]
pub struct State {
    /// The days after which the probability of recall is 0.9.
    pub stability: f32,
    /// From 1, easy, to 10.
    pub difficulty: f32,
}

/// A card's state, and when it was last seen.
#[derive(Clone, Copy, Debug, Default, PartialEq)]
pub struct Seen {
    /// After that review.
    pub state: State,
    /// The number of that day, from 0 to [`MAX_DAY`], on a calendar that counts whole days from any day.
    pub day: u32,
}
