//! One training step, and its reverse.

use crate::{raw, Refusal, State, RECORD};

/// A step: a state, and the review that moves it, at the `row`-th row of its history.
///
/// At row 0 with the stability 0 it is a first step, and the day goes unread; a rating of 0 is padding.
#[derive(Clone, Copy, Debug, Default, PartialEq)]
pub struct Step {
    /// The state before it.
    pub state: State,
    /// The days since the review before.
    pub day: f32,
    /// 0, 1, 2, 3 or 4.
    pub rating: f32,
    /// Where the review stands in its history.
    pub row: usize,
}

/// What a step gives.
#[derive(Clone, Copy, Debug, Default, PartialEq)]
pub struct Stepped {
    /// The state after it.
    pub state: State,
    /// How it came about: ten numbers, from [`RECORD_STABILITY`](crate::RECORD_STABILITY) on, which
    /// [`record`](crate::record) reads.
    pub record: [f32; RECORD],
}

/// The gradients of a loss by the two numbers of a state.
#[derive(Clone, Copy, Debug, Default, PartialEq)]
pub struct StateGradient {
    /// By the stability.
    pub stability: f64,
    /// By the difficulty.
    pub difficulty: f64,
}

/// One training step.
///
/// Refusals: [`Refusal::WeightCount`], [`Refusal::WeightBox`], [`Refusal::Scalar`] for a state that is not finite,
/// [`Refusal::Rating`], [`Refusal::Day`].
///
/// ```
/// use fsrs6::{check_and_fill_parameters, training_step, Refusal, State, Step, BRANCH_FIRST, RECORD_BRANCH};
/// let w = check_and_fill_parameters(&[])?;
/// let first = training_step(&w, Step { rating: 1.0, ..Step::default() })?;
/// assert_eq!(first.state, State { stability: w[0], difficulty: w[4] });
/// assert_eq!(first.record[RECORD_BRANCH] as u32, BRANCH_FIRST);
/// assert_eq!(training_step(&w, Step { rating: 5.0, ..Step::default() }), Err(Refusal::Rating));
/// # Ok::<(), Refusal>(())
/// ```
pub fn training_step(w: &[f32], step: Step) -> Result<Stepped, Refusal> {
    raw::training_step(w, step)
}

/// The reverse of a step: from the gradients `after` by the state after it and `by_retrievability`, the gradients by the
/// state before it. What it gives by the weights is added to the 21 slots of `gw`.
///
/// Refusals: those of [`training_step`], and [`Refusal::SlotCount`] after those of the weights.
///
/// ```
/// use fsrs6::{check_and_fill_parameters, training_step_backward, Refusal, StateGradient, Step};
/// let w = check_and_fill_parameters(&[])?;
/// let first = Step { rating: 1.0, ..Step::default() };
/// let after = StateGradient { stability: 2.0, difficulty: 0.0 };
/// let mut gw = [0.0; 21];
/// training_step_backward(&w, first, after, 0.0, &mut gw)?;
/// assert_eq!(gw[0], 2.0); // the stability after a first step is weight 0
/// assert_eq!(training_step_backward(&w, first, after, 0.0, &mut gw[..20]), Err(Refusal::SlotCount));
/// # Ok::<(), Refusal>(())
/// ```
pub fn training_step_backward(
    w: &[f32],
    step: Step,
    after: StateGradient,
    by_retrievability: f64,
    gw: &mut [f64],
) -> Result<StateGradient, Refusal> {
    raw::training_step_backward(w, step, after, by_retrievability, gw)
}
