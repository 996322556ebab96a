//! Weight sets, and the study screen's formulas on them.

use crate::{raw, Refusal, Seen, State, WEIGHTS};

/// A set of 0, 17, 19 or 21 weights made whole: none gives the defaults, a shorter one is of an older version.
///
/// Refusals: [`Refusal::FillingCount`], [`Refusal::WeightBox`].
///
/// ```
/// use fsrs6::{check_and_fill_parameters, Refusal};
/// let w = check_and_fill_parameters(&[])?;
/// assert_eq!(check_and_fill_parameters(&w), Ok(w));
/// assert_eq!(check_and_fill_parameters(&w[..18]), Err(Refusal::FillingCount));
/// # Ok::<(), Refusal>(())
/// ```
pub fn check_and_fill_parameters(parameters: &[f32]) -> Result<[f32; WEIGHTS], Refusal> {
    raw::check_and_fill_parameters(parameters)
}

/// The probability of recall `t` days after a review that left the stability `s`.
///
/// Refusals: [`Refusal::WeightCount`], [`Refusal::WeightBox`], [`Refusal::Scalar`].
///
/// ```
/// use fsrs6::{check_and_fill_parameters, power_forgetting_curve, Refusal};
/// let w = check_and_fill_parameters(&[])?;
/// assert_eq!(power_forgetting_curve(&w, 0.0, 5.0), Ok(1.0));
/// assert!(power_forgetting_curve(&w, 9.0, 5.0)? < 0.9);
/// assert_eq!(power_forgetting_curve(&w, f32::NAN, 5.0), Err(Refusal::Scalar));
/// # Ok::<(), Refusal>(())
/// ```
pub fn power_forgetting_curve(w: &[f32], t: f32, s: f32) -> Result<f32, Refusal> {
    raw::power_forgetting_curve(w, t, s)
}

/// The days after which the desired retention is reached.
///
/// Refusals: [`Refusal::WeightCount`], [`Refusal::WeightBox`], [`Refusal::Scalar`].
///
/// ```
/// use fsrs6::{check_and_fill_parameters, next_interval, Refusal};
/// let w = check_and_fill_parameters(&[])?;
/// assert!(next_interval(&w, 5.0, 0.8)? > next_interval(&w, 5.0, 0.9)?);
/// assert_eq!(next_interval(&w, f32::INFINITY, 0.9), Err(Refusal::Scalar));
/// # Ok::<(), Refusal>(())
/// ```
pub fn next_interval(w: &[f32], stability: f32, desired_retention: f32) -> Result<f32, Refusal> {
    raw::next_interval(w, stability, desired_retention)
}

/// The difficulty after a first review, not clamped.
///
/// Refusals: [`Refusal::WeightCount`], [`Refusal::WeightBox`], [`Refusal::Scalar`].
///
/// ```
/// use fsrs6::{check_and_fill_parameters, init_difficulty, Refusal};
/// let w = check_and_fill_parameters(&[])?;
/// assert_eq!(init_difficulty(&w, 1), Ok(w[4]));
/// assert_eq!(init_difficulty(&w, 5), Err(Refusal::Scalar));
/// # Ok::<(), Refusal>(())
/// ```
pub fn init_difficulty(w: &[f32], rating: u32) -> Result<f32, Refusal> {
    raw::init_difficulty(w, rating)
}

/// A difficulty moved a little towards that of an easy first review.
///
/// Refusals: [`Refusal::WeightCount`], [`Refusal::WeightBox`], [`Refusal::Scalar`].
///
/// ```
/// use fsrs6::{check_and_fill_parameters, mean_reversion, Refusal};
/// let mut w = check_and_fill_parameters(&[])?;
/// w[7] = 0.0; // the share of the first
/// assert_eq!(mean_reversion(&w, 3.0, 6.0), Ok(6.0));
/// assert_eq!(mean_reversion(&w, f32::NAN, 6.0), Err(Refusal::Scalar));
/// # Ok::<(), Refusal>(())
/// ```
pub fn mean_reversion(w: &[f32], init: f32, current: f32) -> Result<f32, Refusal> {
    raw::mean_reversion(w, init, current)
}

/// The difficulty after a review of a card of difficulty `d`.
///
/// Refusals: [`Refusal::WeightCount`], [`Refusal::WeightBox`], [`Refusal::Scalar`].
///
/// ```
/// use fsrs6::{check_and_fill_parameters, next_difficulty, Refusal};
/// let w = check_and_fill_parameters(&[])?;
/// assert!(next_difficulty(&w, 5.0, 1)? > next_difficulty(&w, 5.0, 4)?);
/// assert_eq!(next_difficulty(&w, 0.5, 3), Err(Refusal::Scalar));
/// # Ok::<(), Refusal>(())
/// ```
pub fn next_difficulty(w: &[f32], d: f32, rating: u32) -> Result<f32, Refusal> {
    raw::next_difficulty(w, d, rating)
}

/// The stability after a review that succeeded, at the retrievability `r`.
///
/// Refusals: [`Refusal::WeightCount`], [`Refusal::WeightBox`], [`Refusal::Scalar`].
///
/// ```
/// use fsrs6::{check_and_fill_parameters, stability_after_success, Refusal};
/// let w = check_and_fill_parameters(&[])?;
/// assert!(stability_after_success(&w, 5.0, 0.9, 6.0, 3)? > 5.0);
/// assert_eq!(stability_after_success(&w, 5.0, 1.5, 6.0, 3), Err(Refusal::Scalar));
/// # Ok::<(), Refusal>(())
/// ```
pub fn stability_after_success(w: &[f32], s: f32, r: f32, d: f32, rating: u32) -> Result<f32, Refusal> {
    raw::stability_after_success(w, s, r, d, rating)
}

/// The stability after a lapse, at the retrievability `r`.
///
/// Refusals: [`Refusal::WeightCount`], [`Refusal::WeightBox`], [`Refusal::Scalar`].
///
/// ```
/// use fsrs6::{check_and_fill_parameters, stability_after_failure, Refusal};
/// let w = check_and_fill_parameters(&[])?;
/// assert!(stability_after_failure(&w, 5.0, 0.9, 6.0)? < 5.0);
/// assert_eq!(stability_after_failure(&w, 5.0, 0.9, 11.0), Err(Refusal::Scalar));
/// # Ok::<(), Refusal>(())
/// ```
pub fn stability_after_failure(w: &[f32], s: f32, r: f32, d: f32) -> Result<f32, Refusal> {
    raw::stability_after_failure(w, s, r, d)
}

/// The stability after a second review on the same day.
///
/// Refusals: [`Refusal::WeightCount`], [`Refusal::WeightBox`], [`Refusal::Scalar`].
///
/// ```
/// use fsrs6::{check_and_fill_parameters, stability_short_term, Refusal};
/// let w = check_and_fill_parameters(&[])?;
/// assert!(stability_short_term(&w, 5.0, 3)? >= 5.0);
/// assert_eq!(stability_short_term(&w, 5.0, 0), Err(Refusal::Scalar));
/// # Ok::<(), Refusal>(())
/// ```
pub fn stability_short_term(w: &[f32], s: f32, rating: u32) -> Result<f32, Refusal> {
    raw::stability_short_term(w, s, rating)
}

/// The state of a new card after its first review: the stability is `w[rating - 1]`, the difficulty that of
/// [`init_difficulty`], clamped to 1..10.
///
/// Refusals: [`Refusal::WeightCount`], [`Refusal::WeightBox`], [`Refusal::Scalar`] for a rating that is not 1-4.
///
/// ```
/// use fsrs6::{check_and_fill_parameters, first_state, next_interval, next_state, Refusal};
/// let w = check_and_fill_parameters(&[])?;
/// let mut card = first_state(&w, 3)?;
/// assert_eq!(card.stability, w[2]);
/// for (days, rating) in [(2.0, 3), (11.0, 1), (1.0, 3)] {
///     card = next_state(&w, card, days, rating)?;
/// }
/// assert!(next_interval(&w, card.stability, 0.9)? > 1.0); // the days until it is due
/// assert_eq!(first_state(&w, 0), Err(Refusal::Scalar));
/// # Ok::<(), Refusal>(())
/// ```
pub fn first_state(w: &[f32], rating: u32) -> Result<State, Refusal> {
    raw::first_state(w, rating)
}

/// The state after a later review, `delta_t` days after the one before. Any rating is taken, and clamped to 1-4. The given
/// state is clamped to its range, so that (0, 0) is no new card but one of stability 0.0001; a card begins with
/// [`first_state`].
///
/// Refusals: [`Refusal::WeightCount`], [`Refusal::WeightBox`], [`Refusal::Scalar`].
///
/// ```
/// use fsrs6::{check_and_fill_parameters, next_state, Refusal, State};
/// let w = check_and_fill_parameters(&[])?;
/// let state = State { stability: 5.0, difficulty: 6.0 };
/// assert!(next_state(&w, state, 4.0, 1)?.stability < 5.0);
/// assert_eq!(next_state(&w, state, 4.0, 9), next_state(&w, state, 4.0, 4));
/// assert_eq!(next_state(&w, state, 200000.0, 3), Err(Refusal::Scalar));
/// # Ok::<(), Refusal>(())
/// ```
pub fn next_state(w: &[f32], state: State, delta_t: f32, rating: u32) -> Result<State, Refusal> {
    raw::next_state(w, state, delta_t, rating)
}

/// The state after a later review on `day`, and that day: [`next_state`] after the days since the one on which the card was
/// last seen. A second review on that day is same-day study.
///
/// Refusals: [`Refusal::WeightCount`], [`Refusal::WeightBox`], [`Refusal::Scalar`], also for a day above
/// [`MAX_DAY`](crate::MAX_DAY), and [`Refusal::Earlier`]. A refused card is as it was.
///
/// ```
/// use fsrs6::{check_and_fill_parameters, first_state, next_interval, next_state_on, Refusal, Seen};
/// let w = check_and_fill_parameters(&[])?;
/// let mut card = Seen { state: first_state(&w, 3)?, day: 19000 }; // a new card, rated 3
/// for (day, rating) in [(19002, 3), (19013, 1), (19013, 3)] {
///     card = next_state_on(&w, card, day, rating)?;
/// }
/// let due = card.day + next_interval(&w, card.state.stability, 0.9)?.round().max(1.0) as u32;
/// assert!(due > 19013);
/// assert_eq!(next_state_on(&w, card, 19012, 3), Err(Refusal::Earlier));
/// # Ok::<(), Refusal>(())
/// ```
pub fn next_state_on(w: &[f32], seen: Seen, day: u32, rating: u32) -> Result<Seen, Refusal> {
    raw::next_state_on(w, seen, day, rating)
}

/// The state of a card from an SM-2 deck, by its ease factor, its interval in days, and the share of the deck's reviews
/// that were recalled (0.9, not 90). The stability is not clamped.
///
/// Refusals: [`Refusal::WeightCount`], [`Refusal::WeightBox`], [`Refusal::Scalar`], [`Refusal::Import`].
///
/// ```
/// use fsrs6::{check_and_fill_parameters, memory_state_from_sm2, Refusal};
/// let w = check_and_fill_parameters(&[])?;
/// let card = memory_state_from_sm2(&w, 2.5, 8.0, 0.9)?;
/// assert_eq!(card.stability, 8.0); // at 0.9 the interval is the stability
/// assert!(memory_state_from_sm2(&w, 1.3, 8.0, 0.9)?.difficulty > card.difficulty);
/// assert!(memory_state_from_sm2(&w, 2.5, 8.0, 0.8)?.stability < 8.0);
/// assert_eq!(memory_state_from_sm2(&w, 2.5, f32::INFINITY, 0.9), Err(Refusal::Scalar));
/// assert_eq!(memory_state_from_sm2(&w, 2.5, 8.0, 90.0), Err(Refusal::Import));
/// # Ok::<(), Refusal>(())
/// ```
pub fn memory_state_from_sm2(w: &[f32], ease_factor: f32, interval: f32, sm2_retention: f32) -> Result<State, Refusal> {
    raw::memory_state_from_sm2(w, ease_factor, interval, sm2_retention)
}
