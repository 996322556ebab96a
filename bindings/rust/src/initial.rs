//! Starting stabilities.

use crate::{raw, Refusal};

/// A starting stability from first recalls, for one first rating: of `count[i]` cards whose next review came `delta_t[i]` days
/// after their first one the share `recall[i]` was recalled.
///
/// It lies from 0.0001 to 100, and can stand as the weight of that rating, `w[rating - 1]`. It is where the cross entropy of
/// the recalls and of the default weights' forgetting curve, and a sixteenth of the distance from `default_stability`, add up
/// to the least, as the Rust's search finds it. So few recalls leave the default as it is, and no rows give it as a single.
/// Counts need not be whole, and days may come in any order.
///
/// Refusals: [`Refusal::Sizes`] where the columns are not of one length or have over [`MAX_RECALLS`](crate::MAX_RECALLS)
/// rows, then [`Refusal::Scalar`] for a default outside 0.0001 (the nearest single) to 100, then row by row [`Refusal::Day`]
/// for a day that is not above 0 and at most 100000, and [`Refusal::Review`] for a share outside 0 to 1, or a count that is
/// not above 0 and at most 2^32.
///
/// ```
/// use fsrs6::{check_and_fill_parameters, initial_stability, Refusal};
/// let mut w = check_and_fill_parameters(&[])?;
/// // cards rated 3 at first: 39 of 40 recalled after a day, 19 of 20 after three days, 9 of 10 after seven
/// let (days, recalled, cards) = ([1.0, 3.0, 7.0], [0.975, 0.95, 0.9], [40.0, 20.0, 10.0]);
/// let found = initial_stability(&days, &recalled, &cards, w[2].into())?;
/// assert!(w[2] < 2.4 && found > 5.5 && found < 5.6);
/// w[2] = found;
/// assert_eq!(initial_stability(&[], &[], &[], 2.5), Ok(2.5));
/// assert_eq!(initial_stability(&[0.0], &[1.0], &[1.0], 2.5), Err(Refusal::Day));
/// # Ok::<(), Refusal>(())
/// ```
pub fn initial_stability(
    delta_t: &[f64],
    recall: &[f64],
    count: &[f64],
    default_stability: f64,
) -> Result<f32, Refusal> {
    raw::initial_stability(delta_t, recall, count, default_stability)
}
