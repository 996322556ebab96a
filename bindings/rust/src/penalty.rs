//! The pull toward the old weights.

use crate::{raw, Refusal};

/// How far the weights `w` have gone from `init_w`, each measured by its spread, and the gradient of that in the 21 `slots`:
/// added to a loss and its gradient, it keeps a small deck from a wild fit.
///
/// `l2_weight * batch_size / total_size` is the factor of both. The slots are **written**, and not added to; each is finite,
/// and so is the penalty: a penalty that is not gives zeros throughout, a slot alone that is not is 0, and a total of 0
/// gives zeros. `l2_weight` is any double, and the sizes go up to [`MAX_SIZE`](crate::MAX_SIZE).
///
/// Refusals: [`Refusal::WeightCount`] for any of the three sets, [`Refusal::WeightBox`] for either weight set,
/// [`Refusal::SlotCount`], then [`Refusal::Scalar`] for a spread that is not finite and above 0, or a size out of range.
///
/// ```
/// use fsrs6::{check_and_fill_parameters, l2_penalty, Refusal};
/// let old = check_and_fill_parameters(&[])?;
/// let (mut w, mut slots) = (old, [7.0; 21]);
/// w[4] += 0.5;
/// let penalty = l2_penalty(&w, &old, 10, 100, 2.0, &[1.0; 21], &mut slots)?;
/// assert_eq!(penalty, 0.25 * 0.2); // 0.5² over a spread of 1, times 2 * 10 / 100
/// assert_eq!((slots[4], slots[5]), (2.0 * 0.5 * 0.2, 0.0));
/// # Ok::<(), Refusal>(())
/// ```
pub fn l2_penalty(
    w: &[f32],
    init_w: &[f32],
    batch_size: u64,
    total_size: u64,
    l2_weight: f64,
    params_stddev: &[f32],
    slots: &mut [f32],
) -> Result<f64, Refusal> {
    raw::l2_penalty(w, init_w, batch_size, total_size, l2_weight, params_stddev, slots)
}
