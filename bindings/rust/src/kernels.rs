//! exp, exp less 1, ln, pow, the fused multiply-add and the nearest whole number.

use crate::{raw, Refusal};

/// A kernel's refusal is a NaN, which it gives nowhere else.
macro_rules! checked {
    ($answer:expr) => {{
        let answer = $answer;
        if answer.is_nan() {
            Err(Refusal::Kernel)
        } else {
            Ok(answer)
        }
    }};
}

/// e to the power x, in single. Refused where x is not finite.
///
/// ```
/// use fsrs6::{exp_f32, Refusal};
/// assert_eq!(exp_f32(-0.0), Ok(1.0));
/// assert_eq!(exp_f32(89.0), Ok(f32::INFINITY));
/// assert_eq!(exp_f32(f32::INFINITY), Err(Refusal::Kernel));
/// ```
pub fn exp_f32(x: f32) -> Result<f32, Refusal> {
    checked!(raw::exp_f32(x))
}

/// e to the power x, in double. Refused where x is not finite.
///
/// ```
/// use fsrs6::{exp_f64, Refusal};
/// assert_eq!(exp_f64(-0.0), Ok(1.0));
/// assert_eq!(exp_f64(-710.0), Ok(0.0));
/// assert_eq!(exp_f64(f64::NAN), Err(Refusal::Kernel));
/// ```
pub fn exp_f64(x: f64) -> Result<f64, Refusal> {
    checked!(raw::exp_f64(x))
}

/// e to the power x, less 1, in single: near also where x is next to 0. Refused where x is not finite.
///
/// ```
/// use fsrs6::{expm1_f32, Refusal};
/// assert_eq!(expm1_f32(1e-30), Ok(1e-30));
/// assert_eq!(expm1_f32(-89.0), Ok(-1.0));
/// assert_eq!(expm1_f32(f32::NAN), Err(Refusal::Kernel));
/// ```
pub fn expm1_f32(x: f32) -> Result<f32, Refusal> {
    checked!(raw::expm1_f32(x))
}

/// The natural logarithm, in single. Refused where x is not positive and finite.
///
/// ```
/// use fsrs6::{ln_f32, Refusal};
/// assert_eq!(ln_f32(1.0), Ok(0.0));
/// assert_eq!(ln_f32(0.0), Err(Refusal::Kernel));
/// ```
pub fn ln_f32(x: f32) -> Result<f32, Refusal> {
    checked!(raw::ln_f32(x))
}

/// The natural logarithm, in double. Refused where x is not positive and finite.
///
/// ```
/// use fsrs6::{ln_f64, Refusal};
/// assert_eq!(ln_f64(1.0), Ok(0.0));
/// assert_eq!(ln_f64(-1.0), Err(Refusal::Kernel));
/// ```
pub fn ln_f64(x: f64) -> Result<f64, Refusal> {
    checked!(raw::ln_f64(x))
}

/// x to the power y, in single. Refused where x is not positive and finite, or y is not from -16 to 16.
///
/// ```
/// use fsrs6::{pow_f32, Refusal};
/// assert_eq!(pow_f32(1.0, 7.5), Ok(1.0));
/// assert_eq!(pow_f32(7.5, -0.0), Ok(1.0));
/// assert_eq!(pow_f32(1.0, 17.0), Err(Refusal::Kernel));
/// ```
pub fn pow_f32(x: f32, y: f32) -> Result<f32, Refusal> {
    checked!(raw::pow_f32(x, y))
}

/// x to the power y, in double. Refused where x is not positive and finite, or y is not from -16 to 16.
///
/// ```
/// use fsrs6::{pow_f64, Refusal};
/// assert_eq!(pow_f64(1.0, -16.0), Ok(1.0));
/// assert_eq!(pow_f64(0.0, 1.0), Err(Refusal::Kernel));
/// ```
pub fn pow_f64(x: f64, y: f64) -> Result<f64, Refusal> {
    checked!(raw::pow_f64(x, y))
}

/// x * y + z with one rounding, in single. As IEEE 754 has it, so it can give a NaN.
///
/// ```
/// let x = 1.0 + f32::powi(2.0, -12);
/// assert_eq!(fsrs6::fma_f32(x, x, -1.0), f32::powi(2.0, -11) + f32::powi(2.0, -24));
/// ```
pub fn fma_f32(x: f32, y: f32, z: f32) -> f32 {
    raw::fma_f32(x, y, z)
}

/// x * y + z with one rounding, in double. As IEEE 754 has it, so it can give a NaN.
///
/// ```
/// let x = 1.0 + f64::powi(2.0, -27);
/// assert_eq!(fsrs6::fma_f64(x, x, -1.0), f64::powi(2.0, -26) + f64::powi(2.0, -54));
/// ```
pub fn fma_f64(x: f64, y: f64, z: f64) -> f64 {
    raw::fma_f64(x, y, z)
}

/// The nearest whole number, in single; half-way cases go away from zero. A NaN stays one.
///
/// ```
/// assert_eq!(fsrs6::round_f32(2.5), 3.0);
/// assert_eq!(fsrs6::round_f32(f32::from_bits(0x3effffff)), 0.0); // next below 0.5
/// ```
pub fn round_f32(x: f32) -> f32 {
    raw::round_f32(x)
}

/// The nearest whole number, in double; half-way cases go away from zero. A NaN stays one.
///
/// ```
/// assert_eq!(fsrs6::round_f64(-2.5), -3.0);
/// ```
pub fn round_f64(x: f64) -> f64 {
    raw::round_f64(x)
}
