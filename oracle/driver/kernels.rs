// What stands in the Rust's text for exp, exp_m1, ln and powf: our C functions. With --stock nothing does.
#![allow(dead_code)]
use crate::face::{fsrs_exp_f32, fsrs_exp_f64, fsrs_expm1_f32, fsrs_ln_f32, fsrs_ln_f64, fsrs_pow_f32, fsrs_pow_f64};

pub trait Kernels {
    fn k_exp(self) -> Self;
    fn k_ln(self) -> Self;
    fn k_powf(self, y: Self) -> Self;
}

/// For singles alone.
pub trait LessOne {
    fn k_exp_m1(self) -> Self;
}

impl LessOne for f32 {
    fn k_exp_m1(self) -> Self {
        unsafe { fsrs_expm1_f32(self) }
    }
}

macro_rules! kernels {
    ($float:ty, $exp:ident, $ln:ident, $pow:ident) => {
        impl Kernels for $float {
            fn k_exp(self) -> Self {
                unsafe { $exp(self) }
            }
            fn k_ln(self) -> Self {
                unsafe { $ln(self) }
            }
            fn k_powf(self, y: Self) -> Self {
                unsafe { $pow(self, y) }
            }
        }
    };
}

kernels!(f32, fsrs_exp_f32, fsrs_ln_f32, fsrs_pow_f32);
kernels!(f64, fsrs_exp_f64, fsrs_ln_f64, fsrs_pow_f64);
