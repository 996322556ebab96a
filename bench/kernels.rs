// Our kernels, and the names by which run has the Rust's text call them.
extern "C" {
    pub fn fsrs_exp_f32(x: f32) -> f32;
    pub fn fsrs_exp_f64(x: f64) -> f64;
    pub fn fsrs_ln_f32(x: f32) -> f32;
    pub fn fsrs_ln_f64(x: f64) -> f64;
    pub fn fsrs_pow_f32(x: f32, y: f32) -> f32;
    pub fn fsrs_pow_f64(x: f64, y: f64) -> f64;
}

pub trait Kernels {
    fn k_exp(self) -> Self;
    fn k_ln(self) -> Self;
    fn k_powf(self, y: Self) -> Self;
}

macro_rules! kernels {
    ($float:ty, $exp:ident, $ln:ident, $pow:ident) => {
        impl Kernels for $float {
            fn k_exp(self) -> $float {
                unsafe { $exp(self) }
            }
            fn k_ln(self) -> $float {
                unsafe { $ln(self) }
            }
            fn k_powf(self, y: $float) -> $float {
                unsafe { $pow(self, y) }
            }
        }
    };
}

kernels!(f32, fsrs_exp_f32, fsrs_ln_f32, fsrs_pow_f32);
kernels!(f64, fsrs_exp_f64, fsrs_ln_f64, fsrs_pow_f64);
