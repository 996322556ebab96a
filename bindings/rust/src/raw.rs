//! The C functions of `include/fsrs6.h`, and around each a safe one: the only unsafe code.
//!
//! What C cannot check is what the header asks of its caller, and Rust's references are just that: not null and aligned,
//! a slice's pointer also where it is empty; as many entries as the slice's length says; and nothing else that is lent
//! overlaps what is lent by `&mut`. This is the ground of every call below.

use crate::{
    Align, Cards, Claimed, Explanation, Fault, Held, Prefixes, Reason, Refusal, Seen, State, StateGradient, Step,
    Stepped, Verdict, RECORD, WEIGHTS,
};

/// The declarations, as in the header. Of a loss that is the function that takes the mode.
mod c {
    #[repr(C)]
    pub struct Reasoned {
        pub refusal: u32,
        pub reason: u32,
        pub stability_held: u32,
        pub difficulty_held: u32,
    }

    #[repr(C)]
    pub struct Found {
        pub refusal: u32,
        pub column: u32,
        pub row: u32,
    }

    extern "C" {
        pub fn fsrs_exp_f32(x: f32) -> f32;
        pub fn fsrs_exp_f64(x: f64) -> f64;
        pub fn fsrs_expm1_f32(x: f32) -> f32;
        pub fn fsrs_ln_f32(x: f32) -> f32;
        pub fn fsrs_ln_f64(x: f64) -> f64;
        pub fn fsrs_pow_f32(x: f32, y: f32) -> f32;
        pub fn fsrs_pow_f64(x: f64, y: f64) -> f64;
        pub fn fsrs_fma_f32(x: f32, y: f32, z: f32) -> f32;
        pub fn fsrs_fma_f64(x: f64, y: f64, z: f64) -> f64;
        pub fn fsrs_round_f32(x: f32) -> f32;
        pub fn fsrs_round_f64(x: f64) -> f64;

        pub fn fsrs_check_and_fill_parameters(parameters: *const f32, parameters_len: usize, weights: *mut f32) -> u32;
        pub fn fsrs_power_forgetting_curve(
            w: *const f32,
            w_len: usize,
            t: f32,
            s: f32,
            retrievability: *mut f32,
        ) -> u32;
        pub fn fsrs_next_interval(
            w: *const f32,
            w_len: usize,
            stability: f32,
            desired_retention: f32,
            days: *mut f32,
        ) -> u32;
        pub fn fsrs_init_difficulty(w: *const f32, w_len: usize, rating: u32, difficulty: *mut f32) -> u32;
        pub fn fsrs_mean_reversion(w: *const f32, w_len: usize, init: f32, current: f32, difficulty: *mut f32) -> u32;
        pub fn fsrs_next_difficulty(w: *const f32, w_len: usize, d: f32, rating: u32, difficulty: *mut f32) -> u32;
        pub fn fsrs_stability_after_success(
            w: *const f32,
            w_len: usize,
            s: f32,
            r: f32,
            d: f32,
            rating: u32,
            stability: *mut f32,
        ) -> u32;
        pub fn fsrs_stability_after_failure(
            w: *const f32,
            w_len: usize,
            s: f32,
            r: f32,
            d: f32,
            stability: *mut f32,
        ) -> u32;
        pub fn fsrs_stability_short_term(w: *const f32, w_len: usize, s: f32, rating: u32, stability: *mut f32) -> u32;
        pub fn fsrs_first_state(
            w: *const f32,
            w_len: usize,
            rating: u32,
            stability: *mut f32,
            difficulty: *mut f32,
        ) -> u32;
        pub fn fsrs_next_state(
            w: *const f32,
            w_len: usize,
            stability: f32,
            difficulty: f32,
            delta_t: f32,
            rating: u32,
            next_stability: *mut f32,
            next_difficulty: *mut f32,
        ) -> u32;
        pub fn fsrs_next_state_on(
            w: *const f32,
            w_len: usize,
            stability: f32,
            difficulty: f32,
            seen: u32,
            day: u32,
            rating: u32,
            next_stability: *mut f32,
            next_difficulty: *mut f32,
            next_seen: *mut u32,
        ) -> u32;
        pub fn fsrs_check_row(
            w: *const f32,
            w_len: usize,
            stability: f32,
            difficulty: f32,
            day: f32,
            rating: u32,
            retention: f32,
            stability_after: u32,
            difficulty_after: u32,
            interval: u32,
            verdict: *mut u32,
        ) -> u32;
        pub fn fsrs_memory_state_from_sm2(
            w: *const f32,
            w_len: usize,
            ease_factor: f32,
            interval: f32,
            sm2_retention: f32,
            stability: *mut f32,
            difficulty: *mut f32,
        ) -> u32;

        pub fn fsrs_training_step(
            w: *const f32,
            w_len: usize,
            stability: f32,
            difficulty: f32,
            day: f32,
            rating: f32,
            row: usize,
            next_stability: *mut f32,
            next_difficulty: *mut f32,
            record: *mut f32,
        ) -> u32;
        pub fn fsrs_training_step_backward(
            w: *const f32,
            w_len: usize,
            stability: f32,
            difficulty: f32,
            day: f32,
            rating: f32,
            row: usize,
            g_s: f64,
            g_d: f64,
            g_r: f64,
            gw: *mut f64,
            gw_len: usize,
            grad_s: *mut f64,
            grad_d: *mut f64,
        ) -> u32;

        pub fn fsrs_explain_step(
            w: *const f32,
            w_len: usize,
            stability: f32,
            difficulty: f32,
            day: f32,
            rating: f32,
            row: usize,
        ) -> Reasoned;

        pub fn fsrs_batch_loss_in(
            end: bool,
            w: *const f32,
            w_len: usize,
            t_hist: *const f32,
            t_hist_len: usize,
            r_hist: *const f32,
            r_hist_len: usize,
            seq_len: u32,
            batch: u32,
            seq_lens: *const u32,
            seq_lens_len: usize,
            delta_ts: *const f32,
            delta_ts_len: usize,
            labels: *const f32,
            labels_len: usize,
            weights: *const f32,
            weights_len: usize,
            loss: *mut f64,
        ) -> u32;
        pub fn fsrs_batch_loss_and_grad_in(
            end: bool,
            w: *const f32,
            w_len: usize,
            t_hist: *const f32,
            t_hist_len: usize,
            r_hist: *const f32,
            r_hist_len: usize,
            seq_len: u32,
            batch: u32,
            seq_lens: *const u32,
            seq_lens_len: usize,
            delta_ts: *const f32,
            delta_ts_len: usize,
            labels: *const f32,
            labels_len: usize,
            weights: *const f32,
            weights_len: usize,
            gw: *mut f64,
            gw_len: usize,
            records: *mut f32,
            records_len: usize,
            loss: *mut f64,
        ) -> u32;
        pub fn fsrs_card_loss_in(
            end: bool,
            w: *const f32,
            w_len: usize,
            t_hist: *const f32,
            t_hist_len: usize,
            r_hist: *const f32,
            r_hist_len: usize,
            seq_len: u32,
            batch: u32,
            seq_lens: *const u32,
            seq_lens_len: usize,
            labels: *const f32,
            labels_len: usize,
            weights: *const f32,
            weights_len: usize,
            loss: *mut f64,
        ) -> u32;
        pub fn fsrs_card_loss_and_grad_in(
            end: bool,
            w: *const f32,
            w_len: usize,
            t_hist: *const f32,
            t_hist_len: usize,
            r_hist: *const f32,
            r_hist_len: usize,
            seq_len: u32,
            batch: u32,
            seq_lens: *const u32,
            seq_lens_len: usize,
            labels: *const f32,
            labels_len: usize,
            weights: *const f32,
            weights_len: usize,
            gw: *mut f64,
            gw_len: usize,
            records: *mut f32,
            records_len: usize,
            step_grads: *mut f64,
            step_grads_len: usize,
            loss: *mut f64,
        ) -> u32;
        pub fn fsrs_batch_loss_fault(
            end: bool,
            w: *const f32,
            w_len: usize,
            t_hist: *const f32,
            t_hist_len: usize,
            r_hist: *const f32,
            r_hist_len: usize,
            seq_len: u32,
            batch: u32,
            seq_lens: *const u32,
            seq_lens_len: usize,
            delta_ts: *const f32,
            delta_ts_len: usize,
            labels: *const f32,
            labels_len: usize,
            weights: *const f32,
            weights_len: usize,
        ) -> Found;
        pub fn fsrs_batch_loss_and_grad_fault(
            end: bool,
            w: *const f32,
            w_len: usize,
            t_hist: *const f32,
            t_hist_len: usize,
            r_hist: *const f32,
            r_hist_len: usize,
            seq_len: u32,
            batch: u32,
            seq_lens: *const u32,
            seq_lens_len: usize,
            delta_ts: *const f32,
            delta_ts_len: usize,
            labels: *const f32,
            labels_len: usize,
            weights: *const f32,
            weights_len: usize,
            gw_len: usize,
            records_len: usize,
        ) -> Found;
        pub fn fsrs_card_loss_fault(
            end: bool,
            w: *const f32,
            w_len: usize,
            t_hist: *const f32,
            t_hist_len: usize,
            r_hist: *const f32,
            r_hist_len: usize,
            seq_len: u32,
            batch: u32,
            seq_lens: *const u32,
            seq_lens_len: usize,
            labels: *const f32,
            labels_len: usize,
            weights: *const f32,
            weights_len: usize,
        ) -> Found;
        pub fn fsrs_card_loss_and_grad_fault(
            end: bool,
            w: *const f32,
            w_len: usize,
            t_hist: *const f32,
            t_hist_len: usize,
            r_hist: *const f32,
            r_hist_len: usize,
            seq_len: u32,
            batch: u32,
            seq_lens: *const u32,
            seq_lens_len: usize,
            labels: *const f32,
            labels_len: usize,
            weights: *const f32,
            weights_len: usize,
            gw_len: usize,
            records_len: usize,
            step_grads_len: usize,
        ) -> Found;

        pub fn fsrs_l2_penalty(
            w: *const f32,
            w_len: usize,
            init_w: *const f32,
            init_w_len: usize,
            batch_size: u64,
            total_size: u64,
            l2_weight: f64,
            params_stddev: *const f32,
            params_stddev_len: usize,
            slots: *mut f32,
            slots_len: usize,
            penalty: *mut f64,
        ) -> u32;
        pub fn fsrs_initial_stability(
            delta_t: *const f64,
            delta_t_len: usize,
            recall: *const f64,
            recall_len: usize,
            count: *const f64,
            count_len: usize,
            default_stability: f64,
            stability: *mut f32,
        ) -> u32;
        pub fn fsrs_batch_file(file: *const u8, file_len: usize, gw: *mut f64, gw_len: usize, loss: *mut f64) -> u32;
        pub fn fsrs_batch_file_fault(file: *const u8, file_len: usize) -> Found;
    }
}

/// Kernels: numbers in, a number out.
macro_rules! kernels {
    ($($name:ident = $c:ident($($x:ident),*): $float:ty;)*) => {$(
        pub fn $name($($x: $float),*) -> $float {
            // SAFETY: the function takes any numbers and no memory.
            unsafe { c::$c($($x),*) }
        }
    )*};
}

kernels! {
    exp_f32 = fsrs_exp_f32(x): f32;
    exp_f64 = fsrs_exp_f64(x): f64;
    expm1_f32 = fsrs_expm1_f32(x): f32;
    ln_f32 = fsrs_ln_f32(x): f32;
    ln_f64 = fsrs_ln_f64(x): f64;
    pow_f32 = fsrs_pow_f32(x, y): f32;
    pow_f64 = fsrs_pow_f64(x, y): f64;
    fma_f32 = fsrs_fma_f32(x, y, z): f32;
    fma_f64 = fsrs_fma_f64(x, y, z): f64;
    round_f32 = fsrs_round_f32(x): f32;
    round_f64 = fsrs_round_f64(x): f64;
}

/// Formulas: a weight set and numbers in, one single out.
macro_rules! formulas {
    ($($name:ident = $c:ident($($x:ident: $type:ty),*);)*) => {$(
        pub fn $name(w: &[f32], $($x: $type),*) -> Result<f32, Refusal> {
            let mut answer = 0.0;
            // SAFETY: w is a slice with its own length, and answer is this function's.
            let number = unsafe { c::$c(w.as_ptr(), w.len(), $($x,)* &mut answer) };
            Refusal::accepted(number, answer)
        }
    )*};
}

formulas! {
    power_forgetting_curve = fsrs_power_forgetting_curve(t: f32, s: f32);
    next_interval = fsrs_next_interval(stability: f32, desired_retention: f32);
    init_difficulty = fsrs_init_difficulty(rating: u32);
    mean_reversion = fsrs_mean_reversion(init: f32, current: f32);
    next_difficulty = fsrs_next_difficulty(d: f32, rating: u32);
    stability_after_success = fsrs_stability_after_success(s: f32, r: f32, d: f32, rating: u32);
    stability_after_failure = fsrs_stability_after_failure(s: f32, r: f32, d: f32);
    stability_short_term = fsrs_stability_short_term(s: f32, rating: u32);
}

pub fn check_and_fill_parameters(parameters: &[f32]) -> Result<[f32; WEIGHTS], Refusal> {
    let mut weights = [0.0; WEIGHTS];
    // SAFETY: parameters is a slice with its own length; weights has the 21 places and is this function's.
    let number =
        unsafe { c::fsrs_check_and_fill_parameters(parameters.as_ptr(), parameters.len(), weights.as_mut_ptr()) };
    Refusal::accepted(number, weights)
}

pub fn first_state(w: &[f32], rating: u32) -> Result<State, Refusal> {
    let mut first = State::default();
    // SAFETY: w is a slice with its own length; the two places are apart and this function's.
    let number =
        unsafe { c::fsrs_first_state(w.as_ptr(), w.len(), rating, &mut first.stability, &mut first.difficulty) };
    Refusal::accepted(number, first)
}

pub fn next_state(w: &[f32], q: State, delta_t: f32, rating: u32) -> Result<State, Refusal> {
    let mut next = State::default();
    // SAFETY: w is a slice with its own length; the two places are apart and this function's.
    let number = unsafe {
        c::fsrs_next_state(
            w.as_ptr(),
            w.len(),
            q.stability,
            q.difficulty,
            delta_t,
            rating,
            &mut next.stability,
            &mut next.difficulty,
        )
    };
    Refusal::accepted(number, next)
}

pub fn next_state_on(w: &[f32], q: Seen, day: u32, rating: u32) -> Result<Seen, Refusal> {
    let mut next = Seen::default();
    // SAFETY: w is a slice with its own length; the three places are apart and this function's.
    let number = unsafe {
        c::fsrs_next_state_on(
            w.as_ptr(),
            w.len(),
            q.state.stability,
            q.state.difficulty,
            q.day,
            day,
            rating,
            &mut next.state.stability,
            &mut next.state.difficulty,
            &mut next.day,
        )
    };
    Refusal::accepted(number, next)
}

pub fn check_row(
    w: &[f32],
    q: State,
    day: f32,
    rating: u32,
    retention: f32,
    claimed: Claimed,
) -> Result<Verdict, Refusal> {
    let mut verdict = 0;
    // SAFETY: w is a slice with its own length; the place is this function's.
    let number = unsafe {
        c::fsrs_check_row(
            w.as_ptr(),
            w.len(),
            q.stability,
            q.difficulty,
            day,
            rating,
            retention,
            claimed.stability,
            claimed.difficulty,
            claimed.interval,
            &mut verdict,
        )
    };
    Refusal::accepted(number, Verdict::of_number(verdict))
}

pub fn memory_state_from_sm2(w: &[f32], ease_factor: f32, interval: f32, sm2_retention: f32) -> Result<State, Refusal> {
    let mut state = State::default();
    // SAFETY: w is a slice with its own length; the two places are apart and this function's.
    let number = unsafe {
        c::fsrs_memory_state_from_sm2(
            w.as_ptr(),
            w.len(),
            ease_factor,
            interval,
            sm2_retention,
            &mut state.stability,
            &mut state.difficulty,
        )
    };
    Refusal::accepted(number, state)
}

pub fn training_step(w: &[f32], x: Step) -> Result<Stepped, Refusal> {
    let mut next = Stepped { state: State::default(), record: [0.0; RECORD] };
    // SAFETY: w is a slice with its own length; the two places and the ten of the record are apart and this function's.
    let number = unsafe {
        c::fsrs_training_step(
            w.as_ptr(),
            w.len(),
            x.state.stability,
            x.state.difficulty,
            x.day,
            x.rating,
            x.row,
            &mut next.state.stability,
            &mut next.state.difficulty,
            next.record.as_mut_ptr(),
        )
    };
    Refusal::accepted(number, next)
}

pub fn training_step_backward(
    w: &[f32],
    x: Step,
    after: StateGradient,
    by_retrievability: f64,
    gw: &mut [f64],
) -> Result<StateGradient, Refusal> {
    let mut before = StateGradient::default();
    // SAFETY: w and gw are slices with their own lengths, gw by &mut; the two places are apart and this function's.
    let number = unsafe {
        c::fsrs_training_step_backward(
            w.as_ptr(),
            w.len(),
            x.state.stability,
            x.state.difficulty,
            x.day,
            x.rating,
            x.row,
            after.stability,
            after.difficulty,
            by_retrievability,
            gw.as_mut_ptr(),
            gw.len(),
            &mut before.stability,
            &mut before.difficulty,
        )
    };
    Refusal::accepted(number, before)
}

pub fn explain_step(w: &[f32], x: Step) -> Result<Explanation, Refusal> {
    // SAFETY: w is a slice with its own length; the answer is returned.
    let is = unsafe {
        c::fsrs_explain_step(w.as_ptr(), w.len(), x.state.stability, x.state.difficulty, x.day, x.rating, x.row)
    };
    let explanation = Explanation {
        reason: Reason::of_number(is.reason),
        stability_held: Held::of_number(is.stability_held),
        difficulty_held: Held::of_number(is.difficulty_held),
    };
    Refusal::accepted(is.refusal, explanation)
}

/// Losses: a weight set and a batch in, what is lent by `&mut`, one double out.
macro_rules! losses {
    ($($name:ident = $c:ident($x:ident: $batch:ident, [$($read:ident),*], [$($lent:ident: $float:ty),*]);)*) => {$(
        pub fn $name(w: &[f32], $x: &$batch, $($lent: &mut [$float]),*) -> Result<f64, Refusal> {
            let mut loss = 0.0;
            // SAFETY: each pointer is a slice's and goes with that slice's length; what is written is lent by &mut, or
            // this function's.
            let number = unsafe {
                c::$c(
                    $x.align == Align::End,
                    w.as_ptr(),
                    w.len(),
                    $x.days.as_ptr(),
                    $x.days.len(),
                    $x.ratings.as_ptr(),
                    $x.ratings.len(),
                    $x.rows,
                    $x.columns,
                    $x.lengths.as_ptr(),
                    $x.lengths.len(),
                    $($x.$read.as_ptr(), $x.$read.len(),)*
                    $($lent.as_mut_ptr(), $lent.len(),)*
                    &mut loss,
                )
            };
            Refusal::accepted(number, loss)
        }
    )*};
}

losses! {
    batch_loss = fsrs_batch_loss_in(x: Prefixes, [target_days, labels, weights], []);
    batch_loss_and_grad = fsrs_batch_loss_and_grad_in(
        x: Prefixes, [target_days, labels, weights], [gw: f64, records: f32]);
    card_loss = fsrs_card_loss_in(x: Cards, [labels, weights], []);
    card_loss_and_grad = fsrs_card_loss_and_grad_in(
        x: Cards, [labels, weights], [gw: f64, records: f32, step_grads: f64]);
}

/// Their faults: the same in, and of what is lent the lengths.
macro_rules! faults {
    ($($name:ident = $c:ident($x:ident: $batch:ident, [$($read:ident),*], [$($length:ident),*]);)*) => {$(
        pub fn $name(w: &[f32], $x: &$batch, $($length: usize),*) -> Option<Fault> {
            // SAFETY: each pointer is a slice's and goes with that slice's length; the answer is returned.
            let is = unsafe {
                c::$c(
                    $x.align == Align::End,
                    w.as_ptr(),
                    w.len(),
                    $x.days.as_ptr(),
                    $x.days.len(),
                    $x.ratings.as_ptr(),
                    $x.ratings.len(),
                    $x.rows,
                    $x.columns,
                    $x.lengths.as_ptr(),
                    $x.lengths.len(),
                    $($x.$read.as_ptr(), $x.$read.len(),)*
                    $($length,)*
                )
            };
            Fault::of_numbers(is.refusal, is.column, is.row)
        }
    )*};
}

faults! {
    batch_loss_fault = fsrs_batch_loss_fault(x: Prefixes, [target_days, labels, weights], []);
    batch_loss_and_grad_fault = fsrs_batch_loss_and_grad_fault(
        x: Prefixes, [target_days, labels, weights], [gw_len, records_len]);
    card_loss_fault = fsrs_card_loss_fault(x: Cards, [labels, weights], []);
    card_loss_and_grad_fault = fsrs_card_loss_and_grad_fault(
        x: Cards, [labels, weights], [gw_len, records_len, step_grads_len]);
}

pub fn l2_penalty(
    w: &[f32],
    init_w: &[f32],
    batch_size: u64,
    total_size: u64,
    l2_weight: f64,
    params_stddev: &[f32],
    slots: &mut [f32],
) -> Result<f64, Refusal> {
    let mut penalty = 0.0;
    // SAFETY: each pointer is a slice's and goes with that slice's length; slots is lent by &mut, and penalty is this
    // function's.
    let number = unsafe {
        c::fsrs_l2_penalty(
            w.as_ptr(),
            w.len(),
            init_w.as_ptr(),
            init_w.len(),
            batch_size,
            total_size,
            l2_weight,
            params_stddev.as_ptr(),
            params_stddev.len(),
            slots.as_mut_ptr(),
            slots.len(),
            &mut penalty,
        )
    };
    Refusal::accepted(number, penalty)
}

pub fn initial_stability(
    delta_t: &[f64],
    recall: &[f64],
    count: &[f64],
    default_stability: f64,
) -> Result<f32, Refusal> {
    let mut stability = 0.0;
    // SAFETY: each pointer is a slice's and goes with that slice's length; the place is this function's.
    let number = unsafe {
        c::fsrs_initial_stability(
            delta_t.as_ptr(),
            delta_t.len(),
            recall.as_ptr(),
            recall.len(),
            count.as_ptr(),
            count.len(),
            default_stability,
            &mut stability,
        )
    };
    Refusal::accepted(number, stability)
}

pub fn batch_file(file: &[u8], gw: &mut [f64]) -> Result<f64, Refusal> {
    let mut loss = 0.0;
    // SAFETY: file and gw are slices with their own lengths, gw by &mut; loss is this function's.
    let number = unsafe { c::fsrs_batch_file(file.as_ptr(), file.len(), gw.as_mut_ptr(), gw.len(), &mut loss) };
    Refusal::accepted(number, loss)
}

pub fn batch_file_fault(file: &[u8]) -> Option<Fault> {
    // SAFETY: file is a slice with its own length; the answer is returned.
    let is = unsafe { c::fsrs_batch_file_fault(file.as_ptr(), file.len()) };
    Fault::of_numbers(is.refusal, is.column, is.row)
}
