// Our C functions (include/fsrs6.h) on the calls. What they may write stands between guards, and what they may not is
// looked at again afterwards.
use crate::cases::{File, Formula, Initial, Kernel, Loss, Outcome, Part, Penalty, Reverse, Row, Step, FIELDS, ON_DAY, WEIGHTS};

#[rustfmt::skip]
extern "C" {
    pub fn fsrs_exp_f32(x: f32) -> f32;
    pub fn fsrs_exp_f64(x: f64) -> f64;
    pub fn fsrs_expm1_f32(x: f32) -> f32;
    pub fn fsrs_ln_f32(x: f32) -> f32;
    pub fn fsrs_ln_f64(x: f64) -> f64;
    pub fn fsrs_pow_f32(x: f32, y: f32) -> f32;
    pub fn fsrs_pow_f64(x: f64, y: f64) -> f64;
    fn fsrs_fma_f32(x: f32, y: f32, z: f32) -> f32;
    fn fsrs_fma_f64(x: f64, y: f64, z: f64) -> f64;
    fn fsrs_round_f32(x: f32) -> f32;
    fn fsrs_round_f64(x: f64) -> f64;

    fn fsrs_check_and_fill_parameters(parameters: *const f32, parameters_len: usize, weights: *mut f32) -> u32;

    fn fsrs_power_forgetting_curve(w: *const f32, w_len: usize, t: f32, s: f32, retrievability: *mut f32) -> u32;
    fn fsrs_next_interval(w: *const f32, w_len: usize, stability: f32, desired_retention: f32, days: *mut f32) -> u32;
    fn fsrs_init_difficulty(w: *const f32, w_len: usize, rating: u32, difficulty: *mut f32) -> u32;
    fn fsrs_mean_reversion(w: *const f32, w_len: usize, init: f32, current: f32, difficulty: *mut f32) -> u32;
    fn fsrs_next_difficulty(w: *const f32, w_len: usize, d: f32, rating: u32, difficulty: *mut f32) -> u32;
    fn fsrs_stability_after_success(w: *const f32, w_len: usize, s: f32, r: f32, d: f32, rating: u32, stability: *mut f32) -> u32;
    fn fsrs_stability_after_failure(w: *const f32, w_len: usize, s: f32, r: f32, d: f32, stability: *mut f32) -> u32;
    fn fsrs_stability_short_term(w: *const f32, w_len: usize, s: f32, rating: u32, stability: *mut f32) -> u32;
    fn fsrs_next_state(w: *const f32, w_len: usize, stability: f32, difficulty: f32, delta_t: f32, rating: u32, next_stability: *mut f32, next_difficulty: *mut f32) -> u32;
    fn fsrs_next_state_on(w: *const f32, w_len: usize, stability: f32, difficulty: f32, seen: u32, day: u32, rating: u32, next_stability: *mut f32, next_difficulty: *mut f32, next_seen: *mut u32) -> u32;
    fn fsrs_check_row(w: *const f32, w_len: usize, stability: f32, difficulty: f32, day: f32, rating: u32, retention: f32, stability_after: u32, difficulty_after: u32, interval: u32, verdict: *mut u32) -> u32;
    fn fsrs_memory_state_from_sm2(w: *const f32, w_len: usize, ease_factor: f32, interval: f32, sm2_retention: f32, stability: *mut f32, difficulty: *mut f32) -> u32;

    fn fsrs_training_step(w: *const f32, w_len: usize, stability: f32, difficulty: f32, day: f32, rating: f32, row: usize, next_stability: *mut f32, next_difficulty: *mut f32, record: *mut f32) -> u32;
    fn fsrs_training_step_backward(w: *const f32, w_len: usize, stability: f32, difficulty: f32, day: f32, rating: f32, row: usize, g_s: f64, g_d: f64, g_r: f64, gw: *mut f64, gw_len: usize, grad_s: *mut f64, grad_d: *mut f64) -> u32;

    fn fsrs_batch_loss(w: *const f32, w_len: usize, t_hist: *const f32, t_hist_len: usize, r_hist: *const f32, r_hist_len: usize, seq_len: u32, batch: u32, seq_lens: *const u32, seq_lens_len: usize, delta_ts: *const f32, delta_ts_len: usize, labels: *const f32, labels_len: usize, weights: *const f32, weights_len: usize, loss: *mut f64) -> u32;
    fn fsrs_batch_loss_and_grad(w: *const f32, w_len: usize, t_hist: *const f32, t_hist_len: usize, r_hist: *const f32, r_hist_len: usize, seq_len: u32, batch: u32, seq_lens: *const u32, seq_lens_len: usize, delta_ts: *const f32, delta_ts_len: usize, labels: *const f32, labels_len: usize, weights: *const f32, weights_len: usize, gw: *mut f64, gw_len: usize, records: *mut f32, records_len: usize, loss: *mut f64) -> u32;
    fn fsrs_card_loss(w: *const f32, w_len: usize, t_hist: *const f32, t_hist_len: usize, r_hist: *const f32, r_hist_len: usize, seq_len: u32, batch: u32, seq_lens: *const u32, seq_lens_len: usize, labels: *const f32, labels_len: usize, weights: *const f32, weights_len: usize, loss: *mut f64) -> u32;
    fn fsrs_card_loss_and_grad(w: *const f32, w_len: usize, t_hist: *const f32, t_hist_len: usize, r_hist: *const f32, r_hist_len: usize, seq_len: u32, batch: u32, seq_lens: *const u32, seq_lens_len: usize, labels: *const f32, labels_len: usize, weights: *const f32, weights_len: usize, gw: *mut f64, gw_len: usize, records: *mut f32, records_len: usize, step_grads: *mut f64, step_grads_len: usize, loss: *mut f64) -> u32;

    fn fsrs_batch_loss_in(end: bool, w: *const f32, w_len: usize, t_hist: *const f32, t_hist_len: usize, r_hist: *const f32, r_hist_len: usize, seq_len: u32, batch: u32, seq_lens: *const u32, seq_lens_len: usize, delta_ts: *const f32, delta_ts_len: usize, labels: *const f32, labels_len: usize, weights: *const f32, weights_len: usize, loss: *mut f64) -> u32;
    fn fsrs_batch_loss_and_grad_in(end: bool, w: *const f32, w_len: usize, t_hist: *const f32, t_hist_len: usize, r_hist: *const f32, r_hist_len: usize, seq_len: u32, batch: u32, seq_lens: *const u32, seq_lens_len: usize, delta_ts: *const f32, delta_ts_len: usize, labels: *const f32, labels_len: usize, weights: *const f32, weights_len: usize, gw: *mut f64, gw_len: usize, records: *mut f32, records_len: usize, loss: *mut f64) -> u32;
    fn fsrs_card_loss_in(end: bool, w: *const f32, w_len: usize, t_hist: *const f32, t_hist_len: usize, r_hist: *const f32, r_hist_len: usize, seq_len: u32, batch: u32, seq_lens: *const u32, seq_lens_len: usize, labels: *const f32, labels_len: usize, weights: *const f32, weights_len: usize, loss: *mut f64) -> u32;
    fn fsrs_card_loss_and_grad_in(end: bool, w: *const f32, w_len: usize, t_hist: *const f32, t_hist_len: usize, r_hist: *const f32, r_hist_len: usize, seq_len: u32, batch: u32, seq_lens: *const u32, seq_lens_len: usize, labels: *const f32, labels_len: usize, weights: *const f32, weights_len: usize, gw: *mut f64, gw_len: usize, records: *mut f32, records_len: usize, step_grads: *mut f64, step_grads_len: usize, loss: *mut f64) -> u32;

    fn fsrs_explain_step(w: *const f32, w_len: usize, stability: f32, difficulty: f32, day: f32, rating: f32, row: usize) -> Told<4>;
    fn fsrs_batch_loss_fault(end: bool, w: *const f32, w_len: usize, t_hist: *const f32, t_hist_len: usize, r_hist: *const f32, r_hist_len: usize, seq_len: u32, batch: u32, seq_lens: *const u32, seq_lens_len: usize, delta_ts: *const f32, delta_ts_len: usize, labels: *const f32, labels_len: usize, weights: *const f32, weights_len: usize) -> Told<3>;
    fn fsrs_batch_loss_and_grad_fault(end: bool, w: *const f32, w_len: usize, t_hist: *const f32, t_hist_len: usize, r_hist: *const f32, r_hist_len: usize, seq_len: u32, batch: u32, seq_lens: *const u32, seq_lens_len: usize, delta_ts: *const f32, delta_ts_len: usize, labels: *const f32, labels_len: usize, weights: *const f32, weights_len: usize, gw_len: usize, records_len: usize) -> Told<3>;
    fn fsrs_card_loss_fault(end: bool, w: *const f32, w_len: usize, t_hist: *const f32, t_hist_len: usize, r_hist: *const f32, r_hist_len: usize, seq_len: u32, batch: u32, seq_lens: *const u32, seq_lens_len: usize, labels: *const f32, labels_len: usize, weights: *const f32, weights_len: usize) -> Told<3>;
    fn fsrs_card_loss_and_grad_fault(end: bool, w: *const f32, w_len: usize, t_hist: *const f32, t_hist_len: usize, r_hist: *const f32, r_hist_len: usize, seq_len: u32, batch: u32, seq_lens: *const u32, seq_lens_len: usize, labels: *const f32, labels_len: usize, weights: *const f32, weights_len: usize, gw_len: usize, records_len: usize, step_grads_len: usize) -> Told<3>;

    fn fsrs_l2_penalty(w: *const f32, w_len: usize, init_w: *const f32, init_w_len: usize, batch_size: u64, total_size: u64, l2_weight: f64, params_stddev: *const f32, params_stddev_len: usize, slots: *mut f32, slots_len: usize, penalty: *mut f64) -> u32;
    fn fsrs_initial_stability(delta_t: *const f64, delta_t_len: usize, recall: *const f64, recall_len: usize, count: *const f64, count_len: usize, default_stability: f64, stability: *mut f32) -> u32;
    fn fsrs_batch_file(file: *const u8, file_len: usize, gw: *mut f64, gw_len: usize, loss: *mut f64) -> u32;
    fn fsrs_batch_file_fault(file: *const u8, file_len: usize) -> Told<3>;
}

/// K7's structs, fsrs_reason and fsrs_fault, by their numbers, of which the first is the refusal.
#[repr(C)]
struct Told<const N: usize>([u32; N]);

impl<const N: usize> Told<N> {
    fn part(self, name: &'static str) -> Part {
        Part::of(name, false, self.0.map(u64::from).to_vec())
    }
}

// What stands in a place for an answer before the call: no answer has these patterns.
pub const UNWRITTEN_SINGLE: u32 = 0xffa5_5a01;
pub const UNWRITTEN_DOUBLE: u64 = 0xfff5_a5a5_0000_0001;

/// Numbers with two guards on either side, by their patterns.
struct Lent<T>(Vec<T>, T);

const GUARDS: usize = 2;

impl<T: Copy + PartialEq> Lent<T> {
    fn new(xs: &[T], guard: T) -> Lent<T> {
        let edge = [guard; GUARDS];
        Lent([&edge[..], xs, &edge[..]].concat(), guard)
    }

    fn place<U>(&mut self, i: usize) -> *mut U {
        assert_eq!(size_of::<T>(), size_of::<U>());
        unsafe { self.0.as_mut_ptr().add(GUARDS + i).cast() }
    }

    fn done(self) -> Vec<T> {
        let end = self.0.len() - GUARDS;
        let is_whole = self.0[..GUARDS].iter().chain(&self.0[end..]).all(|x| *x == self.1);
        assert!(is_whole, "a write beside a lent slice");
        self.0[GUARDS..end].to_vec()
    }
}

fn singles(n: usize) -> Lent<u32> {
    Lent::new(&vec![UNWRITTEN_SINGLE; n], 0x5a5a_5a5a)
}

fn doubles(n: usize) -> Lent<u64> {
    Lent::new(&vec![UNWRITTEN_DOUBLE; n], 0x5a5a_5a5a_5a5a_5a5a)
}

fn lend_slots(slots: &[f64]) -> Lent<u64> {
    Lent::new(&slots.iter().map(|x| x.to_bits()).collect::<Vec<_>>(), 0x5a5a_5a5a_5a5a_5a5a)
}

fn single_part(name: &'static str, lent: Lent<u32>) -> Part {
    Part::of(name, false, lent.done().into_iter().map(u64::from).collect())
}

fn double_part(name: &'static str, lent: Lent<u64>) -> Part {
    Part::of(name, true, lent.done())
}

// ---- the losses

fn inputs(c: &Loss) -> u64 {
    let floats = [&c.w, &c.days, &c.ratings, &c.targets, &c.labels, &c.weights];
    let bits = floats.into_iter().flatten().map(|x| x.to_bits()).chain(c.lengths.iter().copied());
    bits.fold(0, |h: u64, x| (h ^ x as u64).wrapping_mul(0x100000001b3).rotate_left(29))
}

macro_rules! slices {
    ($f:ident($($mode:expr)?), $c:expr; $($slice:ident)*; $($rest:expr),*) => {
        unsafe {
            $f(
                $($mode,)? $c.w.as_ptr(), $c.w.len(), $c.days.as_ptr(), $c.days.len(), $c.ratings.as_ptr(),
                $c.ratings.len(), $c.rows, $c.columns, $c.lengths.as_ptr(), $c.lengths.len(),
                $($c.$slice.as_ptr(), $c.$slice.len(),)* $($rest),*
            )
        }
    };
}

// With the mode, or by the function that has none and means the start.
fn loss_alone(c: &Loss, has_mode: bool) -> Outcome {
    let mut loss = doubles(1);
    let refusal = match (c.is_card, has_mode) {
        (true, true) => slices!(fsrs_card_loss_in(c.is_end), c; labels weights; loss.place(0)),
        (true, false) => slices!(fsrs_card_loss(), c; labels weights; loss.place(0)),
        (false, true) => slices!(fsrs_batch_loss_in(c.is_end), c; targets labels weights; loss.place(0)),
        (false, false) => slices!(fsrs_batch_loss(), c; targets labels weights; loss.place(0)),
    };
    Outcome { refusal, parts: vec![double_part("loss", loss)] }
}

fn loss_and_grad(c: &Loss, has_mode: bool) -> Outcome {
    let mut loss = doubles(1);
    let (mut gw, n) = (lend_slots(&c.slots), c.slots.len());
    let (mut records, m) = (Lent::new(&c.lent_records(), 0x5a5a_5a5a), c.records.0);
    let (mut steps, k) = (Lent::new(&c.lent_step_grads(), 0x5a5a_5a5a_5a5a_5a5a), c.step_grads.0);
    let (gw_at, records_at, steps_at, loss_at) = (gw.place(0), records.place(0), steps.place(0), loss.place(0));
    let refusal = match (c.is_card, has_mode) {
        (true, true) => slices!(
            fsrs_card_loss_and_grad_in(c.is_end), c; labels weights; gw_at, n, records_at, m, steps_at, k, loss_at
        ),
        (true, false) => {
            slices!(fsrs_card_loss_and_grad(), c; labels weights; gw_at, n, records_at, m, steps_at, k, loss_at)
        }
        (false, true) => {
            slices!(fsrs_batch_loss_and_grad_in(c.is_end), c; targets labels weights; gw_at, n, records_at, m, loss_at)
        }
        (false, false) => {
            slices!(fsrs_batch_loss_and_grad(), c; targets labels weights; gw_at, n, records_at, m, loss_at)
        }
    };
    let mut parts = vec![double_part("loss", loss), double_part("slots", gw), single_part("records", records)];
    if c.is_card {
        parts.push(double_part("step gradients", steps));
    }
    Outcome { refusal, parts }
}

fn is_same(a: &Outcome, b: &Outcome) -> bool {
    let is_same_part = |(x, y): (&Part, &Part)| (0..x.bits.len()).all(|i| x.plain(i) == y.plain(i));
    a.refusal == b.refusal && a.parts.iter().zip(&b.parts).all(is_same_part)
}

// K7: of what is lent only the lengths are given.
fn loss_fault(c: &Loss) -> Part {
    let (n, m, k) = (c.slots.len(), c.records.0, c.step_grads.0);
    let fault = match (c.is_card, c.with_grad) {
        (true, true) => slices!(fsrs_card_loss_and_grad_fault(c.is_end), c; labels weights; n, m, k),
        (true, false) => slices!(fsrs_card_loss_fault(c.is_end), c; labels weights;),
        (false, true) => slices!(fsrs_batch_loss_and_grad_fault(c.is_end), c; targets labels weights; n, m),
        (false, false) => slices!(fsrs_batch_loss_fault(c.is_end), c; targets labels weights;),
    };
    fault.part("fault")
}

/// At the start both functions are called.
pub fn loss(c: &Loss) -> Outcome {
    let before = inputs(c);
    let call = if c.with_grad { loss_and_grad } else { loss_alone };
    let mut outcome = call(c, c.is_end);
    assert!(c.is_end || is_same(&outcome, &call(c, true)), "another answer of the function that takes the mode");
    outcome.parts.push(loss_fault(c));
    assert_eq!(inputs(c), before, "a write to an input slice");
    outcome
}

pub fn file(c: &File) -> Outcome {
    let (mut loss, mut gw) = (doubles(1), lend_slots(&c.slots));
    let bytes = c.bytes.clone();
    let refusal =
        unsafe { fsrs_batch_file(bytes.as_ptr(), bytes.len(), gw.place(0), c.slots.len(), loss.place(0)) };
    let fault = unsafe { fsrs_batch_file_fault(bytes.as_ptr(), bytes.len()) }.part("fault");
    assert!(bytes == c.bytes, "a write to the file");
    Outcome { refusal, parts: vec![double_part("loss", loss), double_part("slots", gw), fault] }
}

// ---- single steps, formulas, filling, kernels

fn reason(c: &Step) -> Part {
    unsafe { fsrs_explain_step(c.w.as_ptr(), c.w.len(), c.s, c.d, c.day, c.rating, c.row) }.part("reason")
}

pub fn step(c: &Step) -> Outcome {
    let (mut state, mut record) = (singles(2), singles(FIELDS));
    let refusal = unsafe {
        fsrs_training_step(
            c.w.as_ptr(), c.w.len(), c.s, c.d, c.day, c.rating, c.row, state.place(0), state.place(1), record.place(0),
        )
    };
    Outcome { refusal, parts: vec![single_part("state", state), single_part("record", record), reason(c)] }
}

pub fn reverse(c: &Reverse) -> Outcome {
    let (mut gradients, mut gw) = (doubles(2), lend_slots(&c.slots));
    let (q, g) = (&c.step, c.g);
    let refusal = unsafe {
        fsrs_training_step_backward(
            q.w.as_ptr(), q.w.len(), q.s, q.d, q.day, q.rating, q.row, g[0], g[1], g[2], gw.place(0), c.slots.len(),
            gradients.place(0), gradients.place(1),
        )
    };
    let parts = vec![double_part("gradients", gradients), double_part("slots", gw), reason(&c.step)];
    Outcome { refusal, parts }
}

pub fn penalty(c: &Penalty) -> Outcome {
    let mut penalty = doubles(1);
    let mut slots = Lent::new(&c.slots.iter().map(|x| x.to_bits()).collect::<Vec<_>>(), 0x5a5a_5a5a);
    let refusal = unsafe {
        fsrs_l2_penalty(
            c.w.as_ptr(), c.w.len(), c.old.as_ptr(), c.old.len(), c.batch, c.total, c.factor, c.spreads.as_ptr(),
            c.spreads.len(), slots.place(0), c.slots.len(), penalty.place(0),
        )
    };
    Outcome { refusal, parts: vec![double_part("penalty", penalty), single_part("slots", slots)] }
}

pub fn initial(c: &Initial) -> Outcome {
    let (mut stability, given) = (singles(1), c.clone());
    let refusal = unsafe {
        fsrs_initial_stability(
            c.days.as_ptr(), c.days.len(), c.shares.as_ptr(), c.shares.len(), c.counts.as_ptr(), c.counts.len(), c.default,
            stability.place(0),
        )
    };
    let bits = |c: &Initial| [&c.days, &c.shares, &c.counts].map(|xs| xs.iter().map(|x| x.to_bits()).collect::<Vec<_>>());
    assert!(bits(c) == bits(&given), "a write to an input slice");
    Outcome { refusal, parts: vec![single_part("stability", stability)] }
}

pub fn formula(c: &Formula) -> Outcome {
    let (mut out, mut day) = (singles(c.answers()), singles(1));
    let (w, n, [x, y, z], rating) = (c.w.as_ptr(), c.w.len(), c.args, c.rating);
    let at = out.place(0);
    let refusal = unsafe {
        match c.number {
            0 => fsrs_power_forgetting_curve(w, n, x, y, at),
            1 => fsrs_next_interval(w, n, x, y, at),
            2 => fsrs_init_difficulty(w, n, rating, at),
            3 => fsrs_mean_reversion(w, n, x, y, at),
            4 => fsrs_next_difficulty(w, n, x, rating, at),
            5 => fsrs_stability_after_success(w, n, x, y, z, rating, at),
            6 => fsrs_stability_after_failure(w, n, x, y, z, at),
            7 => fsrs_stability_short_term(w, n, x, rating, at),
            8 => fsrs_next_state(w, n, x, y, z, rating, at, out.place(1)),
            ON_DAY => {
                let [seen, on] = c.days;
                fsrs_next_state_on(w, n, x, y, seen, on, rating, at, out.place(1), day.place(0))
            }
            _ => fsrs_memory_state_from_sm2(w, n, x, y, z, at, out.place(1)),
        }
    };
    let mut parts = vec![single_part("answer", out)];
    if c.number == ON_DAY {
        parts.push(single_part("day", day));
    }
    Outcome { refusal, parts }
}

pub fn row(c: &Row) -> Outcome {
    let mut verdict = singles(1);
    let ([s, d], [x, y, z]) = (c.state, c.claimed);
    let refusal = unsafe {
        fsrs_check_row(c.w.as_ptr(), c.w.len(), s, d, c.day, c.rating, c.retention, x, y, z, verdict.place(0))
    };
    Outcome { refusal, parts: vec![single_part("verdict", verdict)] }
}

pub fn filling(given: &[f32]) -> Outcome {
    let mut weights = singles(WEIGHTS);
    let refusal = unsafe { fsrs_check_and_fill_parameters(given.as_ptr(), given.len(), weights.place(0)) };
    Outcome { refusal, parts: vec![single_part("weights", weights)] }
}

pub fn single_args(c: &Kernel) -> [f32; 3] {
    c.args.map(|b| f32::from_bits(b as u32))
}

pub fn double_args(c: &Kernel) -> [f64; 3] {
    c.args.map(f64::from_bits)
}

pub fn kernel(c: &Kernel) -> Outcome {
    let [x, y, z] = single_args(c);
    let [u, v, t] = double_args(c);
    let part = unsafe {
        match c.number {
            0 => Part::singles("answer", [fsrs_exp_f32(x)]),
            1 => Part::doubles("answer", [fsrs_exp_f64(u)]),
            2 => Part::singles("answer", [fsrs_ln_f32(x)]),
            3 => Part::doubles("answer", [fsrs_ln_f64(u)]),
            4 => Part::singles("answer", [fsrs_pow_f32(x, y)]),
            5 => Part::doubles("answer", [fsrs_pow_f64(u, v)]),
            6 => Part::singles("answer", [fsrs_fma_f32(x, y, z)]),
            7 => Part::doubles("answer", [fsrs_fma_f64(u, v, t)]),
            8 => Part::singles("answer", [fsrs_round_f32(x)]),
            9 => Part::doubles("answer", [fsrs_round_f64(u)]),
            _ => Part::singles("answer", [fsrs_expm1_f32(x)]),
        }
    };
    Outcome { refusal: 0, parts: vec![part] }
}
