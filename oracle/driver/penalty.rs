// K13: the pull toward the old weights: the text of training_v7.rs as it stands, K13's refusals around it, and calls.
use crate::cases::{Outcome, Part, Penalty, WEIGHTS};
use crate::random::{Random, LEAST};
use crate::rules::weights_refusal;
use crate::tally::Tally;

mod training_v7 {
    include!(env!("PENALTY"));
}

const SIZE_MAX: u64 = 1 << 31;

/// Refusals 1 (any set), 2 (either weight set), 5, 13.
pub fn refusal(c: &Penalty) -> u32 {
    let is_spread = |x: &f32| x.is_finite() && *x > 0.0;
    if [&c.w, &c.old, &c.spreads].iter().any(|xs| xs.len() != WEIGHTS) {
        1
    } else if weights_refusal(&c.w) + weights_refusal(&c.old) != 0 {
        2
    } else if c.slots.len() != WEIGHTS {
        5
    } else if c.spreads.iter().all(is_spread) && c.batch.max(c.total) <= SIZE_MAX {
        0
    } else {
        13
    }
}

// Which rule gave a zero, and which slots the text left.
fn note(c: &Penalty, penalty: f64, slots: &[f32], tally: &mut Tally) {
    let is_plus = |x: &f32| x.to_bits() == 0;
    let what = match (c.total, penalty) {
        (0, _) => "a total of 0",
        (_, x) if x.to_bits() == 0 && slots.iter().all(is_plus) => "zeros throughout",
        (_, x) if x.to_bits() == 1 << 63 => "-0.0",
        _ if slots.iter().zip(&c.w).zip(&c.old).any(|((g, x), y)| is_plus(g) && x != y) => "a slot that is 0",
        _ => "all slots",
    };
    tally.branch(&format!("penalty: {what}"));
}

/// What a call gives whose arguments are good.
pub fn outcome(c: &Penalty, tally: &mut Tally) -> Outcome {
    let sizes = (c.batch as usize, c.total as usize);
    let (penalty, slots) = training_v7::l2_penalty_value_and_grad(&c.w, &c.old, sizes.0, sizes.1, c.factor, &c.spreads);
    note(c, penalty, &slots, tally);
    Outcome { refusal: 0, parts: vec![Part::doubles("penalty", [penalty]), Part::singles("slots", slots)] }
}

// ---- calls

// As a trainer has them, or of any size.
fn spreads(r: &mut Random) -> Vec<f32> {
    let is_any = r.one_in(4);
    let spread = |_| match r.below(8) {
        0 if is_any => r.pick(&[LEAST, f32::MIN_POSITIVE, f32::MAX, 1e-20, 9999.0]),
        1 if is_any => r.spread(LEAST, f32::MAX),
        _ => r.even(0.01, 3.0),
    };
    (0..WEIGHTS).map(spread).collect()
}

fn factor(r: &mut Random) -> f64 {
    match r.below(8) {
        0 => r.junk_double(),
        1 => r.pick(&[f64::MAX, -f64::MAX, f64::MIN_POSITIVE, f64::from_bits(1), 2f64.powi(127), -2f64.powi(127)]),
        2 => -r.unit(),
        _ => r.unit() * 10.0,
    }
}

fn size(r: &mut Random) -> u64 {
    match r.below(6) {
        0 => r.pick(&[0, 1, SIZE_MAX, SIZE_MAX - 1]),
        1 => r.bits() % (SIZE_MAX + 1),
        _ => r.between(1, 100000) as u64,
    }
}

// By a factor that puts one slot next to the tie of two singles, or to where the singles end.
fn meet_a_tie(r: &mut Random, c: &mut Penalty) {
    let k = r.below(WEIGHTS);
    let (sigma, diff) = (c.spreads[k] as f64, c.w[k] as f64 - c.old[k] as f64);
    let unit = 2.0 * diff / (sigma * sigma);
    let x = r.spread(LEAST, f32::MAX);
    let tie = if r.one_in(4) { f32::MAX as f64 + 2f64.powi(103) } else { (x as f64 + x.next_up().min(f32::MAX) as f64) / 2.0 };
    (c.batch, c.total) = (1, 1);
    let near = tie / unit;
    c.factor = r.pick(&[near, near, f64::from_bits(near.to_bits().wrapping_add(1)), f64::from_bits(near.to_bits().wrapping_sub(1))]);
}

fn break_one(r: &mut Random, c: &mut Penalty) {
    let bad = [0.0, -0.0, -LEAST, -1.0, f32::NAN, f32::INFINITY, f32::NEG_INFINITY];
    match r.below(9) {
        0 => c.w.truncate(r.pick(&[0, 1, 20])),
        1 => c.old.push(1.0),
        2 => c.spreads.truncate(20),
        3 => r.leave_box(&mut c.w),
        4 => r.leave_box(&mut c.old),
        5 => c.slots.resize(r.pick(&[0, 20, 22]), 7.0),
        6 => c.batch = r.pick(&[SIZE_MAX + 1, u64::MAX, 1 << 32]),
        7 => c.total = r.pick(&[SIZE_MAX + 1, u64::MAX, 1 << 63]),
        _ => {
            let n = c.spreads.len().max(1);
            if let Some(x) = c.spreads.get_mut(r.below(n)) {
                *x = r.pick(&bad);
            }
        }
    }
}

/// The i-th call of a seed: most are accepted.
pub fn some(seed: u64, i: u64) -> Penalty {
    let r = &mut Random::new(seed.rotate_left(16), i);
    let old = r.weights();
    let w = if r.one_in(6) { old.clone() } else { r.weights() };
    let spreads = spreads(r);
    let slots = (0..WEIGHTS).map(|_| r.junk()).collect();
    let mut c = Penalty { w, old, spreads, slots, batch: size(r), total: size(r), factor: factor(r) };
    if r.one_in(4) {
        meet_a_tie(r, &mut c);
    }
    for _ in 0..r.pick(&[0, 0, 0, 0, 0, 1, 1, 2]) {
        break_one(r, &mut c);
    }
    c
}
