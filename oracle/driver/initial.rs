// K6: starting stability from first recalls: the two functions of parameter_initialization.rs as they stand (powf is ours, powi
// Rust's own), K6's refusals around them, and calls.
use crate::cases::{Initial, Outcome, Part};
use crate::kernels::Kernels;
use crate::random::Random;
use crate::tally::Tally;
use std::cell::Cell;

macro_rules! text {
    ($name:ident, $file:literal) => {
        mod $name {
            #![allow(dead_code, unused_imports)]
            use super::{count_round, note, Exit};
            use crate::cases::Initial;
            use crate::inference::FSRS6_DEFAULT_PARAMETERS;
            use crate::kernels::Kernels;
            use crate::simulation::S_MIN;

            include!(env!($file));

            pub fn found(c: &Initial) -> f32 {
                initial_stability(&c.days, &c.shares, &c.counts, c.default)
            }

            pub fn slope(c: &Initial, s: f64) -> f64 {
                loss_derivatives(&c.days, &c.shares, &c.counts, s).0
            }
        }
    };
}

text!(text, "INITIAL");
// The same, but for a note at each exit and a count of the rounds.
text!(noted, "NOTED");

// ---- where a search ended

#[derive(Clone, Copy)]
enum Exit {
    Kept,
    Low,
    High,
    Met,
    Same,
    Rounds,
}

const EXITS: [(Exit, &str); 6] = [
    (Exit::Kept, "the default is kept"),
    (Exit::Low, "the boundary 0.0001"),
    (Exit::High, "the boundary 100"),
    (Exit::Met, "stopping test 1, the bracket has met"),
    (Exit::Same, "stopping test 2, the next guess is the same single"),
    (Exit::Rounds, "80 rounds"),
];

thread_local! {
    static NOTED: Cell<(Exit, u32)> = const { Cell::new((Exit::Kept, 0)) };
}

fn note(exit: Exit) {
    NOTED.with(|x| x.set((exit, x.get().1)));
}

fn count_round() {
    NOTED.with(|x| x.set((x.get().0, x.get().1 + 1)));
}

fn exit_name(exit: Exit) -> String {
    format!("first recalls: {}", EXITS[exit as usize].1)
}

/// Every exit is told of, also one that no call takes.
pub fn name_exits(tally: &mut Tally) {
    EXITS.iter().for_each(|x| tally.name(&exit_name(x.0)));
}

// ---- refusals, and answers

const ROWS_MAX: usize = 4096;
const DAY_MAX: f64 = 100000.0;
const COUNT_MAX: f64 = 4294967296.0;
const DEFAULTS: (f64, f64) = (0.0001f32 as f64, 100.0);

/// 3, 13, then by row 7 and 8: each that a call would have, in this order.
pub fn faults(c: &Initial) -> Vec<u32> {
    let mut faults = vec![];
    let lengths = [c.days.len(), c.shares.len(), c.counts.len()];
    if lengths != [lengths[0]; 3] || lengths[0] > ROWS_MAX {
        faults.push(3);
    }
    if !(c.default >= DEFAULTS.0 && c.default <= DEFAULTS.1) {
        faults.push(13);
    }
    for ((&t, &y), &n) in c.days.iter().zip(&c.shares).zip(&c.counts) {
        if !(t > 0.0 && t <= DAY_MAX) {
            faults.push(7);
        }
        if !(y >= 0.0 && y <= 1.0) || !(n > 0.0 && n <= COUNT_MAX) {
            faults.push(8);
        }
    }
    faults
}

/// What a call gives whose arguments are good. K6: the answer lies between 0.0001 and 100, and no rows give the default.
pub fn outcome(c: &Initial, tally: &mut Tally) -> Outcome {
    let found = text::found(c);
    NOTED.with(|x| x.set((Exit::Kept, 0)));
    assert_eq!(noted::found(c).to_bits(), found.to_bits(), "the copy with notes gives another answer");
    let (exit, rounds) = NOTED.with(Cell::get);
    tally.branch(&exit_name(exit));
    if rounds > 0 {
        let tens = (rounds - 1) / 10 * 10;
        tally.branch(&format!("first recalls: {:2} to {:2} rounds", tens + 1, tens + 10));
    }
    if !text::slope(c, c.default).is_finite() {
        tally.branch("first recalls: a slope that is no number, or infinite");
    }
    assert!(found >= 0.0001 && found <= 100.0, "{found} is not from 0.0001 to 100");
    assert!(!c.days.is_empty() || found == c.default as f32, "no rows, and {found}");
    Outcome { refusal: 0, parts: vec![Part::singles("stability", [found])] }
}

// ---- calls

/// The smallest positive double.
const LEAST: f64 = f64::from_bits(1);

fn at_ten_to(r: &mut Random, low: f64, high: f64) -> f64 {
    10f64.powf(low + (high - low) * r.unit())
}

fn default(r: &mut Random) -> f64 {
    let (low, high) = DEFAULTS;
    match r.below(6) {
        0 => r.pick(&[low, low.next_up(), 0.0001, high, high.next_down(), 1.0]),
        1 => r.even(0.0001, 100.0) as f64,
        2 => at_ten_to(r, -4.0, 2.0).clamp(low, high),
        _ => r.pick(&[0.212f32, 1.2931, 2.3065, 8.2956]) as f64,
    }
}

fn day(r: &mut Random) -> f64 {
    match r.below(8) {
        0 => at_ten_to(r, -3.0, 5.0).min(DAY_MAX),
        1 => r.pick(&[DAY_MAX, DAY_MAX.next_down(), 0.5, 36500.0]),
        _ => r.between(1, 400) as f64,
    }
}

// So few days that 1 + c / s is 1, or next to it.
fn tiny_day(r: &mut Random) -> f64 {
    match r.below(4) {
        0 => r.pick(&[1e-300, LEAST, f64::MIN_POSITIVE]),
        1 => at_ten_to(r, -20.0, -14.0),
        _ => at_ten_to(r, -320.0, -10.0).max(LEAST),
    }
}

fn share(r: &mut Random) -> f64 {
    match r.below(6) {
        0 => r.pick(&[0.0, -0.0, 0.0]),
        1 => 1.0,
        2 => r.pick(&[LEAST, 1f64.next_down(), 0.5, 1.0 - 2f64.powi(-50)]),
        _ => r.unit(),
    }
}

fn count(r: &mut Random) -> f64 {
    match r.below(8) {
        0 => r.pick(&[COUNT_MAX, COUNT_MAX.next_down(), LEAST, f64::MIN_POSITIVE, 0.5]),
        1 => at_ten_to(r, -3.0, 9.6).min(COUNT_MAX),
        2 => r.between(1, 100000) as f64,
        _ => r.between(1, 60) as f64,
    }
}

impl Initial {
    fn none(default: f64) -> Initial {
        Initial { days: vec![], shares: vec![], counts: vec![], default }
    }

    fn push(&mut self, day: f64, share: f64, count: f64) {
        self.days.push(day);
        self.shares.push(share);
        self.counts.push(count);
    }

    fn one(day: f64, share: f64, default: f64) -> Initial {
        let mut c = Initial::none(default);
        c.push(day, share, 1.0);
        c
    }
}

// The default curve. It is there to aim with: what a call has to give is the text's alone.
fn curve(day: f64, s: f64) -> f64 {
    let decay = 0.1542f32 as f64;
    (1.0 + day * (0.9f64.k_powf(-1.0 / decay) - 1.0) / s).k_powf(-decay)
}

// As a learner of some stability leaves them.
fn learner(r: &mut Random) -> Initial {
    let (mut c, s) = (Initial::none(default(r)), at_ten_to(r, -2.0, 2.3));
    for day in 1..=r.between(1, 24) {
        let n = r.between(1, 60);
        let recalled = (0..n).filter(|_| r.unit() < curve(day as f64, s)).count();
        c.push(day as f64, recalled as f64 / n as f64, n as f64);
    }
    c
}

fn any(r: &mut Random) -> Initial {
    let (mut c, is_tiny) = (Initial::none(default(r)), r.one_in(3));
    let rows = match r.below(60) {
        0 => r.pick(&[ROWS_MAX, ROWS_MAX - 1, 1000]),
        1..=6 => 0,
        7..=20 => 1,
        _ => r.between(2, 12),
    };
    for _ in 0..rows {
        let day = if is_tiny && r.one_in(2) { tiny_day(r) } else { day(r) };
        c.push(day, share(r), count(r));
    }
    c
}

// One row, by a count that puts the slope at a stability next to a sixteenth, or just there: at the default it then is kept or
// not, at a boundary that is the answer or not, and in the middle of the bracket the slope of a round is 0.
fn meet_a_sixteenth(r: &mut Random) -> Initial {
    let (default, day, is_up) = (default(r), day(r), r.one_in(2));
    let far = if is_up { DEFAULTS.1 } else { DEFAULTS.0 };
    let middle = (default + far) / 2.0;
    let at = r.pick(&[default, far, middle, middle]);
    let (p, part) = (curve(day, at), at_ten_to(r, -3.0, 0.0));
    let share = if is_up { p + (1.0 - p) * part } else { p * (1.0 - part) };
    let mut c = Initial::one(day, share.clamp(0.0, 1.0), default);
    let n = (0.0625 / text::slope(&c, at)).abs().clamp(LEAST, COUNT_MAX);
    let near = [n, n.next_up().min(COUNT_MAX), n.next_down().max(LEAST), n.next_up().next_up().min(COUNT_MAX)];
    c.counts[0] = r.pick(&near);
    if r.one_in(2) {
        let mut is_there = |n: &&f64| {
            c.counts[0] = **n;
            text::slope(&c, at).abs() == 0.0625
        };
        near.iter().find(|n| is_there(n));
    }
    c
}

fn factor() -> f64 {
    0.9f64.k_powf(-1.0 / 0.1542f32 as f64) - 1.0
}

// So few days that 1 - p is about so many units of 2^-53.
fn day_of_units(units: f64, s: f64) -> f64 {
    units * 2f64.powi(-53) * s / (0.1542 * factor())
}

// Rows with so few days that 1 - p is a few units of 2^-53, the same for a stretch of stabilities, and with the share p: they add
// nothing to the slope and much to the curvature. A row besides has its optimum there. So each Newton step is much too short.
fn creep(r: &mut Random) -> Initial {
    let (s, units) = (at_ten_to(r, -3.8, -2.0), r.between(4, 60) as f64);
    let mut c = Initial::none(s * (1.0 + r.unit() * 0.4 / units));
    let (tiny, other) = (day_of_units(units, s), s * at_ten_to(r, -2.0, 2.0));
    let mut row = Initial::one(other, curve(other, s) * (0.5 + 0.499 * r.unit()), c.default);
    row.counts[0] = (0.0625 / text::slope(&row, s)).clamp(LEAST, COUNT_MAX);
    for _ in 0..r.between(2, 12) {
        c.push(tiny, curve(tiny, s), COUNT_MAX);
    }
    c.push(other, row.shares[0], row.counts[0]);
    c
}

// The same with more units, and shares next to p: the slope goes by stairs, so that the last bit of a guess decides on the next.
fn stairs(r: &mut Random) -> Initial {
    let s = at_ten_to(r, -3.0, 1.5);
    let mut c = Initial::none((s * (0.5 + r.unit())).clamp(DEFAULTS.0, DEFAULTS.1));
    for _ in 0..r.between(1, 5) {
        let day = day_of_units(at_ten_to(r, 0.0, 4.0), s);
        let share = curve(day, s) + (r.below(7) as f64 - 3.0) * 2f64.powi(-53);
        c.push(day, share.clamp(0.0, 1.0), at_ten_to(r, 3.0, 9.6));
    }
    c
}

fn break_one(r: &mut Random, c: &mut Initial) {
    let (none, past) = ([f64::NAN, f64::INFINITY, f64::NEG_INFINITY, -1.0, -LEAST], [0.0, -0.0]);
    let bad = |r: &mut Random, more: &[f64]| if r.one_in(2) { r.pick(&none) } else { r.pick(more) };
    let row = r.below(c.days.len().max(1));
    match r.below(9) {
        0 => c.default = bad(r, &[DEFAULTS.0.next_down(), DEFAULTS.1.next_up(), 0.0, 36500.0]),
        1 => {
            let mut columns = [&mut c.days, &mut c.shares, &mut c.counts];
            let column = &mut columns[r.below(3)];
            if r.one_in(2) { column.push(1.0) } else { column.truncate(row) }
        }
        2 if r.one_in(4) => [&mut c.days, &mut c.shares, &mut c.counts].into_iter().for_each(|x| x.resize(ROWS_MAX + 1, 1.0)),
        2..=4 => c.days.get_mut(row).into_iter().for_each(|x| *x = bad(r, &[DAY_MAX.next_up(), past[0], past[1]])),
        5 | 6 => c.shares.get_mut(row).into_iter().for_each(|x| *x = bad(r, &[1f64.next_up(), 2.0, 90.0])),
        _ => c.counts.get_mut(row).into_iter().for_each(|x| *x = bad(r, &[COUNT_MAX.next_up(), past[0], past[1]])),
    }
}

/// The i-th call of a seed: most are accepted.
pub fn some(seed: u64, i: u64) -> Initial {
    let r = &mut Random::new(seed.rotate_left(48), i);
    let mut c = match r.below(8) {
        0 | 1 => learner(r),
        2 | 3 => any(r),
        4 | 5 => meet_a_sixteenth(r),
        6 => creep(r),
        _ => stairs(r),
    };
    for _ in 0..r.pick(&[0, 0, 0, 0, 0, 0, 1, 2]) {
        break_one(r, &mut c);
    }
    c
}
