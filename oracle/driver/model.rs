// The Rust's scalar formulas and its filling, as their text stands, with document 01's added rules around them. run makes
// the text: exp, exp_m1, ln and powf are ours (but not with --stock); mul_add and round are Rust's own.
#![allow(dead_code, unused_imports)]
use crate::cases::{Formula, Outcome, Part, Row, FORMULAS, FROM_SM2, ON_DAY};
use crate::inference::MemoryState;
use crate::simulation::{D_MAX, D_MIN, S_MAX, S_MIN};
use crate::tally::Tally;
use model_v6::*;

// Its limits are `super::S_MIN` and the like.
mod model_v6 {
    use crate::kernels::{Kernels, LessOne};
    include!(env!("MODEL"));
}

fn plain_day(day: f32) -> f32 {
    if day == 0.0 { 0.0 } else { day }
}

fn next_state(w: &[f32], stability: f32, difficulty: f32, day: f32, rating: u32) -> [f32; 2] {
    let state = MemoryState { stability, difficulty, stability_fast: stability };
    let next = next_state_scalar(w, state, plain_day(day), rating);
    [next.stability, next.difficulty]
}

// K2: 'the elapsed days are the difference'.
fn elapsed(c: &Formula) -> f32 {
    if c.number == ON_DAY { (c.days[1] - c.days[0]) as f32 } else { c.args[2] }
}

fn from_sm2(w: &[f32], ease: f32, interval: f32, retention: f32) -> Option<[f32; 2]> {
    memory_state_from_sm2_scalar(w, ease, interval, retention).ok().map(|q| [q.stability, q.difficulty])
}

// Why a card from SM-2 is refused, and where its stability lies.
fn note_from_sm2(c: &Formula, answer: Option<&[f32]>, tally: &mut Tally) {
    let [ease, interval, retention] = c.args;
    let what = match answer {
        None if retention <= 0.0 => "14, retention 0 or below",
        None if retention >= 1.0 => "14, retention 1 or above",
        None if c.w[10] == 0.0 => "14, weight 10 is 0",
        None if ease.abs() > 1e30 => "14, a large ease factor",
        None => "14, otherwise",
        Some(q) if q[0] < S_MIN => "stability below 0.0001",
        Some(q) if q[0] > S_MAX => "stability above 36500",
        Some(_) => "stability from 0.0001 to 36500",
    };
    tally.branch(&format!("formula: memory_state_from_sm2, {what}"));
    if answer.is_some() && interval < S_MIN {
        tally.branch("formula: memory_state_from_sm2, interval below 0.0001");
    }
    if answer.is_some_and(|q| D_MIN < q[1] && q[1] < D_MAX) {
        tally.branch("formula: memory_state_from_sm2, difficulty between 1 and 10");
    }
}

// Which way the next state goes, and which answers lie at an end.
fn note(c: &Formula, answer: &[f32], tally: &mut Tally) {
    let name = FORMULAS[c.number];
    if c.number == 8 || c.number == ON_DAY {
        let is_same_day = elapsed(c).max(0.0).round() == 0.0;
        let rating = c.rating.clamp(1, 4);
        let what = match (is_same_day, rating) {
            (true, _) => "same day",
            (false, 1) => "lapse",
            _ => "success",
        };
        tally.branch(&format!("formula: {name}, {what}"));
        if rating != c.rating {
            tally.branch(&format!("formula: {name}, rating clamped"));
        }
    }
    for (end, x) in [("0", 0.0), ("0.0001", S_MIN), ("36500", S_MAX), ("1", D_MIN), ("10", D_MAX)] {
        if answer.contains(&x) {
            tally.branch(&format!("formula: {name}, answer {end}"));
        }
    }
}

/// What a call gives whose arguments are good: nothing where the text has an error.
pub fn formula_outcome(c: &Formula, tally: &mut Tally) -> Option<Outcome> {
    let answer = formula(c);
    if c.number == FROM_SM2 {
        note_from_sm2(c, answer.as_deref(), tally);
    }
    let answer = answer?;
    note(c, &answer, tally);
    let mut parts = vec![Part::singles("answer", answer)];
    if c.number == ON_DAY {
        parts.push(Part::of("day", false, vec![c.days[1].into()]));
    }
    Some(Outcome { refusal: 0, parts })
}

fn formula(c: &Formula) -> Option<Vec<f32>> {
    let (w, [x, y, z]) = (&c.w[..], c.args);
    let rating = c.rating as usize;
    let answer = match c.number {
        0 => power_forgetting_curve_scalar(w, plain_day(x), y),
        1 => next_interval_scalar(w, x, y),
        2 => init_difficulty_scalar(w, rating),
        3 => mean_reversion_scalar(w, x, y),
        4 => next_difficulty_scalar(w, x, rating),
        5 => stability_after_success_scalar(w, x, y, z, rating),
        6 => stability_after_failure_scalar(w, x, y, z),
        7 => stability_short_term_scalar(w, x, rating),
        8 | ON_DAY => return Some(next_state(w, x, y, elapsed(c), c.rating).to_vec()),
        _ => return from_sm2(w, x, y, z).map(Vec::from),
    };
    Some(vec![answer])
}

/// K9: the state after a row's review, and the next interval from its stability, as patterns.
pub fn row_answer(c: &Row) -> [u32; 3] {
    let [s, d] = next_state(&c.w, c.state[0], c.state[1], c.day, c.rating);
    [s, d, next_interval_scalar(&c.w, s, c.retention)].map(|x| {
        assert!(!x.is_nan(), "a row's own number is a NaN");
        x.to_bits()
    })
}

/// 'name the first wrong field': the number of a verdict.
pub fn row_outcome(c: &Row, tally: &mut Tally) -> Outcome {
    let right = row_answer(c);
    let wrong = (0..3).find(|&i| right[i] != c.claimed[i]);
    let what = wrong.map_or("accepted", |i| ["stability", "difficulty", "interval"][i]);
    tally.branch(&format!("row: {what}"));
    let verdict = wrong.map_or(0, |i| i as u64 + 1);
    Outcome { refusal: 0, parts: vec![Part::of("verdict", false, vec![verdict])] }
}

/// The set made 21, where the text takes its length.
pub fn filled(given: &[f32]) -> Option<Vec<f32>> {
    check_and_fill_parameters_fsrs6(given)
}
