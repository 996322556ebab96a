//! Every function once with an answer that follows from document 01, and once for each refusal that it can give. After a
//! refused call what was lent must have the bits that it had.

use fsrs6::*;

const ROWS: usize = 3;
const COLUMNS: usize = 2;
const CELLS: usize = ROWS * COLUMNS;
/// The next single after the last day.
const BEYOND: f32 = 100000.0 + 0.0078125;

/// What a call is given and lent.
#[derive(Clone)]
struct Call {
    w: Vec<f32>,
    step: Step,
    rating: u32,
    rows: u32,
    columns: u32,
    lengths: Vec<u32>,
    days: Vec<f32>,
    ratings: Vec<f32>,
    labels: Vec<f32>,
    weights: Vec<f32>,
    align: Align,
    gw: Vec<f64>,
    records: Vec<f32>,
    step_grads: Vec<f64>,
}

impl Call {
    /// A call that every function accepts, over the default weights.
    fn good() -> Call {
        Call {
            w: check_and_fill_parameters(&[]).expect("the defaults").to_vec(),
            step: Step { state: State { stability: 5.0, difficulty: 6.0 }, day: 4.0, rating: 3.0, row: 1 },
            rating: 3,
            rows: ROWS as u32,
            columns: COLUMNS as u32,
            lengths: vec![ROWS as u32, ROWS as u32 - 1],
            days: vec![0.0, 0.0, 4.0, 0.0, 9.0, 2.0],
            ratings: vec![3.0, 1.0, 2.0, 3.0, 1.0, 4.0],
            labels: vec![1.0, 0.0, 0.0, 1.0, 1.0, 0.5],
            weights: vec![1.0, 2.0, 0.5, 1.0, 1.0, 3.0],
            align: Align::Start,
            gw: (0..WEIGHTS).map(|i| i as f64).collect(),
            records: vec![7.0; RECORD * ROWS],
            step_grads: vec![8.0; ROWS],
        }
    }

    fn with(change: impl FnOnce(&mut Call)) -> Call {
        let mut x = Call::good();
        change(&mut x);
        x
    }

    fn prefixes(&self) -> Prefixes<'_> {
        Prefixes {
            rows: self.rows,
            columns: self.columns,
            days: &self.days,
            ratings: &self.ratings,
            lengths: &self.lengths,
            target_days: &self.days[..COLUMNS],
            labels: &self.labels[..COLUMNS],
            weights: &self.weights[..COLUMNS],
            align: self.align,
        }
    }

    fn cards(&self) -> Cards<'_> {
        Cards {
            rows: self.rows,
            columns: self.columns,
            days: &self.days,
            ratings: &self.ratings,
            lengths: &self.lengths,
            labels: &self.labels,
            weights: &self.weights,
            align: self.align,
        }
    }

    /// The bits of all that a call may write.
    fn lent(&self) -> (Vec<u64>, Vec<u32>, Vec<u64>) {
        let bits = |xs: &[f64]| xs.iter().map(|x| x.to_bits()).collect();
        (bits(&self.gw), self.records.iter().map(|x| x.to_bits()).collect(), bits(&self.step_grads))
    }
}

/// A function on its part of a call; its answer is of no interest here.
type Function = fn(&mut Call) -> Result<(), Refusal>;

macro_rules! function {
    (|$x:ident| $call:expr) => {
        |$x: &mut Call| $call.map(drop)
    };
}

const FORMULAS: [Function; 13] = [
    function!(|x| power_forgetting_curve(&x.w, x.step.day, x.step.state.stability)),
    function!(|x| next_interval(&x.w, x.step.state.stability, 0.9)),
    function!(|x| init_difficulty(&x.w, x.rating)),
    function!(|x| mean_reversion(&x.w, x.step.state.stability, x.step.state.difficulty)),
    function!(|x| next_difficulty(&x.w, x.step.state.difficulty, x.rating)),
    function!(|x| stability_after_success(&x.w, x.step.state.stability, 0.9, x.step.state.difficulty, x.rating)),
    function!(|x| stability_after_failure(&x.w, x.step.state.stability, 0.9, x.step.state.difficulty)),
    function!(|x| stability_short_term(&x.w, x.step.state.stability, x.rating)),
    function!(|x| first_state(&x.w, x.rating)),
    function!(|x| next_state(&x.w, x.step.state, x.step.day, x.rating)),
    function!(|x| next_state_on(&x.w, Seen { state: x.step.state, day: 19000 }, 19004, x.rating)),
    function!(|x| check_row(&x.w, x.step.state, x.step.day, x.rating, 0.9, Claimed::default())),
    function!(|x| memory_state_from_sm2(&x.w, 2.5, x.step.state.stability, 0.9)),
];
const FILL: Function = function!(|x| check_and_fill_parameters(&x.w));
const STEP: Function = function!(|x| training_step(&x.w, x.step));
const STEP_BACKWARD: Function = |x| {
    let after = StateGradient { stability: 1.0, difficulty: -2.0 };
    training_step_backward(&x.w, x.step, after, 0.5, &mut x.gw).map(drop)
};
const PREFIX: Function = function!(|x| batch_loss(&x.w, &x.prefixes()));
const PREFIX_GRAD: Function = |x| {
    let y = x.clone();
    batch_loss_and_grad(&y.w, &y.prefixes(), &mut x.gw, &mut x.records).map(drop)
};
const CARD: Function = function!(|x| card_loss(&x.w, &x.cards()));
const CARD_GRAD: Function = |x| {
    let y = x.clone();
    card_loss_and_grad(&y.w, &y.cards(), &mut x.gw, &mut x.records, &mut x.step_grads).map(drop)
};

const EXPLAIN: Function = function!(|x| explain_step(&x.w, x.step));
/// The fault of a call, as the call's own refusal.
fn refused(fault: Option<Fault>) -> Result<(), Refusal> {
    fault.map_or(Ok(()), |fault| Err(fault.refusal))
}
const PREFIX_FAULT: Function = |x| refused(batch_loss_fault(&x.w, &x.prefixes()));
const PREFIX_GRAD_FAULT: Function =
    |x| refused(batch_loss_and_grad_fault(&x.w, &x.prefixes(), x.gw.len(), x.records.len()));
const CARD_FAULT: Function = |x| refused(card_loss_fault(&x.w, &x.cards()));
const CARD_GRAD_FAULT: Function =
    |x| refused(card_loss_and_grad_fault(&x.w, &x.cards(), x.gw.len(), x.records.len(), x.step_grads.len()));
const STEPS: [Function; 3] = [STEP, STEP_BACKWARD, EXPLAIN];
const PREFIXES: [Function; 4] = [PREFIX, PREFIX_GRAD, PREFIX_FAULT, PREFIX_GRAD_FAULT];
const LOSSES: [Function; 8] =
    [PREFIX, PREFIX_GRAD, PREFIX_FAULT, PREFIX_GRAD_FAULT, CARD, CARD_GRAD, CARD_FAULT, CARD_GRAD_FAULT];
const GRADS: [Function; 4] = [PREFIX_GRAD, PREFIX_GRAD_FAULT, CARD_GRAD, CARD_GRAD_FAULT];

/// Each function accepts the good call, and refuses it with the fault, writing nothing; in both modes.
fn refuse(functions: &[Function], refusal: Refusal, fault: fn(&mut Call)) {
    for align in [Align::Start, Align::End] {
        for (i, function) in functions.iter().enumerate() {
            let mut x = Call::with(|x| x.align = align);
            assert_eq!(function(&mut x.clone()), Ok(()), "function {i}");
            fault(&mut x);
            let lent = x.lent();
            assert_eq!(function(&mut x), Err(refusal), "function {i}");
            assert_eq!(x.lent(), lent, "function {i}: {refusal}, and something was written");
        }
    }
}

#[test]
fn weights_are_refused() {
    let mut functions = FORMULAS.to_vec();
    functions.extend(STEPS);
    functions.extend(LOSSES);
    refuse(&functions, Refusal::WeightCount, |x| x.w.truncate(20));
    refuse(&functions, Refusal::WeightCount, |x| x.w.clear());
    functions.push(FILL);
    refuse(&functions, Refusal::WeightBox, |x| x.w[20] = 1.5);
    refuse(&functions, Refusal::WeightBox, |x| x.w[0] = f32::NAN);
    refuse(&[FILL], Refusal::FillingCount, |x| x.w.truncate(20));
}

#[test]
fn scalars_are_refused() {
    let mut functions = FORMULAS.to_vec();
    functions.extend(STEPS);
    refuse(&functions, Refusal::Scalar, |x| {
        x.step.state = State { stability: f32::INFINITY, difficulty: f32::NAN };
        x.rating = 5;
    });
}

#[test]
fn first_reviews_are_refused() {
    let mut w = Call::good().w;
    let refused = |w: &[f32], refusal| {
        for rating in [0, 5, 6, 1 << 31, u32::MAX] {
            assert_eq!(first_state(w, rating), Err(refusal), "{rating}");
        }
    };
    refused(&w, Refusal::Scalar);
    w[20] = 1.5;
    refused(&w, Refusal::WeightBox);
    refused(&w[..20], Refusal::WeightCount);
    refused(&[], Refusal::WeightCount);
}

/// 1, 2, 13 and 15, in this order.
#[test]
fn days_are_refused() {
    let mut w = Call::good().w;
    let none = State { stability: f32::NAN, difficulty: 6.0 };
    let state = Call::good().step.state;
    let refused = |w: &[f32], state, seen, day, refusal| {
        assert_eq!(next_state_on(w, Seen { state, day: seen }, day, 3), Err(refusal), "{seen} {day}")
    };
    for (seen, day) in [(1, 0), (MAX_DAY, 0), (MAX_DAY, MAX_DAY - 1)] {
        refused(&w, state, seen, day, Refusal::Earlier);
        refused(&w, none, seen, day, Refusal::Scalar);
    }
    for (seen, day) in [(0, MAX_DAY + 1), (MAX_DAY + 1, 0), (MAX_DAY + 1, MAX_DAY + 1), (u32::MAX, 5), (5, u32::MAX)] {
        refused(&w, state, seen, day, Refusal::Scalar);
    }
    refused(&w[..20], none, 5, 4, Refusal::WeightCount);
    w[20] = 1.5;
    refused(&w, none, 5, 4, Refusal::WeightBox);
}

/// The days between are what `next_state` is told, and the day is carried on.
#[test]
fn days_are_carried() {
    let x = Call::good();
    for (seen, day) in [(0, 0), (0, 1), (7, 7), (19000, 19004), (0, MAX_DAY), (MAX_DAY, MAX_DAY), (99999, MAX_DAY)] {
        for rating in 0..=5 {
            let after = next_state_on(&x.w, Seen { state: x.step.state, day: seen }, day, rating).expect("a review");
            assert_eq!(Ok(after.state), next_state(&x.w, x.step.state, (day - seen) as f32, rating));
            assert_eq!(after.day, day);
        }
    }
}

/// What the formulas give is accepted, and every flipped bit is seen, in the first field that has one.
#[test]
fn rows_are_judged_by_their_first_wrong_field() {
    let x = Call::good();
    for day in [0.0, 0.4, 4.0, -7.0, 100000.0] {
        for rating in 0..=5 {
            let after = next_state(&x.w, x.step.state, day, rating).expect("a state");
            let ours = Claimed::of_floats(after, next_interval(&x.w, after.stability, 0.85).expect("an interval"));
            let check = |claimed| check_row(&x.w, x.step.state, day, rating, 0.85, claimed);
            assert_eq!(check(ours), Ok(Verdict::Accepted));
            for bit in 0..32 {
                let flip = |s: u32, d: u32, i: u32| Claimed {
                    stability: ours.stability ^ s << bit,
                    difficulty: ours.difficulty ^ d << bit,
                    interval: ours.interval ^ i << bit,
                };
                for i in [0, 1] {
                    assert_eq!(check(flip(1, 0, i)), Ok(Verdict::Stability));
                    assert_eq!(check(flip(1, 1, i)), Ok(Verdict::Stability));
                    assert_eq!(check(flip(0, 1, i)), Ok(Verdict::Difficulty));
                }
                assert_eq!(check(flip(0, 0, 1)), Ok(Verdict::Interval));
            }
        }
    }
}

/// 1, 2 and 13 come before any verdict, and nothing that is claimed is refused.
#[test]
fn rows_are_refused() {
    let mut w = Call::good().w;
    let good = Call::good().step.state;
    for x in [f32::INFINITY, f32::NEG_INFINITY, f32::NAN] {
        let claimed = Claimed::of_floats(State { stability: x, difficulty: x }, x);
        let refused = |w: &[f32], state, day, retention, refusal| {
            assert_eq!(check_row(w, state, day, 3, retention, claimed), Err(refusal), "{x}")
        };
        assert_eq!(check_row(&w, good, 4.0, 3, 0.9, claimed), Ok(Verdict::Stability));
        refused(&w, State { stability: x, ..good }, 4.0, 0.9, Refusal::Scalar);
        refused(&w, State { difficulty: x, ..good }, 4.0, 0.9, Refusal::Scalar);
        refused(&w, good, x, 0.9, Refusal::Scalar);
        refused(&w, good, BEYOND, 0.9, Refusal::Scalar);
        refused(&w, good, 4.0, x, Refusal::Scalar);
        refused(&w[..20], good, 4.0, x, Refusal::WeightCount);
        w[20] = 1.5;
        refused(&w, good, 4.0, x, Refusal::WeightBox);
        w[20] = 0.5;
    }
}

#[test]
fn cards_from_sm2_are_refused() {
    let mut w = Call::good().w;
    let refused = |w: &[f32], ease, interval, retention, refusal| {
        assert_eq!(memory_state_from_sm2(w, ease, interval, retention), Err(refusal), "{ease} {interval} {retention}")
    };
    for x in [f32::INFINITY, f32::NEG_INFINITY, f32::NAN] {
        refused(&w, x, 5.0, 0.9, Refusal::Scalar);
        refused(&w, 2.5, x, 0.9, Refusal::Scalar);
        refused(&w, 2.5, 5.0, x, Refusal::Scalar);
        refused(&w, x, 5.0, 0.0, Refusal::Scalar);
        refused(&w, 2.5, x, 1.0, Refusal::Scalar);
    }
    for retention in [0.0, -0.0, f32::from_bits(0x80000001), -0.5, -3e38, 1.0, 1.0 + f32::EPSILON, 1.5, 90.0, 3e38] {
        refused(&w, 2.5, 5.0, retention, Refusal::Import);
    }
    for ease in [3e38, -3e38] {
        refused(&w, ease, 5.0, 0.9, Refusal::Import);
    }
    refused(&w[..20], f32::NAN, 5.0, 0.0, Refusal::WeightCount);
    w[20] = 1.5;
    refused(&w, f32::NAN, 5.0, 0.0, Refusal::WeightBox);
}

/// 1, 2, 5 and 13, in this order, and all of them before a total of 0.
#[test]
fn penalties_are_refused() {
    let w = Call::good().w;
    let good = [1.0; WEIGHTS];
    let refused = |w: &[f32], old: &[f32], spreads: &[f32], slots: usize, sizes: (u64, u64), refusal| {
        let mut lent = vec![7.0; slots];
        assert_eq!(l2_penalty(w, old, sizes.0, sizes.1, 1.0, spreads, &mut lent), Err(refusal));
        assert_eq!(lent, vec![7.0; slots], "{refusal}, and something was written");
    };
    for spread in [0.0, -0.0, -1.0, f32::INFINITY, f32::NEG_INFINITY, f32::NAN] {
        let spreads = [&good[1..], &[spread]].concat();
        refused(&w, &w, &spreads, WEIGHTS, (1, 0), Refusal::Scalar);
        refused(&w, &w, &spreads, WEIGHTS - 1, (1, 0), Refusal::SlotCount);
    }
    for beyond in [MAX_SIZE + 1, 1 << 32, 1 << 63, u64::MAX] {
        refused(&w, &w, &good, WEIGHTS, (beyond, 0), Refusal::Scalar);
        refused(&w, &w, &good, WEIGHTS, (1, beyond), Refusal::Scalar);
        refused(&w, &w, &good, WEIGHTS + 1, (1, beyond), Refusal::SlotCount);
    }
    let mut outside = w.clone();
    outside[20] = 1.5;
    refused(&outside, &w, &good, 0, (1, 1), Refusal::WeightBox);
    refused(&w, &outside, &good, 0, (1, 1), Refusal::WeightBox);
    refused(&outside, &w[..20], &good, 0, (1, 1), Refusal::WeightCount);
    refused(&w[..20], &outside, &good, 0, (1, 1), Refusal::WeightCount);
    refused(&outside, &outside, &good[..20], 0, (1, 1), Refusal::WeightCount);
}

/// Slots are written, and not added to; a total of 0 gives zeros, and so does a penalty that is not finite.
#[test]
fn penalties_pull_back() {
    let old = Call::good().w;
    let (mut w, mut slots) = (old.clone(), [7.0; WEIGHTS]);
    w[4] = old[4] + 0.5;
    let diff = f64::from(w[4]) - f64::from(old[4]);
    for _ in 0..2 {
        assert_eq!(l2_penalty(&w, &old, 1, 4, 1.0, &[1.0; WEIGHTS], &mut slots), Ok(diff * diff * 0.25));
        assert_eq!(slots[4], (2.0 * diff * 0.25) as f32);
        assert!(slots.iter().enumerate().all(|(i, x)| i == 4 || x.to_bits() == 0));
    }
    for (factor, total) in [(f64::NAN, 0), (f64::INFINITY, 0), (f64::INFINITY, 4), (f64::NAN, 4), (f64::MAX, 1)] {
        let mut slots = [7.0; WEIGHTS];
        assert_eq!(l2_penalty(&w, &old, 8, total, factor, &[1.0; WEIGHTS], &mut slots), Ok(0.0), "{factor} {total}");
        assert!(slots.iter().all(|x| x.to_bits() == 0));
    }
}

/// 3, 13, then row by row 7 and 8, in this order.
#[test]
fn first_recalls_are_refused() {
    let (days, shares, counts) = ([1.0, 3.0, 7.0], [0.95, 0.9, 0.8], [40.0, 20.0, 10.0]);
    let with = |row: usize, x: f64, mut xs: [f64; 3]| {
        xs[row] = x;
        xs
    };
    let refused = |t: &[f64], y: &[f64], n: &[f64], s: f64, refusal| {
        assert_eq!(initial_stability(t, y, n, s), Err(refusal), "{t:?} {y:?} {n:?} {s}")
    };
    let least = f64::from_bits(1);
    let never = [f64::NAN, f64::INFINITY, f64::NEG_INFINITY, -1.0, -least];
    for row in 0..3 {
        for x in never.into_iter().chain([0.0, -0.0, 100000f64.next_up()]) {
            refused(&with(row, x, days), &shares, &counts, 2.5, Refusal::Day);
            refused(&with(row, x, days), &with(row, 2.0, shares), &with(row, 0.0, counts), 2.5, Refusal::Day);
        }
        for x in never.into_iter().chain([1f64.next_up(), 2.0]) {
            refused(&days, &with(row, x, shares), &counts, 2.5, Refusal::Review);
        }
        for x in never.into_iter().chain([0.0, -0.0, 4294967296f64.next_up()]) {
            refused(&days, &shares, &with(row, x, counts), 2.5, Refusal::Review);
        }
    }
    // of two rows the first one
    refused(&with(1, 0.0, days), &with(0, 2.0, shares), &counts, 2.5, Refusal::Review);
    refused(&with(1, 0.0, days), &shares, &with(0, 0.0, counts), 2.5, Refusal::Review);
    refused(&with(0, 0.0, days), &with(1, 2.0, shares), &counts, 2.5, Refusal::Day);
    for x in never.into_iter().chain([0.0, f64::from(0.0001f32).next_down(), 100f64.next_up()]) {
        refused(&with(0, 0.0, days), &shares, &counts, x, Refusal::Scalar);
        refused(&[], &[], &[], x, Refusal::Scalar);
        refused(&days[..2], &shares, &counts, x, Refusal::Sizes);
        refused(&days, &shares[..2], &counts, x, Refusal::Sizes);
        refused(&days, &shares, &counts[..2], x, Refusal::Sizes);
    }
    let rows = [1.0; MAX_RECALLS + 1];
    refused(&rows, &rows, &rows, 2.5, Refusal::Sizes);
    assert!(initial_stability(&rows[1..], &rows[1..], &rows[1..], 2.5).is_ok());
}

/// No rows and few recalls leave the default; nine of ten recalled after so many days are a stability of so many.
#[test]
fn first_recalls_start() {
    for start in [f64::from(0.0001f32), 0.0001, 1.0, 2.5, 8.2956, 100.0] {
        assert_eq!(initial_stability(&[], &[], &[], start), Ok(start as f32));
        assert_eq!(initial_stability(&[5.0], &[0.25], &[1e-9], start), Ok(start as f32));
        assert_eq!(initial_stability(&[1.0], &[0.0], &[4294967296.0], start), Ok(0.0001));
        assert_eq!(initial_stability(&[100000.0], &[1.0], &[4294967296.0], start), Ok(100.0));
        for days in [0.5, 1.0, 3.0, 20.0] {
            let shares = [days, 2.0 * days, 9.0 * days].map(|t| {
                let factor = 0.9f64.powf(-1.0 / f64::from(0.1542f32)) - 1.0;
                (1.0 + t / days * factor).powf(-f64::from(0.1542f32))
            });
            let found = initial_stability(&[days, 2.0 * days, 9.0 * days], &shares, &[1e9; 3], start);
            assert_eq!(found, Ok(days as f32), "from {start}");
        }
    }
}

#[test]
fn slots_sizes_and_room_are_refused() {
    refuse(&[STEP_BACKWARD], Refusal::SlotCount, |x| x.gw.truncate(20));
    refuse(&GRADS, Refusal::SlotCount, |x| x.gw.truncate(20));
    refuse(&LOSSES, Refusal::Sizes, |x| x.rows = MAX_ROWS + 1);
    refuse(&LOSSES, Refusal::Sizes, |x| x.columns = MAX_COLUMNS + 1);
    refuse(&LOSSES, Refusal::Sizes, |x| x.days.truncate(CELLS - 1));
    refuse(&LOSSES, Refusal::Sizes, |x| x.ratings.clear());
    refuse(&LOSSES, Refusal::Sizes, |x| x.lengths.clear());
    refuse(&GRADS, Refusal::Room, |x| x.records.truncate(RECORD * ROWS - 1));
    refuse(&[CARD_GRAD, CARD_GRAD_FAULT], Refusal::Room, |x| x.step_grads.clear());
}

#[test]
fn reviews_are_refused() {
    let mut functions = LOSSES.to_vec();
    functions.extend(STEPS);
    refuse(&functions, Refusal::Rating, |x| {
        x.step.rating = 5.0;
        x.ratings[0] = 5.0;
    });
    refuse(&functions, Refusal::Day, |x| {
        x.step.day = BEYOND;
        x.days[COLUMNS] = BEYOND;
    });
    refuse(&LOSSES, Refusal::Review, |x| x.labels.fill(1.5));
    refuse(&LOSSES, Refusal::Review, |x| x.weights.fill(f32::NAN));
    refuse(&PREFIXES, Refusal::EmptyPrefix, |x| x.lengths[1] = 0);
}

#[test]
fn refusals_have_document_01s_numbers() {
    for (i, refusal) in Refusal::ALL.into_iter().enumerate() {
        assert_eq!(refusal.number(), i as u32 + 1);
    }
}

/// The words of `fsrs_refusal_text`, after that for no refusal, are the same.
#[test]
fn refusals_have_the_headers_words() {
    let words = header_words("fsrs_refusal_text");
    assert_eq!(words[0], "accepted");
    assert_eq!(words[1..], Refusal::ALL.map(|refusal| refusal.to_string()));
}

/// The texts of one of the header's functions, by their numbers.
fn header_words(function: &str) -> Vec<String> {
    let path = concat!(env!("CARGO_MANIFEST_DIR"), "/../../include/fsrs6.h");
    let header = std::fs::read_to_string(path).expect(path);
    let (_, body) = header.split_once(&format!("{function}(uint32_t number) {{")).expect("the function");
    let (_, table) = body.split_once("texts[] = {").expect("the table");
    let (table, _) = table.split_once("};").expect("its end");
    table.split('"').skip(1).step_by(2).map(str::to_string).collect()
}

#[test]
fn reasons_have_the_headers_words() {
    assert_eq!(header_words("fsrs_reason_text"), Reason::ALL.map(|reason| reason.to_string()));
    assert_eq!(header_words("fsrs_held_text"), Held::ALL.map(|held| held.to_string()));
}

#[test]
fn kernels_answer() {
    assert_eq!((exp_f32(-0.0), exp_f64(-0.0)), (Ok(1.0), Ok(1.0)));
    assert_eq!((exp_f32(-89.0), exp_f64(710.0)), (Ok(0.0), Ok(f64::INFINITY)));
    assert_eq!((expm1_f32(-89.0), expm1_f32(89.0)), (Ok(-1.0), Ok(f32::INFINITY)));
    for x in [0.0, -0.0, f32::from_bits(1), -f32::MIN_POSITIVE, f32::powi(2.0, -24), -f32::powi(2.0, -24)] {
        assert_eq!(expm1_f32(x).map(f32::to_bits), Ok(x.to_bits()));
    }
    assert_eq!((ln_f32(1.0), ln_f64(1.0)), (Ok(0.0), Ok(0.0)));
    assert_eq!((pow_f32(1.0, 16.0), pow_f64(7.0, -0.0)), (Ok(1.0), Ok(1.0)));
    assert_eq!((round_f32(2.5), round_f64(-2.5)), (3.0, -3.0));
    assert!(round_f32(f32::NAN).is_nan() && fma_f64(0.0, f64::INFINITY, 1.0).is_nan());
}

#[test]
fn kernels_refuse() {
    for x in [f32::INFINITY, f32::NEG_INFINITY, f32::NAN] {
        assert_eq!((exp_f32(x), exp_f64(x.into())), (Err(Refusal::Kernel), Err(Refusal::Kernel)));
        assert_eq!(expm1_f32(x), Err(Refusal::Kernel));
        assert_eq!((pow_f32(1.0, x), pow_f64(1.0, x.into())), (Err(Refusal::Kernel), Err(Refusal::Kernel)));
    }
    for x in [f32::INFINITY, f32::NAN, 0.0, -0.0, -1.0] {
        assert_eq!((ln_f32(x), ln_f64(x.into())), (Err(Refusal::Kernel), Err(Refusal::Kernel)));
        assert_eq!((pow_f32(x, 1.0), pow_f64(x.into(), 1.0)), (Err(Refusal::Kernel), Err(Refusal::Kernel)));
    }
    assert_eq!((pow_f32(1.0, 17.0), pow_f64(1.0, -17.0)), (Err(Refusal::Kernel), Err(Refusal::Kernel)));
}

/// The stability is a weight; the difficulty is the first difficulty, clamped. With no exp it is known where the rating is 1
/// and where weight 5 is 0.
#[test]
fn first_reviews_answer() {
    for (w4, w5) in [(6.4133, 0.8334), (5.0, 0.0), (0.0, 0.0), (20.0, 0.25), (20.0, 4.0), (0.0, 4.0), (7.5, 0.125)] {
        let x = Call::with(|x| (x.w[4], x.w[5], x.w[1]) = (w4, w5, 36500.0));
        for rating in 1..=4 {
            let state = first_state(&x.w, rating).expect("a first review");
            assert_eq!(state.stability, x.w[rating as usize - 1]);
            assert_eq!(Ok(state.difficulty), init_difficulty(&x.w, rating).map(|d| d.clamp(1.0, 10.0)));
            if rating == 1 || w5 == 0.0 {
                assert_eq!(state.difficulty, w4.clamp(1.0, 10.0));
            }
        }
    }
    let w = Call::good().w;
    assert_eq!(first_state(&w, 4), Ok(State { stability: w[3], difficulty: 1.0 }));
    assert!(next_state(&w, State::default(), 0.0, 3).expect("a state").stability < 0.001);
}

/// Where the deck was recalled at 0.9 the stability is the interval, but for two roundings, which a power of 2 leaves out.
#[test]
fn cards_from_sm2_are_taken() {
    let w = Call::good().w;
    let from = |ease, interval, retention| memory_state_from_sm2(&w, ease, interval, retention).expect("a card");
    assert_eq!(from(1.0, 4.0, 0.9), State { stability: 4.0, difficulty: 10.0 });
    assert_eq!(from(1000.0, 65536.0, 0.9), State { stability: 65536.0, difficulty: 1.0 });
    let short = from(2.5, 0.0001, 0.5);
    assert!(short.stability > 0.0 && short.stability < 0.0001);
    for interval in [0.0, -5.0, -3e38] {
        assert_eq!(from(2.5, interval, 0.5), short);
    }
}

/// Document 01's values to prove, 5 to 10 and 12.
#[test]
fn steps_answer() {
    let w = Call::good().w;
    let first = Step { rating: 1.0, ..Step::default() };
    let padding = training_step(&w, Step::default()).expect("padding");
    assert_eq!(padding.state, State { stability: 0.0001, difficulty: 1.0 });
    assert_eq!(training_step(&w, first).expect("first").state, State { stability: w[0], difficulty: w[4] });
    let still = Call::with(|x| [7, 13, 17, 19].into_iter().for_each(|i| x.w[i] = 0.0));
    for (day, branch) in [(0.0, BRANCH_SAME_DAY), (-1.0, BRANCH_SUCCESS)] {
        let stepped = training_step(&still.w, Step { day, ..still.step }).expect("a step");
        assert_eq!((stepped.state, stepped.record[RECORD_BRANCH]), (still.step.state, branch as f32));
    }
    let lapse = training_step(&still.w, Step { day: 1.0, rating: 1.0, ..still.step }).expect("a lapse");
    assert_eq!((lapse.state.stability, lapse.record[RECORD_BRANCH]), (0.0001, BRANCH_LAPSE as f32));
    assert!(training_step(&w, Step { day: 100000.0, ..still.step }).is_ok());
}

mod records {
    use super::*;

    const ROWS: usize = 9;
    const ROOM: usize = ROWS + 1;
    /// A history that takes every branch.
    const DAYS: [f32; ROWS] = [0.0, 0.0, 0.0, 4.0, 3.0, 0.0, 100.0, 0.0, 10000.0];
    const RATINGS: [f32; ROWS] = [3.0, 3.0, 4.0, 1.0, 3.0, 0.0, 1.0, 1.0, 1.0];
    /// The same, forgotten at once.
    const OTHERS: [f32; ROWS] = [1.0, 3.0, 4.0, 1.0, 3.0, 0.0, 1.0, 1.0, 1.0];

    /// The names in the order of the columns.
    fn numbers(x: &Record) -> [f32; RECORD] {
        let branch = [x.branch.number() as f32, x.branch_raw, x.branch_other];
        let step = [x.stability, x.difficulty, x.day, x.rating, x.retrievability, x.pre_stability, x.pre_difficulty];
        [&step[..], &branch].concat().try_into().expect("ten")
    }

    /// The records of steps one by one, each from the state that the one before it gives.
    fn path_of(w: &[f32], ratings: [f32; ROWS]) -> Vec<Record> {
        let mut state = State::default();
        (0..ROWS)
            .map(|row| {
                let step = training_step(w, Step { state, day: DAYS[row], rating: ratings[row], row }).expect("a step");
                let read = record(&step.record, 0).expect("a record");
                assert_eq!((read.before(), read.after()), (state, step.state), "row {row}");
                assert_eq!((numbers(&read), read.rating), (step.record, ratings[row]), "row {row}");
                let is_unread = matches!(read.branch, Branch::Padding | Branch::First);
                assert_eq!(read.day, if is_unread { 0.0 } else { DAYS[row] }, "row {row}");
                state = step.state;
                read
            })
            .collect()
    }

    #[test]
    fn branches_have_the_records_numbers() {
        assert_eq!(Branch::ALL.map(Branch::number), [0, 1, 2, 3, 4, 5, 6]);
        assert_eq!((Branch::First.number(), Branch::SameDayOne.number()), (BRANCH_FIRST, BRANCH_SAME_DAY_ONE));
        let w = Call::good().w;
        let met = path_of(&w, RATINGS).into_iter().map(|step| step.branch).collect::<Vec<_>>();
        assert!(Branch::ALL.iter().all(|branch| met.contains(branch)), "{met:?}");
    }

    #[test]
    fn a_state_after_is_clamped() {
        let w = Call::good().w;
        for (stability, difficulty, day, rating, row) in
            [(0.0, 0.0, 0.0, 4.0, 0), (36500.0, 1.0, 36500.0, 4.0, 1), (0.0001, 9.9, 1.0, 1.0, 1)]
        {
            let step = Step { state: State { stability, difficulty }, day, rating, row };
            let stepped = training_step(&w, step).expect("a step");
            let read = record(&stepped.record, 0).expect("a record");
            assert_eq!(read.after(), stepped.state);
            assert_ne!(read.after(), State { stability: read.pre_stability, difficulty: read.pre_difficulty });
        }
    }

    #[test]
    fn a_prefix_leaves_the_path_of_its_steps() {
        let w = Call::good().w;
        let prefix = Prefixes {
            rows: ROWS as u32,
            columns: 1,
            days: &DAYS,
            ratings: &RATINGS,
            lengths: &[ROWS as u32],
            target_days: &[5.0],
            labels: &[1.0],
            weights: &[1.0],
            ..Prefixes::default()
        };
        let (mut gw, mut lent) = ([0.0; WEIGHTS], [-1.0; RECORD * ROOM + 3]);
        assert!(batch_loss_and_grad(&w, &prefix, &mut gw, &mut lent).is_ok());
        assert_eq!((0..).map_while(|row| record(&lent, row)).collect::<Vec<_>>(), path_of(&w, RATINGS));
        for row in [ROWS, ROOM, usize::MAX] {
            assert_eq!(record(&lent, row), None, "row {row}");
        }
        assert_eq!(lent[RECORD * ROOM..], [-1.0; 3]);
        assert_eq!(record(&lent[..9], 0), None);
    }

    /// Of two cards record i is that of the last that stepped on row i, and none steps on its last.
    #[test]
    fn two_cards_leave_the_last_columns_steps() {
        let w = Call::good().w;
        let in_pairs =
            |a: [f32; ROWS], b: [f32; ROWS]| a.into_iter().zip(b).flat_map(|(x, y)| [x, y]).collect::<Vec<_>>();
        let (days, ratings, zeros) = (in_pairs(DAYS, DAYS), in_pairs(RATINGS, OTHERS), [0.0; 2 * ROWS]);
        let cards = Cards {
            rows: ROWS as u32,
            columns: 2,
            days: &days,
            ratings: &ratings,
            lengths: &[7, 4],
            labels: &zeros,
            weights: &zeros,
            ..Cards::default()
        };
        let (mut gw, mut lent, mut step_grads) = ([0.0; WEIGHTS], [-1.0; RECORD * ROWS], [0.0; ROWS]);
        assert_eq!(card_loss_and_grad(&w, &cards, &mut gw, &mut lent, &mut step_grads), Ok(0.0));
        let (first, second) = (path_of(&w, RATINGS), path_of(&w, OTHERS));
        let path: Vec<_> = (0..).map_while(|row| record(&lent, row)).collect();
        assert_eq!(path, [&second[..3], &first[3..6]].concat());
        assert_ne!(path[..3], first[..3]);
    }
}

mod reasons {
    use super::*;

    fn explained(change: impl FnOnce(&mut Call)) -> (Reason, Held, Held) {
        let x = Call::with(change);
        let is = explain_step(&x.w, x.step).expect("a step");
        (is.reason, is.stability_held, is.difficulty_held)
    }

    fn outside(stability: f32, difficulty: f32) -> (Reason, Held, Held) {
        explained(|x| {
            // the day goes unread
            x.step = Step { state: State { stability, difficulty }, day: f32::NAN, rating: -0.0, row: 7 };
        })
    }

    #[test]
    fn numbers_are_the_headers() {
        assert_eq!(Reason::ALL.map(Reason::number), [0, 1, 2, 3, 4, 5, 6, 7, 8]);
        assert_eq!(Held::ALL.map(Held::number), [0, 1, 2]);
        assert_eq!((Reason::SuccessHard.number(), Held::High.number()), (7, 2));
    }

    /// In padding it is the given state that is held, and an end itself is not outside.
    #[test]
    fn padding_is_held_by_what_is_given() {
        assert_eq!(outside(0.0, 0.0), (Reason::Padding, Held::Low, Held::Low));
        assert_eq!(outside(36501.0, 10.5), (Reason::Padding, Held::High, Held::High));
        for (stability, difficulty) in [(0.0001, 1.0), (36500.0, 10.0), (5.0, 6.0)] {
            assert_eq!(outside(stability, difficulty), (Reason::Padding, Held::Free, Held::Free));
        }
    }

    #[test]
    fn every_reason_is_met() {
        let free = |reason| (reason, Held::Free, Held::Free);
        let first = |rating| explained(|x| x.step = Step { rating, ..Step::default() });
        assert_eq!(first(1.0), free(Reason::First));
        assert_eq!(first(4.0), (Reason::First, Held::Free, Held::Low));
        let rated = |day, rating| explained(|x| (x.step.day, x.step.rating) = (day, rating));
        assert_eq!(rated(-0.0, 3.0), free(Reason::SameDayOne));
        assert_eq!(rated(0.0, 4.0), free(Reason::SameDayRaw));
        assert_eq!(rated(0.0, 1.0), free(Reason::SameDayRaw));
        assert_eq!(rated(4.0, 1.0), free(Reason::LapseRaw));
        assert_eq!(rated(4.0, 2.0), free(Reason::SuccessHard));
        assert_eq!(rated(4.0, 3.0), free(Reason::Success));
        assert_eq!(rated(-4.0, 4.0), free(Reason::SuccessEasy));
        // a raw multiplier of exactly 1 counts as raw
        let one = explained(|x| (x.w[17], x.w[19], x.step.day) = (0.0, 0.0, 0.0));
        assert_eq!(one, free(Reason::SameDayRaw));
        // the raw value is weight 11 times the stability, and the floor the stability: equality takes the raw value
        let lapse = |w11| {
            explained(|x| {
                (x.w[11], x.w[12], x.w[13], x.w[14], x.w[17]) = (w11, 0.0, 1.0, 0.0, 0.0);
                x.step.state.stability = 1.0;
                x.step.rating = 1.0;
            })
        };
        assert_eq!(lapse(1.0), free(Reason::LapseRaw));
        assert_eq!(lapse(1.0 + f32::EPSILON), free(Reason::LapseFloor));
    }

    /// What is held is the output, at that end; the reason up to 5 is the record's branch.
    #[test]
    fn a_reason_goes_with_its_record() {
        for (stability, difficulty, day, rating) in
            [(36500.0, 1.0, 36500.0, 4.0), (0.0, 9.9, 0.0, 1.0), (5.0, 6.0, 0.0, 3.0), (-1.0, 11.0, 1.0, 0.0)]
        {
            let w = Call::with(|x| x.w[19] = 0.0).w;
            let step = Step { state: State { stability, difficulty }, day, rating, row: 1 };
            let (is, stepped) = (explain_step(&w, step).expect("a step"), training_step(&w, step).expect("a step"));
            assert_eq!(is.reason.number().min(6) as f32, stepped.record[RECORD_BRANCH]);
            let at_end = |held, x, low, high| match held {
                Held::Free => x,
                Held::Low => low,
                Held::High => high,
            };
            let State { stability: s, difficulty: d } = stepped.state;
            assert_eq!(at_end(is.stability_held, s, 0.0001, 36500.0), s, "{step:?}");
            assert_eq!(at_end(is.difficulty_held, d, 1.0, 10.0), d, "{step:?}");
        }
    }
}

mod faults {
    use super::*;

    /// The faults of both kinds, in both modes: alone and with the gradient they are the same.
    fn places(x: &Call) -> [Option<Fault>; 4] {
        let at = |align| {
            let x = Call { align, ..x.clone() };
            let (prefix, card) = (batch_loss_fault(&x.w, &x.prefixes()), card_loss_fault(&x.w, &x.cards()));
            assert_eq!(batch_loss_and_grad_fault(&x.w, &x.prefixes(), WEIGHTS, RECORD * ROWS), prefix);
            assert_eq!(card_loss_and_grad_fault(&x.w, &x.cards(), WEIGHTS, RECORD * ROWS, ROWS), card);
            assert_eq!(batch_loss(&x.w, &x.prefixes()).err(), prefix.map(|fault| fault.refusal));
            assert_eq!(card_loss(&x.w, &x.cards()).err(), card.map(|fault| fault.refusal));
            [prefix, card]
        };
        let ([prefix, card], [prefix_at_end, card_at_end]) = (at(Align::Start), at(Align::End));
        [prefix, card, prefix_at_end, card_at_end]
    }

    fn at(refusal: Refusal, column: u32, row: u32) -> Option<Fault> {
        Some(Fault { refusal, place: Some(Place { column, row }) })
    }

    #[test]
    fn the_first_bad_cell_is_named() {
        assert_eq!(places(&Call::good()), [None; 4]);
        let one = Call::with(|x| x.ratings[COLUMNS + 1] = 7.0);
        let rating = at(Refusal::Rating, 1, 1);
        assert_eq!(places(&one), [rating, None, rating, rating]); // a card's last rating is read at the end alone
                                                                  // two cells of a row, two rows, two columns
        let row = Call::with(|x| (x.ratings[COLUMNS], x.days[COLUMNS]) = (f32::NAN, BEYOND));
        assert_eq!(places(&row), [at(Refusal::Rating, 0, 1); 4]);
        let rows = Call::with(|x| (x.days[COLUMNS], x.days[2 * COLUMNS]) = (BEYOND, BEYOND));
        assert_eq!(places(&rows), [at(Refusal::Day, 0, 1); 4]);
        let columns = Call::with(|x| (x.ratings[1], x.days[2 * COLUMNS]) = (5.0, BEYOND));
        assert_eq!(places(&columns), [at(Refusal::Day, 0, 2); 4]);
        // of a prefix the scored review, behind its rows; of a card the first weights go unread
        let target = Call::with(|x| x.weights[1] = f32::NAN);
        let review = at(Refusal::Review, 1, 2);
        assert_eq!(places(&target), [review, None, review, None]);
        let cut = Call::with(|x| (x.weights[0], x.lengths[0]) = (-1.0, u32::MAX));
        let review = at(Refusal::Review, 0, ROWS as u32);
        assert_eq!(places(&cut), [review, None, review, None]);
        let empty = Call::with(|x| x.lengths[1] = 0);
        let none = at(Refusal::EmptyPrefix, 1, 0);
        assert_eq!(places(&empty), [none, None, none, None]);
    }

    #[test]
    fn other_refusals_name_no_place() {
        let x = Call::with(|x| x.ratings[1] = 7.0);
        let of = |refusal| Some(Fault { refusal, place: None });
        let [gw, records] = [WEIGHTS, RECORD * ROWS];
        assert_eq!(card_loss_and_grad_fault(&x.w, &x.cards(), gw, records, ROWS - 1), of(Refusal::Room));
        assert_eq!(card_loss_and_grad_fault(&x.w, &x.cards(), gw, records - 1, ROWS), of(Refusal::Room));
        assert_eq!(batch_loss_and_grad_fault(&x.w, &x.prefixes(), gw, records - 1), of(Refusal::Room));
        let short = Cards { days: &[], ..x.cards() };
        assert_eq!(card_loss_and_grad_fault(&x.w, &short, gw, 0, 0), of(Refusal::Sizes));
        assert_eq!(card_loss_and_grad_fault(&x.w, &short, gw - 1, 0, 0), of(Refusal::SlotCount));
        assert_eq!(card_loss_and_grad_fault(&x.w[..20], &short, gw - 1, 0, 0), of(Refusal::WeightCount));
        let beyond = Call::with(|y| (y.w[20], y.ratings[1]) = (1.5, 7.0));
        assert_eq!(places(&beyond), [of(Refusal::WeightBox); 4]);
    }

    #[test]
    fn a_fault_has_words() {
        let words = |fault: Option<Fault>| fault.expect("a fault").to_string();
        assert_eq!(words(at(Refusal::Rating, 2, 1)), "column 2, row 1: a rating is not 0, 1, 2, 3 or 4");
        assert_eq!(words(Some(Fault { refusal: Refusal::Room, place: None })), Refusal::Room.to_string());
    }
}

#[test]
fn a_gradient_gives_the_loss_alone_and_what_is_lent() {
    let mut x = Call::good();
    let y = x.clone();
    let mut gradient = Gradient::default();
    gradient.slots.copy_from_slice(&y.gw);
    assert_eq!(gradient.add_prefixes(&y.w, &y.prefixes()), batch_loss(&y.w, &y.prefixes()));
    assert_eq!(PREFIX_GRAD(&mut x), Ok(()));
    assert_eq!(gradient.slots, x.gw[..]);
    assert_eq!(gradient.add_cards(&y.w, &y.cards()), card_loss(&y.w, &y.cards()));
    assert_eq!(CARD_GRAD(&mut x), Ok(()));
    assert_eq!(gradient.slots, x.gw[..]);
}

#[test]
fn a_review_of_weight_0_gives_nothing() {
    let x = Call::with(|x| x.weights.fill(0.0));
    let mut gradient = Gradient::default();
    assert_eq!(gradient.add_prefixes(&x.w, &x.prefixes()), Ok(0.0));
    assert_eq!(gradient.add_cards(&x.w, &x.cards()), Ok(0.0));
    assert_eq!(gradient.slots, [0.0; WEIGHTS]);
}

/// The losses of both kinds, and the slots that their gradients leave.
fn losses(x: &Call) -> (Result<f64, Refusal>, Result<f64, Refusal>, [f64; WEIGHTS]) {
    let mut gradient = Gradient::default();
    let prefixes = gradient.add_prefixes(&x.w, &x.prefixes());
    let cards = gradient.add_cards(&x.w, &x.cards());
    assert_eq!((prefixes, cards), (batch_loss(&x.w, &x.prefixes()), card_loss(&x.w, &x.cards())));
    (prefixes, cards, gradient.slots)
}

/// The good call with a row of padding in front of its columns, of which only the ratings are good.
fn behind_padding() -> Call {
    let padded = |xs: &mut Vec<f32>, x: f32| drop(xs.splice(0..0, [x; COLUMNS]));
    let mut x = Call::with(|x| {
        padded(&mut x.days, f32::NAN);
        padded(&mut x.ratings, -0.0);
        padded(&mut x.labels, f32::INFINITY);
        padded(&mut x.weights, -1.0);
        x.lengths.iter_mut().for_each(|n| *n += 1);
    });
    (x.rows, x.align) = (ROWS as u32 + 1, Align::End);
    x
}

#[test]
fn histories_stand_at_the_start_by_default() {
    assert_eq!((Prefixes::default().align, Cards::default().align), (Align::Start, Align::Start));
    // the good call has no padding
    assert_eq!(losses(&Call::with(|x| x.align = Align::End)), losses(&Call::good()));
}

#[test]
fn a_deck_behind_padding_is_that_without_it() {
    let (x, y) = (Call::good(), behind_padding());
    let (mut at_start, mut at_end) = (Gradient::default(), Gradient::default());
    assert_eq!(at_end.add_cards(&y.w, &y.cards()), at_start.add_cards(&x.w, &x.cards()));
    let target = x.prefixes(); // one to a column, so that no padding is before it
    let prefixes =
        Prefixes { target_days: target.target_days, labels: target.labels, weights: target.weights, ..y.prefixes() };
    assert_eq!(at_end.add_prefixes(&y.w, &prefixes), at_start.add_prefixes(&x.w, &target));
    assert_eq!(at_end.slots, at_start.slots);
    // at the start its first reviews would not be taken for such
    assert_ne!(card_loss(&y.w, &Cards { align: Align::Start, ..y.cards() }), card_loss(&y.w, &y.cards()));
}

#[test]
fn a_last_rating_is_read_at_the_end_alone() {
    let last = (ROWS - 1) * COLUMNS;
    let x = Call::with(|x| x.ratings[last] = 5.0);
    assert_eq!(card_loss(&x.w, &x.cards()), card_loss(&x.w, &Call::good().cards()));
    assert_eq!(card_loss(&x.w, &Cards { align: Align::End, ..x.cards() }), Err(Refusal::Rating));
}

#[test]
fn padding_alone_scores_nothing_at_the_end() {
    let x = Call::with(|x| {
        x.align = Align::End;
        x.ratings.fill(0.0);
        x.days.fill(f32::NAN);
        x.labels.fill(f32::NAN);
        x.weights.fill(f32::NAN);
    });
    let (prefixes, cards, slots) = losses(&x);
    assert_eq!((prefixes.map(f64::to_bits), cards.map(f64::to_bits), slots), (Ok(0), Ok(0), [0.0; WEIGHTS]));
}

mod files {
    use super::*;

    const OFFSETS: [u32; 7] = [40, 124, 128, 132, 136, 136, 140];

    /// Document 01's example, by words: one card, one row, default weights, length 1, other cells zero.
    fn example() -> Vec<u32> {
        let mut words = vec![2, 1, 1];
        words.extend(OFFSETS);
        words.extend(Call::good().w.iter().map(|x| x.to_bits()));
        words.extend([0, 0, 1, 0, 0]);
        words
    }

    fn bytes(words: &[u32]) -> Vec<u8> {
        words.iter().flat_map(|word| word.to_le_bytes()).collect()
    }

    fn malformed(file: &[u8]) {
        let mut gw = [2.5; WEIGHTS];
        assert_eq!(batch_file(file, &mut gw), Err(Refusal::File));
        assert_eq!(gw, [2.5; WEIGHTS]);
        assert_eq!(batch_file_fault(file), Some(Fault { refusal: Refusal::File, place: None }));
    }

    #[test]
    fn the_example_gives_nothing() {
        let (file, mut gw) = (bytes(&example()), [0.0; WEIGHTS]);
        assert_eq!(file.len(), 144);
        assert_eq!(batch_file(&file, &mut gw), Ok(0.0));
        assert_eq!(gw, [0.0; WEIGHTS]);
        assert_eq!(batch_file(&file, &mut gw[..20]), Err(Refusal::SlotCount));
        assert_eq!(batch_file_fault(&file), None);
    }

    #[test]
    fn a_files_fault_has_its_place() {
        // three cards of two rows, of which the first is read
        let mut words = vec![2, 2, 3, 40, 124, 148, 172, 184, 184, 208];
        words.extend(Call::good().w.iter().map(|x| x.to_bits()));
        let three = 3f32.to_bits();
        words.extend([[0; 6], [three; 6]].concat());
        words.extend([2; 3]);
        words.extend([0; 12]);
        assert_eq!(batch_file_fault(&bytes(&words)), None);
        words[31 + 6 + 2] = 7f32.to_bits();
        let place = Some(Place { column: 2, row: 0 });
        assert_eq!(batch_file_fault(&bytes(&words)), Some(Fault { refusal: Refusal::Rating, place }));
        assert_eq!(batch_file(&bytes(&words), &mut [0.0; WEIGHTS]), Err(Refusal::Rating));
    }

    #[test]
    fn files_are_refused() {
        let whole = bytes(&example());
        malformed(&[]);
        malformed(&whole[..143]);
        malformed(&[&whole[..], &[0]].concat());
        let changes = [(0, 3), (1, 513)].into_iter().chain((3..).zip(OFFSETS.map(|offset| offset + 4)));
        for (word, value) in changes {
            let mut words = example();
            words[word] = value;
            malformed(&bytes(&words));
        }
    }
}
