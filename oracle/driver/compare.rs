// A call on both sides: ours, and what document 01 and the Rust's text have of it.
use crate::analytic;
use crate::cases::{plain_bits, Case, File, Formula, Initial, Kernel, Loss, Outcome, Part, Row, Step, FIELDS, ON_DAY, WEIGHTS};
use crate::face::{self, UNWRITTEN_DOUBLE, UNWRITTEN_SINGLE};
use crate::files;
use crate::initial;
use crate::model;
use crate::penalty;
use crate::rules::{self, Fault};
use crate::tally::Tally;
use std::panic::{catch_unwind, set_hook, take_hook, AssertUnwindSafe};

// ---- what is to be

fn unwritten(name: &'static str, is_double: bool, n: usize) -> Part {
    let bits = if is_double { UNWRITTEN_DOUBLE } else { UNWRITTEN_SINGLE as u64 };
    Part::of(name, is_double, vec![bits; n]).untouched()
}

fn as_lent(slots: &[f64]) -> Part {
    Part::doubles("slots", slots.iter().copied()).untouched()
}

fn fault_part(fault: Fault) -> Part {
    Part::of("fault", false, fault.map(u64::from).to_vec())
}

// A refused step has no reason, and nothing is held.
fn no_reason(refusal: u32) -> Part {
    Part::of("reason", false, vec![refusal.into(), 0, 0, 0])
}

fn refused_loss(c: &Loss, fault: Fault) -> Outcome {
    let mut parts = vec![unwritten("loss", true, 1)];
    if c.with_grad {
        parts.push(as_lent(&c.slots));
        parts.push(Part::of("records", false, c.lent_records().into_iter().map(u64::from).collect()).untouched());
        if c.is_card {
            parts.push(Part::of("step gradients", true, c.lent_step_grads()).untouched());
        }
    }
    parts.push(fault_part(fault));
    Outcome { refusal: fault[0], parts }
}

// Which refusals a call would have had behind the one it gets.
fn note_refusals(mut numbers: impl Iterator<Item = u32>, tally: &mut Tally) {
    let first = numbers.next().expect("a call that is refused");
    let mut later: Vec<u32> = numbers.filter(|x| *x != first).collect();
    later.sort();
    later.dedup();
    for x in later {
        tally.branch(&format!("several refusals: {first} before {x}"));
    }
}

fn expected_loss(c: &Loss, tally: &mut Tally) -> Outcome {
    let faults = rules::loss_faults(c);
    tally.weights(&c.w);
    if faults.is_empty() {
        analytic::note_branches(c, tally);
        let mut outcome = analytic::loss_outcome(c);
        outcome.parts.push(fault_part([0; 3]));
        return outcome;
    }
    note_refusals(faults.iter().map(|x| x[0]), tally);
    refused_loss(c, faults[0])
}

fn expected_file(c: &File, tally: &mut Tally) -> Outcome {
    let call = files::read(c);
    let refusal = call.as_ref().map_or(11, |call| rules::loss_fault(call)[0]);
    // the fault of a file is that of its call with 21 slots
    let with_slots = |call: &Loss| Loss { slots: vec![0.0; WEIGHTS], ..call.clone() };
    let fault = fault_part(call.as_ref().map_or([11, 0, 0], |call| rules::loss_fault(&with_slots(call))));
    files::note(c, tally);
    if refusal != 0 {
        return Outcome { refusal, parts: vec![unwritten("loss", true, 1), as_lent(&c.slots), fault] };
    }
    let mut outcome = analytic::loss_outcome(&call.unwrap());
    outcome.parts.truncate(2);
    outcome.parts.push(fault);
    outcome
}

// What is wrong with the arguments comes before what the text makes of them.
fn expected_formula(c: &Formula, tally: &mut Tally) -> Outcome {
    let refused = |refusal| {
        let mut parts = vec![unwritten("answer", false, c.answers())];
        if c.number == ON_DAY {
            parts.push(unwritten("day", false, 1));
        }
        Outcome { refusal, parts }
    };
    match rules::formula_refusal(c) {
        0 => model::formula_outcome(c, tally).unwrap_or_else(|| refused(14)),
        refusal => refused(refusal),
    }
}

fn expected_reason(c: &Step) -> Part {
    match rules::step_refusal(c) {
        0 => analytic::step_reason(c),
        refusal => no_reason(refusal),
    }
}

// Nothing that is claimed is refused.
fn expected_row(c: &Row, tally: &mut Tally) -> Outcome {
    match rules::row_refusal(c) {
        0 => model::row_outcome(c, tally),
        refusal => Outcome { refusal, parts: vec![unwritten("verdict", false, 1)] },
    }
}

fn expected_initial(c: &Initial, tally: &mut Tally) -> Outcome {
    let faults = initial::faults(c);
    if faults.is_empty() {
        return initial::outcome(c, tally);
    }
    note_refusals(faults.iter().copied(), tally);
    Outcome { refusal: faults[0], parts: vec![unwritten("stability", false, 1)] }
}

fn expected_filling(given: &[f32], tally: &mut Tally) -> Outcome {
    let filled = model::filled(given);
    if filled.is_some() {
        tally.branch(&format!("filling: {} entries", given.len()));
    }
    match (rules::filling_refusal(given, filled.as_deref()), filled) {
        (0, Some(w)) => Outcome { refusal: 0, parts: vec![Part::singles("weights", w)] },
        (refusal, _) => Outcome { refusal, parts: vec![unwritten("weights", false, WEIGHTS)] },
    }
}

// Rust's own mul_add and round. Of exp, expm1, ln and pow only where they refuse: their values have proofs and tools/kernels.
fn expected_kernel(c: &Kernel, tally: &mut Tally) -> Outcome {
    let ([x, y, z], [u, v, t]) = (face::single_args(c), face::double_args(c));
    let (a, b) = if c.number % 2 == 0 { (x as f64, y as f64) } else { (u, v) };
    if !rules::is_kernel_domain(c.number, a, b) {
        tally.branch("kernel: refused, a NaN (10)");
    }
    let part = match c.number {
        6 => Part::singles("answer", [x.mul_add(y, z)]),
        7 => Part::doubles("answer", [u.mul_add(v, t)]),
        8 => Part::singles("answer", [x.round()]),
        9 => Part::doubles("answer", [u.round()]),
        n if rules::is_kernel_domain(n, a, b) => {
            let part = face::kernel(c).parts.remove(0);
            assert_eq!(part.plain(0), part.bits[0], "a NaN inside the domain");
            part
        }
        n if n % 2 == 0 => Part::singles("answer", [f32::NAN]),
        _ => Part::doubles("answer", [f64::NAN]),
    };
    Outcome { refusal: 0, parts: vec![part] }
}

/// What a call has to give. What it meets is counted.
pub fn expected(case: &Case, tally: &mut Tally) -> Outcome {
    match case {
        Case::Loss(c) => expected_loss(c, tally),
        Case::File(c) => expected_file(c, tally),
        Case::Filling(given) => expected_filling(given, tally),
        Case::Kernel(c) => expected_kernel(c, tally),
        Case::Penalty(c) => match penalty::refusal(c) {
            0 => penalty::outcome(c, tally),
            refusal => {
                let slots = Part::singles("slots", c.slots.iter().copied()).untouched();
                Outcome { refusal, parts: vec![unwritten("penalty", true, 1), slots] }
            }
        },
        Case::Initial(c) => expected_initial(c, tally),
        Case::Step(c) => match rules::step_refusal(c) {
            0 => analytic::step_outcome(c, tally),
            refusal => {
                let parts = vec![unwritten("state", false, 2), unwritten("record", false, FIELDS), no_reason(refusal)];
                Outcome { refusal, parts }
            }
        },
        Case::Reverse(c) => match rules::reverse_refusal(c) {
            0 => analytic::reverse_outcome(c, tally),
            refusal => {
                // the reason is that of the step, which is lent no slots
                let parts = vec![unwritten("gradients", true, 2), as_lent(&c.slots), expected_reason(&c.step)];
                Outcome { refusal, parts }
            }
        },
        Case::Formula(c) => expected_formula(c, tally),
        Case::Row(c) => expected_row(c, tally),
    }
}

pub fn ours(case: &Case) -> Outcome {
    match case {
        Case::Loss(c) => face::loss(c),
        Case::File(c) => face::file(c),
        Case::Filling(given) => face::filling(given),
        Case::Kernel(c) => face::kernel(c),
        Case::Penalty(c) => face::penalty(c),
        Case::Initial(c) => face::initial(c),
        Case::Step(c) => face::step(c),
        Case::Reverse(c) => face::reverse(c),
        Case::Formula(c) => face::formula(c),
        Case::Row(c) => face::row(c),
    }
}

// ---- differences

fn part_difference(wanted: &Part, got: &Part) -> Option<String> {
    assert_eq!(wanted.name, got.name);
    if wanted.bits.len() != got.bits.len() {
        return Some(format!("{}: {} numbers, not {}", got.name, got.bits.len(), wanted.bits.len()));
    }
    let i = (0..wanted.bits.len()).find(|&i| {
        let is_same = if wanted.kept[i] { got.bits[i] == wanted.bits[i] } else { got.plain(i) == wanted.plain(i) };
        !is_same
    })?;
    let digits = if wanted.is_double { 16 } else { 8 };
    let why = if wanted.kept[i] { ", as it was" } else { "" };
    Some(format!("{} {i}: {:0digits$x}, not {:0digits$x}{why}", got.name, got.bits[i], wanted.bits[i]))
}

/// The first difference of two outcomes.
pub fn difference(wanted: &Outcome, got: &Outcome) -> Option<String> {
    if wanted.refusal != got.refusal {
        return Some(format!("refusal {}, not {}", got.refusal, wanted.refusal));
    }
    wanted.parts.iter().zip(&got.parts).find_map(|(a, b)| part_difference(a, b))
}

// Where the first fault of a call stands.
fn note_place(wanted: &Outcome, tally: &mut Tally) {
    let Some(part) = wanted.parts.iter().find(|p| p.name == "fault") else { return };
    if let [refusal @ 6..=9, column, row] = part.bits[..] {
        let [column, row] = [column, row].map(|n| if n == 0 { "first" } else { "later" });
        tally.branch(&format!("first fault: {refusal}, {column} column, {row} row"));
    }
}

// A panic of either side is a difference, told with its call and not here.
fn caught<T>(f: impl FnOnce() -> T) -> Result<T, String> {
    let tell = take_hook();
    set_hook(Box::new(|_| {}));
    let result = catch_unwind(AssertUnwindSafe(f));
    set_hook(tell);
    result.map_err(|e| {
        let text = e.downcast_ref::<String>().map(String::as_str).or(e.downcast_ref::<&str>().copied());
        text.unwrap_or("a panic").to_string()
    })
}

/// Runs both sides: the refusal that is to be, and the difference, a panic of either side among them.
pub fn run(case: &Case, tally: &mut Tally) -> (Option<u32>, Option<String>) {
    let checked = || {
        let wanted = expected(case, tally);
        if let Case::Formula(c) = case {
            rules::assert_import(c, wanted.refusal);
        }
        wanted
    };
    let wanted = match caught(checked) {
        Ok(x) => x,
        Err(text) => return (None, Some(format!("the Rust's side: {text}"))),
    };
    note_place(&wanted, tally);
    match caught(|| ours(case)) {
        Ok(got) => (Some(wanted.refusal), difference(&wanted, &got)),
        Err(text) => (Some(wanted.refusal), Some(format!("our side: {text}"))),
    }
}

/// A digest as in tools/vectors/losses.py: of the slots, the records and the step gradients after the call.
pub fn digest(outcome: &Outcome) -> u64 {
    let lent = outcome.parts.iter().filter(|p| p.name != "loss" && p.name != "fault");
    lent.flat_map(|p| p.bits.iter().map(|&b| plain_bits(p.is_double, b))).fold(0xcbf29ce484222325, |h, v| {
        let m = (h ^ v).wrapping_mul(0x100000001b3);
        m ^ (m >> 32)
    })
}

/// The loss as a stored answer has it: +0.0 where the call is refused.
pub fn stored_loss(outcome: &Outcome) -> u64 {
    if outcome.refusal == 0 { outcome.part("loss").plain(0) } else { 0 }
}
