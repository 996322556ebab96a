// How far ours lies from the Rust's text over the standard library's exp, exp_m1, ln and powf. Here differences are expected.
use crate::cases::{record_cell, Case, Loss, Outcome, Part, Step, WEIGHTS};
use crate::compare;
use crate::generate;
use crate::shrink::only_column;
use crate::tally::Tally;
use std::collections::BTreeMap;

/// The distances of accepted calls of one kind, by what was measured.
#[derive(Default)]
struct Distances {
    calls: usize,
    differ: usize,
    flips: usize,
    not_finite: usize,
    measured: Vec<(String, Vec<f64>)>,
}

impl Distances {
    fn add(&mut self, name: &str, x: f64) {
        match self.measured.iter_mut().find(|m| m.0 == name) {
            Some(m) => m.1.push(x),
            None => self.measured.push((name.to_string(), vec![x])),
        }
    }
}

fn value(p: &Part, i: usize) -> f64 {
    if p.is_double { f64::from_bits(p.bits[i]) } else { f32::from_bits(p.bits[i] as u32) as f64 }
}

fn is_same(a: &Part, b: &Part) -> bool {
    (0..a.bits.len()).all(|i| a.plain(i) == b.plain(i))
}

// A unit in the last place of the single nearest to x.
fn unit_of(x: f64) -> f64 {
    let x = (x.abs() as f32).max(f32::MIN_POSITIVE);
    (x.next_up() - x) as f64
}

fn relative(ours: f64, stock: f64) -> f64 {
    (ours - stock).abs() / stock.abs().max(f32::MIN_POSITIVE as f64)
}

// The farthest number of a part, against the largest.
fn farthest(ours: &Part, stock: &Part) -> f64 {
    let pairs = || (0..stock.bits.len()).map(|i| (value(ours, i), value(stock, i)));
    let largest = pairs().map(|(_, b)| b.abs()).fold(f64::MIN_POSITIVE, f64::max);
    pairs().map(|(a, b)| (a - b).abs()).fold(0.0, f64::max) / largest
}

// ---- flips: a branch, or a side of a clamp, that is not the same

fn side(x: f64, low: f32, high: f32) -> i32 {
    (x >= low as f64) as i32 + (x > high as f64) as i32
}

// Of a record, by its fields.
fn turns(at: impl Fn(usize) -> f64) -> [i32; 3] {
    [at(7) as i32, side(at(5), 0.0001, 36500.0), side(at(6), 1.0, 10.0)]
}

fn branches(c: &Loss, outcome: &Outcome) -> Vec<i32> {
    let records = outcome.part("records");
    let steps = (0..c.steps(0)).flat_map(|row| turns(|field| value(records, record_cell(c.records.0, field, row))));
    // where a gradient is 0, the probability's clamp stopped it
    let scores = if c.is_card { outcome.part("step gradients") } else { outcome.part("slots") };
    let is_zero = |i: usize| value(scores, i) == 0.0;
    let stopped: Vec<i32> = if c.is_card {
        (0..c.cut(0)).map(|row| is_zero(row) as i32).collect()
    } else {
        vec![(0..WEIGHTS).all(is_zero) as i32]
    };
    steps.chain(stopped).collect()
}

fn both(case: &Case) -> (Outcome, Outcome) {
    (compare::expected(case, &mut Tally::default()), compare::ours(case))
}

// Column by column, since records are those of the last one.
fn loss_has_flip(c: &Loss) -> bool {
    (0..c.columns as usize).any(|column| {
        let one = only_column(c, column);
        let (stock, ours) = both(&Case::Loss(one.clone()));
        branches(&one, &stock) != branches(&one, &ours)
    })
}

fn step_has_flip(c: &Step) -> bool {
    let (stock, ours) = both(&Case::Step(c.clone()));
    let of = |outcome: &Outcome| turns(|field| value(outcome.part("record"), field));
    of(&stock) != of(&ours)
}

fn has_flip(case: &Case) -> bool {
    match case {
        Case::Loss(c) => c.with_grad && loss_has_flip(c),
        Case::Step(c) => step_has_flip(c),
        Case::Reverse(c) => step_has_flip(&c.step),
        _ => false,
    }
}

// ---- the run

// Of each number its distance relative to itself, and in the units of its single.
fn note_numbers(name: &str, stock: &Part, ours: &Part, d: &mut Distances) {
    for i in 0..stock.bits.len() {
        let (a, b) = (value(ours, i), value(stock, i));
        d.add(&format!("{name}, relative"), relative(a, b));
        d.add(&format!("{name}, units in the last place of a single"), (a - b).abs() / unit_of(b));
    }
}

// Which of a call's numbers are measured, and how; doubles that are summed up, against the largest of them.
fn note_parts(case: &Case, stock: &Outcome, ours: &Outcome, d: &mut Distances) {
    let (numbers, sums): (&[&str], &[&str]) = match case {
        Case::Loss(c) => (&["loss"], if c.with_grad { &["slots"] } else { &[] }),
        Case::Step(_) => (&["state", "record"], &[]),
        Case::Reverse(_) => (&[], &["gradients", "slots"]),
        Case::Filling(_) => (&["weights"], &[]),
        _ => (&["answer"], &[]),
    };
    for name in numbers {
        note_numbers(name, stock.part(name), ours.part(name), d);
    }
    for name in sums {
        d.add(&format!("{name}, of the largest"), farthest(ours.part(name), stock.part(name)));
    }
}

fn is_finite(outcome: &Outcome) -> bool {
    let parts = outcome.parts.iter().filter(|p| p.name != "records" && p.name != "step gradients");
    parts.into_iter().all(|p| (0..p.bits.len()).all(|i| value(p, i).is_finite()))
}

fn note(case: &Case, plain: &mut Distances, flipped: &mut Distances) -> bool {
    let (stock, ours) = both(case);
    if stock.refusal != 0 || ours.refusal != 0 {
        return stock.refusal == ours.refusal;
    }
    let is_flip = has_flip(case);
    let d = if is_flip { flipped } else { plain };
    d.calls += 1;
    d.flips += is_flip as usize;
    d.differ += !stock.parts.iter().zip(&ours.parts).all(|(a, b)| is_same(a, b)) as usize;
    if is_finite(&stock) && is_finite(&ours) {
        note_parts(case, &stock, &ours, d);
    } else {
        d.not_finite += 1;
    }
    true
}

fn largest_and_median(name: &str, mut xs: Vec<f64>) {
    xs.sort_by(f64::total_cmp);
    let (largest, median) = (xs[xs.len() - 1], xs[xs.len() / 2]);
    let apart: Vec<f64> = xs.into_iter().filter(|&x| x > 0.0).collect();
    let among = apart.get(apart.len() / 2).copied().unwrap_or(0.0);
    let n = apart.len();
    println!("    {name:<45} largest {largest:.3e}, median {median:.3e}, median of the {n} that differ {among:.3e}");
}

fn print(name: &str, d: Distances) {
    if d.calls == 0 {
        return;
    }
    println!("{name}: {} accepted, {} differ in some bit, {} not finite", d.calls, d.differ, d.not_finite);
    if d.differ > 0 {
        d.measured.into_iter().for_each(|(name, xs)| largest_and_median(&name, xs));
    }
}

/// Slots start at +0.0, so that they hold the gradient alone.
pub fn run(seed: u64, count: u64) {
    let mut kinds: BTreeMap<&'static str, [Distances; 2]> = BTreeMap::new();
    let (mut refused, mut others) = (0, BTreeMap::new());
    for i in 0..count {
        let mut case = generate::case(seed, i);
        match &mut case {
            Case::Loss(c) => c.slots.fill(0.0),
            Case::Reverse(c) => c.slots.fill(0.0),
            Case::Step(_) | Case::Formula(_) | Case::Filling(_) => {}
            _ => continue,
        }
        let [plain, flipped] = kinds.entry(case.name()).or_default();
        let before = plain.calls + flipped.calls;
        if !note(&case, plain, flipped) {
            *others.entry(case.name()).or_insert(0) += 1;
        }
        refused += (plain.calls + flipped.calls == before) as u64;
    }
    let flips: usize = kinds.values().map(|x| x[1].flips).sum();
    for (name, [plain, flipped]) in kinds {
        print(name, plain);
        print(&format!("{name}, with a branch flipped"), flipped);
    }
    println!("calls with a branch flipped {flips}");
    let apart: u64 = others.values().sum();
    println!("refused {refused}; accepted on one side alone, or refused by another number, {apart}");
    for (name, n) in others {
        println!("    {name} {n}");
    }
}
