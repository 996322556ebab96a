// A stored sample of losses for a program that has no Rust at hand: calls within the limits of its lines
// (tools/vectors/losses.py), with the answers that are to be.
use crate::cases::{Case, Loss, Outcome, WEIGHTS};
use crate::compare;
use crate::generate::{self, Sizes};
use crate::lines::{loss_line, slots_line, weights_line};
use crate::random::Random;
use crate::rules;
use crate::tally::Tally;
use std::collections::BTreeSet;

const SIZES: Sizes = Sizes { rows: 64, cells: 128, is_large: false };
const SINGLES: usize = 128;
const SLOTS: usize = 64;
const LENGTHS: usize = 512;
const RECORDS: usize = 640;
const BYTES: usize = 5000;
const WORDS: usize = 640;

/// The first calls are taken as they come, and of the others those that meet something new.
const FIRST: usize = 250;
const TRIED: u64 = 20000;

fn fits(c: &Loss, line: &str) -> bool {
    let slices = [&c.w, &c.days, &c.ratings, &c.targets, &c.labels, &c.weights];
    let has_slices = slices.iter().all(|xs| xs.len() <= SINGLES) && c.lengths.len() <= LENGTHS;
    let has_lent = c.slots.len() <= SLOTS && c.records.0 <= RECORDS && c.step_grads.0 <= SLOTS;
    has_slices && has_lent && line.len() < BYTES && line.split(' ').count() <= WORDS
}

// Most lines do without weights and slots of their own: they take those of the lines above, where these are not at fault.
fn share(c: &mut Loss, common: &(Vec<f32>, Vec<f64>)) {
    if c.w.len() == WEIGHTS && rules::weights_refusal(&c.w) == 0 {
        c.w = common.0.clone();
    }
    if c.slots.len() == WEIGHTS {
        c.slots = common.1.clone();
    }
}

// What a call meets: its branches, and its refusal together with its entry.
fn meets(c: &Loss) -> (Outcome, Vec<String>) {
    let mut tally = Tally::default();
    let wanted = compare::expected(&Case::Loss(c.clone()), &mut tally);
    let mut names: Vec<String> = tally.branch_names().cloned().collect();
    names.push(format!("{} {}", c.entry(), wanted.refusal));
    (wanted, names)
}

/// The list: weights and slots are given where they change.
pub fn run(seed: u64) {
    let mut met = BTreeSet::new();
    let mut given = (String::new(), String::new());
    let mut common = (vec![], vec![]);
    let mut kept = 0;
    for i in 0..TRIED {
        let r = &mut Random::new(seed, i);
        let mut c = generate::loss(r, SIZES, false);
        if i % 6 == 0 {
            common = (r.weights(), r.slots(WEIGHTS));
        }
        if kept < FIRST {
            share(&mut c, &common);
        }
        let (wanted, names) = meets(&c);
        let line = loss_line(&c, &wanted);
        if !fits(&c, &line) || (kept >= FIRST && names.iter().all(|x| met.contains(x))) {
            continue;
        }
        kept += 1;
        met.extend(names);
        let now = (weights_line(&c.w), slots_line(&c.slots));
        for (line, last) in [(&now.0, &given.0), (&now.1, &given.1)] {
            if line != last {
                println!("{line}");
            }
        }
        println!("{line}");
        given = now;
    }
    eprintln!("{kept} calls, which meet:");
    met.iter().for_each(|x| eprintln!("    {x}"));
}
