//! Adam over a deck's loss and the pull toward the default weights.

use super::deck::{Batch, Deck};
use super::start::{starts, Start};
use fsrs6::{check_and_fill_parameters, l2_penalty, Gradient, Refusal, WEIGHTS};

/// How far a weight lies from its default over many learners, by fsrs-rs's own trainer of FSRS-6: training_v6.rs,
/// PARAMS_STDDEV.
const SPREADS: [f32; WEIGHTS] = [
    6.43, 9.66, 17.58, 27.85, 0.57, 0.28, 0.6, 0.12, 0.39, 0.18, 0.33, 0.3, 0.09, 0.16, 0.57, 0.25, 1.03, 0.31, 0.32,
    0.14, 0.27,
];
/// How strong the pull is: a weight one spread away from its default costs as much as a loss of 1, over the whole deck.
const PULL: f64 = 1.0;

/// The box of include/fsrs6.h.
const LOW: [f32; WEIGHTS] = [
    0.0001, 0.0001, 0.0001, 0.0001, 0.0, 0.0, 0.0, 0.0, -5.0, 0.0, 0.0, 0.001, 0.0, 0.0, 0.0, 0.0, 1.0, 0.0, 0.0, 0.0,
    0.1,
];
const HIGH: [f32; WEIGHTS] = [
    36500.0, 36500.0, 36500.0, 36500.0, 20.0, 4.0, 6.0, 1.0, 5.0, 1.0, 5.0, 10.0, 1.0, 1.0, 5.0, 1.0, 10.0, 3.0, 3.0,
    1.0, 1.0,
];

// Adam's numbers. The rate is halved where nothing was better for a while, and below the last there is nothing to gain.
const RATE: f64 = 0.04;
const LAST_RATE: f64 = 0.004;
const KEEP: f64 = 0.9;
const KEEP_SQUARE: f64 = 0.999;
const TINY: f64 = 1e-8;
const PATIENCE: u32 = 20;
/// The least part of the sum by which it counts as better.
const BETTER: f64 = 1e-6;
const MOST_STEPS: u32 = 2000;

/// Weights, with the mean loss of a scored review and what the pull adds to it.
#[derive(Clone, Copy, Debug)]
pub struct Found {
    pub weights: [f32; WEIGHTS],
    pub loss: f64,
    pub pull: f64,
}

impl Found {
    fn sum(&self) -> f64 {
        self.loss + self.pull
    }
}

/// What a run comes to: at the defaults, or at the weights of the text, and at the best.
#[derive(Clone, Copy, Debug)]
pub struct Fitted {
    pub first: Found,
    pub best: Found,
    pub steps: u32,
}

pub struct Trainer {
    batches: Vec<Batch>,
    defaults: [f32; WEIGHTS],
    first: [f32; WEIGHTS],
    start: [f32; WEIGHTS],
    /// What the deck's first recalls give to begin with; nothing where the text says where to begin.
    pub starts: Vec<Start>,
    /// Which weights the deck reads; the others are frozen.
    pub reads: [bool; WEIGHTS],
    /// How many reviews are scored.
    pub total: u64,
    gradient: Gradient,
}

/// Adam's memory of the gradients.
struct Memory {
    mean: [f64; WEIGHTS],
    square: [f64; WEIGHTS],
    step: i32,
}

impl Memory {
    fn new() -> Memory {
        Memory { mean: [0.0; WEIGHTS], square: [0.0; WEIGHTS], step: 0 }
    }

    /// How far weight k goes.
    fn way(&mut self, k: usize, gradient: f64) -> f64 {
        self.mean[k] += (1.0 - KEEP) * (gradient - self.mean[k]);
        self.square[k] += (1.0 - KEEP_SQUARE) * (gradient * gradient - self.square[k]);
        let size = (self.square[k] / (1.0 - KEEP_SQUARE.powi(self.step))).sqrt() + TINY;
        self.mean[k] / (1.0 - KEEP.powi(self.step)) / size
    }
}

impl Trainer {
    pub fn new(deck: &Deck) -> Result<Trainer, Refusal> {
        let (batches, defaults) = (deck.batches(), check_and_fill_parameters(&[])?);
        let total = batches.iter().map(|batch| batch.size).sum();
        let first = deck.weights.unwrap_or(defaults);
        let starts = if deck.weights.is_some() { Vec::new() } else { starts(deck, &defaults)? };
        let mut start = first;
        for x in &starts {
            start[x.rating - 1] = x.found;
        }
        let (reads, gradient) = (deck.reads(), Gradient::default());
        Ok(Trainer { batches, defaults, first, start, starts, reads, total, gradient })
    }

    /// The loss and the pull at w; their gradient is left in the slots. Each batch has its share of the pull, by its size. The
    /// library writes the slots of the pull, and adds to those of the loss.
    pub fn at(&mut self, w: [f32; WEIGHTS]) -> Result<Found, Refusal> {
        let (mut loss, mut pull, mut slots) = (0.0, 0.0, [0.0; WEIGHTS]);
        self.gradient.slots = [0.0; WEIGHTS];
        for batch in &self.batches {
            loss += batch.add_to(&mut self.gradient, &w)?;
            pull += l2_penalty(&w, &self.defaults, batch.size, self.total, PULL, &SPREADS, &mut slots)?;
            for (sum, part) in self.gradient.slots.iter_mut().zip(slots) {
                *sum += f64::from(part);
            }
        }
        let reviews = self.total.max(1) as f64;
        Ok(Found { weights: w, loss: loss / reviews, pull: pull / reviews })
    }

    /// A step from w by the gradient in the slots, each weight held in its range.
    fn step(&self, w: &mut [f32; WEIGHTS], memory: &mut Memory, rate: f64) {
        memory.step += 1;
        for k in (0..WEIGHTS).filter(|&k| self.reads[k]) {
            let way = rate * memory.way(k, self.gradient.slots[k]);
            w[k] = ((f64::from(w[k]) - way) as f32).clamp(LOW[k], HIGH[k]);
        }
    }

    /// Steps until nothing is better for a while, and tells each. Of all weights that were met, the first ones among them, it
    /// keeps the best, since a step may lead uphill; where it got stuck it goes on from there with half the rate.
    pub fn run(&mut self, mut tell: impl FnMut(u32, &Found, &Found)) -> Result<Fitted, Refusal> {
        let (first, start) = (self.at(self.first)?, self.at(self.start)?);
        let mut best = if start.sum() <= first.sum() { start } else { first };
        let (mut w, mut memory) = (self.start, Memory::new());
        let (mut rate, mut waited, mut steps) = (RATE, 0, 0);
        while steps < MOST_STEPS && rate >= LAST_RATE {
            self.step(&mut w, &mut memory, rate);
            steps += 1;
            let found = self.at(w)?;
            waited = if found.sum() < best.sum() * (1.0 - BETTER) { 0 } else { waited + 1 };
            if found.sum() < best.sum() {
                best = found;
            }
            tell(steps, &found, &best);
            if waited == PATIENCE {
                (rate, waited, w, memory) = (rate / 2.0, 0, best.weights, Memory::new());
                self.at(w)?;
            }
        }
        Ok(Fitted { first, best, steps })
    }
}
