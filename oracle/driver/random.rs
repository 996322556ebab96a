// Pseudo-random numbers (splitmix64), and the values that calls are made of.
use crate::rules::{BOX, DAY_MAX, WEIGHT_MAX};

pub struct Random(u64);

impl Random {
    /// One stream for each call of a seed, so that a call does not depend on those before it.
    pub fn new(seed: u64, stream: u64) -> Random {
        let mut r = Random(seed ^ stream.wrapping_mul(0xd1342543de82ef95));
        r.bits();
        r
    }

    pub fn bits(&mut self) -> u64 {
        self.0 = self.0.wrapping_add(0x9e3779b97f4a7c15);
        let mut z = self.0;
        z = (z ^ (z >> 30)).wrapping_mul(0xbf58476d1ce4e5b9);
        z = (z ^ (z >> 27)).wrapping_mul(0x94d049bb133111eb);
        z ^ (z >> 31)
    }

    pub fn below(&mut self, n: usize) -> usize {
        (self.bits() % n as u64) as usize
    }

    pub fn between(&mut self, low: usize, high: usize) -> usize {
        low + self.below(high - low + 1)
    }

    pub fn one_in(&mut self, n: usize) -> bool {
        self.below(n) == 0
    }

    pub fn pick<T: Copy>(&mut self, xs: &[T]) -> T {
        xs[self.below(xs.len())]
    }

    pub fn unit(&mut self) -> f64 {
        (self.bits() >> 11) as f64 / (1u64 << 53) as f64
    }

    /// Evenly between two ends.
    pub fn even(&mut self, low: f32, high: f32) -> f32 {
        (low as f64 + (high as f64 - low as f64) * self.unit()) as f32
    }

    /// Evenly among the patterns between two numbers that are not negative: small ones are as likely as large ones.
    pub fn spread(&mut self, low: f32, high: f32) -> f32 {
        f32::from_bits(self.between(low.to_bits() as usize, high.to_bits() as usize) as u32)
    }

    /// Any pattern, NaNs and infinities among them.
    pub fn junk(&mut self) -> f32 {
        match self.below(6) {
            0 => f32::NAN,
            1 => self.pick(&[f32::INFINITY, f32::NEG_INFINITY]),
            2 => f32::from_bits(self.pick(&[0x7f800001, 0xffc12345, 0xff800001])),
            3 => self.below(10) as f32,
            _ => f32::from_bits(self.bits() as u32),
        }
    }

    pub fn junk_double(&mut self) -> f64 {
        match self.below(8) {
            0 => f64::NAN,
            1 => self.pick(&[f64::INFINITY, f64::NEG_INFINITY]),
            2 => f64::from_bits(0xfff4000000000123),
            3 | 4 => self.pick(&[0.0, -0.0]),
            5 => self.unit() * 2.0 - 1.0,
            _ => f64::from_bits(self.bits()),
        }
    }

    // ---- values in range, with both ends and their neighbours inside

    pub fn day(&mut self) -> f32 {
        match self.below(12) {
            0 | 1 => self.pick(&[0.0, 0.0, -0.0]),
            2 => -(self.below(10) as f32),
            3 => self.pick(&[DAY_MAX, -DAY_MAX, DAY_MAX.next_down(), -DAY_MAX.next_down()]),
            4 => self.pick(&[LEAST, -LEAST, f32::MIN_POSITIVE, 0.5, 0.49999997, 1.5, 2.5]),
            5 => self.spread(LEAST, 1.0),
            6 => self.spread(1.0, DAY_MAX),
            7 => self.even(0.0, 40.0),
            8 => -self.spread(LEAST, DAY_MAX),
            _ => self.between(1, 400) as f32,
        }
    }

    pub fn rating(&mut self) -> f32 {
        match self.below(14) {
            0 => self.pick(&[0.0, -0.0]),
            x => [1.0, 1.0, 1.0, 2.0, 2.0, 3.0, 3.0, 3.0, 3.0, 3.0, 4.0, 4.0, 4.0][x - 1],
        }
    }

    pub fn label(&mut self) -> f32 {
        match self.below(10) {
            0 => self.pick(&[-0.0, LEAST, 1f32.next_down()]),
            1 => self.even(0.0, 1.0),
            2 | 3 | 4 => 0.0,
            _ => 1.0,
        }
    }

    pub fn review_weight(&mut self) -> f32 {
        match self.below(10) {
            0 => self.pick(&[LEAST, WEIGHT_MAX, WEIGHT_MAX.next_down()]),
            1 => self.pick(&[0.0, -0.0]),
            2 => self.spread(LEAST, WEIGHT_MAX),
            3 | 4 => self.even(0.0, 10.0),
            _ => 1.0,
        }
    }

    // ---- values out of range, often by one step

    pub fn bad_day(&mut self) -> f32 {
        let past = DAY_MAX.next_up();
        self.pick(&[past, -past, past, -past, f32::NAN, f32::INFINITY, f32::NEG_INFINITY, 1e30])
    }

    pub fn bad_rating(&mut self) -> f32 {
        let near = [4f32.next_up(), 4f32.next_down(), 1f32.next_down(), 1f32.next_up(), LEAST, -LEAST];
        let far = [5.0, 0.5, 2.5, -1.0, f32::NAN, f32::INFINITY, f32::NEG_INFINITY];
        if self.one_in(2) { self.pick(&near) } else { self.pick(&far) }
    }

    pub fn bad_label(&mut self) -> f32 {
        self.pick(&[-LEAST, 1f32.next_up(), -LEAST, 1f32.next_up(), f32::NAN, f32::INFINITY, f32::NEG_INFINITY, 2.0, -1.0])
    }

    pub fn bad_weight(&mut self) -> f32 {
        let past = WEIGHT_MAX.next_up();
        self.pick(&[-LEAST, past, -LEAST, past, f32::NAN, f32::INFINITY, f32::NEG_INFINITY, 1e30, -1.0])
    }

    // ---- weight sets

    fn weight(&mut self, i: usize) -> f32 {
        let (low, high) = BOX[i];
        let zero = if low == 0.0 { -0.0 } else { low };
        match self.below(8) {
            0 => low,
            1 => high,
            2 => self.pick(&[low.next_up(), high.next_down(), zero]),
            3 => DEFAULTS[i],
            4 if low >= 0.0 => self.spread(low, high),
            _ => self.even(low, high).clamp(low, high),
        }
    }

    fn near_defaults(&mut self) -> Vec<f32> {
        let near = |r: &mut Random, i: usize| {
            let x = DEFAULTS[i] * r.even(0.7, 1.4);
            x.clamp(BOX[i].0, BOX[i].1)
        };
        (0..BOX.len()).map(|i| near(self, i)).collect()
    }

    /// A set inside the box.
    pub fn weights(&mut self) -> Vec<f32> {
        let mut w = match self.below(8) {
            0 => DEFAULTS.to_vec(),
            1..=3 => self.near_defaults(),
            4 | 5 => (0..BOX.len()).map(|i| self.weight(i)).collect(),
            6 => (0..BOX.len()).map(|i| if self.one_in(2) { BOX[i].0 } else { BOX[i].1 }).collect(),
            _ => (0..BOX.len()).map(|i| self.even(BOX[i].0, BOX[i].1).clamp(BOX[i].0, BOX[i].1)).collect(),
        };
        if self.one_in(3) {
            self.meet_an_edge(&mut w);
        }
        w
    }

    // Weights at which a branch or a clamp is met exactly, or missed by one step.
    fn meet_an_edge(&mut self, w: &mut [f32]) {
        let mut set = |pairs: &[(usize, f32)]| pairs.iter().for_each(|&(i, x)| w[i] = x);
        match self.below(9) {
            0 => set(&[(17, 0.0), (19, 0.0)]),
            1 => set(&[(5, 0.0), (4, 10.0)]),
            2 => {
                let (low, high) = (1f32, 10f32);
                let w4 = self.pick(&[high.next_up(), high.next_down(), low, low.next_up(), low.next_down()]);
                set(&[(5, 0.0), (4, w4)])
            }
            // the raw value of a lapse is its floor for stabilities that s + 1 - 1 leaves as they are
            3 => set(&[(0, 1.0), (1, 2.0), (2, 4.0), (3, 8.0), (11, 1.0), (12, 0.0), (13, 1.0), (14, 0.0), (17, 0.0)]),
            4 => set(&[(13, 0.0)]),
            5 => set(&[(0, 0.0001), (1, 36500.0), (2, 0.0001), (3, 36500.0)]),
            6 => set(&[(0, 36500f32.next_down()), (1, 0.0001f32.next_up()), (2, 36500.0), (3, 0.0001)]),
            // the retrievability falls far
            7 => set(&[(20, 1.0), (0, 0.0001), (1, 0.001), (2, 0.0001)]),
            _ => set(&[(7, self.pick(&[0.0, 1.0])), (6, 0.0)]),
        }
    }

    /// Puts a weight out of its box, often by one step.
    pub fn leave_box(&mut self, w: &mut [f32]) {
        if w.is_empty() {
            return;
        }
        let i = self.below(w.len().min(BOX.len()));
        let (low, high) = BOX[i];
        w[i] = match self.below(6) {
            0 | 1 => low.next_down(),
            2 | 3 => high.next_up(),
            _ => self.pick(&[f32::NAN, f32::INFINITY, f32::NEG_INFINITY, -1e30, 1e30]),
        };
    }

    /// Slots to start from.
    pub fn slots(&mut self, n: usize) -> Vec<f64> {
        match self.below(4) {
            0 => vec![0.0; n],
            1 => vec![-0.0; n],
            2 => (0..n).map(|_| self.unit() * 4.0 - 2.0).collect(),
            _ => (0..n).map(|_| self.junk_double()).collect(),
        }
    }
}

/// The smallest positive single.
pub const LEAST: f32 = f32::from_bits(1);

/// Only a point to start from: what the defaults are, the filling of an empty set compares.
const DEFAULTS: [f32; 21] = [
    0.2, 1.3, 2.3, 8.3, 6.4, 0.8, 3.0, 0.001, 1.9, 0.17, 0.8, 1.5, 0.06, 0.26, 1.65, 0.6, 1.9, 0.54, 0.09, 0.066, 0.154,
];
