//! A deck as a learner of known weights would leave it: each review comes near its due date, and is recalled as often as the
//! curve says. The same seed gives the same text.

use fsrs6::{first_state, next_interval, next_state, power_forgetting_curve, Refusal, WEIGHTS};
use std::fmt::Write;

/// The learner's weights: they differ from the defaults in every place.
pub const LEARNER: [f32; WEIGHTS] =
    [0.4, 0.9, 3.2, 12.0, 5.9, 0.9, 2.6, 0.02, 1.4, 0.25, 0.6, 1.7, 0.09, 0.2, 1.3, 0.5, 2.2, 0.7, 0.15, 0.09, 0.3];
const CARDS: usize = 240;
const REVIEWS: usize = 18;

/// Numbers from a seed (splitmix64).
struct Source(u64);

impl Source {
    fn next(&mut self) -> u64 {
        self.0 = self.0.wrapping_add(0x9e37_79b9_7f4a_7c15);
        let x = (self.0 ^ (self.0 >> 30)).wrapping_mul(0xbf58_476d_1ce4_e5b9);
        let y = (x ^ (x >> 27)).wrapping_mul(0x94d0_49bb_1331_11eb);
        y ^ (y >> 31)
    }

    /// From 0 to 1.
    fn part(&mut self) -> f32 {
        (self.next() >> 40) as f32 / (1 << 24) as f32
    }

    /// 1 to 4, as often as the four parts of 1 say.
    fn rating(&mut self, parts: [f32; 4]) -> u32 {
        let mut x = self.part();
        for (rating, part) in (1..).zip(parts) {
            if x < part {
                return rating;
            }
            x -= part;
        }
        4
    }
}

/// A card's reviews, a line each.
fn card(source: &mut Source, text: &mut String) -> Result<(), Refusal> {
    let first = source.rating([0.2, 0.15, 0.5, 0.15]);
    let mut state = first_state(&LEARNER, first)?;
    let mut line = |day: f32, rating: u32| writeln!(text, "{day} {rating}").expect("a text takes a line");
    line(0.0, first);
    for _ in 1..REVIEWS {
        let due = next_interval(&LEARNER, state.stability, 0.85)?;
        let is_same_day = source.part() < 0.1;
        let day = if is_same_day { 0.0 } else { (due * (0.5 + 1.5 * source.part())).round().clamp(1.0, 2000.0) };
        let kept = power_forgetting_curve(&LEARNER, day, state.stability)?;
        let rating = if source.part() < kept { source.rating([0.0, 0.2, 0.65, 0.15]) } else { 1 };
        line(day, rating);
        state = next_state(&LEARNER, state, day, rating)?;
    }
    Ok(())
}

/// The text of a deck of some thousand reviews.
pub fn deck(seed: u64) -> Result<String, Refusal> {
    let mut source = Source(seed);
    let mut text = String::from("# generated from known weights: bindings/rust/examples/fit/generate.rs\n");
    for _ in 0..CARDS {
        text.push('\n');
        card(&mut source, &mut text)?;
    }
    Ok(text)
}
