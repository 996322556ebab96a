//! Where a fit begins: the stability after a first review, for each rating from the deck's own first recalls.

use super::deck::{Deck, Review};
use fsrs6::{initial_stability, Refusal, MAX_RECALLS};
use std::collections::BTreeMap;

/// The first recalls of the cards with one first rating, a row for each day: the three columns of `initial_stability`.
#[derive(Clone, Debug, Default, PartialEq)]
pub struct Recalls {
    pub days: Vec<f64>,
    pub shares: Vec<f64>,
    pub counts: Vec<f64>,
}

/// What the search found for a first rating that the deck has recalls of.
#[derive(Clone, Copy, Debug, PartialEq)]
pub struct Start {
    /// 1 to 4.
    pub rating: usize,
    /// How many days its recalls have.
    pub rows: usize,
    pub default: f32,
    /// From 0.0001 to 100, and so in the range of its weight.
    pub found: f32,
}

impl Deck {
    /// A card's first recall, with its first rating: the first later review on another day, if it is scored. Reviews on the
    /// same day are passed over, as the Rust does (parameter_initialization.rs, `first_long_term_review`).
    fn first_recall(&self, card: &[Review]) -> Option<(u8, Review)> {
        let at = (1..card.len()).find(|&i| card[i].rating != 0 && card[i].day > 0.0)?;
        let is_scored = card[at].weight != 0.0 && (!self.is_prefix || at + 1 == card.len());
        (card[0].rating != 0 && is_scored).then_some((card[0].rating, card[at]))
    }

    /// The first recalls of a rating, by their days. They are counted as they are: the Rust's smoothing is left out.
    pub fn recalls(&self, rating: usize) -> Recalls {
        let mut groups = BTreeMap::<u32, (u64, u64)>::new(); // days above 0 are ordered as their bits are
        let recalls = self.cards.iter().filter_map(|card| self.first_recall(card));
        for (_, review) in recalls.filter(|x| usize::from(x.0) == rating) {
            let (recalled, count) = groups.entry(review.day.to_bits()).or_default();
            *recalled += u64::from(review.rating > 1);
            *count += 1;
        }
        let mut rows = Recalls::default();
        for (day, (recalled, count)) in groups.into_iter().take(MAX_RECALLS) {
            rows.days.push(f32::from_bits(day).into());
            rows.shares.push(recalled as f64 / count as f64);
            rows.counts.push(count as f64);
        }
        rows
    }
}

/// The search for each rating that the deck has recalls of.
pub fn starts(deck: &Deck, defaults: &[f32]) -> Result<Vec<Start>, Refusal> {
    let mut starts = Vec::new();
    for (rating, &default) in (1..=4).zip(defaults) {
        let Recalls { days, shares, counts } = deck.recalls(rating);
        if !days.is_empty() {
            let found = initial_stability(&days, &shares, &counts, default.into())?;
            starts.push(Start { rating, rows: days.len(), default, found });
        }
    }
    Ok(starts)
}
