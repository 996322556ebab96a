//! A deck in the text form of examples/deck.txt (examples/make_batch.py says it all), as batches for the losses, and which
//! weights it reads.

use fsrs6::{Cards, Gradient, Prefixes, Refusal, MAX_COLUMNS, MAX_ROWS, WEIGHTS};

/// A line of the text.
#[derive(Clone, Copy, Debug, PartialEq)]
pub struct Review {
    /// Since the review before.
    pub day: f32,
    /// 1 to 4; 0 is padding, which is no review.
    pub rating: u8,
    pub weight: f32,
}

/// A text as it stands there.
#[derive(Clone, Debug, Default, PartialEq)]
pub struct Deck {
    /// Whether only the last review of a card is scored.
    pub is_prefix: bool,
    /// Where the fit begins, if the text says so.
    pub weights: Option<[f32; WEIGHTS]>,
    pub cards: Vec<Vec<Review>>,
}

fn number(what: &str, word: &str, low: f32, high: f32) -> Result<f32, String> {
    match word.parse() {
        Ok(x) if low <= x && x <= high => Ok(x),
        _ => Err(format!("{what} must be a number from {low} to {high}, and not {word:?}")),
    }
}

fn review(words: &[&str]) -> Result<Review, String> {
    let (day, rating, weight) = match *words {
        [day, rating] => (day, rating, if rating == "0" { "0" } else { "1" }),
        [day, rating, weight] => (day, rating, weight),
        _ => return Err(format!("not a day, a rating and perhaps a weight: {:?}", words.join(" "))),
    };
    let day = number("the day", day, -100000.0, 100000.0)?;
    let weight = number("the review's weight", weight, 0.0, 1000000.0)?;
    let rating = match rating {
        "0" if weight != 0.0 => return Err("padding (rating 0) is no review, so that its weight must be 0".into()),
        "0" | "1" | "2" | "3" | "4" => rating.as_bytes()[0] - b'0',
        _ => return Err(format!("the rating must be 0, 1, 2, 3 or 4, and not {rating:?}")),
    };
    Ok(Review { day, rating, weight })
}

fn weights(words: &[&str]) -> Result<[f32; WEIGHTS], String> {
    let numbers: Result<Vec<f32>, _> = words.iter().map(|word| word.parse()).collect();
    match numbers.map(<[f32; WEIGHTS]>::try_from) {
        Ok(Ok(w)) => Ok(w),
        _ => Err(format!("`weights` wants {WEIGHTS} numbers")),
    }
}

impl Deck {
    fn take(&mut self, line: &str, is_first: bool) -> Result<(), String> {
        let words: Vec<&str> = line.split('#').next().unwrap_or("").split_whitespace().collect();
        match words[..] {
            ["prefix"] if is_first => self.is_prefix = true,
            ["prefix", ..] => return Err("`prefix` may stand on the first line only, and alone".into()),
            ["weights", ref rest @ ..] if self.weights.is_none() => self.weights = Some(weights(rest)?),
            ["weights", ..] => return Err("`weights` may stand on one line only, and here is a second".into()),
            [] if line.trim().is_empty() => self.cards.push(Vec::new()),
            [] => {}
            _ => self.cards.last_mut().expect("a card").push(review(&words)?),
        }
        Ok(())
    }

    /// The deck of a text, or the line that is wrong.
    pub fn parse(text: &str) -> Result<Deck, String> {
        let mut deck = Deck { cards: vec![Vec::new()], ..Deck::default() };
        let mut is_first = true;
        for (i, line) in text.trim_start_matches('\u{feff}').lines().enumerate() {
            deck.take(line, is_first).map_err(|wrong| format!("line {}: {wrong}", i + 1))?;
            is_first &= line.split('#').next().unwrap_or("").trim().is_empty();
        }
        deck.cards.retain(|card| !card.is_empty());
        let least = if deck.is_prefix { 2 } else { 1 };
        match deck.cards.iter().map(Vec::len).min() {
            None => Err("the deck has no card".into()),
            Some(n) if n < least => {
                Err("a prefix has at least two reviews: a history, and the one that is scored".into())
            }
            _ if deck.cards.iter().any(|card| deck.history(card).len() > MAX_ROWS as usize) => {
                Err(format!("a card has more than {MAX_ROWS} reviews"))
            }
            _ => Ok(deck),
        }
    }

    /// All of a card, or what comes before the scored review of a prefix.
    fn history<'a>(&self, card: &'a [Review]) -> &'a [Review] {
        if self.is_prefix {
            &card[..card.len() - 1]
        } else {
            card
        }
    }

    /// The deck in batches, cards of like length together, so that no table has much padding.
    pub fn batches(&self) -> Vec<Batch> {
        let mut cards: Vec<&[Review]> = self.cards.iter().map(Vec::as_slice).collect();
        cards.sort_by_key(|card| card.len());
        cards.chunks(MAX_COLUMNS as usize).map(|cards| self.batch(cards)).collect()
    }

    fn batch(&self, cards: &[&[Review]]) -> Batch {
        let columns: Vec<&[Review]> = cards.iter().map(|card| self.history(card)).collect();
        let rows = columns.iter().map(|column| column.len()).max().unwrap_or(0);
        let padding = Review { day: 0.0, rating: 0, weight: 0.0 };
        let cells = || (0..rows).flat_map(|row| columns.iter().map(move |column| *column.get(row).unwrap_or(&padding)));
        let targets = || cards.iter().map(|card| card[card.len() - 1]);
        let scored: Vec<Review> = if self.is_prefix { targets().collect() } else { cells().collect() };
        Batch {
            is_prefix: self.is_prefix,
            rows: rows as u32,
            columns: columns.len() as u32,
            days: cells().map(|x| x.day).collect(),
            ratings: cells().map(|x| x.rating.into()).collect(),
            lengths: columns.iter().map(|column| column.len() as u32).collect(),
            target_days: targets().map(|x| x.day).collect(),
            labels: scored.iter().map(|x| f32::from(x.rating > 1)).collect(),
            weights: scored.iter().map(|x| x.weight).collect(),
            size: cards.iter().map(|card| self.scored(card)).sum(),
        }
    }

    /// How many reviews of a card are scored.
    fn scored(&self, card: &[Review]) -> u64 {
        let from = if self.is_prefix { card.len() - 1 } else { 1 };
        card[from..].iter().filter(|x| x.weight != 0.0).count() as u64
    }

    /// The weights that the deck's steps read, by document 01's table: no other can change a loss or a gradient, whatever
    /// its value (docs/PROMISES.md, `unread_weight`). Steps run on all rows of a history, and on all of a card but its last.
    pub fn reads(&self) -> [bool; WEIGHTS] {
        let mut reads = [false; WEIGHTS];
        reads[20] = true; // every call reads it
        for card in &self.cards {
            for (row, x) in card[..card.len() - 1].iter().enumerate().filter(|(_, x)| x.rating != 0) {
                for k in weights_read(row, x) {
                    reads[k] = true;
                }
            }
        }
        reads
    }
}

/// 'weights read', by step.
fn weights_read(row: usize, x: &Review) -> Vec<usize> {
    let own: &[usize] = match (row, x.day == 0.0, x.rating) {
        (0, ..) => return vec![usize::from(x.rating) - 1, 4, 5],
        (_, true, _) => &[17, 18, 19],
        (_, _, 1) => &[11, 12, 13, 14, 17, 18],
        (_, _, 2) => &[8, 9, 10, 15],
        (_, _, 4) => &[8, 9, 10, 16],
        _ => &[8, 9, 10],
    };
    [own, &[4, 5, 6, 7, 20]].concat()
}

/// What a loss call is given.
#[derive(Clone, Debug)]
pub struct Batch {
    is_prefix: bool,
    rows: u32,
    columns: u32,
    days: Vec<f32>,
    ratings: Vec<f32>,
    lengths: Vec<u32>,
    target_days: Vec<f32>,
    labels: Vec<f32>,
    weights: Vec<f32>,
    /// How many reviews it scores.
    pub size: u64,
}

impl Batch {
    /// The loss, and its gradient added.
    pub fn add_to(&self, gradient: &mut Gradient, w: &[f32]) -> Result<f64, Refusal> {
        let cards = Cards {
            rows: self.rows,
            columns: self.columns,
            days: &self.days,
            ratings: &self.ratings,
            lengths: &self.lengths,
            labels: &self.labels,
            weights: &self.weights,
            ..Cards::default()
        };
        if !self.is_prefix {
            return gradient.add_cards(w, &cards);
        }
        let prefixes = Prefixes {
            rows: cards.rows,
            columns: cards.columns,
            days: cards.days,
            ratings: cards.ratings,
            lengths: cards.lengths,
            target_days: &self.target_days,
            labels: cards.labels,
            weights: cards.weights,
            ..Prefixes::default()
        };
        gradient.add_prefixes(w, &prefixes)
    }
}
