//! Fits the 21 weights to a deck: Adam over the card loss (or the prefix loss), with a pull toward the default weights, so
//! that a small deck gives no wild fit. The four stabilities after a first review begin where the deck's own first recalls
//! put them, unless the text says where to begin. A weight that the deck says nothing about keeps its value, and each stays in
//! its range. It prints loss and weights as it goes, and stops by itself.
//!
//!     cargo run --release --example fit -- DECK.txt          fits a deck in the text form of examples/deck.txt
//!     cargo run --release --example fit -- --deck [SEED]     writes such a deck, generated from known weights
//!
//! Status 1: the deck cannot be used, with the line that is wrong; 2: wrong usage. The archive is that which build.rs
//! finds: on x86-64 what `./lib` writes.

#[path = "fit/adam.rs"]
pub mod adam;
#[path = "fit/deck.rs"]
pub mod deck;
#[path = "fit/generate.rs"]
pub mod generate;
#[path = "fit/start.rs"]
pub mod start;

use adam::{Found, Trainer};
use deck::Deck;
use start::Start;
use std::io::{self, Write};
use std::process::ExitCode;

const USAGE: &str = "usage: fit DECK.txt | fit --deck [SEED]";

/// How many steps there are from one printed line of weights to the next.
const SHOWN: u32 = 50;

fn words(numbers: &[f32]) -> String {
    numbers.iter().map(f32::to_string).collect::<Vec<_>>().join(" ")
}

/// The numbers of the weights that stay as they are (docs/PROMISES.md, `unread_weight`).
fn frozen(trainer: &Trainer) -> String {
    let numbers: Vec<String> = (0..21).filter(|&k| !trainer.reads[k]).map(|k| k.to_string()).collect();
    if numbers.is_empty() {
        "none".to_string()
    } else {
        numbers.join(" ")
    }
}

/// What the first recalls of a rating gave.
fn told(x: &Start) -> String {
    let days = if x.rows == 1 { "day" } else { "days" };
    format!("first rating {}: recalls on {} {days}, stability {} -> {}", x.rating, x.rows, x.default, x.found)
}

fn fit(path: &str) -> Result<(), String> {
    let text = std::fs::read_to_string(path).map_err(|error| format!("cannot read {path}: {error}"))?;
    let deck = Deck::parse(&text).map_err(|wrong| format!("{path}: {wrong}"))?;
    let mut trainer = Trainer::new(&deck).map_err(|refusal| refusal.to_string())?;
    eprintln!("on {}, over {}", std::env::consts::ARCH, env!("FSRS6_ARCHIVE"));
    eprintln!("{} cards, {} scored reviews", deck.cards.len(), trainer.total);
    let frozen = format!("frozen, since no review reads them: {}", frozen(&trainer));
    let starts = trainer.starts.iter().map(told);
    let mut said = std::iter::once(frozen).chain(starts).try_for_each(|line| writeln!(io::stdout(), "{line}"));
    let found = trainer
        .run(|step, at: &Found, best: &Found| {
            eprint!("\rstep {step}: loss {:.6}, pull {:.6}, best {:.6} ", at.loss, at.pull, best.loss);
            if step % SHOWN == 0 && said.is_ok() {
                said = writeln!(io::stdout(), "step {step} loss {:.6} weights {}", best.loss, words(&best.weights));
            }
        })
        .map_err(|refusal| refusal.to_string())?;
    eprintln!("\nno better for a while, after {} steps", found.steps);
    let lines = [
        format!("before {:.6}", found.first.loss),
        format!("after {:.6}", found.best.loss),
        format!("weights {}", words(&found.best.weights)),
    ];
    said.and_then(|()| writeln!(io::stdout(), "{}", lines.join("\n"))).map_err(|error| format!("cannot write: {error}"))
}

fn write_deck(seed: u64) -> Result<(), String> {
    let deck = generate::deck(seed).map_err(|refusal| refusal.to_string())?;
    io::stdout().write_all(deck.as_bytes()).map_err(|error| format!("cannot write: {error}"))
}

pub fn main() -> ExitCode {
    let given: Vec<String> = std::env::args().skip(1).collect();
    let done = match given.iter().map(String::as_str).collect::<Vec<_>>()[..] {
        ["--help"] => {
            println!("{USAGE}");
            Ok(())
        }
        ["--deck"] => write_deck(1),
        ["--deck", seed] => match seed.parse() {
            Ok(seed) => write_deck(seed),
            Err(_) => Err(format!("the seed must be a whole number, and not {seed:?}")),
        },
        [path] if !path.starts_with('-') => fit(path),
        _ => {
            eprintln!("{USAGE}");
            return ExitCode::from(2);
        }
    };
    match done {
        Ok(()) => ExitCode::SUCCESS,
        Err(wrong) => {
            eprintln!("fit: {wrong}");
            ExitCode::FAILURE
        }
    }
}
