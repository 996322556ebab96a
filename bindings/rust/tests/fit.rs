//! The trainer of examples/fit.rs: on a deck of some thousand reviews from known weights its loss falls below that of the
//! defaults, it begins where the deck's first recalls put the first stabilities, weights that the deck says nothing about stay,
//! and it stops by itself.

#[path = "../examples/fit.rs"]
#[allow(dead_code)]
mod fit;

use fit::adam::{Fitted, Trainer};
use fit::deck::Deck;
use fit::generate::{deck, LEARNER};
use fit::start::{starts, Recalls};
use fsrs6::{check_and_fill_parameters, initial_stability, MAX_RECALLS, WEIGHTS};

fn parsed(text: &str) -> Deck {
    Deck::parse(text).expect("a deck")
}

fn fitted(deck: &Deck) -> (Fitted, u32) {
    let mut told = 0;
    let found = Trainer::new(deck).expect("a trainer").run(|step, _, _| told = step).expect("a fit");
    (found, told)
}

#[test]
fn the_loss_falls_below_that_of_the_defaults() {
    let defaults = check_and_fill_parameters(&[]).expect("the defaults");
    for seed in [1, 2] {
        let deck = parsed(&deck(seed).expect("a generated deck"));
        let mut trainer = Trainer::new(&deck).expect("a trainer");
        assert!((3000..10000).contains(&trainer.total), "{} scored reviews", trainer.total);
        assert_eq!(trainer.reads, [true; WEIGHTS], "the deck reads every weight");
        let (before, learner) = (trainer.at(defaults).expect("a loss"), trainer.at(LEARNER).expect("a loss"));
        let (found, told) = fitted(&deck);
        assert_eq!(found.first.loss, before.loss);
        assert!(learner.loss < before.loss, "the learner's own weights: {} and {}", learner.loss, before.loss);
        // most of what there is to gain is gained, and the pull holds the rest back
        let gained = (before.loss - found.best.loss) / (before.loss - learner.loss);
        assert!(gained > 0.8, "{} of {} to {}", found.best.loss, before.loss, learner.loss);
        assert!(found.best.pull > 0.0 && found.best.loss + found.best.pull < before.loss);
        assert!(found.steps == told && found.steps < 2000, "it went on for {} steps", found.steps);
        // the best weights make the best loss again, and are a set that every function takes
        assert_eq!(trainer.at(found.best.weights).expect("a loss").loss, found.best.loss);
    }
}

/// A card's first recall is its first later review on another day: same-day reviews and padding are passed over, and what is
/// not scored is left out.
#[test]
fn first_recalls_are_grouped() {
    let cards = [
        "0 3\n0 3\n2 1\n5 3",
        "0 3\n2 4\n",
        "0 3\n1 0\n2 2\n",
        "0 3\n0.5 3",
        "0 3\n0 1",
        "0 3\n7 1 0\n2 3",
        "0 1\n4 1",
    ];
    let text = cards.join("\n\n");
    let recalls = |days: &[f64], shares: &[f64], counts: &[f64]| Recalls {
        days: days.to_vec(),
        shares: shares.to_vec(),
        counts: counts.to_vec(),
    };
    let deck = parsed(&text);
    assert_eq!(deck.recalls(3), recalls(&[0.5, 2.0], &[1.0, 2.0 / 3.0], &[1.0, 3.0]));
    assert_eq!(deck.recalls(1), recalls(&[4.0], &[0.0], &[1.0]));
    assert_eq!((deck.recalls(2), deck.recalls(4)), (Recalls::default(), Recalls::default()));
    // of a prefix the last review alone is scored
    let prefixes = parsed(&format!("prefix\n{text}"));
    assert_eq!(prefixes.recalls(3), recalls(&[0.5, 2.0], &[1.0, 1.0], &[1.0, 2.0]));
    // as many days as the search takes
    let many: Vec<String> = (1..=MAX_RECALLS + 1).map(|day| format!("0 4\n{day} 3\n")).collect();
    assert_eq!(parsed(&many.join("\n")).recalls(4).days.len(), MAX_RECALLS);
}

/// The first stabilities begin at the search's, in their range, and with weights in the text nowhere else than there.
#[test]
fn a_fit_begins_with_first_recalls() {
    let defaults = check_and_fill_parameters(&[]).expect("the defaults");
    for seed in [1, 2, 3] {
        let text = deck(seed).expect("a generated deck");
        let trainer = Trainer::new(&parsed(&text)).expect("a trainer");
        let found = starts(&parsed(&text), &defaults).expect("starts");
        assert_eq!(trainer.starts, found);
        assert_eq!(found.iter().map(|x| x.rating).collect::<Vec<_>>(), [1, 2, 3, 4]);
        for x in found {
            let Recalls { days, shares, counts } = parsed(&text).recalls(x.rating);
            assert_eq!(initial_stability(&days, &shares, &counts, x.default.into()), Ok(x.found));
            assert!(x.default == defaults[x.rating - 1] && (0.0001..=100.0).contains(&x.found), "{x:?}");
        }
        let told = format!("weights {}\n{text}", LEARNER.map(|x| x.to_string()).join(" "));
        assert!(Trainer::new(&parsed(&told)).expect("a trainer").starts.is_empty());
    }
    // one forgotten card puts its stability at the lower end, and the fit is no worse than at the defaults
    let small = parsed("0 3\n1 1\n1 1\n1 1\n");
    let trainer = Trainer::new(&small).expect("a trainer");
    assert_eq!((trainer.starts.len(), trainer.starts[0].found), (1, 0.0001));
    let (found, _) = fitted(&small);
    assert!(found.best.loss + found.best.pull <= found.first.loss + found.first.pull);
}

#[test]
fn what_the_deck_does_not_read_is_frozen() {
    // no first rating 1, 2 or 4, no lapse, no hard or easy review, and nothing on the same day
    let deck = parsed("0 3\n3 3\n9 3\n20 1\n\n0 3\n4 3\n15 1\n");
    let (found, _) = fitted(&deck);
    let defaults = check_and_fill_parameters(&[]).expect("the defaults");
    for (k, (was, is)) in defaults.iter().zip(found.best.weights).enumerate() {
        let is_read = [2, 4, 5, 6, 7, 8, 9, 10, 20].contains(&k);
        assert_eq!(deck.reads()[k], is_read, "weight {k}");
        assert!(is_read || was.to_bits() == is.to_bits(), "weight {k} went from {was} to {is}");
    }
    assert!(found.best.loss < found.first.loss);
}

/// The pull keeps a fit of four reviews near the defaults.
#[test]
fn a_small_deck_stays_near() {
    let (found, _) = fitted(&parsed("0 3\n1 1\n1 1\n1 1\n"));
    let defaults = check_and_fill_parameters(&[]).expect("the defaults");
    assert!(found.best.weights.iter().zip(defaults).all(|(x, y)| (x - y).abs() < 1.5 * y.abs().max(1.0)));
}

#[test]
fn prefixes_are_fitted_too() {
    let text = deck(3).expect("a generated deck");
    let deck = parsed(&format!("prefix\n{text}"));
    assert!(deck.is_prefix);
    let (found, _) = fitted(&deck);
    assert!(found.best.loss < found.first.loss);
}

#[test]
fn texts_are_read_or_their_line_is_told() {
    let one = parsed("\u{feff}# a remark\n0 3 # learnt\n1 0\n2.5 1 0.5\n\n\n0 4\n");
    assert_eq!(one.cards.iter().map(Vec::len).collect::<Vec<_>>(), [3, 1]);
    assert_eq!((one.cards[0][2].day, one.cards[0][2].rating, one.cards[0][2].weight), (2.5, 1, 0.5));
    assert_eq!((one.cards[0][1].weight, one.weights, one.is_prefix), (0.0, None, false));
    let start = format!("weights {}\n0 3\n1 3\n", LEARNER.map(|x| x.to_string()).join(" "));
    assert_eq!(parsed(&start).weights, Some(LEARNER));
    for (text, wrong) in [
        ("", "no card"),
        ("0 3\n1 5\n", "line 2: the rating"),
        ("0 3\n1 3.0\n", "line 2: the rating"),
        ("0 3\n1e6 3\n", "line 2: the day"),
        ("0 3\nnan 3\n", "line 2: the day"),
        ("0 3\n1 3 -1\n", "line 2: the review's weight"),
        ("0 3\n1 0 1\n", "line 2: padding"),
        ("0 3\n3\n", "line 2: not a day"),
        ("0 3\nprefix\n", "line 2: `prefix`"),
        ("prefix\n0 3\n", "a prefix has at least two reviews"),
        ("weights 1 2\n0 3\n", "line 1: `weights` wants"),
    ] {
        let said = Deck::parse(text).expect_err(text);
        assert!(said.contains(wrong), "{text:?}: {said}");
    }
    // weights outside their range are the library's to refuse
    let outside = parsed(&start.replacen("0.4", "0", 1));
    assert!(Trainer::new(&outside).expect("a trainer").run(|_, _, _| ()).is_err());
}
