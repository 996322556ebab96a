// Holds our C functions to the Rust's own text, run over our kernels, with document 01's checks around it.
//
//     driver check SEED COUNT     compares generated calls, half as many losses at the end of their tables, each loss in
//                                 both modes, a quarter as many penalties and as many searches of first recalls, an eighth as
//                                 many files, and an eighth as many rows, each with the text's answers and with one bit of
//                                 each field flipped
//     driver stock SEED COUNT     measures distances; for a driver whose text was left as it is
//     driver replay FILE...       compares the calls of FILE (lines.rs says what a line holds)
//     driver vectors FILE...      compares the answers stored in FILE
//     driver answer FILE...       writes the losses of FILE again with the answers that are to be
//     driver sample SEED          writes a list of losses with these answers
mod analytic;
mod cases;
mod compare;
mod damage;
mod face;
mod files;
mod generate;
mod initial;
mod kernels;
mod lines;
mod model;
mod penalty;
mod random;
mod rules;
mod sample;
mod shrink;
mod stock;
mod tally;

// Where the Rust's text looks for what it takes from other modules.
mod simulation {
    include!(env!("LIMITS"));
}
mod inference {
    #![allow(dead_code)]
    include!(env!("INFERENCE"));
}
mod error {
    #![allow(dead_code)]
    include!(env!("ERROR"));
}

use cases::Case;
use lines::{Reader, Stored};
use tally::Tally;

/// Differences that are shown; the others are only counted.
const SHOWN: u64 = 5;

fn show(case: &Case, place: &str, text: &str, tally: &mut Tally) {
    tally.differences += 1;
    if tally.differences > SHOWN {
        return;
    }
    println!("-- difference in {}, {place}: {text}", case.name());
    let small = shrink::shrunk(case);
    let scratch = &mut Tally::default();
    if let (_, Some(text)) = compare::run(&small, scratch) {
        println!("-- to be run again: {text}");
    }
    println!("{}", lines::lines(&small, None));
}

fn run(case: &Case, place: &str, tally: &mut Tally) {
    let (refusal, difference) = compare::run(case, tally);
    let refused = refusal.unwrap_or(0);
    tally.call(case.name(), matches!(case, Case::File(_)), refused);
    if let Some(text) = difference {
        show(case, place, &text, tally);
    }
}

fn run_modes(case: &Case, place: &str, tally: &mut Tally) {
    run(case, place, tally);
    if let Some(other) = case.in_other_mode() {
        run(&other, &format!("{place}, in the other mode"), tally);
    }
}

fn check(seed: u64, count: u64, tally: &mut Tally) {
    for i in 0..count {
        run_modes(&generate::case(seed, i), &format!("call {i} of seed {seed}"), tally);
    }
    for i in 0..count / 2 {
        run_modes(&Case::Loss(generate::loss_at_end(seed, i)), &format!("loss {i} at the end of seed {seed}"), tally);
    }
    for i in 0..count / 4 {
        run(&Case::Penalty(penalty::some(seed, i)), &format!("penalty {i} of seed {seed}"), tally);
    }
    initial::name_exits(tally);
    for i in 0..count / 4 {
        run(&Case::Initial(initial::some(seed, i)), &format!("first recalls {i} of seed {seed}"), tally);
    }
    for i in 0..count / 8 {
        for (j, c) in generate::rows(seed, i).into_iter().enumerate() {
            run(&Case::Row(c), &format!("row {i} of seed {seed}, of its four the {j}-th from 0"), tally);
        }
    }
    for i in 0..count / 8 {
        run(&Case::File(damage::file(seed, i)), &format!("file {i} of seed {seed}"), tally);
    }
}

fn each_line(names: &[String], mut f: impl FnMut(&str, &str, Option<Stored>)) {
    for name in names {
        let text = std::fs::read_to_string(name).expect(name);
        let mut reader = Reader::default();
        for (i, line) in text.lines().enumerate() {
            let stored = reader.line(line);
            f(&format!("{name}:{}", i + 1), line, stored);
        }
    }
}

fn replay(names: &[String], tally: &mut Tally) {
    each_line(names, |place, _, stored| {
        if let Some(x) = stored {
            run(&x.case, place, tally);
        }
    });
}

fn vectors(names: &[String], tally: &mut Tally) {
    each_line(names, |place, _, stored| {
        let Some(Stored { case, answer: Some(answer) }) = stored else { return };
        let wanted = compare::expected(&case, tally);
        tally.call(case.name(), false, wanted.refusal);
        let found = [wanted.refusal as u64, compare::stored_loss(&wanted), compare::digest(&wanted)];
        if found != answer {
            tally.differences += 1;
            println!("{place}: {answer:x?}, and the Rust has {found:x?}");
        }
    });
}

fn answer(names: &[String]) {
    each_line(names, |_, line, stored| match stored {
        Some(Stored { case: Case::Loss(c), .. }) => {
            let wanted = compare::expected(&Case::Loss(c.clone()), &mut Tally::default());
            println!("{}", lines::loss_line(&c, &wanted));
        }
        _ => println!("{line}"),
    });
}

fn main() {
    let args: Vec<String> = std::env::args().skip(1).collect();
    let number = |i: usize| args.get(i).and_then(|x| x.parse().ok()).expect("a number");
    let mut tally = Tally::default();
    match args.first().map(String::as_str) {
        Some("check") => check(number(1), number(2), &mut tally),
        Some("replay") => replay(&args[1..], &mut tally),
        Some("vectors") => vectors(&args[1..], &mut tally),
        Some("stock") => return stock::run(number(1), number(2)),
        Some("answer") => return answer(&args[1..]),
        Some("sample") => return sample::run(number(1)),
        _ => panic!("no such mode"),
    }
    tally.print();
    std::process::exit((tally.differences > 0) as i32);
}
