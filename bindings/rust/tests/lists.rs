//! Runs lists of vectors in `crates/vectors/data` through the safe functions, so that no argument can stand in another's
//! place. The scripts in `tools/vectors` say what a line holds.

use fsrs6::*;

/// The words of a line, one after another.
struct Words<'a>(std::str::SplitAsciiWhitespace<'a>);

impl Words<'_> {
    fn number(&mut self) -> u64 {
        u64::from_str_radix(self.0.next().expect("a word"), 16).expect("a hexadecimal word")
    }

    fn numbers(&mut self, n: usize) -> Vec<u64> {
        (0..n).map(|_| self.number()).collect()
    }

    fn rest(&mut self) -> Vec<u64> {
        let n = self.0.clone().count();
        self.numbers(n)
    }

    fn slice(&mut self) -> Vec<u64> {
        let n = self.number() as usize;
        self.numbers(n)
    }

    fn doubles(&mut self) -> Vec<f64> {
        self.slice().into_iter().map(f64::from_bits).collect()
    }

    fn singles(&mut self) -> Vec<f32> {
        self.slice().into_iter().map(single).collect()
    }
}

fn single(bits: u64) -> f32 {
    f32::from_bits(bits as u32)
}

/// Every NaN has one pattern: its payload is nobody's promise.
fn single_bits(x: f32) -> u64 {
    if x.is_nan() {
        0x7fc00000
    } else {
        x.to_bits().into()
    }
}

fn double_bits(x: f64) -> u64 {
    if x.is_nan() {
        0x7ff8000000000000
    } else {
        x.to_bits()
    }
}

/// The number of a refusal and the bits of the answers, none where there is a refusal.
type Outcome = (u64, Vec<u64>);

fn outcome<T>(answer: Result<T, Refusal>, bits: impl Fn(T) -> Vec<u64>) -> Outcome {
    match answer {
        Ok(x) => (0, bits(x)),
        Err(refusal) => (refusal.number().into(), vec![]),
    }
}

/// Runs a list. `w` and `g` lines set what `try_line` is given: the weights and the slots, as bits.
fn run(name: &str, try_line: impl Fn(char, &mut Words, &[f32], &[f64]) -> Option<(Outcome, Outcome)>) {
    let path = format!("{}/../../crates/vectors/data/{name}", env!("CARGO_MANIFEST_DIR"));
    let text = std::fs::read_to_string(&path).expect(&path);
    let (mut w, mut slots, mut tried) = (vec![], vec![], 0);
    for (i, line) in text.lines().enumerate().filter(|(_, line)| !line.starts_with('#')) {
        let letter = line.chars().next().expect("a letter");
        let mut words = Words(line[1..].split_ascii_whitespace());
        match letter {
            'w' => w = words.singles(),
            'g' => slots = words.doubles(),
            _ => {
                if let Some((is, want)) = try_line(letter, &mut words, &w, &slots) {
                    assert_eq!(is, want, "{name}:{}", i + 1);
                    tried += 1;
                }
            }
        }
    }
    assert!(tried > 0, "{name}: no line was tried");
}

#[test]
fn study() {
    run("study", |letter, words, w, _| {
        let a = words.rest();
        let (x, y, z) = (single(a[0]), single(a[1]), single(a[2]));
        let one = |answer| outcome(answer, |x| vec![single_bits(x)]);
        let two = |answer| outcome(answer, |q: State| vec![single_bits(q.stability), single_bits(q.difficulty)]);
        let is = match letter {
            'F' => {
                let filled = outcome(check_and_fill_parameters(w), |w| w.map(single_bits).to_vec());
                let want = if a[0] == 0 { a[1..].to_vec() } else { vec![] };
                return Some((filled, (a[0], want)));
            }
            'C' => one(power_forgetting_curve(w, x, y)),
            'I' => one(next_interval(w, x, y)),
            'S' => one(stability_after_success(w, x, y, z, a[3] as u32)),
            'L' => one(stability_after_failure(w, x, y, z)),
            'T' => one(stability_short_term(w, x, a[1] as u32)),
            'E' => one(init_difficulty(w, a[0] as u32)),
            'M' => one(mean_reversion(w, x, y)),
            'D' => one(next_difficulty(w, x, a[1] as u32)),
            'N' => {
                let state = State { stability: x, difficulty: y };
                two(next_state(w, state, z, a[3] as u32))
            }
            'O' => {
                let seen = Seen { state: State { stability: x, difficulty: y }, day: a[2] as u32 };
                let is = outcome(next_state_on(w, seen, a[3] as u32, a[4] as u32), |q| {
                    vec![single_bits(q.state.stability), single_bits(q.state.difficulty), q.day.into()]
                });
                return Some((is, (a[5], if a[5] == 0 { a[6..].to_vec() } else { vec![] })));
            }
            'R' => {
                let state = State { stability: x, difficulty: y };
                let claimed = Claimed { stability: a[5] as u32, difficulty: a[6] as u32, interval: a[7] as u32 };
                let is = outcome(check_row(w, state, z, a[3] as u32, single(a[4]), claimed), |v| vec![v as u64]);
                return Some((is, (a[8], if a[8] == 0 { vec![a[9]] } else { vec![] })));
            }
            'P' => two(memory_state_from_sm2(w, x, y, z)),
            _ => return None,
        };
        let answers = if a[4] == 0 { a[5..5 + is.1.len()].to_vec() } else { vec![] };
        Some((is, (a[4], answers)))
    });
}

#[test]
fn penalty() {
    run("penalty", |letter, words, w, _| {
        assert_eq!(letter, 'P');
        let (batch, total, factor) = (words.number(), words.number(), f64::from_bits(words.number()));
        let (old, spreads) = (words.singles(), words.singles());
        let (n, first, refusal) = (words.number() as usize, words.number(), words.number());
        let mut slots: Vec<f32> = (0..n as u64).map(|i| single(first + i)).collect();
        let given: Vec<u64> = slots.iter().copied().map(single_bits).collect();
        let is = outcome(l2_penalty(w, &old, batch, total, factor, &spreads, &mut slots), |x| vec![double_bits(x)]);
        let left: Vec<u64> = slots.iter().copied().map(single_bits).collect();
        let answer = words.rest();
        let (value, want) = if refusal == 0 { (vec![answer[0]], answer[1..].to_vec()) } else { (vec![], given) };
        Some(((is.0, [is.1, left].concat()), (refusal, [value, want].concat())))
    });
}

#[test]
fn initial() {
    run("initial", |letter, words, _, _| {
        if letter != 'S' {
            return None; // the derivatives are no function of the library
        }
        let default = f64::from_bits(words.number());
        let (days, shares, counts) = (words.doubles(), words.doubles(), words.doubles());
        let (refusal, answer) = (words.number(), words.rest());
        let is = outcome(initial_stability(&days, &shares, &counts, default), |x| vec![single_bits(x)]);
        Some((is, (refusal, if refusal == 0 { answer } else { vec![] })))
    });
}

/// The record as the list tells it: state, then day to outputs, branch, and the branch's numbers.
fn record(a: &[u64]) -> Vec<u64> {
    let (branch, has_numbers) = match (a[20], a[23]) {
        (2, active) => (3 - active, true),
        (3, floored) => (4 + floored, true),
        (4, _) => (6, false),
        (branch, _) => (branch, false),
    };
    let numbers = if has_numbers { &a[21..23] } else { &[0, 0] };
    [&a[11..13], &a[15..20], &[single_bits(branch as f32)], numbers].concat()
}

#[test]
fn step() {
    run("step", |letter, words, w, slots| {
        let a = words.rest();
        let state = State { stability: single(a[0]), difficulty: single(a[1]) };
        let step = Step { state, day: single(a[2]), rating: single(a[3]), row: a[4] as usize };
        let (is, answers) = match letter {
            'T' => {
                let is = outcome(training_step(w, step), |x| {
                    let state = [x.state.stability, x.state.difficulty];
                    state.into_iter().chain(x.record).map(single_bits).collect()
                });
                (is, [&a[9..11], &record(&a)].concat())
            }
            'B' => {
                let mut gw = slots.to_vec();
                let after = StateGradient { stability: f64::from_bits(a[5]), difficulty: f64::from_bits(a[6]) };
                let answer = training_step_backward(w, step, after, f64::from_bits(a[7]), &mut gw);
                let is = outcome(answer, |x| {
                    let state = [x.stability, x.difficulty];
                    state.into_iter().chain(gw.iter().copied()).map(double_bits).collect()
                });
                (is, [&a[9..11], &a[12..]].concat())
            }
            _ => return None,
        };
        let answers = if a[8] == 0 { answers } else { vec![] };
        Some((is, (a[8], answers)))
    });
}

/// The digest of the slots, the records and the step gradients.
fn digest(slots: &[f64], records: &[f32], step_grads: &[f64]) -> u64 {
    let doubles = |xs: &[f64]| xs.iter().map(|&x| double_bits(x)).collect::<Vec<_>>();
    let singles = records.iter().map(|&x| single_bits(x)).collect();
    [doubles(slots), singles, doubles(step_grads)].concat().into_iter().fold(0xcbf29ce484222325, |h, v| {
        let m = (h ^ v).wrapping_mul(0x100000001b3);
        m ^ (m >> 32)
    })
}

/// The tables of a loss's line.
struct Tables {
    rows: u32,
    columns: u32,
    days: Vec<f32>,
    ratings: Vec<f32>,
    lengths: Vec<u32>,
    target_days: Vec<f32>,
    labels: Vec<f32>,
    weights: Vec<f32>,
}

impl Tables {
    fn read(words: &mut Words) -> Tables {
        Tables {
            rows: words.number() as u32,
            columns: words.number() as u32,
            days: words.singles(),
            ratings: words.singles(),
            lengths: words.slice().into_iter().map(|n| n as u32).collect(),
            target_days: words.singles(),
            labels: words.singles(),
            weights: words.singles(),
        }
    }

    fn prefixes(&self, align: Align) -> Prefixes<'_> {
        let Tables { rows, columns, days, ratings, lengths, target_days, labels, weights } = self;
        Prefixes { rows: *rows, columns: *columns, days, ratings, lengths, target_days, labels, weights, align }
    }

    fn cards(&self, align: Align) -> Cards<'_> {
        let Tables { rows, columns, days, ratings, lengths, labels, weights, .. } = self;
        Cards { rows: *rows, columns: *columns, days, ratings, lengths, labels, weights, align }
    }
}

/// A list of losses: 0 to 3 at the start, 4 to 7 the same at the end.
fn run_losses(name: &str) {
    run(name, |letter, words, w, slots| {
        let align = if letter < '4' { Align::Start } else { Align::End };
        let tables = Tables::read(words);
        let (n, first) = (words.number(), words.number());
        let mut records: Vec<f32> = (0..n).map(|i| single(first.wrapping_add(i))).collect();
        let (n, first) = (words.number(), words.number());
        let mut step_grads: Vec<f64> = (0..n).map(|i| f64::from_bits(first.wrapping_add(i))).collect();
        let mut gw = slots.to_vec();
        let answer = match letter {
            '0' | '4' => batch_loss_and_grad(w, &tables.prefixes(align), &mut gw, &mut records),
            '1' | '5' => batch_loss(w, &tables.prefixes(align)),
            '2' | '6' => card_loss_and_grad(w, &tables.cards(align), &mut gw, &mut records, &mut step_grads),
            '3' | '7' => card_loss(w, &tables.cards(align)),
            _ => return None,
        };
        let is_alone = "1357".contains(letter);
        let left = digest(if is_alone { &[] } else { &gw }, &records, &step_grads);
        let is = (answer.map_or_else(|x| x.number().into(), |_| 0), vec![double_bits(answer.unwrap_or(0.0)), left]);
        let want = (words.number(), words.numbers(2));
        Some((is, want))
    });
}

/// Reasons and ends of steps, and the faults of loss calls. A list counts records, and these functions the singles of them.
#[test]
fn explain() {
    run("explain", |letter, words, w, _| {
        if letter == 'E' {
            let a = words.rest();
            let state = State { stability: single(a[0]), difficulty: single(a[1]) };
            let step = Step { state, day: single(a[2]), rating: single(a[3]), row: a[4] as usize };
            let is = outcome(explain_step(w, step), |x| {
                [x.reason.number(), x.stability_held.number(), x.difficulty_held.number()].map(u64::from).to_vec()
            });
            return Some((is, (a[5], if a[5] == 0 { a[6..].to_vec() } else { vec![] })));
        }
        let (tables, a) = (Tables::read(words), words.rest());
        let align = if a[0] == 0 { Align::Start } else { Align::End };
        let (slots, records, step_grads) = (a[1] as usize, RECORD * a[2] as usize, a[3] as usize);
        let fault = match letter {
            '0' => batch_loss_and_grad_fault(w, &tables.prefixes(align), slots, records),
            '1' => batch_loss_fault(w, &tables.prefixes(align)),
            '2' => card_loss_and_grad_fault(w, &tables.cards(align), slots, records, step_grads),
            '3' => card_loss_fault(w, &tables.cards(align)),
            _ => return None,
        };
        let place = fault.and_then(|x| x.place).map_or(vec![0, 0], |x| vec![x.column.into(), x.row.into()]);
        Some(((fault.map_or(0, |x| x.refusal.number().into()), place), (a[4], a[5..].to_vec())))
    });
}

#[test]
fn losses() {
    run_losses("losses");
}

#[test]
fn aligned() {
    run_losses("aligned");
}
