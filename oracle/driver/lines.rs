// Calls as text, to be stored or run again. The lines w, g and 0 to 7 are those of tools/vectors/losses.py, which says what
// they hold. Beside them, over the weights and the slots of the last lines w and g, and without an answer:
//
//     s    a formula: its number from 0, three singles, a rating, two days
//     c    a row of an app: stability, difficulty, day, retention, rating, three claimed patterns
//     t    a training step: stability, difficulty, day, rating, row
//     r    its reverse: the same, and three doubles
//     f    a filling: a slice of singles
//     k    a kernel: its number from 0, three patterns
//     p    a penalty: the sizes, the factor, the old weights, the spreads and the slots, three slices of singles
//     i    first recalls: the default, the days, the shares and the counts, three slices of doubles
//     b    a batch file: its length, and its bytes as one word
use crate::cases::{Case, File, Formula, Initial, Kernel, Loss, Outcome, Penalty, Reverse, Row, Step};
use crate::compare::{digest, stored_loss};

// ---- writing

fn singles(xs: &[f32]) -> String {
    let words: String = xs.iter().map(|x| format!(" {:08x}", x.to_bits())).collect();
    format!(" {:x}{words}", xs.len())
}

fn doubles(xs: &[f64]) -> String {
    let words: String = xs.iter().map(|x| format!(" {:016x}", x.to_bits())).collect();
    format!(" {:x}{words}", xs.len())
}

fn call_words(c: &Loss) -> String {
    let lengths: String = c.lengths.iter().map(|n| format!(" {n:x}")).collect();
    let mut text = format!("{:x} {:x} {:x}", c.entry(), c.rows, c.columns);
    text += &(singles(&c.days) + &singles(&c.ratings) + &format!(" {:x}{lengths}", c.lengths.len()));
    text += &(singles(&c.targets) + &singles(&c.labels) + &singles(&c.weights));
    text + &format!(" {:x} {:08x} {:x} {:016x}", c.records.0, c.records.1, c.step_grads.0, c.step_grads.1)
}

/// The line of a loss call, without those of its weights and slots.
pub fn loss_line(c: &Loss, answer: &Outcome) -> String {
    format!("{} {:x} {:016x} {:016x}", call_words(c), answer.refusal, stored_loss(answer), digest(answer))
}

pub fn weights_line(w: &[f32]) -> String {
    format!("w{}", singles(w))
}

pub fn slots_line(slots: &[f64]) -> String {
    format!("g{}", doubles(slots))
}

fn step_words(c: &Step) -> String {
    let [s, d, day, rating] = [c.s, c.d, c.day, c.rating].map(f32::to_bits);
    format!("{s:08x} {d:08x} {day:08x} {rating:08x} {:x}", c.row)
}

/// Lines that stand for the call by themselves.
pub fn lines(case: &Case, answer: Option<&Outcome>) -> String {
    match case {
        Case::Loss(c) => {
            let line = answer.map_or(call_words(c) + " 0 0 0", |a| loss_line(c, a));
            format!("{}\n{}\n{line}", weights_line(&c.w), slots_line(&c.slots))
        }
        Case::Step(c) => format!("{}\nt {}", weights_line(&c.w), step_words(c)),
        Case::Reverse(c) => {
            let [s, d, r] = c.g.map(f64::to_bits);
            let words = step_words(&c.step);
            format!(
                "{}\n{}\nr {words} {s:016x} {d:016x} {r:016x}", weights_line(&c.step.w), slots_line(&c.slots)
            )
        }
        Case::Formula(c) => {
            let [x, y, z] = c.args.map(f32::to_bits);
            let [seen, day] = c.days;
            format!("{}\ns {:x} {x:08x} {y:08x} {z:08x} {:x} {seen:x} {day:x}", weights_line(&c.w), c.number, c.rating)
        }
        Case::Row(c) => {
            let [s, d, day, retention] = [c.state[0], c.state[1], c.day, c.retention].map(f32::to_bits);
            let [x, y, z] = c.claimed;
            let review = format!("{s:08x} {d:08x} {day:08x} {retention:08x} {:x}", c.rating);
            format!("{}\nc {review} {x:08x} {y:08x} {z:08x}", weights_line(&c.w))
        }
        Case::Filling(given) => format!("f{}", singles(given)),
        Case::Kernel(c) => format!("k {:x} {:x} {:x} {:x}", c.number, c.args[0], c.args[1], c.args[2]),
        Case::Penalty(c) => {
            let sets = singles(&c.old) + &singles(&c.spreads) + &singles(&c.slots);
            format!("{}\np {:x} {:x} {:016x}{sets}", weights_line(&c.w), c.batch, c.total, c.factor.to_bits())
        }
        Case::Initial(c) => {
            let columns = doubles(&c.days) + &doubles(&c.shares) + &doubles(&c.counts);
            format!("i {:016x}{columns}", c.default.to_bits())
        }
        Case::File(c) => {
            let bytes: String = c.bytes.iter().map(|x| format!("{x:02x}")).collect();
            format!("{}\nb {:x} {bytes}", slots_line(&c.slots), c.bytes.len())
        }
    }
}

// ---- reading

struct Words<'a>(std::str::SplitAsciiWhitespace<'a>);

impl Words<'_> {
    fn number(&mut self) -> u64 {
        u64::from_str_radix(self.0.next().expect("a word"), 16).expect("a hexadecimal word")
    }

    fn size(&mut self) -> usize {
        self.number() as usize
    }

    fn single(&mut self) -> f32 {
        f32::from_bits(self.number() as u32)
    }

    fn double(&mut self) -> f64 {
        f64::from_bits(self.number())
    }

    fn singles(&mut self) -> Vec<f32> {
        (0..self.size()).map(|_| self.single()).collect()
    }

    fn doubles(&mut self) -> Vec<f64> {
        (0..self.size()).map(|_| self.double()).collect()
    }

    fn bytes(&mut self) -> Vec<u8> {
        let n = self.size();
        let text = self.0.next().unwrap_or("");
        assert_eq!(text.len(), 2 * n, "the file's bytes");
        (0..n).map(|i| u8::from_str_radix(&text[2 * i..2 * i + 2], 16).expect("a byte")).collect()
    }
}

/// The weights and slots of the last lines w and g.
#[derive(Default)]
pub struct Reader {
    w: Vec<f32>,
    slots: Vec<f64>,
}

/// A call and, for a loss, its stored refusal, loss and digest.
pub struct Stored {
    pub case: Case,
    pub answer: Option<[u64; 3]>,
}

impl Reader {
    fn step(&self, words: &mut Words) -> Step {
        Step {
            w: self.w.clone(),
            s: words.single(),
            d: words.single(),
            day: words.single(),
            rating: words.single(),
            row: words.size(),
        }
    }

    fn loss(&self, entry: u32, words: &mut Words) -> Loss {
        Loss {
            is_end: entry >= 4,
            is_card: entry % 4 >= 2,
            with_grad: entry % 2 == 0,
            w: self.w.clone(),
            slots: self.slots.clone(),
            rows: words.number() as u32,
            columns: words.number() as u32,
            days: words.singles(),
            ratings: words.singles(),
            lengths: (0..words.size()).map(|_| words.number() as u32).collect(),
            targets: words.singles(),
            labels: words.singles(),
            weights: words.singles(),
            records: (words.size(), words.number() as u32),
            step_grads: (words.size(), words.number()),
        }
    }

    fn reverse(&self, words: &mut Words) -> Reverse {
        let step = self.step(words);
        Reverse { step, g: [words.double(), words.double(), words.double()], slots: self.slots.clone() }
    }

    fn formula(&self, words: &mut Words) -> Formula {
        Formula {
            number: words.size(),
            w: self.w.clone(),
            args: [words.single(), words.single(), words.single()],
            rating: words.number() as u32,
            days: [words.number() as u32, words.number() as u32],
        }
    }

    fn row(&self, words: &mut Words) -> Row {
        Row {
            w: self.w.clone(),
            state: [words.single(), words.single()],
            day: words.single(),
            retention: words.single(),
            rating: words.number() as u32,
            claimed: [words.number() as u32, words.number() as u32, words.number() as u32],
        }
    }

    /// The call of a line, where it is one.
    pub fn line(&mut self, line: &str) -> Option<Stored> {
        let letter = line.chars().next()?;
        let mut words = Words(line[letter.len_utf8()..].split_ascii_whitespace());
        let words = &mut words;
        let case = match letter {
            '#' => return None,
            'w' => {
                self.w = words.singles();
                return None;
            }
            'g' => {
                self.slots = words.doubles();
                return None;
            }
            '0'..='7' => {
                let case = Case::Loss(self.loss(letter as u32 - '0' as u32, words));
                return Some(Stored { case, answer: Some([words.number(), words.number(), words.number()]) });
            }
            's' => Case::Formula(self.formula(words)),
            'c' => Case::Row(self.row(words)),
            't' => Case::Step(self.step(words)),
            'r' => Case::Reverse(self.reverse(words)),
            'f' => Case::Filling(words.singles()),
            'k' => {
                let number = words.size();
                Case::Kernel(Kernel { number, args: [words.number(), words.number(), words.number()] })
            }
            'p' => Case::Penalty(Penalty {
                w: self.w.clone(),
                batch: words.number(),
                total: words.number(),
                factor: words.double(),
                old: words.singles(),
                spreads: words.singles(),
                slots: words.singles(),
            }),
            'i' => Case::Initial(Initial {
                default: words.double(),
                days: words.doubles(),
                shares: words.doubles(),
                counts: words.doubles(),
            }),
            'b' => Case::File(File { bytes: words.bytes(), slots: self.slots.clone() }),
            _ => panic!("no such line: {line}"),
        };
        Some(Stored { case, answer: None })
    }
}
