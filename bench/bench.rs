// Nanoseconds of the two losses and of the kernels: ours, and the Rust's own text over its standard library.
//
//     bench                                 the tables, in markdown
//     bench --lines                         a line for each loss and number of rows, for a script
//     bench LOSS SIDE ROWS COLUMNS CALLS    batch or card, ours, mixed or rust, so often: for a profiler
//
// run lays the Rust's text beside this file as the module analytic_v6, and once more, over our kernels, as analytic_ours: what that
// takes beyond the text itself is the kernels', and the rest of ours is the passes and the checks. All three are called through a function
// that is not inlined, in turn, and the smallest of many short times counts, on the clock of this thread: others use the
// processor too.
#[allow(dead_code)]
mod analytic_ours;
#[allow(dead_code)]
mod analytic_v6;
mod kernels;
mod simulation;

use kernels::*;
use std::hint::black_box;

extern "C" {
    fn clock_gettime(clock: i32, time: *mut [i64; 2]) -> i32;
    #[rustfmt::skip]
    fn fsrs_batch_loss_and_grad(
        w: *const f32, w_len: usize, t_hist: *const f32, t_hist_len: usize, r_hist: *const f32, r_hist_len: usize,
        seq_len: u32, batch: u32, seq_lens: *const u32, seq_lens_len: usize, delta_ts: *const f32, delta_ts_len: usize,
        labels: *const f32, labels_len: usize, weights: *const f32, weights_len: usize, gw: *mut f64, gw_len: usize,
        records: *mut f32, records_len: usize, loss: *mut f64,
    ) -> u32;
    #[rustfmt::skip]
    fn fsrs_card_loss_and_grad(
        w: *const f32, w_len: usize, t_hist: *const f32, t_hist_len: usize, r_hist: *const f32, r_hist_len: usize,
        seq_len: u32, batch: u32, seq_lens: *const u32, seq_lens_len: usize, labels: *const f32, labels_len: usize,
        weights: *const f32, weights_len: usize, gw: *mut f64, gw_len: usize, records: *mut f32, records_len: usize,
        step_grads: *mut f64, step_grads_len: usize, loss: *mut f64,
    ) -> u32;
    #[rustfmt::skip]
    fn fsrs_batch_loss(
        w: *const f32, w_len: usize, t_hist: *const f32, t_hist_len: usize, r_hist: *const f32, r_hist_len: usize,
        seq_len: u32, batch: u32, seq_lens: *const u32, seq_lens_len: usize, delta_ts: *const f32, delta_ts_len: usize,
        labels: *const f32, labels_len: usize, weights: *const f32, weights_len: usize, loss: *mut f64,
    ) -> u32;
    #[rustfmt::skip]
    fn fsrs_card_loss(
        w: *const f32, w_len: usize, t_hist: *const f32, t_hist_len: usize, r_hist: *const f32, r_hist_len: usize,
        seq_len: u32, batch: u32, seq_lens: *const u32, seq_lens_len: usize, labels: *const f32, labels_len: usize,
        weights: *const f32, weights_len: usize, loss: *mut f64,
    ) -> u32;
}

// The weights that a learner starts with.
const WEIGHTS: [f32; 21] = [
    0.212, 1.2931, 2.3065, 8.2956, 6.4133, 0.8334, 3.0194, 0.001, 1.8722, 0.1666, 0.796, 1.4835, 0.0614, 0.2629, 1.6483,
    0.6014, 1.8729, 0.5425, 0.0912, 0.0658, 0.1542,
];

// ---- batches

// Marsaglia's xorshift: the same batches in every run.
struct Chance(u64);

impl Chance {
    fn next(&mut self) -> f32 {
        self.0 ^= self.0 << 13;
        self.0 ^= self.0 >> 7;
        self.0 ^= self.0 << 17;
        (self.0 >> 40) as f32 / (1u64 << 24) as f32
    }

    // 1 to 4, by the chances of the first three.
    fn rating(&mut self, chances: [f32; 3]) -> f32 {
        let mut x = self.next();
        for (i, c) in chances.into_iter().enumerate() {
            if x < c {
                return (i + 1) as f32;
            }
            x -= c;
        }
        4.0
    }
}

struct Batch {
    rows: usize,
    columns: usize,
    days: Vec<f32>,
    ratings: Vec<f32>,
    lengths: Vec<usize>,
    lengths_u32: Vec<u32>,
    targets: Vec<f32>,
    labels: Vec<f32>,
    weights: Vec<f32>,
}

// Cards as they are studied: a first review, then one about when the card is due, one in eight on the same day, and one in
// ten forgotten. The interval grows by a success and shrinks by a lapse, up to two years.
fn batch(rows: usize, columns: usize) -> Batch {
    let cells = rows * columns;
    let mut b = Batch {
        rows,
        columns,
        days: vec![0.0; cells],
        ratings: vec![0.0; cells],
        lengths: vec![rows; columns],
        lengths_u32: vec![rows as u32; columns],
        targets: vec![0.0; columns],
        labels: vec![0.0; cells],
        weights: vec![0.0; cells],
    };
    let mut chance = Chance(0x9e3779b97f4a7c15);
    for column in 0..columns {
        let mut interval = 0.0f32;
        for row in 0..rows {
            let k = row * columns + column;
            let rating = if row == 0 {
                chance.rating([0.24, 0.09, 0.51])
            } else {
                chance.rating([0.10, 0.09, 0.74])
            };
            let is_same_day = chance.next() < 0.125;
            if row > 0 && !is_same_day {
                b.days[k] = (interval * (0.7 + 0.6 * chance.next())).round().max(1.0);
            }
            interval = match rating as u32 {
                _ if row == 0 => [0.4, 1.2, 3.0, 8.0][rating as usize - 1],
                1 => (interval * 0.2).max(1.0),
                _ if is_same_day => interval,
                2 => interval * 1.3,
                3 => interval * 2.2,
                _ => interval * 3.0,
            }
            .min(730.0);
            b.ratings[k] = rating;
            b.labels[k] = if rating > 1.0 { 1.0 } else { 0.0 };
            b.weights[k] = 0.25 + 0.75 * chance.next();
        }
        b.targets[column] = interval.round().max(1.0);
    }
    b
}

// ---- the losses

type Side = fn(&Batch, &mut Room) -> f64;

// What a call writes. The text makes its own caches in the call; ours are lent.
struct Room {
    gw: [f64; 21],
    records: Vec<f32>,
    step_grads: Vec<f64>,
}

fn room(rows: usize) -> Room {
    Room { gw: [0.0; 21], records: vec![0.0; 10 * rows], step_grads: vec![0.0; rows] }
}

// The four losses of the text, as the module has it.
macro_rules! text {
    ($text:ident, $batch:ident, $card:ident, $batch_alone:ident, $card_alone:ident) => {
        #[inline(never)]
        fn $batch(b: &Batch, r: &mut Room) -> f64 {
            $text::batch_loss_and_grad(
                &WEIGHTS, &b.days, &b.ratings, b.rows, b.columns, &b.lengths, &b.targets, &b.labels, &b.weights, &mut r.gw,
            )
        }

        #[inline(never)]
        fn $card(b: &Batch, r: &mut Room) -> f64 {
            $text::card_loss_and_grad(
                &WEIGHTS, &b.days, &b.ratings, b.rows, b.columns, &b.lengths, &b.labels, &b.weights, &mut r.gw,
            )
        }

        #[inline(never)]
        fn $batch_alone(b: &Batch, _: &mut Room) -> f64 {
            $text::batch_loss(
                &WEIGHTS, &b.days, &b.ratings, b.rows, b.columns, &b.lengths, &b.targets, &b.labels, &b.weights,
            )
        }

        #[inline(never)]
        fn $card_alone(b: &Batch, _: &mut Room) -> f64 {
            $text::card_loss(&WEIGHTS, &b.days, &b.ratings, b.rows, b.columns, &b.lengths, &b.labels, &b.weights)
        }
    };
}

text!(analytic_v6, batch_rust, card_rust, batch_alone_rust, card_alone_rust);
text!(analytic_ours, batch_mixed, card_mixed, batch_alone_mixed, card_alone_mixed);

#[inline(never)]
#[rustfmt::skip]
fn batch_ours(b: &Batch, r: &mut Room) -> f64 {
    let mut loss = 0.0;
    let refusal = unsafe {
        fsrs_batch_loss_and_grad(
            WEIGHTS.as_ptr(), 21, b.days.as_ptr(), b.days.len(), b.ratings.as_ptr(), b.ratings.len(), b.rows as u32,
            b.columns as u32, b.lengths_u32.as_ptr(), b.lengths_u32.len(), b.targets.as_ptr(), b.targets.len(),
            b.labels.as_ptr(), b.labels.len(), b.weights.as_ptr(), b.weights.len(), r.gw.as_mut_ptr(), 21,
            r.records.as_mut_ptr(), r.records.len(), &mut loss,
        )
    };
    assert_eq!(refusal, 0);
    loss
}

#[inline(never)]
#[rustfmt::skip]
fn card_ours(b: &Batch, r: &mut Room) -> f64 {
    let mut loss = 0.0;
    let refusal = unsafe {
        fsrs_card_loss_and_grad(
            WEIGHTS.as_ptr(), 21, b.days.as_ptr(), b.days.len(), b.ratings.as_ptr(), b.ratings.len(), b.rows as u32,
            b.columns as u32, b.lengths_u32.as_ptr(), b.lengths_u32.len(), b.labels.as_ptr(), b.labels.len(),
            b.weights.as_ptr(), b.weights.len(), r.gw.as_mut_ptr(), 21, r.records.as_mut_ptr(), r.records.len(),
            r.step_grads.as_mut_ptr(), r.step_grads.len(), &mut loss,
        )
    };
    assert_eq!(refusal, 0);
    loss
}

// ---- the losses alone

#[inline(never)]
#[rustfmt::skip]
fn batch_alone_ours(b: &Batch, _: &mut Room) -> f64 {
    let mut loss = 0.0;
    let refusal = unsafe {
        fsrs_batch_loss(
            WEIGHTS.as_ptr(), 21, b.days.as_ptr(), b.days.len(), b.ratings.as_ptr(), b.ratings.len(), b.rows as u32,
            b.columns as u32, b.lengths_u32.as_ptr(), b.lengths_u32.len(), b.targets.as_ptr(), b.targets.len(),
            b.labels.as_ptr(), b.labels.len(), b.weights.as_ptr(), b.weights.len(), &mut loss,
        )
    };
    assert_eq!(refusal, 0);
    loss
}

#[inline(never)]
#[rustfmt::skip]
fn card_alone_ours(b: &Batch, _: &mut Room) -> f64 {
    let mut loss = 0.0;
    let refusal = unsafe {
        fsrs_card_loss(
            WEIGHTS.as_ptr(), 21, b.days.as_ptr(), b.days.len(), b.ratings.as_ptr(), b.ratings.len(), b.rows as u32,
            b.columns as u32, b.lengths_u32.as_ptr(), b.lengths_u32.len(), b.labels.as_ptr(), b.labels.len(),
            b.weights.as_ptr(), b.weights.len(), &mut loss,
        )
    };
    assert_eq!(refusal, 0);
    loss
}

// Ours, the text over our kernels, and the text.
type Loss = (&'static str, [Side; 3]);

const GRADS: [Loss; 2] = [
    ("batch_loss_and_grad", [batch_ours, batch_mixed, batch_rust]),
    ("card_loss_and_grad", [card_ours, card_mixed, card_rust]),
];

const ALONE: [Loss; 2] = [
    ("batch_loss", [batch_alone_ours, batch_alone_mixed, batch_alone_rust]),
    ("card_loss", [card_alone_ours, card_alone_mixed, card_alone_rust]),
];

const ROWS: [usize; 3] = [16, 64, 512];

const COLUMNS: usize = 64;

// So that no nonsense is timed: one call of each side gives the same loss and gradient, but for the kernels' last digits.
fn agree(name: &str, b: &Batch, ours: Side, rust: Side) {
    let (mut r, mut s) = (room(b.rows), room(b.rows));
    let (x, y) = (ours(b, &mut r), rust(b, &mut s));
    let near = |x: f64, y: f64, size: f64| x.is_finite() && (x - y).abs() <= 1e-4 * size;
    assert!(near(x, y, y.abs()), "{name}, {} rows: loss {x}, the Rust's {y}", b.rows);
    let size = s.gw.iter().fold(0.0, |m: f64, g| m.max(g.abs()));
    for (i, (&x, &y)) in r.gw.iter().zip(&s.gw).enumerate() {
        assert!(near(x, y, size), "{name}, {} rows: slot {i} is {x}, the Rust's {y}", b.rows);
    }
}

// ---- times

// Nanoseconds that this thread has run: Linux's CLOCK_THREAD_CPUTIME_ID.
fn now() -> f64 {
    let mut time = [0; 2];
    assert_eq!(unsafe { clock_gettime(3, &mut time) }, 0);
    time[0] as f64 * 1e9 + time[1] as f64
}

// Nanoseconds of one call of each, in turn: the smallest of the times, and the median of the quotients of the first by the last.
fn times<const N: usize>(mut sides: [&mut dyn FnMut(); N]) -> ([f64; N], f64) {
    let time = |f: &mut dyn FnMut(), n: usize| {
        let start = now();
        for _ in 0..n {
            f();
        }
        (now() - start) / n as f64
    };
    // about a millisecond a turn
    let n = (1e6 / time(sides[N - 1], 1).max(1.0)).ceil() as usize;
    let turns = 61;
    let (mut best, mut quotients) = ([f64::MAX; N], Vec::new());
    for _ in 0..turns {
        let mut took = [0.0; N];
        for (t, f) in took.iter_mut().zip(&mut sides) {
            *t = time(*f, n);
        }
        best = std::array::from_fn(|i| best[i].min(took[i]));
        quotients.push(took[0] / took[N - 1]);
    }
    quotients.sort_by(f64::total_cmp);
    (best, quotients[turns / 2])
}

// Nanoseconds of one row of one column.
fn loss_times(sides: [Side; 3], rows: usize, columns: usize) -> ([f64; 3], f64) {
    let b = batch(rows, columns);
    let call = |side: Side| {
        let (b, mut r) = (&b, room(rows));
        move || {
            black_box(side(black_box(b), &mut r));
        }
    };
    let (best, median) = times([&mut call(sides[0]), &mut call(sides[1]), &mut call(sides[2])]);
    (best.map(|t| t / (rows * columns) as f64), median)
}

// Each loss at each number of rows: its name, the rows, and the times as `loss_times` gives them.
fn each_loss(mut told: impl FnMut(&str, usize, ([f64; 3], f64))) {
    for (name, sides) in GRADS.into_iter().chain(ALONE) {
        for rows in ROWS {
            let b = batch(rows, COLUMNS);
            agree(name, &b, sides[0], sides[2]);
            agree(name, &b, sides[0], sides[1]);
            told(name, rows, loss_times(sides, rows, COLUMNS));
        }
    }
}

fn losses() {
    println!("| loss | rows | columns | ours, ns a row | the Rust's text over our kernels | Rust | ratio | median ratio | of it the kernels |");
    println!("| --- | --- | --- | --- | --- | --- | --- | --- | --- |");
    each_loss(|name, rows, ([a, b, c], m)| {
        println!(
            "| `{name}` | {rows} | {COLUMNS} | {a:.1} | {b:.1} | {c:.1} | {:.2} | {m:.2} | {:.2} |",
            a / c,
            b / c
        );
    });
}

// The median of the quotients, since the processor's clock may rise for one side's smallest time and not for the other's.
fn lines() {
    each_loss(|name, rows, ([a, b, c], m)| println!("{name} {rows} {COLUMNS} {a:.1} {b:.1} {c:.1} {m:.3}"));
}

// Nanoseconds a row as the batch grows one way: level where the time is linear.
fn growth(title: &str, sizes: &[(usize, usize)]) {
    println!("\n| {title} | batch, ours | Rust | ratio | card, ours | Rust | ratio |");
    println!("| --- | --- | --- | --- | --- | --- | --- |");
    for &(rows, columns) in sizes {
        print!("| {} |", if title == "rows" { rows } else { columns });
        for (_, sides) in GRADS {
            let ([a, _, b], _) = loss_times(sides, rows, columns);
            print!(" {a:.1} | {b:.1} | {:.2} |", a / b);
        }
        println!();
    }
}

// A kernel over arguments that do not wait for each other, and with each waiting for the answer before it.
macro_rules! kernel {
    ($name:literal, $float:ty, $xs:expr, $ours:expr, $rust:expr) => {{
        let xs: &[($float, $float)] = $xs;
        let (ours, rust): (fn($float, $float) -> $float, fn($float, $float) -> $float) = ($ours, $rust);
        let (ours, rust) = (black_box(ours), black_box(rust));
        let apart = |f: fn($float, $float) -> $float| {
            black_box(xs.iter().map(|&(x, y)| f(x, y)).sum::<$float>());
        };
        let chained = |f: fn($float, $float) -> $float| {
            black_box(xs.iter().fold(0.0, |z: $float, &(x, y)| f(x + 0.0 * z, y)));
        };
        let ([a, b], _) = times([&mut || apart(ours), &mut || apart(rust)]);
        let ([c, d], _) = times([&mut || chained(ours), &mut || chained(rust)]);
        let n = xs.len() as f64;
        let (a, b, c, d) = (a / n, b / n, c / n, d / n);
        println!("| {} | {a:.1} | {b:.1} | {:.1} | {c:.1} | {d:.1} | {:.1} |", $name, a / b, c / d);
    }};
}

fn kernels() {
    println!("\n| kernel | throughput, ours | Rust | ratio | latency, ours | Rust | ratio |");
    println!("| --- | --- | --- | --- | --- | --- | --- |");
    // exp from -8 to 8; ln and pow's base from 0.0001 to 36500 evenly by size, pow's exponent from -1 to 1
    let mut chance = Chance(0x9e3779b97f4a7c15);
    let exps: Vec<(f32, f32)> = (0..4096).map(|_| (chance.next() * 16.0 - 8.0, 0.0)).collect();
    let size = (36500.0f32 / 0.0001).ln();
    let bases: Vec<(f32, f32)> =
        (0..4096).map(|_| (0.0001 * (chance.next() * size).exp(), chance.next() * 2.0 - 1.0)).collect();
    let wide = |xs: &[(f32, f32)]| xs.iter().map(|&(x, y)| (x as f64, y as f64)).collect::<Vec<_>>();
    let (exps_64, bases_64) = (wide(&exps), wide(&bases));
    kernel!("`exp_f32`", f32, &exps, |x, _| unsafe { fsrs_exp_f32(x) }, |x, _| x.exp());
    kernel!("`ln_f32`", f32, &bases, |x, _| unsafe { fsrs_ln_f32(x) }, |x, _| x.ln());
    kernel!("`pow_f32`", f32, &bases, |x, y| unsafe { fsrs_pow_f32(x, y) }, |x, y| x.powf(y));
    kernel!("`exp_f64`", f64, &exps_64, |x, _| unsafe { fsrs_exp_f64(x) }, |x, _| x.exp());
    kernel!("`ln_f64`", f64, &bases_64, |x, _| unsafe { fsrs_ln_f64(x) }, |x, _| x.ln());
    kernel!("`pow_f64`", f64, &bases_64, |x, y| unsafe { fsrs_pow_f64(x, y) }, |x, y| x.powf(y));
}

fn main() {
    let words: Vec<String> = std::env::args().skip(1).collect();
    if let [loss, side, rows, columns, calls] = &words[..] {
        let (_, sides) = GRADS[(loss == "card") as usize];
        let side = sides[["ours", "mixed", "rust"].iter().position(|s| s == side).unwrap()];
        let b = batch(rows.parse().unwrap(), columns.parse().unwrap());
        let mut r = room(b.rows);
        for _ in 0..calls.parse::<usize>().unwrap() {
            black_box(side(black_box(&b), &mut r));
        }
        return;
    }
    if words == ["--lines"] {
        return lines();
    }
    losses();
    growth("rows", &[16, 32, 64, 128, 256, 512, 1024, 2048].map(|rows| (rows, 64)));
    growth("columns", &[1, 4, 16, 64, 256, 512].map(|columns| (64, columns)));
    kernels();
}
