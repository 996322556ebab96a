// The Rust's training step and losses, as their text stands, with document 01's added rules around them.
//
// The text becomes part of this file because the caches and the step gradients, which the port lends, are private there.
// run makes it: exp, ln and powf are ours (but not with --stock).
#![allow(dead_code, unused_imports)]
use crate::cases::{record_cell, Loss, Outcome, Part, Reverse, Step, FIELDS};
use crate::kernels::Kernels;
use crate::rules;
use crate::tally::Tally;

include!(env!("ANALYTIC"));

/// Days of -0.0 are +0.0 in every curve.
fn plain_day(day: f32) -> f32 {
    if day == 0.0 { 0.0 } else { day }
}

fn branch(c: &StepCache) -> (u8, f32, f32) {
    if c.padding {
        (0, 0.0, 0.0)
    } else if c.init_selected {
        (1, 0.0, 0.0)
    } else if c.use_short {
        (if c.short_raw_active { 2 } else { 3 }, c.short_raw, c.short_value)
    } else if c.use_failure {
        (if c.failure_used_floor { 5 } else { 4 }, c.failure_raw, c.failure_floor)
    } else {
        (6, 0.0, 0.0)
    }
}

// K7: the number of the reason, by the text's own flags, and for either output whether it was held, at which end: the value before
// the last clamp, in padding the given one, lies outside. Before them 0, the refusal.
fn reason(c: &StepCache) -> Part {
    let held = |x: f32, low: f32, high: f32| if x < low { 1 } else if x > high { 2 } else { 0 };
    let number = match (branch(c).0, c.rating) {
        (6, r) if r == 2.0 => 7,
        (6, r) if r == 4.0 => 8,
        (number, _) => number,
    };
    let (s, d) = if c.padding { (c.state_s, c.state_d) } else { (c.pre_clamp_s, c.mean_pre_clamp_d) };
    Part::of("reason", false, vec![0, number.into(), held(s, S_MIN, S_MAX), held(d, D_MIN, D_MAX)])
}

// The ten numbers of a record. The day is the one given, with its sign, and +0.0 where it goes unread
// (docs/DIFFERENCES.md, 6).
fn fields(c: &StepCache, given_day: f32) -> [f32; FIELDS] {
    let (number, raw, value) = branch(c);
    let day = if number < 2 { 0.0 } else { given_day };
    let number = number as f32;
    [c.state_s, c.state_d, day, c.rating, c.retrievability, c.pre_clamp_s, c.mean_pre_clamp_d, number, raw, value]
}

// ---- the losses

struct Tables {
    days: Vec<f32>,
    targets: Vec<f32>,
}

fn plain_tables(c: &Loss) -> Tables {
    let plain = |xs: &[f32]| xs.iter().map(|&x| plain_day(x)).collect();
    Tables { days: plain(&c.days), targets: plain(&c.targets) }
}

// The loss of one column, by the text's private function.
fn column_loss(
    p: &RuntimeParams<'_>,
    c: &Loss,
    tables: &Tables,
    column: usize,
    gw: Option<&mut [f64]>,
    caches: &mut Vec<StepCache>,
    g_r_losses: &mut Vec<f64>,
) -> f64 {
    let (n, batch) = (c.cut(column), c.columns as usize);
    let (days, ratings) = (&tables.days, &c.ratings);
    if c.is_card {
        card_column_loss_and_grad(
            p, days, ratings, n, batch, column, &c.labels, &c.weights, gw, caches, g_r_losses,
        )
    } else {
        let (day, label, weight) = (tables.targets[column], c.labels[column], c.weights[column]);
        prefix_loss_and_grad(p, days, ratings, n, batch, column, day, label, weight, gw, caches)
    }
}

fn keep_step(c: &Loss, row: usize, column: usize, cache: &StepCache, records: &mut Part) {
    let room = records.bits.len();
    for (f, x) in fields(cache, c.days[c.cell(row, column)]).into_iter().enumerate() {
        records.put(record_cell(room, f, row), x.to_bits() as u64);
    }
}

fn keep_column(c: &Loss, column: usize, caches: &[StepCache], g_r_losses: &[f64], lent: &mut [Part; 2]) {
    let first = c.first(column);
    for (row, cache) in caches.iter().enumerate() {
        keep_step(c, first + row, column, cache, &mut lent[0]);
    }
    for (row, x) in g_r_losses.iter().enumerate() {
        lent[1].put(first + row, x.to_bits());
    }
}

// In front of the first review each row is padding from (0, 0), unscored; a card's last row is no step.
fn keep_front(p: &RuntimeParams<'_>, c: &Loss, column: usize, lent: &mut [Part; 2]) {
    let first = c.first(column);
    for row in 0..first.min(c.steps(column)) {
        let rating = c.ratings[c.cell(row, column)];
        let cache = step_forward(p, State { s: 0.0, d: 0.0 }, 0.0, rating, 0).1;
        keep_step(c, row, column, &cache, &mut lent[0]);
    }
    if c.is_card {
        (0..first).for_each(|row| lent[1].put(row, 0));
    }
}

// Column by column, so that the caches and step gradients of each can be kept, in the rows of `c`. The text runs `moved`,
// which is `c` at the start.
fn by_columns(c: &Loss, moved: &Loss, tables: &Tables) -> (f64, Vec<f64>, [Part; 2]) {
    let p = RuntimeParams::new(&c.w);
    let mut slots = c.slots.clone();
    let mut loss = 0.0;
    let records = Part::of("records", false, c.lent_records().iter().map(|&x| x as u64).collect()).untouched();
    let step_grads = Part::of("step gradients", true, c.lent_step_grads()).untouched();
    let mut lent = [records, step_grads];
    let (mut caches, mut g_r_losses) = (Vec::new(), Vec::new());
    for column in 0..c.columns as usize {
        let gw = if c.with_grad { Some(&mut slots[..]) } else { None };
        loss += column_loss(&p, moved, tables, column, gw, &mut caches, &mut g_r_losses);
        if c.with_grad {
            keep_front(&p, c, column, &mut lent);
        }
        keep_column(c, column, &caches, &g_r_losses, &mut lent);
    }
    (loss, slots, lent)
}

// The loss and the slots by the text's own entry; it has none for a card's loss alone.
fn by_entry(c: &Loss, tables: &Tables) -> Option<(f64, Vec<f64>)> {
    let lengths: Vec<usize> = c.lengths.iter().map(|&n| n as usize).collect();
    let (w, days, ratings) = (&c.w, &tables.days, &c.ratings);
    let (rows, columns) = (c.rows as usize, c.columns as usize);
    let mut gw = c.slots.clone();
    let loss = match (c.is_card, c.with_grad) {
        (false, true) => batch_loss_and_grad(
            w, days, ratings, rows, columns, &lengths, &tables.targets, &c.labels, &c.weights, &mut gw,
        ),
        (false, false) => {
            batch_loss(w, days, ratings, rows, columns, &lengths, &tables.targets, &c.labels, &c.weights)
        }
        (true, true) => {
            card_loss_and_grad(w, days, ratings, rows, columns, &lengths, &c.labels, &c.weights, &mut gw)
        }
        (true, false) => return None,
    };
    Some((loss, gw))
}

fn same(a: f64, b: f64) -> bool {
    a.to_bits() == b.to_bits() || (a.is_nan() && b.is_nan())
}

/// What an accepted call gives.
pub fn loss_outcome(c: &Loss) -> Outcome {
    let moved = if c.is_end { &c.at_start() } else { c };
    let tables = plain_tables(moved);
    let (loss, slots, [records, step_grads]) = by_columns(c, moved, &tables);
    if let Some((l, gw)) = by_entry(moved, &tables) {
        assert!(same(l, loss) && gw.iter().zip(&slots).all(|(&a, &b)| same(a, b)), "the entry and its columns");
    }
    let mut parts = vec![Part::doubles("loss", [loss])];
    if c.with_grad {
        parts.push(Part::doubles("slots", slots));
        parts.push(records);
        if c.is_card {
            parts.push(step_grads);
        }
    }
    Outcome { refusal: 0, parts }
}

// ---- single steps

// An unread day counts as +0.0.
fn stepped<'a>(p: &RuntimeParams<'a>, c: &Step) -> (State, StepCache) {
    let day = if rules::is_day_read(c) { plain_day(c.day) } else { 0.0 };
    step_forward(p, State { s: c.s, d: c.d }, day, c.rating, c.row)
}

/// The reason of a step that is not refused.
pub fn step_reason(c: &Step) -> Part {
    reason(&stepped(&RuntimeParams::new(&c.w), c).1)
}

pub fn step_outcome(c: &Step, tally: &mut Tally) -> Outcome {
    let p = RuntimeParams::new(&c.w);
    let (next, cache) = stepped(&p, c);
    note_step(&cache, c.day, c.row, tally);
    let (state, record) = (Part::singles("state", [next.s, next.d]), Part::singles("record", fields(&cache, c.day)));
    Outcome { refusal: 0, parts: vec![state, record, reason(&cache)] }
}

pub fn reverse_outcome(c: &Reverse, tally: &mut Tally) -> Outcome {
    let p = RuntimeParams::new(&c.step.w);
    let (_, cache) = stepped(&p, &c.step);
    note_step(&cache, c.step.day, c.step.row, tally);
    let mut gw = c.slots.clone();
    let (s, d) = step_backward(&p, &cache, c.g[0], c.g[1], c.g[2], &mut gw);
    let parts = vec![Part::doubles("gradients", [s, d]), Part::doubles("slots", gw), reason(&cache)];
    Outcome { refusal: 0, parts }
}

// ---- which branches were met

fn side(x: f32, low: f32, high: f32) -> &'static str {
    if x < low {
        "below its low end"
    } else if x == low {
        "at its low end"
    } else if x < high {
        "inside"
    } else if x == high {
        "at its high end"
    } else {
        "above its high end"
    }
}

fn note_step(c: &StepCache, day: f32, row: usize, tally: &mut Tally) {
    let rating = c.rating as u32;
    let name = match branch(c).0 {
        0 if row == 0 => "step: padding, row 0".to_string(),
        0 => "step: padding, later row".to_string(),
        1 => format!("step: first, rating {rating}"),
        2 if c.short_raw == 1.0 => format!("step: same day, rating {rating}, raw multiplier exactly 1"),
        2 => format!("step: same day, rating {rating}, raw multiplier"),
        3 => format!("step: same day, rating {rating}, held at 1"),
        4 if c.failure_raw == c.failure_floor => "step: lapse, raw value equal to the floor".to_string(),
        4 => "step: lapse, raw value".to_string(),
        5 => "step: lapse, floor".to_string(),
        _ => format!("step: success, rating {rating}"),
    };
    tally.branch(&name);
    if branch(c).0 > 1 {
        note_day(day, tally);
    }
    if branch(c).0 > 0 {
        tally.branch(&format!("stability before its clamp: {}", side(c.pre_clamp_s, S_MIN, S_MAX)));
        tally.branch(&format!("difficulty before its clamp: {}", side(c.mean_pre_clamp_d, D_MIN, D_MAX)));
    }
    tally.branch(&format!("state as given, stability: {}", side(c.state_s, S_MIN, S_MAX)));
    tally.branch(&format!("state as given, difficulty: {}", side(c.state_d, D_MIN, D_MAX)));
}

fn note_day(day: f32, tally: &mut Tally) {
    tally.branch(match day {
        x if x == 0.0 && x.is_sign_negative() => "day: -0.0",
        x if x == 0.0 => "day: +0.0",
        x if x == -rules::DAY_MAX => "day: -100000",
        x if x < 0.0 => "day: negative",
        x if x == rules::DAY_MAX => "day: 100000",
        _ => "day: positive",
    });
}

fn note_score(what: &str, r: f32, label: f32, weight: f32, tally: &mut Tally) {
    tally.branch(&format!("score: {what}"));
    tally.branch(&format!("probability: {}", side(r, MIN_PROB, MAX_PROB)));
    tally.branch(&format!("label: {}", side(label, 0.0, 1.0)));
    tally.branch(&format!("review weight: {}", side(weight, 0.0, rules::WEIGHT_MAX)));
}

fn note_no_score(weight: f32, tally: &mut Tally) {
    let sign = if weight.is_sign_negative() { "-0.0" } else { "+0.0" };
    tally.branch(&format!("score: none, review weight {sign}"));
}

// Where a column's padding stands.
fn note_padding(c: &Loss, column: usize, tally: &mut Tally) {
    let (first, n) = (c.first(column), c.cut(column));
    let is_padding = |row: usize| c.ratings[c.cell(row, column)] == 0.0;
    for (is_so, text) in [
        (first == 0 && 0 < n, "no padding in front"),
        (0 < first && first < n, "padding in front"),
        (0 < n && first == n, "padding alone"),
        (first + 1 == n, "first review in the last row"),
        ((first + 1..n.max(1) - 1).any(is_padding), "padding between"),
        (first < n && is_padding(n - 1), "padding in the last row"),
    ] {
        if is_so {
            tally.branch(&format!("at the end: {}, {text}", if c.is_card { "card" } else { "prefix" }));
        }
    }
}

/// Walks an accepted call's columns again, forward alone, and counts what is met.
pub fn note_branches(c: &Loss, tally: &mut Tally) {
    if c.is_end {
        (0..c.columns as usize).for_each(|column| note_padding(c, column, tally));
        return note_branches(&c.at_start(), tally);
    }
    let p = RuntimeParams::new(&c.w);
    for (is_so, text) in [
        (c.rows == 0, "no rows"),
        (c.columns == 0, "no columns"),
        (c.rows == 512, "512 rows"),
        (c.rows == rules::ROWS_MAX, "2048 rows"),
        (c.columns == rules::COLUMNS_MAX, "512 columns"),
    ] {
        if is_so {
            tally.branch(&format!("size: {text}"));
        }
    }
    for column in 0..c.columns as usize {
        let n = c.cut(column);
        note_length(c, column, n, tally);
        let mut state = State { s: 0.0, d: 0.0 };
        for row in 0..c.steps(column) {
            let i = c.cell(row, column);
            let (next, cache) = step_forward(&p, state, plain_day(c.days[i]), c.ratings[i], row);
            state = next;
            note_step(&cache, c.days[i], row, tally);
            if c.is_card && row > 0 {
                let what = if cache.padding { "card's padding row, at 0" } else { "card's inner row" };
                if c.weights[i] == 0.0 {
                    note_no_score(c.weights[i], tally);
                } else {
                    note_score(what, cache.retrievability, c.labels[i], c.weights[i], tally);
                }
            }
        }
        if !c.is_card || n > 1 {
            note_end(&p, c, column, state, tally);
        }
    }
}

fn note_length(c: &Loss, column: usize, n: usize, tally: &mut Tally) {
    let what = match n {
        _ if c.lengths[column] > c.rows => "over the rows",
        0 => "0",
        1 => "1",
        2 => "2",
        _ if n == c.rows as usize => "all rows",
        _ => "between",
    };
    tally.branch(&format!("length: {}, {what}", if c.is_card { "card" } else { "prefix" }));
}

fn note_end(p: &RuntimeParams<'_>, c: &Loss, column: usize, state: State, tally: &mut Tally) {
    let row = c.cut(column).max(1) - 1;
    let i = c.score(row, column);
    if c.weights[i] == 0.0 {
        note_no_score(c.weights[i], tally);
        return;
    }
    let (day, what) = if c.is_card { (c.days[i], "card's last row") } else { (c.targets[i], "prefix's target") };
    note_day(day, tally);
    let r = curve_forward(p, plain_day(day), state.s).retrievability;
    note_score(what, r, c.labels[i], c.weights[i], tally);
}

// ---- what the generator asks: a day whose retrievability lies at an end of the probability's clamp

/// For the score at the end of a column of a call without faults. The curve falls with the day.
pub fn day_at_end(c: &Loss, column: usize, wanted: f32) -> f32 {
    let p = RuntimeParams::new(&c.w);
    let mut state = State { s: 0.0, d: 0.0 };
    let first = c.first(column);
    for row in first..c.steps(column) {
        let i = c.cell(row, column);
        state = step_forward(&p, state, plain_day(c.days[i]), c.ratings[i], row - first).0;
    }
    let s = clamp(state.s, S_MIN, S_MAX);
    let (mut low, mut high) = (0, rules::DAY_MAX.to_bits());
    while low < high {
        let middle = (low + high) / 2;
        if curve_forward(&p, f32::from_bits(middle), s).retrievability > wanted {
            low = middle + 1;
        } else {
            high = middle;
        }
    }
    f32::from_bits(low)
}

pub const PROBABILITY_ENDS: [f32; 2] = [MIN_PROB, MAX_PROB];
