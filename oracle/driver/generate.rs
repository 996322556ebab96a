// Calls: first one that is accepted, every unread cell holding anything, and then perhaps faults.
use crate::analytic;
use crate::cases::{
    Case, Formula, Kernel, Loss, Reverse, Row, Step, FIELDS, FORMULAS, FROM_SM2, KERNELS, ON_DAY, WEIGHTS,
};
use crate::model;
use crate::random::{Random, LEAST};
use crate::rules::{self, COLUMNS_MAX, DAY_NUMBER_MAX, DIFFICULTY, ROWS_MAX, STABILITY};

/// Which loss is called.
#[derive(Clone, Copy)]
pub struct Entry {
    pub is_end: bool,
    pub is_card: bool,
    pub with_grad: bool,
}

/// How large calls may be.
#[derive(Clone, Copy)]
pub struct Sizes {
    pub rows: usize,
    pub cells: usize,
    /// A share of calls with the largest tables.
    pub is_large: bool,
}

pub const ANY: Sizes = Sizes { rows: 64, cells: 512, is_large: true };

fn shape(r: &mut Random, sizes: Sizes) -> (usize, usize) {
    if sizes.is_large {
        match r.below(10000) {
            0 => return (2048, 512),
            1..=15 => return (2048, 1),
            16..=45 => return (512, r.between(1, 2)),
            46..=75 => return (r.between(1, 3), 512),
            76..=80 => return (r.pick(&[2047, 2048]), r.between(2, 6)),
            _ => {}
        }
    }
    if r.one_in(30) {
        return r.pick(&[(0, 0), (0, 1), (0, 3), (1, 0), (5, 0)]);
    }
    let columns = match r.below(5) {
        0 | 1 => 1,
        2 => 2,
        3 => 3,
        _ => r.between(1, 8),
    };
    let most = r.pick(&[1, 2, 3, 4, 6, 8, 12, sizes.rows]).min(sizes.cells / columns);
    (r.between(1, most), columns)
}

fn length(r: &mut Random, is_card: bool, rows: usize, columns: usize, is_long: bool) -> u32 {
    let low = if is_card { 0 } else { 1.min(rows) };
    let n = match r.below(8) {
        0 => low,
        1 => 1.min(rows),
        2 => 2.min(rows),
        3 | 4 => rows,
        _ => r.between(low, rows),
    };
    // a wide table of long columns takes too long
    let n = if is_long { n.min(40 * 64 / columns.max(64)) } else { n };
    if n == rows && r.one_in(3) {
        return r.pick(&[rows as u32 + 1, u32::MAX, rows as u32 + 7]);
    }
    n as u32
}

fn fill_column(r: &mut Random, c: &mut Loss, column: usize) {
    let n = c.cut(column);
    // a column of one day, or of one rating, goes deep into a branch
    let (one_day, one_rating) = (r.one_in(12).then(|| r.day()), r.one_in(12).then(|| r.rating()));
    for row in 0..n {
        let i = c.cell(row, column);
        let is_last = c.is_card && row + 1 == n;
        if !is_last {
            c.ratings[i] = one_rating.unwrap_or_else(|| r.rating());
        }
        if c.is_card && row > 0 {
            c.weights[i] = r.review_weight();
            if c.weights[i] != 0.0 {
                c.labels[i] = r.label();
            }
        }
        if row > 0 && (if is_last { c.weights[i] } else { c.ratings[i] }) != 0.0 {
            c.days[i] = one_day.unwrap_or_else(|| r.day());
        }
    }
    if !c.is_card {
        c.weights[column] = r.review_weight();
        if c.weights[column] != 0.0 {
            c.labels[column] = r.label();
            c.targets[column] = r.day();
        }
    }
}

// How many of n rows stand in front of the first review.
fn front(r: &mut Random, n: usize) -> usize {
    match r.below(8) {
        0 | 1 => 0,
        2 => n,
        3 => n.saturating_sub(1),
        4 => 1.min(n),
        _ => r.between(0, n),
    }
}

// The same at the end of the table. Where `is_whole`, what goes unread is good too, so that the start may accept it.
fn fill_column_at_end(r: &mut Random, c: &mut Loss, column: usize, is_whole: bool) {
    let n = c.cut(column);
    let front = front(r, n);
    for row in 0..n {
        let is_padding = row < front || (row > front && r.one_in(5));
        let i = c.cell(row, column);
        c.ratings[i] = if is_padding { r.pick(&[0.0, -0.0]) } else { r.rating() };
    }
    let first = c.first(column);
    for row in 0..n {
        let i = c.cell(row, column);
        if !is_whole && (row <= first || c.ratings[i] == 0.0) {
            continue;
        }
        c.days[i] = r.day();
        if c.is_card {
            (c.weights[i], c.labels[i]) = (r.review_weight(), r.label());
            spoil_unscored(r, c, i, row + 1 == n, is_whole);
        }
    }
    if !c.is_card && (is_whole || first < n) {
        (c.weights[column], c.labels[column], c.targets[column]) = (r.review_weight(), r.label(), r.day());
        if c.weights[column] == 0.0 && !is_whole {
            (c.labels[column], c.targets[column]) = (r.junk(), r.junk());
        }
    }
}

// A weight of 0 leaves the label unread, and in the last row the day.
fn spoil_unscored(r: &mut Random, c: &mut Loss, i: usize, is_last: bool, is_whole: bool) {
    if is_whole || c.weights[i] != 0.0 {
        return;
    }
    c.labels[i] = r.junk();
    if is_last {
        c.days[i] = r.junk();
    }
}

// Puts a last day where the retrievability is at an end of the probability's clamp, or one step beside.
fn meet_the_clamp(r: &mut Random, c: &mut Loss, column: usize) {
    let n = c.cut(column);
    if n < c.first(column) + 1 + c.is_card as usize {
        return;
    }
    let i = c.score(n - 1, column);
    let is_padding = c.is_end && c.is_card && c.ratings[i] == 0.0;
    if is_padding || c.weights[i] == 0.0 {
        return;
    }
    let end = r.pick(&analytic::PROBABILITY_ENDS);
    let wanted = r.pick(&[end, end, end.next_up(), end.next_down()]);
    let day = analytic::day_at_end(c, column, wanted);
    if c.is_card {
        c.days[i] = day;
    } else {
        c.targets[i] = day;
    }
}

fn lend(r: &mut Random, c: &mut Loss) {
    if !c.with_grad {
        return;
    }
    let longest = (0..c.columns as usize).map(|i| c.cut(i)).max().unwrap_or(0);
    let room = longest + r.pick(&[0, 0, 1, 3]);
    c.records = (FIELDS * room + r.pick(&[0, 0, 0, 1, 9]), r.bits() as u32);
    if r.one_in(3) {
        c.records.1 = r.pick(&[0x7fbffff8, 0xff7ffff0, 0xfffffffc, 0x80000000]);
    }
    if c.is_card {
        c.step_grads = (longest + r.pick(&[0, 0, 1, 2]), r.bits());
    }
}

/// A call that is accepted.
pub fn good_loss(r: &mut Random, sizes: Sizes, is_end: bool) -> Loss {
    let (is_card, with_grad) = (r.one_in(2), r.below(7) > 1);
    let (rows, columns) = shape(r, sizes);
    let columns = if !is_card && rows == 0 { 0 } else { columns };
    good_loss_of(r, Entry { is_end, is_card, with_grad }, rows, columns)
}

pub fn good_loss_of(r: &mut Random, entry: Entry, rows: usize, columns: usize) -> Loss {
    let Entry { is_end, is_card, with_grad } = entry;
    let mut more = |n: usize| n + if r.one_in(4) { r.between(1, 3) } else { 0 };
    let cells = rows * columns;
    let scores = if is_card { cells } else { columns };
    let counts = [cells, cells, if is_card { 0 } else { columns }, scores, scores].map(|n| more(n));
    let n_lengths = more(columns);
    let is_long = rows * columns > 1200 && columns > 1;
    let mut junk = |n: usize| (0..n).map(|_| r.junk()).collect::<Vec<_>>();
    let [days, ratings, targets, labels, weights] = counts.map(|n| junk(n));
    let mut c = Loss {
        is_end,
        is_card,
        with_grad,
        w: r.weights(),
        slots: r.slots(WEIGHTS),
        rows: rows as u32,
        columns: columns as u32,
        days,
        ratings,
        lengths: (0..n_lengths).map(|_| length(r, is_card, rows, columns, is_long)).collect(),
        targets: if is_card { vec![] } else { targets },
        labels,
        weights,
        records: (0, 0),
        step_grads: (0, 0),
    };
    let is_whole = is_end && r.one_in(2);
    for column in 0..columns {
        if is_end {
            fill_column_at_end(r, &mut c, column, is_whole);
        } else {
            fill_column(r, &mut c, column);
        }
        if r.one_in(8) {
            meet_the_clamp(r, &mut c, column);
        }
    }
    lend(r, &mut c);
    c
}

// ---- faults

fn shorten<T>(xs: &mut Vec<T>, needed: usize) {
    xs.truncate(needed.saturating_sub(1));
}

// One slice too short, or a size over its limit.
fn break_sizes(r: &mut Random, c: &mut Loss) {
    let columns = c.columns as usize;
    let cells = c.rows as usize * columns;
    let scores = if c.is_card { cells } else { columns };
    match r.below(9) {
        0 => shorten(&mut c.days, cells),
        1 => shorten(&mut c.ratings, cells),
        2 => shorten(&mut c.lengths, columns),
        3 => shorten(&mut c.targets, columns),
        4 => shorten(&mut c.labels, scores),
        5 => shorten(&mut c.weights, scores),
        6 => c.rows = r.pick(&[ROWS_MAX + 1, u32::MAX, 1 << 31]),
        7 => c.columns = r.pick(&[COLUMNS_MAX + 1, u32::MAX, 1 << 31]),
        _ => c.columns = c.columns.wrapping_add(1),
    }
}

fn break_room(r: &mut Random, c: &mut Loss) {
    // other faults may have made the rows many
    let rows = c.rows.min(ROWS_MAX);
    let longest = c.lengths.iter().take(c.columns as usize).map(|&n| n.min(rows)).max().unwrap_or(0);
    let (records, longest) = (FIELDS * longest as usize, longest as usize);
    match r.below(4) {
        0 => c.records.0 = records.saturating_sub(1),
        1 => c.records.0 = records.saturating_sub(FIELDS),
        2 => c.step_grads.0 = if c.is_card { longest.saturating_sub(1) } else { 0 },
        _ => c.records.0 = 0,
    }
}

fn some_place(r: &mut Random, n: usize) -> Option<usize> {
    (n > 0).then(|| r.below(n))
}

// Puts a value out of range into any cell; whether it is read is the rules' to say.
fn break_cell(r: &mut Random, c: &mut Loss) {
    let bad = |r: &mut Random, xs: &mut Vec<f32>, f: fn(&mut Random) -> f32| {
        if let Some(i) = some_place(r, xs.len()) {
            xs[i] = f(r);
        }
    };
    match r.below(6) {
        0 | 1 => bad(r, &mut c.ratings, Random::bad_rating),
        2 => bad(r, &mut c.days, Random::bad_day),
        3 if !c.is_card => bad(r, &mut c.targets, Random::bad_day),
        4 => bad(r, &mut c.labels, Random::bad_label),
        _ => bad(r, &mut c.weights, Random::bad_weight),
    }
}

// Several bad cells in one row of a column, often its last: which is told is a matter of the order.
fn break_row(r: &mut Random, c: &mut Loss) {
    let columns = (c.columns as usize).min(c.lengths.len());
    let Some(column) = some_place(r, columns) else { return };
    let Some(row) = some_place(r, c.cut(column)) else { return };
    let row = if r.one_in(2) { c.cut(column) - 1 } else { row };
    let (i, score) = (c.cell(row, column), c.score(row, column));
    let mut put = |xs: &mut Vec<f32>, at: usize, f: fn(&mut Random) -> f32| {
        if at < xs.len() && r.one_in(2) {
            xs[at] = f(r);
        }
    };
    put(&mut c.ratings, i, Random::bad_rating);
    put(&mut c.days, i, Random::bad_day);
    put(&mut c.targets, score, Random::bad_day);
    put(&mut c.weights, score, Random::bad_weight);
    put(&mut c.labels, score, Random::bad_label);
}

fn break_loss(r: &mut Random, c: &mut Loss) {
    match r.below(20) {
        0 => c.w.truncate(r.pick(&[0, 1, 20])),
        1 => c.w.push(r.even(0.0, 1.0)),
        2 | 3 => r.leave_box(&mut c.w),
        4 | 5 => break_sizes(r, c),
        6 | 7 => break_room(r, c),
        8 => c.slots = r.slots_of_wrong_number(),
        9 => {
            if let Some(i) = some_place(r, c.lengths.len()) {
                c.lengths[i] = 0;
            }
        }
        10 if !c.is_card => c.rows = 0,
        16..=19 => break_row(r, c),
        _ => break_cell(r, c),
    }
    if !c.with_grad {
        (c.records, c.step_grads) = ((0, 0), (0, 0));
    }
}

impl Random {
    fn slots_of_wrong_number(&mut self) -> Vec<f64> {
        let n = self.pick(&[0, 1, 20, 22, 42]);
        self.slots(n)
    }
}

// One row or column over the limit, with slices to match.
fn over_limit(r: &mut Random, is_end: bool) -> Loss {
    let (rows, columns) = r.pick(&[(2049, 1), (1, 513), (0, 513), (2049, 0)]);
    let (is_card, with_grad) = (r.one_in(2), r.one_in(2));
    good_loss_of(r, Entry { is_end, is_card, with_grad }, rows, columns)
}

/// Any call: most are accepted, others have one fault or several.
pub fn loss(r: &mut Random, sizes: Sizes, is_end: bool) -> Loss {
    if sizes.is_large && r.one_in(500) {
        return over_limit(r, is_end);
    }
    let mut c = good_loss(r, sizes, is_end);
    let faults = r.pick(&[0, 0, 0, 0, 0, 0, 0, 1, 1, 1, 1, 2, 3]);
    for _ in 0..faults {
        break_loss(r, &mut c);
    }
    c
}

// ---- the other calls

fn some_weights(r: &mut Random) -> Vec<f32> {
    let mut w = r.weights();
    match r.below(40) {
        0 => w.truncate(r.pick(&[0, 17, 20])),
        1 => w.push(1.0),
        2 | 3 => r.leave_box(&mut w),
        _ => {}
    }
    w
}

// Around a range: inside, at the ends, one step past them, far away.
fn around(r: &mut Random, (low, high): (f32, f32), is_any: bool) -> f32 {
    match r.below(16) {
        0 => low,
        1 => high,
        2 => low.next_up(),
        3 => high.next_down(),
        4 if is_any => r.pick(&[low.next_down(), high.next_up()]),
        5 if is_any => r.pick(&[0.0, -0.0, -1.0, f32::MAX, f32::MIN, LEAST, -LEAST, 1e30, -1e30]),
        6 if is_any && r.one_in(2) => r.pick(&NONE),
        7..=9 if low >= 0.0 => r.spread(low, high),
        _ => r.even(low, high),
    }
}

fn any_day(r: &mut Random) -> f32 {
    match r.below(20) {
        0 => r.bad_day(),
        1..=3 => r.pick(&[0.5, 0.49999997, 0.50000006, 1.5, 2.5, -0.5, 0.3, 99999.5]),
        _ => r.day(),
    }
}

const NONE: [f32; 3] = [f32::NAN, f32::INFINITY, f32::NEG_INFINITY];

// Near the ease factor by which a card from SM-2 gets the difficulty d, where there is one.
fn ease_for(w: &[f32], interval: f32, retention: f32, d: f32) -> f32 {
    let power = |x: f32| x.powf(-1.0 / w[20]) - 1.0;
    let stability = interval.max(0.0001) * power(0.9) / power(retention);
    let ease = 1.0 + (11.0 - d) * w[8].exp() * stability.powf(-w[9]) * ((1.0 - retention) * w[10]).exp_m1();
    if ease.is_finite() { ease } else { 2.5 }
}

fn ease(r: &mut Random, w: &[f32], interval: f32, retention: f32) -> f32 {
    match r.below(16) {
        0 | 1 => r.pick(&[1.0, 1f32.next_up(), 1f32.next_down(), 0.0, -0.0, -1.0]),
        2 => r.pick(&[3e38, -3e38, f32::MAX, f32::MIN, 1e30, -1e30]),
        3 if r.one_in(4) => r.pick(&NONE),
        4 => r.spread(LEAST, 1e4),
        5..=12 if w.len() == WEIGHTS => {
            let d = if r.one_in(4) { r.pick(&[1.0, 10.0]) } else { r.even(1.0, 10.0) };
            ease_for(w, interval, retention, d)
        }
        _ => r.even(1.3, 3.5),
    }
}

// A card from SM-2: its ease factor, its interval and the retention of its deck.
fn sm2_card(r: &mut Random, w: &[f32]) -> [f32; 3] {
    let interval = match r.below(16) {
        0 | 1 => r.pick(&[0.0, -0.0, LEAST, 0.0001, 0.0001f32.next_down(), 0.0001f32.next_up(), -1.0, -3e38]),
        2 => r.pick(&[3e38, f32::MAX, 36500.0, 36500f32.next_up()]),
        3 if r.one_in(4) => r.pick(&NONE),
        4 | 5 => r.spread(LEAST, f32::MAX),
        _ => r.between(1, 400) as f32,
    };
    let retention = match r.below(16) {
        0 => r.pick(&[0.0, -0.0, -LEAST, -0.5, -3e38]),
        1 => r.pick(&[1.0, 1f32.next_up(), 1.5, 90.0, 3e38]),
        2 | 3 => r.pick(&[1f32.next_down(), LEAST, f32::MIN_POSITIVE, 1e-38, 1e-10, 0.9]),
        4 if r.one_in(4) => r.pick(&NONE),
        5 => r.spread(LEAST, 1.0),
        _ => r.even(0.5, 1.0),
    };
    [ease(r, w, interval, retention), interval, retention]
}

// Weights at which a factor of its divisor vanishes or is 1.
fn meet_sm2_edge(r: &mut Random, w: &mut [f32]) {
    if w.len() == WEIGHTS && r.one_in(4) {
        let (i, x) = r.pick(&[(10, 0.0), (10, -0.0), (10, 1e-15), (10, 1e-30), (9, 0.0), (9, 1.0), (8, -5.0), (20, 0.1)]);
        w[i] = x;
    }
}

// The day when a card was last seen, and that of a review: mostly the same or a later one.
fn day_numbers(r: &mut Random) -> [u32; 2] {
    let mut any = || match r.below(12) {
        0 => r.pick(&[0, 1, DAY_NUMBER_MAX - 1, DAY_NUMBER_MAX]),
        1 if r.one_in(2) => r.pick(&[DAY_NUMBER_MAX + 1, 1 << 24, 1 << 31, u32::MAX]),
        _ => r.below(DAY_NUMBER_MAX as usize + 1) as u32,
    };
    let (seen, day) = (any(), any());
    match r.below(8) {
        0 => [seen, day],
        1 => [seen, seen.wrapping_sub(1)],
        2 | 3 => [seen, seen],
        4 | 5 => [seen, seen.saturating_add(r.between(1, 400) as u32)],
        _ => [seen.min(day), seen.max(day)],
    }
}

fn formula(r: &mut Random) -> Formula {
    // these have more edges than the others
    let number = if r.one_in(3) { r.pick(&[FROM_SM2, FROM_SM2, ON_DAY]) } else { r.below(FORMULAS.len()) };
    let mut w = some_weights(r);
    if number == FROM_SM2 {
        meet_sm2_edge(r, &mut w);
    }
    let (s, d) = (around(r, STABILITY, true), around(r, DIFFICULTY, true));
    let (unit, day) = (around(r, (0.0, 1.0), true), any_day(r));
    let retention = around(r, (0.0001, 0.9999), true);
    let args = match number {
        0 => [day, s, 0.0],
        1 => [s, retention, 0.0],
        3 => [around(r, (-10.0, 20.0), true), d, 0.0],
        4 => [d, 0.0, 0.0],
        5 | 6 => [s, unit, d],
        7 => [s, 0.0, 0.0],
        8 => [s, d, day],
        ON_DAY => [s, d, 0.0],
        FROM_SM2 => sm2_card(r, &w),
        _ => [0.0; 3],
    };
    let rating = if r.one_in(10) { r.pick(&[0, 5, 6, u32::MAX, 1 << 31]) } else { r.between(1, 4) as u32 };
    let days = if number == ON_DAY { day_numbers(r) } else { [0; 2] };
    Formula { number, w, args, rating, days }
}

fn step(r: &mut Random) -> Step {
    let is_first = r.one_in(5);
    Step {
        w: some_weights(r),
        s: if is_first { r.pick(&[0.0, -0.0]) } else { around(r, STABILITY, true) },
        d: around(r, DIFFICULTY, true),
        day: if r.one_in(10) { r.junk() } else { any_day(r) },
        rating: if r.one_in(20) { r.bad_rating() } else { r.rating() },
        row: if is_first || r.one_in(5) { 0 } else { r.pick(&[1, 2, 2047, usize::MAX, 1 << 32]) },
    }
}

fn reverse(r: &mut Random) -> Reverse {
    let mut gradient = || match r.below(4) {
        0 => r.junk_double(),
        1 => r.pick(&[0.0, -0.0]),
        _ => r.unit() * 4.0 - 2.0,
    };
    let g = [gradient(), gradient(), gradient()];
    let slots = if r.one_in(25) { r.slots_of_wrong_number() } else { r.slots(WEIGHTS) };
    Reverse { step: step(r), g, slots }
}

// A set as older versions have it: its filled set lies inside the box, or its ends are met or passed.
fn old_weights(r: &mut Random, n: usize) -> Vec<f32> {
    let mut w = r.weights();
    w.resize(n, 1.0);
    if n == 17 {
        w[5] = match r.below(8) {
            0 => r.pick(&[0.0, -0.0, LEAST, -LEAST, -1.0 / 3.0, (-1.0f32 / 3.0).next_up(), -0.4, 54250.93, 54251.0, 1e30]),
            _ => r.even(0.0, 5.0),
        };
        w[4] = if r.one_in(4) { r.pick(&[-2.0 * w[5], 20.0 - 2.0 * w[5]]) } else { r.even(0.0, 10.0) };
        w[6] = match r.below(4) {
            0 => r.pick(&[-0.5, (-0.5f32).next_down(), 5.5, 5.5f32.next_up(), 5.0]),
            _ => r.even(0.0, 5.5),
        };
    }
    w
}

fn filling(r: &mut Random) -> Vec<f32> {
    let n = r.pick(&[0, 17, 17, 17, 19, 19, 21, 21, 21, 18]);
    let n = if n == 18 { r.pick(&[1, 16, 18, 20, 22, 34, 100]) } else { n };
    let mut w = old_weights(r, n);
    if r.one_in(4) {
        r.leave_box(&mut w);
    }
    w
}

fn kernel(r: &mut Random) -> Kernel {
    let number = r.below(KERNELS.len());
    let single = |r: &mut Random| match r.below(4) {
        0 => r.junk(),
        1 => r.pick(&[0.0, -0.0, 1.0, 16.0, 16f32.next_up(), -16.0, 0.5, 2.5, 8388609.0, LEAST, f32::MIN_POSITIVE]),
        2 => r.even(-90.0, 90.0),
        _ => r.spread(LEAST, f32::MAX),
    };
    let double = |r: &mut Random| match r.below(4) {
        0 => r.junk_double(),
        1 => r.pick(&[0.0, -0.0, 1.0, 16.0, 16f64.next_up(), -16.0, 0.5, 2.5, 4503599627370497.0, f64::from_bits(1)]),
        2 => r.unit() * 1440.0 - 720.0,
        _ => f64::from_bits(r.bits() >> 1),
    };
    let mut args = [0; 3].map(|_: i32| if number % 2 == 0 { single(r).to_bits() as u64 } else { double(r).to_bits() });
    if (number == 6 || number == 7) && r.one_in(2) {
        args[2] = near_product(number, args);
    }
    Kernel { number, args }
}

// A term that cancels most of the product, or lies at the edge of its last bits.
fn near_product(number: usize, args: [u64; 3]) -> u64 {
    if number == 6 {
        (-f32::from_bits(args[0] as u32) * f32::from_bits(args[1] as u32)).to_bits() as u64
    } else {
        (-f64::from_bits(args[0]) * f64::from_bits(args[1])).to_bits()
    }
}

/// The i-th call of a seed.
pub fn case(seed: u64, i: u64) -> Case {
    let r = &mut Random::new(seed, i);
    match r.below(100) {
        0..=9 => Case::Step(step(r)),
        10..=19 => Case::Reverse(reverse(r)),
        20..=31 => Case::Formula(formula(r)),
        32..=35 => Case::Filling(filling(r)),
        36..=39 => Case::Kernel(kernel(r)),
        _ => Case::Loss(loss(r, ANY, false)),
    }
}

/// The i-th row of a seed, which claims what the text gives, if it is not refused; and the same with one bit of each field
/// flipped.
pub fn rows(seed: u64, i: u64) -> [Row; 4] {
    let r = &mut Random::new(seed.rotate_left(16), i);
    let mut c = Row {
        w: some_weights(r),
        state: [around(r, STABILITY, true), around(r, DIFFICULTY, true)],
        day: any_day(r),
        rating: if r.one_in(10) { r.pick(&[0, 5, 6, u32::MAX, 1 << 31]) } else { r.between(1, 4) as u32 },
        retention: around(r, (0.0001, 0.9999), true),
        claimed: [0; 3].map(|_: i32| r.bits() as u32),
    };
    if rules::row_refusal(&c) == 0 {
        c.claimed = model::row_answer(&c);
    }
    let mut flipped = |field| c.flipped(field, r.below(32) as u32);
    let [x, y, z] = [flipped(0), flipped(1), flipped(2)];
    [c, x, y, z]
}

/// The i-th loss of a seed whose histories stand at the end.
pub fn loss_at_end(seed: u64, i: u64) -> Loss {
    let r = &mut Random::new(seed.rotate_left(32), i);
    loss(r, ANY, true)
}
