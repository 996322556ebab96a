// Document 01's checks and their order, read from it alone: the number of the refusal, 0 where a call is accepted, and of a loss
// call K7's place of its first fault. Of K1's 14, which the text decides, only what is said of it besides; K2's 15. What is read
// in K5's mode stands apart.
use crate::cases::{Formula, Loss, Reverse, Row, Step, FIELDS, FROM_SM2, ON_DAY, WEIGHTS};

pub const BOX: [(f32, f32); WEIGHTS] = [
    (0.0001, 36500.0), (0.0001, 36500.0), (0.0001, 36500.0), (0.0001, 36500.0), (0.0, 20.0), (0.0, 4.0), (0.0, 6.0),
    (0.0, 1.0), (-5.0, 5.0), (0.0, 1.0), (0.0, 5.0), (0.001, 10.0), (0.0, 1.0), (0.0, 1.0), (0.0, 5.0), (0.0, 1.0),
    (1.0, 10.0), (0.0, 3.0), (0.0, 3.0), (0.0, 1.0), (0.1, 1.0),
];
pub const DAY_MAX: f32 = 100000.0;
pub const DAY_NUMBER_MAX: u32 = 100000;
pub const WEIGHT_MAX: f32 = 1000000.0;
pub const ROWS_MAX: u32 = 2048;
pub const COLUMNS_MAX: u32 = 512;
pub const STABILITY: (f32, f32) = (0.0001, 36500.0);
pub const DIFFICULTY: (f32, f32) = (1.0, 10.0);
pub const UNIT: (f32, f32) = (0.0, 1.0);

fn is_in(x: f32, (low, high): (f32, f32)) -> bool {
    low <= x && x <= high
}

fn is_day(x: f32) -> bool {
    is_in(x, (-DAY_MAX, DAY_MAX))
}

fn is_rating(x: f32) -> bool {
    [0.0, 1.0, 2.0, 3.0, 4.0].contains(&x)
}

fn is_in_box(w: &[f32]) -> bool {
    w.iter().zip(BOX).all(|(&x, ends)| is_in(x, ends))
}

/// 1, 2.
pub fn weights_refusal(w: &[f32]) -> u32 {
    match w.len() {
        WEIGHTS if is_in_box(w) => 0,
        WEIGHTS => 2,
        _ => 1,
    }
}

// ---- the losses

fn has_sizes(c: &Loss) -> bool {
    if c.rows > ROWS_MAX || c.columns > COLUMNS_MAX {
        return false;
    }
    let columns = c.columns as usize;
    let cells = c.rows as usize * columns;
    let scores = if c.is_card { cells } else { columns };
    c.days.len() >= cells
        && c.ratings.len() >= cells
        && c.lengths.len() >= columns
        && (c.is_card || c.targets.len() >= columns)
        && c.labels.len() >= scores
        && c.weights.len() >= scores
}

fn has_room(c: &Loss) -> bool {
    let longest = (0..c.columns as usize).map(|i| c.cut(i)).max().unwrap_or(0);
    c.records.0 / FIELDS >= longest && (!c.is_card || c.step_grads.0 >= longest)
}

fn prefix_row_refusal(c: &Loss, row: usize, column: usize) -> u32 {
    let i = c.cell(row, column);
    if !is_rating(c.ratings[i]) {
        6
    } else if row > 0 && c.ratings[i] != 0.0 && !is_day(c.days[i]) {
        7
    } else {
        0
    }
}

fn target_refusal(c: &Loss, column: usize) -> u32 {
    let weight = c.weights[column];
    if !is_in(weight, (0.0, WEIGHT_MAX)) {
        8
    } else if weight == 0.0 {
        0
    } else if !is_in(c.labels[column], UNIT) {
        8
    } else if !is_day(c.targets[column]) {
        7
    } else {
        0
    }
}

fn card_row_refusal(c: &Loss, n: usize, row: usize, column: usize) -> u32 {
    let i = c.cell(row, column);
    let is_last = row == n - 1;
    if !is_last && !is_rating(c.ratings[i]) {
        return 6;
    }
    if row == 0 {
        return 0;
    }
    let weight = c.weights[i];
    let reads_day = if is_last { weight != 0.0 } else { c.ratings[i] != 0.0 };
    if reads_day && !is_day(c.days[i]) {
        return 7;
    }
    if is_review(weight, c.labels[i]) { 0 } else { 8 }
}

fn is_review(weight: f32, label: f32) -> bool {
    is_in(weight, (0.0, WEIGHT_MAX)) && (weight == 0.0 || is_in(label, UNIT))
}

/// A refusal, and the column and row of its cell, 0 and 0 where it has none. K7: 'the row is 0 for 9 and the cut length for a
/// target'.
pub type Fault = [u32; 3];

// The first refusal among the rows, and its row; else the target's, behind the last.
fn first_in(n: usize, row: impl Fn(usize) -> u32, target: impl Fn() -> u32) -> (u32, usize) {
    let found = (0..n).map(|i| (row(i), i)).find(|x| x.0 != 0);
    found.unwrap_or_else(|| (target(), n))
}

fn column_fault(c: &Loss, column: usize) -> Fault {
    let n = c.cut(column);
    let (refusal, row) = match (c.is_end, c.is_card) {
        (_, false) if n == 0 => (9, 0),
        (true, _) => end_column_fault(c, n, column),
        (false, true) => first_in(n, |row| card_row_refusal(c, n, row, column), || 0),
        (false, false) => first_in(n, |row| prefix_row_refusal(c, row, column), || target_refusal(c, column)),
    };
    [refusal, column as u32, row as u32]
}

// K5: 'the first row with a nonzero rating is the first review, its day, weight and label go unread, and padding rows are
// neither scored nor read beyond their rating. In a card the last row's rating does become read'.
fn end_row_refusal(c: &Loss, is_last: bool, first: usize, row: usize, column: usize) -> u32 {
    let i = c.cell(row, column);
    if !is_rating(c.ratings[i]) {
        return 6;
    }
    if row <= first || c.ratings[i] == 0.0 {
        return 0;
    }
    let is_scored_day = !(c.is_card && is_last && c.weights[i] == 0.0);
    if is_scored_day && !is_day(c.days[i]) {
        return 7;
    }
    if !c.is_card || is_review(c.weights[i], c.labels[i]) { 0 } else { 8 }
}

// 'An all-padding prefix scores nothing, its target unread.'
fn end_column_fault(c: &Loss, n: usize, column: usize) -> (u32, usize) {
    let first = c.first(column);
    let target = || if !c.is_card && first < n { target_refusal(c, column) } else { 0 };
    first_in(n, |row| end_row_refusal(c, row + 1 == n, first, row, column), target)
}

/// All that is wrong, in order: 1, 2, 5, 3, 4, then column by column. The loss alone is lent nothing that could give 5 or
/// 4, and where sizes are wrong nothing behind them can be asked.
pub fn loss_faults(c: &Loss) -> Vec<Fault> {
    let mut faults = vec![[weights_refusal(&c.w), 0, 0]];
    if c.with_grad && c.slots.len() != WEIGHTS {
        faults.push([5, 0, 0]);
    }
    if has_sizes(c) {
        if c.with_grad && !has_room(c) {
            faults.push([4, 0, 0]);
        }
        faults.extend((0..c.columns as usize).map(|i| column_fault(c, i)));
    } else {
        faults.push([3, 0, 0]);
    }
    faults.retain(|x| x[0] != 0);
    faults
}

/// The first of them; all 0 where there is none.
pub fn loss_fault(c: &Loss) -> Fault {
    loss_faults(c).first().copied().unwrap_or([0; 3])
}

// ---- single steps, formulas, filling

pub fn is_first_step(c: &Step) -> bool {
    c.row == 0 && c.s == 0.0 && c.rating != 0.0
}

/// 'its day goes unread in padding and in a first step'
pub fn is_day_read(c: &Step) -> bool {
    c.rating != 0.0 && !is_first_step(c)
}

fn stepped_refusal(c: &Step, has_slots: bool) -> u32 {
    match weights_refusal(&c.w) {
        0 => {}
        x => return x,
    }
    if !has_slots {
        5
    } else if !c.s.is_finite() || !c.d.is_finite() {
        13
    } else if !is_rating(c.rating) {
        6
    } else if is_day_read(c) && !is_day(c.day) {
        7
    } else {
        0
    }
}

pub fn step_refusal(c: &Step) -> u32 {
    stepped_refusal(c, true)
}

pub fn reverse_refusal(c: &Reverse) -> u32 {
    stepped_refusal(&c.step, c.slots.len() == WEIGHTS)
}

pub fn formula_refusal(c: &Formula) -> u32 {
    match weights_refusal(&c.w) {
        0 => {}
        x => return x,
    }
    let [a, b, d] = c.args;
    let is_rated = (1..=4).contains(&c.rating);
    let is_good = match c.number {
        0 => is_day(a) && b.is_finite(),
        1 | 3 => a.is_finite() && b.is_finite(),
        2 => is_rated,
        4 => is_in(a, DIFFICULTY) && is_rated,
        5 => is_in(a, STABILITY) && is_in(b, UNIT) && is_in(d, DIFFICULTY) && is_rated,
        6 => is_in(a, STABILITY) && is_in(b, UNIT) && is_in(d, DIFFICULTY),
        7 => is_in(a, STABILITY) && is_rated,
        8 => a.is_finite() && b.is_finite() && is_day(d),
        FROM_SM2 => a.is_finite() && b.is_finite() && d.is_finite(),
        ON_DAY => a.is_finite() && b.is_finite() && c.days.iter().all(|x| *x <= DAY_NUMBER_MAX),
        _ => unreachable!(),
    };
    match is_good {
        false => 13,
        // K2: 'new 15 for the earlier day, after 13'
        true if c.number == ON_DAY && c.days[1] < c.days[0] => 15,
        true => 0,
    }
}

/// K9: '1, 2, 13 as before'.
pub fn row_refusal(c: &Row) -> u32 {
    let is_good = c.state.iter().all(|x| x.is_finite()) && is_day(c.day) && c.retention.is_finite();
    match weights_refusal(&c.w) {
        0 if !is_good => 13,
        x => x,
    }
}

/// K1: 'a retention of 0 or below included'. With the port's kernels one of 1 or above is as well.
pub fn assert_import(c: &Formula, refusal: u32) {
    let is_retention = c.args[2] > 0.0 && c.args[2] < 1.0;
    assert!(c.number != FROM_SM2 || is_retention || refusal != 0, "a retention that is not inside 0..1 is accepted");
}

/// 12, then 2; `filled` is the set made 21, where the length is one of the four.
pub fn filling_refusal(given: &[f32], filled: Option<&[f32]>) -> u32 {
    match filled {
        None => 12,
        Some(w) if given.iter().all(|x| x.is_finite()) && is_in_box(w) => 0,
        Some(_) => 2,
    }
}

/// Whether exp, expm1, ln or pow take the arguments; where they do not (10) the answer is a NaN, and nowhere else.
pub fn is_kernel_domain(number: usize, x: f64, y: f64) -> bool {
    match number {
        0 | 1 | 10 => x.is_finite(),
        2 | 3 => x.is_finite() && x > 0.0,
        4 | 5 => x.is_finite() && x > 0.0 && (-16.0..=16.0).contains(&y),
        _ => true,
    }
}
