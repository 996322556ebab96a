// Makes a call smaller as long as it still shows a difference.
use crate::cases::{Case, Loss, FIELDS, WEIGHTS};
use crate::compare;
use crate::model;
use crate::tally::Tally;

const TRIES: usize = 4000;

fn column_of(c: &Loss, xs: &[f32], column: usize) -> Vec<f32> {
    xs.iter().skip(column).step_by(c.columns as usize).take(c.rows as usize).copied().collect()
}

/// One column of a call as a call of its own, lent room for its rows.
pub fn only_column(c: &Loss, column: usize) -> Loss {
    let one = |xs: &[f32]| xs.get(column).copied().into_iter().collect::<Vec<_>>();
    let (targets, labels, weights) = if c.is_card {
        (vec![], column_of(c, &c.labels, column), column_of(c, &c.weights, column))
    } else {
        (one(&c.targets), one(&c.labels), one(&c.weights))
    };
    let room = if c.with_grad { c.cut(column) } else { 0 };
    Loss {
        columns: 1,
        days: column_of(c, &c.days, column),
        ratings: column_of(c, &c.ratings, column),
        lengths: vec![c.lengths[column]],
        targets,
        labels,
        weights,
        records: (FIELDS * room, 0),
        step_grads: (if c.is_card { room } else { 0 }, 0),
        w: c.w.clone(),
        slots: c.slots.clone(),
        ..*c
    }
}

fn with(c: &Loss, f: impl FnOnce(&mut Loss)) -> Loss {
    let mut c = c.clone();
    f(&mut c);
    c
}

// Of one column: a row less at the end, or at the start.
fn fewer_rows(c: &Loss) -> Vec<Loss> {
    let n = c.rows as usize;
    if c.columns != 1 || n < 2 || c.days.len() < n || c.ratings.len() < n {
        return vec![];
    }
    let without = |at: usize| {
        with(c, |c| {
            let mut tables = vec![&mut c.days, &mut c.ratings];
            if c.is_card {
                tables.extend([&mut c.labels, &mut c.weights]);
            }
            tables.into_iter().filter(|xs| at < xs.len()).for_each(|xs| {
                xs.remove(at);
            });
            c.rows -= 1;
            c.lengths[0] = c.lengths[0].min(n as u32).saturating_sub(1);
        })
    };
    vec![without(n - 1), without(0), without(n / 2)]
}

fn plainer_cells(c: &Loss) -> Vec<Loss> {
    let tables: [fn(&mut Loss) -> &mut Vec<f32>; 5] =
        [|c| &mut c.days, |c| &mut c.ratings, |c| &mut c.targets, |c| &mut c.labels, |c| &mut c.weights];
    let mut out = vec![];
    for table in tables {
        let n = table(&mut c.clone()).len().min(40);
        for i in 0..n {
            for x in [0.0, 1.0, 3.0] {
                let old = table(&mut c.clone())[i];
                // only towards a smaller one, so that this ends
                if old.to_bits() != 0 && (old != x) && !(old == 1.0 && x == 3.0) {
                    out.push(with(c, |c| table(c)[i] = x));
                }
            }
        }
    }
    out
}

fn smaller(c: &Loss) -> Vec<Loss> {
    let mut out = vec![];
    if c.columns > 1 && (c.columns as usize) <= c.lengths.len() {
        out.extend((0..c.columns as usize).map(|i| only_column(c, i)));
    }
    out.extend(fewer_rows(c));
    if c.slots.iter().any(|x| x.to_bits() != 0) {
        out.push(with(c, |c| c.slots.fill(0.0)));
    }
    let defaults = model::filled(&[]).unwrap();
    if c.w.len() == WEIGHTS && c.w != defaults {
        out.push(with(c, |c| c.w = defaults.clone()));
        let others: Vec<usize> = (0..WEIGHTS).filter(|&i| c.w[i].to_bits() != defaults[i].to_bits()).collect();
        out.extend(others.into_iter().map(|i| with(c, |c| c.w[i] = defaults[i])));
    }
    out.extend(plainer_cells(c));
    out
}

fn differs(case: &Case) -> bool {
    compare::run(case, &mut Tally::default()).1.is_some()
}

/// A smaller call with a difference, where there is one. Only losses are made smaller: the others are small.
pub fn shrunk(case: &Case) -> Case {
    let Case::Loss(c) = case else { return case.clone() };
    let (mut c, mut tries) = (c.clone(), 0);
    'again: while tries < TRIES {
        for next in smaller(&c) {
            tries += 1;
            if differs(&Case::Loss(next.clone())) {
                c = next;
                continue 'again;
            }
        }
        break;
    }
    Case::Loss(c)
}
