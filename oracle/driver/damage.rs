// Batch files: well-formed ones of both kinds, made from calls, and damaged ones.
use crate::cases::{File, Loss, WEIGHTS};
use crate::files::{bytes_of, layout, BYTES_MAX, ROWS_MAX};
use crate::generate::{good_loss_of, loss, Entry, Sizes};
use crate::random::Random;

const SMALL: Sizes = Sizes { rows: 40, cells: 200, is_large: false };

// Whether the slices hold what a file takes of them.
fn is_whole(c: &Loss) -> bool {
    let columns = c.columns as usize;
    let cells = c.rows as usize * columns;
    let scores = if c.is_card { cells } else { columns };
    let has_rows = c.rows <= ROWS_MAX && c.columns <= 4096 && cells <= 1 << 20;
    let has_cells = has_rows && c.w.len() == WEIGHTS && c.days.len() >= cells && c.ratings.len() >= cells;
    let has_scores = c.labels.len() >= scores && c.weights.len() >= scores;
    has_cells && has_scores && c.lengths.len() >= columns && (c.is_card || c.targets.len() >= columns)
}

// Sizes at the limits of a file: 512 and 513 rows, 512 columns and more, 65,536 bytes and more.
const LIMITS: [(bool, usize, usize); 22] = [
    (false, 512, 1), (true, 512, 1), (true, 512, 7), (true, 512, 0), (false, 512, 0), (false, 513, 1), (true, 513, 1),
    (true, 513, 0), (false, 513, 0), (false, 1, 512), (true, 1, 512), (true, 0, 512), (false, 1, 513), (true, 1, 513),
    (true, 0, 513), (true, 0, 16353), (true, 0, 16354), (true, 454, 9), (true, 59, 69), (true, 157, 26),
    (false, 8, 700), (false, 2, 2044),
];

fn at_limit(r: &mut Random) -> Loss {
    let (is_card, rows, columns) = r.pick(&LIMITS);
    let mut c = good_loss_of(r, Entry { is_end: false, is_card, with_grad: true }, rows, columns);
    if rows > 64 {
        // long tables, short columns, so that most files take little time
        let long = r.below(8);
        for (i, n) in c.lengths.iter_mut().enumerate() {
            if i != long {
                *n = (*n).min(12);
            }
        }
    }
    c
}

fn some_bytes(r: &mut Random) -> Vec<u8> {
    if r.one_in(12) {
        return bytes_of(&at_limit(r));
    }
    loop {
        let c = loss(r, SMALL, false);
        if is_whole(&c) {
            return bytes_of(&c);
        }
    }
}

fn set_word(bytes: &mut [u8], i: usize, x: u32) {
    bytes[4 * i..4 * i + 4].copy_from_slice(&x.to_le_bytes());
}

fn change_header(r: &mut Random, bytes: &mut [u8]) {
    if bytes.len() < 40 {
        return;
    }
    let i = r.below(10);
    let x = u32::from_le_bytes(bytes[4 * i..4 * i + 4].try_into().unwrap());
    let huge = [u32::MAX, 1 << 31, 1 << 30, r.bits() as u32, 513, 0, 3];
    let y = match r.below(5) {
        0 => x.wrapping_add(1),
        1 => x.wrapping_sub(1),
        2 => x.wrapping_add(4),
        3 => x.wrapping_sub(4),
        _ => r.pick(&huge),
    };
    set_word(bytes, i, y);
}

// Sizes whose products wrap in 32 or 64 bits, and offsets that fit them if they do.
fn wrapped(r: &mut Random) -> Vec<u8> {
    let sizes = [
        (0, 1 << 30), (0, 1 << 31), (512, 1 << 23), (512, 1 << 21), (256, 1 << 24), (1 << 16, 1 << 16), (1 << 31, 1 << 31),
        (u32::MAX, u32::MAX), (1 << 30, 1), (1 << 30, 4), (4, 1 << 30), (1 << 31, 2), (2, 1 << 31),
    ];
    let (rows, columns) = r.pick(&sizes);
    let words = layout(r.between(1, 2) as u32, rows, columns);
    let mut bytes: Vec<u8> = words[..10].iter().flat_map(|&x| (x as u32).to_le_bytes()).collect();
    let end = (words[10] as u32 as usize).clamp(124, BYTES_MAX);
    for x in r.weights() {
        bytes.extend(x.to_bits().to_le_bytes());
    }
    bytes.resize(end, 0);
    bytes
}

// Offsets that follow another kind, or sizes changed together with the offsets but not the length.
fn refit(r: &mut Random, bytes: &mut [u8]) {
    if bytes.len() < 40 {
        return;
    }
    let word = |i: usize| u32::from_le_bytes(bytes[4 * i..4 * i + 4].try_into().unwrap());
    let (kind, rows, columns) = (word(0), word(1), word(2));
    let (kind, rows, columns) = match r.below(4) {
        0 => (3 - kind.min(2), rows, columns),
        1 => (kind, rows.wrapping_add(1), columns),
        2 => (kind, rows, columns.wrapping_add(1)),
        _ => (r.pick(&[0, 3]), rows, columns),
    };
    let words = layout(kind, rows, columns);
    words[..10].iter().enumerate().for_each(|(i, &x)| set_word(bytes, i, x as u32));
}

fn damage(r: &mut Random, bytes: &mut Vec<u8>) {
    let n = bytes.len();
    match r.below(10) {
        0..=4 => change_header(r, bytes),
        5 => bytes.truncate(r.pick(&[n.saturating_sub(1), n.saturating_sub(4), 0, 3, 39, 40, 41, 123, 124])),
        6 => bytes.resize(n + r.pick(&[1, 4, 4, 40]), 0),
        7 => bytes.resize(r.pick(&[BYTES_MAX, BYTES_MAX + 1, BYTES_MAX + 4, 2 * BYTES_MAX]), 0),
        8 => *bytes = wrapped(r),
        _ => refit(r, bytes),
    }
}

/// The i-th file of a seed.
pub fn file(seed: u64, i: u64) -> File {
    let r = &mut Random::new(!seed, i);
    let mut bytes = some_bytes(r);
    if r.one_in(2) {
        damage(r, &mut bytes);
    }
    let n = if r.one_in(16) { r.pick(&[0, 20, 22]) } else { WEIGHTS };
    File { bytes, slots: r.slots(n) }
}
