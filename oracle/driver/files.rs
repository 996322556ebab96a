// Batch files: made from calls, and read by document 01's 'Batch file and program'.
use crate::cases::{File, Loss, FIELDS, WEIGHTS};
use crate::tally::Tally;

pub const BYTES_MAX: usize = 65536;
pub const ROWS_MAX: u32 = 512;
const HEADER: usize = 40;

/// Kind, rows, columns, and the offsets of the seven sections; the last number is the length of the file. Nothing wraps.
pub fn layout(kind: u32, rows: u32, columns: u32) -> [u128; 11] {
    let (columns, cells) = (columns as u128, rows as u128 * columns as u128);
    let (targets, scores) = if kind == 1 { (columns, columns) } else { (0, cells) };
    let mut words = [0; 11];
    words[..3].copy_from_slice(&[kind as u128, rows as u128, columns]);
    let mut at = HEADER as u128;
    for (i, entries) in [WEIGHTS as u128, cells, cells, columns, targets, scores, scores].into_iter().enumerate() {
        words[3 + i] = at;
        at += 4 * entries;
    }
    words[10] = at;
    words
}

/// The file of a call, whose slices hold at least what the file takes of them.
pub fn bytes_of(c: &Loss) -> Vec<u8> {
    let kind = if c.is_card { 2 } else { 1 };
    let words = layout(kind, c.rows, c.columns);
    let columns = c.columns as usize;
    let cells = c.rows as usize * columns;
    let (targets, scores) = if c.is_card { (0, cells) } else { (columns, columns) };
    let mut bytes: Vec<u8> = words[..10].iter().flat_map(|&x| (x as u32).to_le_bytes()).collect();
    let mut put = |xs: &[f32]| bytes.extend(xs.iter().flat_map(|x| x.to_bits().to_le_bytes()));
    put(&c.w);
    put(&c.days[..cells]);
    put(&c.ratings[..cells]);
    put(&c.lengths[..columns].iter().map(|&n| f32::from_bits(n)).collect::<Vec<_>>());
    put(&c.targets[..targets]);
    put(&c.labels[..scores]);
    put(&c.weights[..scores]);
    bytes
}

fn word(bytes: &[u8], at: usize) -> u32 {
    u32::from_le_bytes(bytes[at..at + 4].try_into().unwrap())
}

/// What makes a file malformed.
fn fault(bytes: &[u8]) -> Option<String> {
    if bytes.len() < HEADER {
        return Some("no whole header".to_string());
    }
    if bytes.len() > BYTES_MAX {
        return Some("over 65,536 bytes".to_string());
    }
    let header: Vec<u32> = (0..10).map(|i| word(bytes, 4 * i)).collect();
    let (kind, rows, columns) = (header[0], header[1], header[2]);
    if kind != 1 && kind != 2 {
        return Some("kind".to_string());
    }
    if rows > ROWS_MAX {
        return Some("over 512 rows".to_string());
    }
    let wanted = layout(kind, rows, columns);
    if let Some(i) = (3..10).find(|&i| header[i] as u128 != wanted[i]) {
        return Some(format!("offset in word {i}"));
    }
    (bytes.len() as u128 != wanted[10]).then(|| "length".to_string())
}

/// Counts what a file is.
pub fn note(c: &File, tally: &mut Tally) {
    if let Some(text) = fault(&c.bytes) {
        tally.branch(&format!("file: malformed, {text}"));
        return;
    }
    let [kind, rows, columns] = [0, 4, 8].map(|at| word(&c.bytes, at));
    tally.branch(if kind == 1 { "file: prefix" } else { "file: card" });
    for (is_so, text) in [
        (rows == ROWS_MAX, "512 rows"),
        (rows == 0, "no rows"),
        (columns == 0, "no columns"),
        (columns == 512, "512 columns"),
        (columns > 512, "over 512 columns"),
        (c.bytes.len() == BYTES_MAX, "65,536 bytes"),
    ] {
        if is_so {
            tally.branch(&format!("file: {text}"));
        }
    }
}

/// The call that a file stands for, or none where it is malformed (11). The call is lent room enough, so never 4.
pub fn read(c: &File) -> Option<Loss> {
    if fault(&c.bytes).is_some() {
        return None;
    }
    let header: Vec<usize> = (0..10).map(|i| word(&c.bytes, 4 * i) as usize).collect();
    let words = |from: usize, to: usize| (from..to).step_by(4).map(|at| word(&c.bytes, at)).collect::<Vec<_>>();
    let floats = |i: usize| {
        let to = if i == 9 { c.bytes.len() } else { header[i + 1] };
        words(header[i], to).into_iter().map(f32::from_bits).collect::<Vec<_>>()
    };
    let rows = header[1];
    Some(Loss {
        is_end: false,
        is_card: header[0] == 2,
        with_grad: true,
        w: floats(3),
        slots: c.slots.clone(),
        rows: rows as u32,
        columns: header[2] as u32,
        days: floats(4),
        ratings: floats(5),
        lengths: words(header[6], header[7]),
        targets: floats(7),
        labels: floats(8),
        weights: floats(9),
        records: (FIELDS * rows, 0),
        step_grads: (rows, 0),
    })
}
