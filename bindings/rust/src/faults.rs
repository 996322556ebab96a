//! Where a loss call is at fault.

use crate::{raw, Cards, Prefixes, Refusal};
use std::error::Error;
use std::fmt;

/// Where the first bad cell of a loss call stands.
#[derive(Clone, Copy, Debug, PartialEq, Eq, Hash)]
pub struct Place {
    /// Its column, from 0.
    pub column: u32,
    /// Its row, from 0. Of a prefix's scored review it is the length of the prefix, cut to the rows; of an empty prefix 0.
    pub row: u32,
}

/// Why a loss call is refused, and where its first bad cell is.
#[derive(Clone, Copy, Debug, PartialEq, Eq, Hash)]
pub struct Fault {
    /// The refusal of that call.
    pub refusal: Refusal,
    /// Where the cell stands, for [`Refusal::Rating`], [`Refusal::Day`], [`Refusal::Review`] and [`Refusal::EmptyPrefix`]; no
    /// cell before it, in the order of the refusals, is bad. The other refusals speak of no cell, and have none.
    ///
    /// Of [`Refusal::Review`] it is the row's weight that is bad, or the label if the weight is good.
    pub place: Option<Place>,
}

impl Fault {
    /// The numbers that a C function gives; none where the call is accepted.
    pub(crate) fn of_numbers(refusal: u32, column: u32, row: u32) -> Option<Fault> {
        let refusal = Refusal::accepted(refusal, ()).err()?;
        let has_place = matches!(refusal, Refusal::Rating | Refusal::Day | Refusal::Review | Refusal::EmptyPrefix);
        Some(Fault { refusal, place: has_place.then_some(Place { column, row }) })
    }
}

impl fmt::Display for Fault {
    fn fmt(&self, f: &mut fmt::Formatter<'_>) -> fmt::Result {
        if let Some(Place { column, row }) = self.place {
            write!(f, "column {column}, row {row}: ")?;
        }
        self.refusal.fmt(f)
    }
}

impl Error for Fault {}

/// The fault of [`batch_loss`](crate::batch_loss) on the same arguments; none where it is accepted.
///
/// ```
/// use fsrs6::{batch_loss, batch_loss_fault, check_and_fill_parameters, Place, Prefixes, Refusal};
/// let w = check_and_fill_parameters(&[])?;
/// let two = Prefixes {
///     rows: 1,
///     columns: 2,
///     days: &[0.0, 0.0],
///     ratings: &[3.0, 1.0],
///     lengths: &[1, 1],
///     target_days: &[4.0, f32::NAN],
///     labels: &[1.0, 1.0],
///     weights: &[1.0, 1.0],
///     ..Default::default()
/// };
/// let fault = batch_loss_fault(&w, &two).expect("a NaN");
/// assert_eq!(batch_loss(&w, &two), Err(fault.refusal));
/// assert_eq!((fault.refusal, fault.place), (Refusal::Day, Some(Place { column: 1, row: 1 }))); // its scored review
/// assert_eq!(fault.to_string(), "column 1, row 1: a day is out of range");
/// assert_eq!(batch_loss_fault(&w, &Prefixes { weights: &[1.0, 0.0], ..two }), None); // of weight 0, and so unread
/// # Ok::<(), Refusal>(())
/// ```
pub fn batch_loss_fault(w: &[f32], prefixes: &Prefixes) -> Option<Fault> {
    raw::batch_loss_fault(w, prefixes)
}

/// The fault of [`batch_loss_and_grad`](crate::batch_loss_and_grad) on the same arguments; none where it is accepted. Of what
/// that call is lent only the lengths are given, so that nothing is written.
///
/// ```
/// use fsrs6::{batch_loss_and_grad_fault, check_and_fill_parameters, Fault, Prefixes, Refusal};
/// let w = check_and_fill_parameters(&[])?;
/// let none = Prefixes::default();
/// assert_eq!(batch_loss_and_grad_fault(&w, &none, 21, 0), None);
/// let few = Fault { refusal: Refusal::SlotCount, place: None };
/// assert_eq!(batch_loss_and_grad_fault(&w, &none, 20, 0), Some(few));
/// # Ok::<(), Refusal>(())
/// ```
pub fn batch_loss_and_grad_fault(w: &[f32], prefixes: &Prefixes, gw_len: usize, records_len: usize) -> Option<Fault> {
    raw::batch_loss_and_grad_fault(w, prefixes, gw_len, records_len)
}

/// The fault of [`card_loss`](crate::card_loss) on the same arguments; none where it is accepted.
///
/// ```
/// use fsrs6::{card_loss_fault, check_and_fill_parameters, Cards, Place, Refusal};
/// let w = check_and_fill_parameters(&[])?;
/// let one = Cards {
///     rows: 2,
///     columns: 1,
///     days: &[0.0, 4.0],
///     ratings: &[7.0, 3.0],
///     lengths: &[2],
///     labels: &[0.0, 1.0],
///     weights: &[0.0, -1.0],
///     ..Default::default()
/// };
/// let fault = card_loss_fault(&w, &one).expect("two of them");
/// assert_eq!((fault.refusal, fault.place), (Refusal::Rating, Some(Place { column: 0, row: 0 }))); // the first
/// # Ok::<(), Refusal>(())
/// ```
pub fn card_loss_fault(w: &[f32], cards: &Cards) -> Option<Fault> {
    raw::card_loss_fault(w, cards)
}

/// The fault of [`card_loss_and_grad`](crate::card_loss_and_grad) on the same arguments; none where it is accepted. Of what
/// that call is lent only the lengths are given, so that nothing is written.
///
/// ```
/// use fsrs6::{card_loss_and_grad_fault, check_and_fill_parameters, Cards, Fault, Refusal};
/// let w = check_and_fill_parameters(&[])?;
/// let one = Cards {
///     rows: 1,
///     columns: 1,
///     days: &[0.0],
///     ratings: &[3.0],
///     lengths: &[1],
///     labels: &[0.0],
///     weights: &[0.0],
///     ..Default::default()
/// };
/// assert_eq!(card_loss_and_grad_fault(&w, &one, 21, 10, 1), None);
/// let no_room = Fault { refusal: Refusal::Room, place: None };
/// assert_eq!(card_loss_and_grad_fault(&w, &one, 21, 10, 0), Some(no_room));
/// # Ok::<(), Refusal>(())
/// ```
pub fn card_loss_and_grad_fault(
    w: &[f32],
    cards: &Cards,
    gw_len: usize,
    records_len: usize,
    step_grads_len: usize,
) -> Option<Fault> {
    raw::card_loss_and_grad_fault(w, cards, gw_len, records_len, step_grads_len)
}

/// The fault of the call that a batch file holds, with 21 slots: that of [`batch_file`](crate::batch_file). It takes about
/// 130 KB of the stack.
///
/// ```
/// use fsrs6::{batch_file_fault, Fault, Refusal};
/// assert_eq!(batch_file_fault(b"no batch"), Some(Fault { refusal: Refusal::File, place: None }));
/// ```
pub fn batch_file_fault(file: &[u8]) -> Option<Fault> {
    raw::batch_file_fault(file)
}
