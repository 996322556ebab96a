//! The two losses, alone and with their gradients, and batch files.

use crate::{raw, Refusal, MAX_ROWS, RECORD, WEIGHTS};

/// Where the histories of a batch stand in their columns.
///
/// ```
/// use fsrs6::{card_loss, check_and_fill_parameters, Align, Cards, Refusal};
/// let w = check_and_fill_parameters(&[])?;
/// let start = Cards {
///     rows: 2,
///     columns: 1,
///     days: &[0.0, 4.0],
///     ratings: &[3.0, 1.0],
///     lengths: &[2],
///     labels: &[0.0, 0.0],
///     weights: &[0.0, 1.0],
///     ..Default::default()
/// };
/// // the same card behind two rows of padding, of which only the ratings are read
/// let none = f32::NAN;
/// let end = Cards {
///     rows: 4,
///     days: &[none, none, 0.0, 4.0],
///     ratings: &[0.0, 0.0, 3.0, 1.0],
///     lengths: &[4],
///     labels: &[none, none, none, 0.0],
///     weights: &[none, none, none, 1.0],
///     align: Align::End,
///     ..start
/// };
/// assert_eq!(card_loss(&w, &end), card_loss(&w, &start));
/// assert_eq!(card_loss(&w, &Cards { align: Align::Start, ..end }), Err(Refusal::Review));
/// # Ok::<(), Refusal>(())
/// ```
#[derive(Clone, Copy, Debug, Default, PartialEq, Eq)]
pub enum Align {
    /// From row 0 on, as the Rust crate has it: row 0 is the first review. A card's padding is scored too, unless its
    /// weight is 0, and the last rating of a card is not read.
    #[default]
    Start,
    /// Up to the last row, behind padding: the first row whose rating is not 0 is the first review. Padding is not scored,
    /// wherever it stands, and nothing of it is read but its rating; nor is a prefix scored that is all padding. The last
    /// rating of a card is read, for it tells whether that row is scored.
    End,
}

/// A batch of prefixes: each column is a history, and the review after it is scored.
///
/// The tables `days` and `ratings` are by row and then by column: cell `row * columns + column`. Everything else has one
/// entry for each column.
#[derive(Clone, Copy, Debug, Default, PartialEq)]
pub struct Prefixes<'a> {
    /// The rows of the tables.
    pub rows: u32,
    /// The columns of the tables.
    pub columns: u32,
    /// Table: the days since the review before.
    pub days: &'a [f32],
    /// Table: the ratings, 0 to 4; 0 is padding.
    pub ratings: &'a [f32],
    /// The length of each history.
    pub lengths: &'a [u32],
    /// The days from a history to its scored review.
    pub target_days: &'a [f32],
    /// Whether the scored review was recalled, from 0 to 1.
    pub labels: &'a [f32],
    /// How much the scored review counts.
    pub weights: &'a [f32],
    /// Where the histories stand.
    pub align: Align,
}

/// A batch of cards: every review of a column after its first is scored.
///
/// All tables are by row and then by column: cell `row * columns + column`.
#[derive(Clone, Copy, Debug, Default, PartialEq)]
pub struct Cards<'a> {
    /// The rows of the tables.
    pub rows: u32,
    /// The columns of the tables.
    pub columns: u32,
    /// Table: the days since the review before.
    pub days: &'a [f32],
    /// Table: the ratings, 0 to 4; 0 is padding.
    pub ratings: &'a [f32],
    /// The length of each column.
    pub lengths: &'a [u32],
    /// Table: whether a review was recalled, from 0 to 1.
    pub labels: &'a [f32],
    /// Table: how much a review counts.
    pub weights: &'a [f32],
    /// Where the histories stand.
    pub align: Align,
}

/// The loss of a batch of prefixes.
///
/// Refusals: [`Refusal::WeightCount`], [`Refusal::WeightBox`], [`Refusal::Sizes`], then column by column
/// [`Refusal::EmptyPrefix`], [`Refusal::Rating`], [`Refusal::Day`], [`Refusal::Review`].
///
/// ```
/// use fsrs6::{batch_loss, check_and_fill_parameters, Prefixes, Refusal};
/// let w = check_and_fill_parameters(&[])?;
/// let one = Prefixes {
///     rows: 1,
///     columns: 1,
///     days: &[0.0],
///     ratings: &[3.0],
///     lengths: &[1],
///     target_days: &[4.0],
///     labels: &[1.0],
///     weights: &[1.0],
///     ..Default::default()
/// };
/// assert!(batch_loss(&w, &one)? > 0.0);
/// assert_eq!(batch_loss(&w, &Prefixes { weights: &[0.0], ..one }), Ok(0.0));
/// assert_eq!(batch_loss(&w, &Prefixes { lengths: &[0], ..one }), Err(Refusal::EmptyPrefix));
/// # Ok::<(), Refusal>(())
/// ```
pub fn batch_loss(w: &[f32], prefixes: &Prefixes) -> Result<f64, Refusal> {
    raw::batch_loss(w, prefixes)
}

/// The loss of a batch of prefixes, and its gradient added to the 21 slots of `gw`. [`Gradient`] does the same and keeps
/// the room that is lent here: `records`, ten singles for each row of the longest column. It is column-major: number `f` of
/// the record of row `i`, as [`RECORD_BRANCH`](crate::RECORD_BRANCH), is cell `f * (records.len() / 10) + i`, and
/// [`record`](crate::record) reads all ten.
///
/// Refusals: those of [`batch_loss`], and after those of the weights [`Refusal::SlotCount`], after [`Refusal::Sizes`]
/// also [`Refusal::Room`].
///
/// ```
/// use fsrs6::{batch_loss, batch_loss_and_grad, check_and_fill_parameters, Prefixes, Refusal};
/// let w = check_and_fill_parameters(&[])?;
/// let one = Prefixes {
///     rows: 1,
///     columns: 1,
///     days: &[0.0],
///     ratings: &[3.0],
///     lengths: &[1],
///     target_days: &[4.0],
///     labels: &[1.0],
///     weights: &[1.0],
///     ..Default::default()
/// };
/// let (mut gw, mut records) = ([0.0; 21], [0.0; 10]);
/// assert_eq!(batch_loss_and_grad(&w, &one, &mut gw, &mut records), batch_loss(&w, &one));
/// assert!(gw[2] < 0.0); // a higher first stability lowers the loss of a review that was recalled
/// assert_eq!(batch_loss_and_grad(&w, &one, &mut gw, &mut []), Err(Refusal::Room));
/// # Ok::<(), Refusal>(())
/// ```
pub fn batch_loss_and_grad(
    w: &[f32],
    prefixes: &Prefixes,
    gw: &mut [f64],
    records: &mut [f32],
) -> Result<f64, Refusal> {
    raw::batch_loss_and_grad(w, prefixes, gw, records)
}

/// The loss of a batch of cards.
///
/// Refusals: [`Refusal::WeightCount`], [`Refusal::WeightBox`], [`Refusal::Sizes`], then column by column
/// [`Refusal::Rating`], [`Refusal::Day`], [`Refusal::Review`].
///
/// ```
/// use fsrs6::{card_loss, check_and_fill_parameters, Cards, Refusal};
/// let w = check_and_fill_parameters(&[])?;
/// let one = Cards {
///     rows: 2,
///     columns: 1,
///     days: &[0.0, 4.0],
///     ratings: &[3.0, 3.0],
///     lengths: &[2],
///     labels: &[0.0, 1.0],
///     weights: &[0.0, 1.0],
///     ..Default::default()
/// };
/// assert!(card_loss(&w, &one)? > 0.0);
/// assert_eq!(card_loss(&w, &Cards { lengths: &[1], ..one }), Ok(0.0)); // a first review is not scored
/// assert_eq!(card_loss(&w, &Cards { rows: 3, ..one }), Err(Refusal::Sizes));
/// # Ok::<(), Refusal>(())
/// ```
pub fn card_loss(w: &[f32], cards: &Cards) -> Result<f64, Refusal> {
    raw::card_loss(w, cards)
}

/// The loss of a batch of cards, and its gradient added to the 21 slots of `gw`. [`Gradient`] does the same and keeps the
/// room that is lent here: `records`, ten singles, and `step_grads`, a double, for each row of the longest column. The
/// records are as in [`batch_loss_and_grad`].
///
/// Refusals: those of [`card_loss`], and after those of the weights [`Refusal::SlotCount`], after [`Refusal::Sizes`] also
/// [`Refusal::Room`].
///
/// ```
/// use fsrs6::{card_loss, card_loss_and_grad, check_and_fill_parameters, Cards, Refusal};
/// let w = check_and_fill_parameters(&[])?;
/// let one = Cards {
///     rows: 2,
///     columns: 1,
///     days: &[0.0, 4.0],
///     ratings: &[3.0, 3.0],
///     lengths: &[2],
///     labels: &[0.0, 1.0],
///     weights: &[0.0, 1.0],
///     ..Default::default()
/// };
/// let (mut gw, mut records, mut step_grads) = ([0.0; 21], [0.0; 20], [0.0; 2]);
/// assert_eq!(card_loss_and_grad(&w, &one, &mut gw, &mut records, &mut step_grads), card_loss(&w, &one));
/// assert!(gw[2] < 0.0);
/// assert_eq!(card_loss_and_grad(&w, &one, &mut gw, &mut records, &mut []), Err(Refusal::Room));
/// # Ok::<(), Refusal>(())
/// ```
pub fn card_loss_and_grad(
    w: &[f32],
    cards: &Cards,
    gw: &mut [f64],
    records: &mut [f32],
    step_grads: &mut [f64],
) -> Result<f64, Refusal> {
    raw::card_loss_and_grad(w, cards, gw, records, step_grads)
}

/// A batch file, run as one call of its loss with the gradient, which is added to the 21 slots of `gw`. It takes about
/// 160 KB of the stack.
///
/// Refusals: [`Refusal::File`], then those of the loss, but never [`Refusal::Room`].
///
/// ```
/// use fsrs6::{batch_file, Refusal};
/// let mut gw = [0.0; 21];
/// assert_eq!(batch_file(b"no batch", &mut gw), Err(Refusal::File));
/// ```
pub fn batch_file(file: &[u8], gw: &mut [f64]) -> Result<f64, Refusal> {
    raw::batch_file(file, gw)
}

/// A gradient that sums up over calls, and the room that the calls work in, so that no size has to be known.
///
/// ```
/// use fsrs6::{check_and_fill_parameters, Cards, Gradient, Refusal};
/// let w = check_and_fill_parameters(&[])?;
/// let one = Cards {
///     rows: 2,
///     columns: 1,
///     days: &[0.0, 4.0],
///     ratings: &[3.0, 3.0],
///     lengths: &[2],
///     labels: &[0.0, 1.0],
///     weights: &[0.0, 1.0],
///     ..Default::default()
/// };
/// let mut gradient = Gradient::default();
/// let loss = gradient.add_cards(&w, &one)?;
/// let once = gradient.slots[2];
/// assert_eq!(gradient.add_cards(&w, &one)?, loss);
/// assert_eq!(gradient.slots[2], 2.0 * once);
/// # Ok::<(), Refusal>(())
/// ```
#[derive(Clone, Debug, Default)]
pub struct Gradient {
    /// The sum so far, by weight. Zeros at first; it may be set to anything.
    pub slots: [f64; WEIGHTS],
    records: Vec<f32>,
    step_grads: Vec<f64>,
}

impl Gradient {
    /// Adds the gradient of a batch of prefixes, and gives its loss. Refusals: those of [`batch_loss`].
    ///
    /// ```
    /// use fsrs6::{check_and_fill_parameters, Gradient, Prefixes, Refusal};
    /// let w = check_and_fill_parameters(&[])?;
    /// let mut gradient = Gradient::default();
    /// assert_eq!(gradient.add_prefixes(&w, &Prefixes::default()), Ok(0.0)); // no columns
    /// assert_eq!(gradient.add_prefixes(&w[1..], &Prefixes::default()), Err(Refusal::WeightCount));
    /// # Ok::<(), Refusal>(())
    /// ```
    pub fn add_prefixes(&mut self, w: &[f32], prefixes: &Prefixes) -> Result<f64, Refusal> {
        self.make_room(longest(prefixes.rows, prefixes.columns, prefixes.lengths));
        batch_loss_and_grad(w, prefixes, &mut self.slots, &mut self.records)
    }

    /// Adds the gradient of a batch of cards, and gives its loss. Refusals: those of [`card_loss`].
    ///
    /// ```
    /// use fsrs6::{check_and_fill_parameters, Cards, Gradient, Refusal};
    /// let w = check_and_fill_parameters(&[])?;
    /// let mut gradient = Gradient::default();
    /// assert_eq!(gradient.add_cards(&w, &Cards::default()), Ok(0.0)); // no columns
    /// assert_eq!(gradient.add_cards(&w, &Cards { columns: 513, ..Cards::default() }), Err(Refusal::Sizes));
    /// # Ok::<(), Refusal>(())
    /// ```
    pub fn add_cards(&mut self, w: &[f32], cards: &Cards) -> Result<f64, Refusal> {
        self.make_room(longest(cards.rows, cards.columns, cards.lengths));
        card_loss_and_grad(w, cards, &mut self.slots, &mut self.records, &mut self.step_grads)
    }

    /// Room once made is kept for the calls after it.
    fn make_room(&mut self, rows: usize) {
        if self.step_grads.len() < rows {
            self.records.resize(rows * RECORD, 0.0);
            self.step_grads.resize(rows, 0.0);
        }
    }
}

/// The rows of the longest column. More than the limit are refused, whatever the room.
fn longest(rows: u32, columns: u32, lengths: &[u32]) -> usize {
    let of_columns = lengths.iter().take(columns as usize).copied().max().unwrap_or(0);
    of_columns.min(rows).min(MAX_ROWS) as usize
}
