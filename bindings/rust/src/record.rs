//! The record of a step by its names, read from the columns that a loss leaves.

use crate::{
    State, BRANCH_FIRST, BRANCH_LAPSE, BRANCH_LAPSE_FLOORED, BRANCH_PADDING, BRANCH_SAME_DAY, BRANCH_SAME_DAY_ONE,
    BRANCH_SUCCESS, RECORD, RECORD_BRANCH, RECORD_BRANCH_OTHER, RECORD_BRANCH_RAW, RECORD_DAY, RECORD_DIFFICULTY,
    RECORD_PRE_DIFFICULTY, RECORD_PRE_STABILITY, RECORD_RATING, RECORD_RETRIEVABILITY, RECORD_STABILITY,
};

/// The branch that a step took, by its number in a record.
#[derive(Clone, Copy, Debug, PartialEq, Eq, Hash)]
#[repr(u32)]
pub enum Branch {
    /// Padding: no review.
    Padding = BRANCH_PADDING,
    /// A first review.
    First = BRANCH_FIRST,
    /// A review on the same day.
    SameDay = BRANCH_SAME_DAY,
    /// A review on the same day whose raw multiplier was below 1, so that 1 was used.
    SameDayOne = BRANCH_SAME_DAY_ONE,
    /// A lapse.
    Lapse = BRANCH_LAPSE,
    /// A lapse whose floor was below the raw stability, and was used.
    LapseFloored = BRANCH_LAPSE_FLOORED,
    /// A review that succeeded.
    Success = BRANCH_SUCCESS,
}

impl Branch {
    /// All branches, in the order of their numbers.
    pub const ALL: [Branch; 7] = [
        Branch::Padding,
        Branch::First,
        Branch::SameDay,
        Branch::SameDayOne,
        Branch::Lapse,
        Branch::LapseFloored,
        Branch::Success,
    ];

    /// Its number, as [`BRANCH_FIRST`].
    pub fn number(self) -> u32 {
        self as u32
    }

    fn of(cell: f32) -> Option<Branch> {
        Branch::ALL.into_iter().find(|branch| branch.number() as f32 == cell)
    }
}

/// The record of a step, whose numbers stand in the order of the columns. [`record`] reads one.
#[derive(Clone, Copy, Debug, PartialEq)]
pub struct Record {
    /// The stability before it, as given.
    pub stability: f32,
    /// The difficulty before it, as given.
    pub difficulty: f32,
    /// The day; +0.0 in padding and in a first step, where it goes unread.
    pub day: f32,
    /// The rating.
    pub rating: f32,
    /// The retrievability when the review came; +0.0 in padding and in a first step.
    pub retrievability: f32,
    /// The stability after it, before its last clamp.
    pub pre_stability: f32,
    /// The difficulty after it, before its last clamp.
    pub pre_difficulty: f32,
    /// The branch that it took.
    pub branch: Branch,
    /// The raw multiplier (same day) or the raw stability (lapse), else +0.0.
    pub branch_raw: f32,
    /// The multiplier that was used (same day) or the floor (lapse), else +0.0.
    pub branch_other: f32,
}

impl Record {
    /// The state before the step, as given.
    pub fn before(&self) -> State {
        State { stability: self.stability, difficulty: self.difficulty }
    }

    /// The state after the step: clamped to its range, as the step did last.
    pub fn after(&self) -> State {
        State { stability: self.pre_stability.clamp(0.0001, 36500.0), difficulty: self.pre_difficulty.clamp(1.0, 10.0) }
    }
}

/// The record of a row, read from the `records` that a loss with its gradient was lent; or of a step, row 0 of its ten
/// numbers.
///
/// The layout is column-major: ten columns of `records.len() / 10` cells, one behind another, in the order of
/// [`RECORD_STABILITY`] to [`RECORD_BRANCH_OTHER`]. So number `f` of row `i` is `records[f * (records.len() / 10) + i]`.
///
/// After an accepted call record i is that of the batch's last column that stepped on row i: a prefix steps on all its
/// rows, a card on all but its last. A row on which none did is as it was lent: where its branch is -1, which no branch is,
/// it reads as `None`, and so does a row for which there is no room.
///
/// ```
/// use fsrs6::{card_loss_and_grad, check_and_fill_parameters, first_state, record, Branch, Cards, Refusal, RECORD};
/// let w = check_and_fill_parameters(&[])?;
/// let card = Cards {
///     rows: 3,
///     columns: 1,
///     days: &[0.0, 0.0, 4.0],
///     ratings: &[3.0, 4.0, 1.0],
///     lengths: &[3],
///     labels: &[0.0, 1.0, 0.0],
///     weights: &[0.0, 1.0, 1.0],
///     ..Default::default()
/// };
/// let (mut gw, mut records, mut step_grads) = ([0.0; 21], [-1.0; 3 * RECORD], [0.0; 3]);
/// card_loss_and_grad(&w, &card, &mut gw, &mut records, &mut step_grads)?;
/// let path: Vec<_> = (0..).map_while(|row| record(&records, row)).collect();
/// assert_eq!(path.len(), 2); // the last review is scored, and no step is made on it
/// assert_eq!([path[0].branch, path[1].branch], [Branch::First, Branch::SameDay]);
/// assert_eq!(path[0].after(), path[1].before());
/// assert_eq!(path[0].after(), first_state(&w, 3)?);
/// # Ok::<(), Refusal>(())
/// ```
pub fn record(records: &[f32], row: usize) -> Option<Record> {
    let room = records.len() / RECORD;
    if row >= room {
        return None;
    }
    let cell = |field: usize| records[field * room + row];
    Some(Record {
        stability: cell(RECORD_STABILITY),
        difficulty: cell(RECORD_DIFFICULTY),
        day: cell(RECORD_DAY),
        rating: cell(RECORD_RATING),
        retrievability: cell(RECORD_RETRIEVABILITY),
        pre_stability: cell(RECORD_PRE_STABILITY),
        pre_difficulty: cell(RECORD_PRE_DIFFICULTY),
        branch: Branch::of(cell(RECORD_BRANCH))?,
        branch_raw: cell(RECORD_BRANCH_RAW),
        branch_other: cell(RECORD_BRANCH_OTHER),
    })
}
