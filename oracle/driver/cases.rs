// The calls that are compared, and what a call leaves behind.

pub const WEIGHTS: usize = 21;
pub const FIELDS: usize = 10;

/// A loss call. Lent records and step gradients are a count and the pattern of the first; the others count up from it.
#[derive(Clone)]
pub struct Loss {
    /// K5: its histories stand at the end of their columns, behind padding.
    pub is_end: bool,
    pub is_card: bool,
    pub with_grad: bool,
    pub w: Vec<f32>,
    pub slots: Vec<f64>,
    pub rows: u32,
    pub columns: u32,
    pub days: Vec<f32>,
    pub ratings: Vec<f32>,
    pub lengths: Vec<u32>,
    pub targets: Vec<f32>,
    pub labels: Vec<f32>,
    pub weights: Vec<f32>,
    pub records: (usize, u32),
    pub step_grads: (usize, u64),
}

impl Loss {
    /// 0 to 7, as in the lines of the vectors.
    pub fn entry(&self) -> usize {
        4 * self.is_end as usize + 2 * self.is_card as usize + !self.with_grad as usize
    }

    /// The length of a column, cut to the rows.
    pub fn cut(&self, column: usize) -> usize {
        self.lengths[column].min(self.rows) as usize
    }

    pub fn cell(&self, row: usize, column: usize) -> usize {
        row * self.columns as usize + column
    }

    /// The row of a column's first review: row 0 or, at the end, the first whose rating is not 0; the length if there is
    /// none.
    pub fn first(&self, column: usize) -> usize {
        let n = self.cut(column);
        let is_review = |&row: &usize| !self.is_end || self.ratings[self.cell(row, column)] != 0.0;
        (0..n).find(is_review).unwrap_or(n)
    }

    /// A call at the end as the text can run it, at the start: each column without the padding in front of its first
    /// review. K5 scores no padding, so a card's has the weight 0, and so has the target of a prefix that is padding alone.
    pub fn at_start(&self) -> Loss {
        let mut c = Loss { is_end: false, ..self.clone() };
        for column in 0..self.columns as usize {
            let (first, n) = (self.first(column), self.cut(column));
            c.lengths[column] = (n - first) as u32;
            for row in first..n {
                let (from, to) = (self.cell(row, column), self.cell(row - first, column));
                (c.days[to], c.ratings[to]) = (self.days[from], self.ratings[from]);
                if self.is_card {
                    c.labels[to] = self.labels[from];
                    c.weights[to] = if self.ratings[from] == 0.0 { 0.0 } else { self.weights[from] };
                }
            }
            if !self.is_card && first == n {
                c.weights[column] = 0.0;
            }
        }
        c
    }

    /// How many rows of a column step: a card's last row is only scored.
    pub fn steps(&self, column: usize) -> usize {
        let n = self.cut(column);
        if self.is_card { n.saturating_sub(1) } else { n }
    }

    /// Where the review is scored that belongs to a row: a prefix has one, a column's target.
    pub fn score(&self, row: usize, column: usize) -> usize {
        if self.is_card { self.cell(row, column) } else { column }
    }

    pub fn lent_records(&self) -> Vec<u32> {
        (0..self.records.0).map(|i| self.records.1.wrapping_add(i as u32)).collect()
    }

    pub fn lent_step_grads(&self) -> Vec<u64> {
        (0..self.step_grads.0).map(|i| self.step_grads.1.wrapping_add(i as u64)).collect()
    }
}

/// The cell of a record's field: ten columns of the slice, one after another.
pub fn record_cell(lent: usize, field: usize, row: usize) -> usize {
    field * (lent / FIELDS) + row
}

/// A single training step.
#[derive(Clone)]
pub struct Step {
    pub w: Vec<f32>,
    pub s: f32,
    pub d: f32,
    pub day: f32,
    pub rating: f32,
    pub row: usize,
}

/// Its reverse: gradients by the state after it and by its retrievability.
#[derive(Clone)]
pub struct Reverse {
    pub step: Step,
    pub g: [f64; 3],
    pub slots: Vec<f64>,
}

/// A scalar formula by its place in FORMULAS: up to three singles, and a rating. Of a review on a day also the day on which
/// the card was last seen, and its own.
#[derive(Clone)]
pub struct Formula {
    pub number: usize,
    pub w: Vec<f32>,
    pub args: [f32; 3],
    pub rating: u32,
    pub days: [u32; 2],
}

pub const FORMULAS: [&str; 11] = [
    "power_forgetting_curve", "next_interval", "init_difficulty", "mean_reversion", "next_difficulty",
    "stability_after_success", "stability_after_failure", "stability_short_term", "next_state", "memory_state_from_sm2",
    "next_state_on",
];

/// Its three singles are the ease factor, the interval and the retention.
pub const FROM_SM2: usize = 9;

/// It gives a day besides.
pub const ON_DAY: usize = 10;

impl Formula {
    /// How many singles it gives.
    pub fn answers(&self) -> usize {
        if self.number < 8 { 1 } else { 2 }
    }
}

/// A row of an app: a review, and the patterns that it claims of the state after it and of the next interval.
#[derive(Clone)]
pub struct Row {
    pub w: Vec<f32>,
    pub state: [f32; 2],
    pub day: f32,
    pub rating: u32,
    pub retention: f32,
    pub claimed: [u32; 3],
}

impl Row {
    /// With one bit flipped.
    pub fn flipped(&self, field: usize, bit: u32) -> Row {
        let mut c = self.clone();
        c.claimed[field] ^= 1 << bit;
        c
    }
}

/// A kernel by its place in KERNELS, on the patterns of its arguments.
#[derive(Clone)]
pub struct Kernel {
    pub number: usize,
    pub args: [u64; 3],
}

/// Those with an even place are of singles.
pub const KERNELS: [&str; 11] = [
    "exp_f32", "exp_f64", "ln_f32", "ln_f64", "pow_f32", "pow_f64", "fma_f32", "fma_f64", "round_f32", "round_f64",
    "expm1_f32",
];

#[derive(Clone)]
pub struct File {
    pub bytes: Vec<u8>,
    pub slots: Vec<f64>,
}

/// A pull toward the old weights.
#[derive(Clone)]
pub struct Penalty {
    pub w: Vec<f32>,
    pub old: Vec<f32>,
    pub batch: u64,
    pub total: u64,
    pub factor: f64,
    pub spreads: Vec<f32>,
    pub slots: Vec<f32>,
}

/// First recalls of one rating: three columns, and the default.
#[derive(Clone)]
pub struct Initial {
    pub days: Vec<f64>,
    pub shares: Vec<f64>,
    pub counts: Vec<f64>,
    pub default: f64,
}

#[derive(Clone)]
pub enum Case {
    Loss(Loss),
    Step(Step),
    Reverse(Reverse),
    Formula(Formula),
    Row(Row),
    Filling(Vec<f32>),
    Kernel(Kernel),
    Penalty(Penalty),
    Initial(Initial),
    File(File),
}

const LOSSES: [&str; 8] = [
    "batch_loss_and_grad", "batch_loss", "card_loss_and_grad", "card_loss", "batch_loss_and_grad_in", "batch_loss_in",
    "card_loss_and_grad_in", "card_loss_in",
];

impl Case {
    /// A loss call's table in the other mode.
    pub fn in_other_mode(&self) -> Option<Case> {
        match self {
            Case::Loss(c) => Some(Case::Loss(Loss { is_end: !c.is_end, ..c.clone() })),
            _ => None,
        }
    }

    pub fn name(&self) -> &'static str {
        match self {
            Case::Loss(c) => LOSSES[c.entry()],
            Case::Step(_) => "training_step",
            Case::Reverse(_) => "training_step_backward",
            Case::Formula(c) => FORMULAS[c.number],
            Case::Row(_) => "check_row",
            Case::Filling(_) => "check_and_fill_parameters",
            Case::Kernel(c) => KERNELS[c.number],
            Case::Penalty(_) => "l2_penalty",
            Case::Initial(_) => "initial_stability",
            Case::File(_) => "batch_file",
        }
    }
}

// ---- outcomes

/// Numbers that a call writes or was lent, as patterns. What has to be as it was is `kept`: there a NaN's payload counts.
pub struct Part {
    pub name: &'static str,
    pub is_double: bool,
    pub bits: Vec<u64>,
    pub kept: Vec<bool>,
}

impl Part {
    pub fn singles(name: &'static str, xs: impl IntoIterator<Item = f32>) -> Part {
        Part::of(name, false, xs.into_iter().map(|x| x.to_bits() as u64).collect())
    }

    pub fn doubles(name: &'static str, xs: impl IntoIterator<Item = f64>) -> Part {
        Part::of(name, true, xs.into_iter().map(f64::to_bits).collect())
    }

    pub fn of(name: &'static str, is_double: bool, bits: Vec<u64>) -> Part {
        let kept = vec![false; bits.len()];
        Part { name, is_double, bits, kept }
    }

    pub fn untouched(mut self) -> Part {
        self.kept.fill(true);
        self
    }

    pub fn put(&mut self, i: usize, bits: u64) {
        self.bits[i] = bits;
        self.kept[i] = false;
    }

    /// The pattern, one for every NaN.
    pub fn plain(&self, i: usize) -> u64 {
        plain_bits(self.is_double, self.bits[i])
    }
}

pub fn plain_bits(is_double: bool, bits: u64) -> u64 {
    if is_double {
        if f64::from_bits(bits).is_nan() { 0x7ff8000000000000 } else { bits }
    } else if f32::from_bits(bits as u32).is_nan() {
        0x7fc00000
    } else {
        bits
    }
}

/// What a call gave: the refusal's number, and all that was lent to it afterwards.
pub struct Outcome {
    pub refusal: u32,
    pub parts: Vec<Part>,
}

impl Outcome {
    pub fn part(&self, name: &str) -> &Part {
        self.parts.iter().find(|p| p.name == name).expect(name)
    }
}
