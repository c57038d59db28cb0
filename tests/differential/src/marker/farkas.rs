//! Rows and proofs (01, "Certificate"): a proof multiplies hypotheses and adds them up to a multiple of the goal. Nothing here knows of
//! sheets. All sums fit 64 bits: 128 entries, multipliers below 2^24 and numbers of at most 2^31 give less than 2^62 + 2^55.

use super::answer::Fault;

/// a·x ≤ b.
#[derive(Clone, Copy)]
pub struct Row<'a> {
    pub coefficients: &'a [i32],
    pub bound: i32,
}

impl<'a> Row<'a> {
    /// The coefficients, then the bound.
    pub fn new(numbers: &'a [i32]) -> Self {
        let (bound, coefficients) = numbers.split_last().expect("a row has a bound");
        Row { coefficients, bound: *bound }
    }

    /// a·values ≤ b·scale, with the values in the order of the coefficients.
    pub fn holds(&self, values: impl IntoIterator<Item = i64>, scale: i64) -> bool {
        let sum: i64 = self.coefficients.iter().zip(values).map(|(&a, p)| i64::from(a) * p).sum();
        sum <= i64::from(self.bound) * scale
    }
}

/// How a hypothesis is made of the unknowns x, x' and d.
#[derive(Clone, Copy)]
pub enum Form<'a> {
    /// A row on x.
    Before(Row<'a>),
    /// A row on x'.
    After(Row<'a>),
    /// A row on x and x' together.
    Both(Row<'a>),
    /// A flow row: a·(x' − x) ≤ b·d.
    Rate(Row<'a>),
    /// −d ≤ 0.
    TimePasses,
    /// x' − x ≤ 0 at one variable.
    NotRaised(usize),
    /// x − x' ≤ 0 at one variable.
    NotLowered(usize),
}

/// The unknowns are x in 0..8, x' in 8..16 and d in 16, so their places do not depend on the number of variables.
const AFTER: usize = 8;
const TIME: usize = 16;

/// The sum of multiplied rows, less k times the goal.
pub struct Sum {
    coefficients: [i64; 17],
    bound: i64,
}

impl Sum {
    pub fn new() -> Self {
        Sum { coefficients: [0; 17], bound: 0 }
    }

    pub fn add(&mut self, multiplier: i64, form: Form) {
        match form {
            Form::Before(row) => {
                self.add_at(0, multiplier, row.coefficients);
                self.bound += multiplier * i64::from(row.bound);
            }
            Form::After(row) => {
                self.add_at(AFTER, multiplier, row.coefficients);
                self.bound += multiplier * i64::from(row.bound);
            }
            Form::Both(row) => {
                let (before, after) = row.coefficients.split_at(row.coefficients.len() / 2);
                self.add_at(0, multiplier, before);
                self.add_at(AFTER, multiplier, after);
                self.bound += multiplier * i64::from(row.bound);
            }
            Form::Rate(row) => {
                self.add_at(0, -multiplier, row.coefficients);
                self.add_at(AFTER, multiplier, row.coefficients);
                self.coefficients[TIME] -= multiplier * i64::from(row.bound);
            }
            Form::TimePasses => self.coefficients[TIME] -= multiplier,
            Form::NotRaised(variable) => {
                self.coefficients[AFTER + variable] += multiplier;
                self.coefficients[variable] -= multiplier;
            }
            Form::NotLowered(variable) => {
                self.coefficients[variable] += multiplier;
                self.coefficients[AFTER + variable] -= multiplier;
            }
        }
    }

    fn add_at(&mut self, first: usize, multiplier: i64, coefficients: &[i32]) {
        for (sum, &a) in self.coefficients[first..].iter_mut().zip(coefficients) {
            *sum += multiplier * i64::from(a);
        }
    }

    /// The coefficients of x, x' and d, and the bound.
    pub fn parts(&self) -> ([i64; 17], i64) {
        (self.coefficients, self.bound)
    }

    /// Tests a whole proof: `self` is the sum of its entries. A goal without a row has all coefficients 0, and k is 0 with it.
    pub fn proves(mut self, k: u32, goal: Option<Form>) -> Result<(), Fault> {
        if let Some(goal) = goal {
            self.add(-i64::from(k), goal);
        }
        if self.coefficients.iter().any(|&sum| sum != 0) {
            return Err(Fault::Coefficients);
        }
        let enough = if k == 0 { self.bound < 0 } else { self.bound <= 0 };
        if enough { Ok(()) } else { Err(Fault::Bound) }
    }
}

impl Default for Sum {
    fn default() -> Self {
        Sum::new()
    }
}
