//! Typed rows, written from document 02, order 1, alone. A text is read into steps, in working order, which refuses it as 16; then the
//! steps are worked out, which refuses it as 17.

use super::answer::{Answer, Fault, Refusal, Sheet};

const MOST_BYTES: usize = 255;
const MOST_VARIABLES: usize = 8;

/// The answer, and the row: all zeros in a refusal. The layout is that of the C header.
#[derive(Clone, Copy, Debug, Default, PartialEq, Eq)]
#[repr(C)]
pub struct TypedRow {
    pub answer: Answer,
    pub coefficients: [i32; MOST_VARIABLES],
    pub bound: i32,
}

/// Turns a typed row into a row's numbers.
pub fn read_row(text: &[u8], variables: u32) -> TypedRow {
    match row(text, variables) {
        Ok((coefficients, bound)) => TypedRow { answer: Answer::accepted(Sheet::Call, 0, 0, 0), coefficients, bound },
        Err(refusal) => TypedRow { answer: Answer::refused(refusal, Sheet::Call, 0, 0), ..TypedRow::default() },
    }
}

fn row(text: &[u8], variables: u32) -> Result<([i32; MOST_VARIABLES], i32), Refusal> {
    if !(1..=MOST_VARIABLES as u32).contains(&variables) {
        return Err(Refusal::new(Fault::Range, 0));
    }
    if text.len() > MOST_BYTES {
        return Err(Refusal::new(Fault::Text, MOST_BYTES));
    }
    let steps = Reader::steps(text)?;
    work_out(&steps, variables as usize)
}

/// What a step does with the values that earlier steps have left.
#[derive(Clone, Copy)]
enum Work {
    Number(i64),
    Letter(usize),
    Negate,
    Multiply,
    Add,
    Subtract,
    Collect,
}

struct Step {
    work: Work,
    /// Of the number's first digit, the letter or the operator.
    place: usize,
}

/// Stands at a place in a text. What cannot stand there is refused there, or at the text's end.
struct Reader<'a> {
    text: &'a [u8],
    place: usize,
    steps: Vec<Step>,
}

impl<'a> Reader<'a> {
    /// The steps of a whole row. An operator follows its operands.
    fn steps(text: &'a [u8]) -> Result<Vec<Step>, Refusal> {
        let mut reader = Reader { text, place: 0, steps: vec![] };
        reader.expression()?;
        let place = reader.sign(b'<')?;
        // One sign: no space before its second byte.
        if reader.text.get(reader.place) != Some(&b'=') {
            return reader.refuse();
        }
        reader.place += 1;
        reader.expression()?;
        reader.step(Work::Collect, place);
        if reader.next().is_some() { reader.refuse() } else { Ok(reader.steps) }
    }

    fn refuse<T>(&self) -> Result<T, Refusal> {
        Err(Refusal::new(Fault::Text, self.place))
    }

    fn step(&mut self, work: Work, place: usize) {
        self.steps.push(Step { work, place });
    }

    /// The next byte that is no space.
    fn next(&mut self) -> Option<u8> {
        while self.text.get(self.place) == Some(&b' ') {
            self.place += 1;
        }
        self.text.get(self.place).copied()
    }

    /// Passes a sign, and gives its place.
    fn sign(&mut self, sign: u8) -> Result<usize, Refusal> {
        if self.next() != Some(sign) {
            return self.refuse();
        }
        self.place += 1;
        Ok(self.place - 1)
    }

    fn expression(&mut self) -> Result<(), Refusal> {
        self.term()?;
        loop {
            let work = match self.next() {
                Some(b'+') => Work::Add,
                Some(b'-') => Work::Subtract,
                _ => return Ok(()),
            };
            let place = self.place;
            self.place += 1;
            self.term()?;
            self.step(work, place);
        }
    }

    fn term(&mut self) -> Result<(), Refusal> {
        self.factor()?;
        while self.next() == Some(b'*') {
            let place = self.place;
            self.place += 1;
            self.factor()?;
            self.step(Work::Multiply, place);
        }
        Ok(())
    }

    fn factor(&mut self) -> Result<(), Refusal> {
        let next = self.next();
        let place = self.place;
        match next {
            Some(b'-') => {
                self.place += 1;
                self.factor()?;
                self.step(Work::Negate, place);
            }
            Some(b'(') => {
                self.place += 1;
                self.expression()?;
                self.sign(b')')?;
            }
            Some(letter @ b'a'..=b'h') => {
                self.place += 1;
                self.step(Work::Letter(usize::from(letter - b'a')), place);
            }
            Some(b'0'..=b'9') => {
                let value = self.number();
                self.step(Work::Number(value), place);
            }
            _ => return self.refuse(),
        }
        Ok(())
    }

    /// A run of digits. What is far outside s32 need not be exact.
    fn number(&mut self) -> i64 {
        let mut value = 0;
        while let Some(digit @ b'0'..=b'9') = self.text.get(self.place) {
            value = (10 * value + i64::from(digit - b'0')).min(1 << 40);
            self.place += 1;
        }
        value
    }
}

/// Coefficients, then the number.
type Value = [i64; MOST_VARIABLES + 1];

/// Takes the steps one after the other; the first that fails gives the place.
fn work_out(steps: &[Step], variables: usize) -> Result<([i32; MOST_VARIABLES], i32), Refusal> {
    let mut values: Vec<Value> = vec![];
    for step in steps {
        let refusal = Refusal::new(Fault::Result, step.place);
        let value = result(step.work, variables, &mut values).ok_or(refusal)?;
        if value.iter().any(|&number| i32::try_from(number).is_err()) {
            return Err(refusal);
        }
        values.push(value);
    }
    let row = values.pop().expect("the collecting leaves a row").map(|number| number as i32);
    Ok((*row.first_chunk().expect("eight coefficients"), row[MOST_VARIABLES]))
}

/// What a step gives; none for a letter beyond the variables and for a product of two factors that both have variables.
fn result(work: Work, variables: usize, values: &mut Vec<Value>) -> Option<Value> {
    let mut value = [0; MOST_VARIABLES + 1];
    match work {
        Work::Number(number) => value[MOST_VARIABLES] = number,
        Work::Letter(letter) => value[..variables].get_mut(letter).map(|coefficient| *coefficient = 1)?,
        Work::Negate => value = values.pop()?.map(|number| -number),
        Work::Multiply => value = product(values)?,
        Work::Add => value = pairwise(values, |left, right| left + right)?,
        Work::Subtract => value = pairwise(values, |left, right| left - right)?,
        Work::Collect => {
            value = pairwise(values, |left, right| left - right)?;
            value[MOST_VARIABLES] = -value[MOST_VARIABLES];
        }
    }
    Some(value)
}

fn pairwise(values: &mut Vec<Value>, work: impl Fn(i64, i64) -> i64) -> Option<Value> {
    let (right, left) = (values.pop()?, values.pop()?);
    Some(std::array::from_fn(|i| work(left[i], right[i])))
}

fn product(values: &mut Vec<Value>) -> Option<Value> {
    let (right, left) = (values.pop()?, values.pop()?);
    let is_number = |value: &Value| value[..MOST_VARIABLES] == [0; MOST_VARIABLES];
    match (is_number(&left), is_number(&right)) {
        (true, _) => Some(right.map(|number| left[MOST_VARIABLES] * number)),
        (_, true) => Some(left.map(|number| number * right[MOST_VARIABLES])),
        _ => None,
    }
}
