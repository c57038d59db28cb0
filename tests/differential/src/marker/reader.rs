//! Fields of a sheet, read left to right (01, "Sheet").

use super::answer::{Fault, Refusal};
use super::farkas::Row;
use std::ops::RangeBounds;

const LONGEST_SHEET: usize = 32_768;
/// The kind of a model sheet.
const MODEL: u8 = 1;

/// Stands at a place in a sheet whose header is good. Each reading method takes one field: a field that is cut is refused at its first
/// byte before its range is looked at.
pub struct Reader<'a> {
    sheet: &'a [u8],
    place: usize,
}

impl<'a> Reader<'a> {
    /// Tests length, version and kind, in this order, and stands at the body.
    pub fn open(sheet: &'a [u8], kind: u8) -> Result<Self, Refusal> {
        if sheet.len() < 4 || sheet.len() > LONGEST_SHEET || usize::from(u16::from_be_bytes([sheet[0], sheet[1]])) + 2 != sheet.len() {
            return Err(Refusal::new(Fault::Length, 0));
        }
        if !versions(kind).contains(&sheet[2]) {
            return Err(Refusal::new(Fault::Version, 2));
        }
        if sheet[3] != kind {
            return Err(Refusal::new(Fault::Kind, 3));
        }
        Ok(Reader { sheet, place: 4 })
    }

    pub fn version(&self) -> u8 {
        self.sheet[2]
    }

    pub fn place(&self) -> usize {
        self.place
    }

    /// The sheet must end here.
    pub fn finish(&self) -> Result<(), Refusal> {
        if self.place == self.sheet.len() { Ok(()) } else { Err(Refusal::new(Fault::Body, self.place)) }
    }

    fn bytes<const N: usize>(&mut self) -> Result<[u8; N], Refusal> {
        let bytes = self.sheet[self.place..].first_chunk().ok_or(Refusal::new(Fault::Body, self.place))?;
        self.place += N;
        Ok(*bytes)
    }

    pub fn u8(&mut self, range: impl RangeBounds<u8>) -> Result<u8, Refusal> {
        let place = self.place;
        let [value] = self.bytes()?;
        within(value, range, place)
    }

    /// A number below `limit`, or 255 for "any" or "stays".
    pub fn u8_or_none(&mut self, limit: usize) -> Result<Option<u8>, Refusal> {
        let place = self.place;
        match self.bytes()? {
            [255] => Ok(None),
            [value] => within(value, ..limit as u8, place).map(Some),
        }
    }

    pub fn u16(&mut self, range: impl RangeBounds<u16>) -> Result<u16, Refusal> {
        let place = self.place;
        within(u16::from_be_bytes(self.bytes()?), range, place)
    }

    pub fn u32(&mut self, range: impl RangeBounds<u32>) -> Result<u32, Refusal> {
        let place = self.place;
        within(u32::from_be_bytes(self.bytes()?), range, place)
    }

    pub fn s32(&mut self, range: impl RangeBounds<i32>) -> Result<i32, Refusal> {
        let place = self.place;
        within(i32::from_be_bytes(self.bytes()?), range, place)
    }

    /// A count of at most `most` rows, then the rows, each of `coefficients` numbers and a bound.
    pub fn condition(&mut self, most: u8, coefficients: usize) -> Result<Condition, Refusal> {
        let count = usize::from(self.u8(..=most)?);
        let width = coefficients + 1;
        let place = self.place;
        let mut numbers = Vec::with_capacity(count * width);
        for _ in 0..count * width {
            numbers.push(self.s32(..)?);
        }
        Ok(Condition { count, width, place, numbers })
    }
}

/// The versions that a sheet of a kind may have: a model 1, 2 and 3, any other 1 and 3 (02, orders 6 and 7).
fn versions(kind: u8) -> &'static [u8] {
    if kind == MODEL { &[1, 2, 3] } else { &[1, 3] }
}

fn within<T: PartialOrd>(value: T, range: impl RangeBounds<T>, place: usize) -> Result<T, Refusal> {
    if range.contains(&value) { Ok(value) } else { Err(Refusal::new(Fault::Range, place)) }
}

/// Rows that must all hold, and where the first of them begins in its sheet.
pub struct Condition {
    count: usize,
    /// Numbers in a row: its coefficients and its bound.
    width: usize,
    place: usize,
    numbers: Vec<i32>,
}

impl Condition {
    pub fn len(&self) -> usize {
        self.count
    }

    pub fn is_empty(&self) -> bool {
        self.count == 0
    }

    pub fn rows(&self) -> impl Iterator<Item = Row<'_>> {
        self.numbers.chunks_exact(self.width).map(Row::new)
    }

    pub fn row(&self, line: usize) -> Row<'_> {
        Row::new(&self.numbers[line * self.width..][..self.width])
    }

    /// The offset of a row's first coefficient.
    pub fn place_of(&self, line: usize) -> usize {
        self.place + 4 * self.width * line
    }

    /// The bytes that each row takes.
    pub fn row_length(&self) -> usize {
        4 * self.width
    }
}
