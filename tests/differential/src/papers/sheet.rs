//! Sheets as bytes, with the place and range of each field kept beside them.

/// A field: its place, its size in bytes and the values that the format allows there.
#[derive(Clone, Copy, Debug)]
pub struct Field {
    pub place: usize,
    pub size: usize,
    pub low: i64,
    pub high: i64,
}

#[derive(Clone)]
pub struct Sheet {
    pub bytes: Vec<u8>,
    pub fields: Vec<Field>,
    /// Does the body begin with a paper number?
    numbered: bool,
}

pub const MODEL: u8 = 1;
pub const CERTIFICATE: u8 = 2;
pub const RUN: u8 = 3;

/// From this version on the body begins with a paper number (02, order 7).
pub const NUMBERED: u8 = 3;
/// Where the body begins, and the bytes that a paper number takes there.
const BODY: usize = 4;
const NUMBER: usize = 4;

/// Numbers of a row: its coefficients, then its bound.
pub type Row = Vec<i32>;

/// k and (hypothesis, multiplier) entries.
#[derive(Clone, Debug, Default)]
pub struct Proof {
    pub k: u32,
    pub entries: Vec<(u8, u32)>,
}

impl Sheet {
    pub fn new(kind: u8) -> Self {
        let mut sheet = Sheet::of(vec![]);
        sheet.put(2, 0, 0, 65_535);
        sheet.put(1, 1, 1, NUMBERED.into());
        sheet.put(1, kind.into(), kind.into(), kind.into());
        sheet
    }

    /// Bytes whose fields are not known, without a paper number.
    pub fn of(bytes: Vec<u8>) -> Self {
        Sheet { bytes, fields: vec![], numbered: false }
    }

    /// The same bytes but for the version.
    pub fn in_version(mut self, version: u8) -> Self {
        self.bytes[2] = version;
        self
    }

    /// The same sheet in another version: from version 3 on its body begins with this paper number, before it has none.
    pub fn moved(mut self, version: u8, number: u32) -> Self {
        if self.bytes.len() < BODY {
            return self;
        }
        if self.numbered {
            self.take_number();
        }
        if version >= NUMBERED {
            self.put_number(number);
        }
        self.in_version(version)
    }

    /// The paper number, if the body begins with one.
    pub fn number(&self) -> Option<u32> {
        let number = self.bytes.get(BODY..)?.first_chunk()?;
        self.numbered.then(|| u32::from_be_bytes(*number))
    }

    /// Takes out the paper number, or what is there of it. What is behind it comes nearer, and L is less.
    fn take_number(&mut self) {
        let taken = self.bytes.drain(BODY..(BODY + NUMBER).min(self.bytes.len())).len();
        self.fields.retain(|field| field.place != BODY);
        self.fields.iter_mut().filter(|field| field.place > BODY).for_each(|field| field.place -= NUMBER);
        self.set_length(|length| length.wrapping_sub(taken as u16));
        self.numbered = false;
    }

    /// Puts a paper number before the body. What is behind it goes on, and L is more.
    fn put_number(&mut self, number: u32) {
        self.bytes.splice(BODY..BODY, number.to_be_bytes());
        let first = self.fields.partition_point(|field| field.place < BODY);
        self.fields[first..].iter_mut().for_each(|field| field.place += NUMBER);
        self.fields.insert(first, Field { place: BODY, size: NUMBER, low: 0, high: u32::MAX.into() });
        self.set_length(|length| length.wrapping_add(NUMBER as u16));
        self.numbered = true;
    }

    /// Changes L, which need not be right.
    fn set_length(&mut self, change: impl FnOnce(u16) -> u16) {
        let length = change(u16::from_be_bytes([self.bytes[0], self.bytes[1]]));
        self.bytes[..2].copy_from_slice(&length.to_be_bytes());
    }

    /// The same second sheet for a model of this version with this paper number.
    pub fn beside(self, model: u8, number: u32) -> Self {
        self.moved(second_version(model), number)
    }

    /// Writes a field that may hold low to high.
    pub fn put(&mut self, size: usize, value: i64, low: i64, high: i64) {
        self.fields.push(Field { place: self.bytes.len(), size, low, high });
        self.bytes.extend_from_slice(&value.to_be_bytes()[8 - size..]);
    }

    /// Writes a row count and rows.
    pub fn put_rows(&mut self, rows: &[Row], most: i64) {
        self.put(1, rows.len() as i64, 0, most);
        for &number in rows.iter().flatten() {
            self.put(4, number.into(), i32::MIN.into(), i32::MAX.into());
        }
    }

    pub fn put_proof(&mut self, proof: &Proof, unsafe_goal: bool) {
        self.put(4, proof.k.into(), 0, if unsafe_goal { 0 } else { (1 << 24) - 1 });
        self.put(1, proof.entries.len() as i64, 0, 128);
        for &(hypothesis, multiplier) in &proof.entries {
            self.put(1, hypothesis.into(), 0, 128);
            self.put(4, multiplier.into(), 1, (1 << 24) - 1);
        }
    }

    /// The same field with another value.
    pub fn set(&mut self, field: Field, value: i64) {
        self.bytes[field.place..field.place + field.size].copy_from_slice(&value.to_be_bytes()[8 - field.size..]);
    }

    /// The bytes, with L made right.
    pub fn finished(mut self) -> Self {
        fix_length(&mut self.bytes);
        self
    }
}

/// The version of the second sheets of a model.
pub fn second_version(model: u8) -> u8 {
    if model < NUMBERED { 1 } else { model }
}

/// Makes L right.
pub fn fix_length(bytes: &mut [u8]) {
    if bytes.len() >= 2 {
        let length = ((bytes.len() - 2) as u16).to_be_bytes();
        bytes[..2].copy_from_slice(&length);
    }
}
