//! Papers made of other papers by one change.

use super::pairs::{VERSIONS, other_number, random_number};
use super::random::Random;
use super::sheet::{Field, NUMBERED, Sheet, fix_length};

#[derive(Clone, Copy, Debug, PartialEq, Eq)]
pub enum Damage {
    /// One byte is another.
    Byte,
    /// One field has another value, often one at the end of some range.
    Field,
    /// One field is at or beside the end of its own range.
    Ends,
    /// One number is one more or one less.
    Number,
    /// The end is missing.
    Cut,
    /// There are more bytes.
    Added,
    /// The version is another; the body as it was, or that of the version, with a paper number or without.
    Version,
    /// The paper number is another, often in one byte, or is missing; or there is one where the version has none.
    Paper,
}

pub const ALL: [Damage; 8] =
    [Damage::Byte, Damage::Field, Damage::Ends, Damage::Number, Damage::Cut, Damage::Added, Damage::Version, Damage::Paper];

/// The sheet with this damage.
pub fn damaged(random: &mut Random, sheet: &Sheet, damage: Damage) -> Sheet {
    let mut sheet = sheet.clone();
    match damage {
        Damage::Byte => {
            let place = random.below(sheet.bytes.len());
            sheet.bytes[place] = if random.one_in(2) { random.draw() as u8 } else { sheet.bytes[place] ^ (1 << random.below(8)) };
        }
        Damage::Field => {
            let field = pick_field(random, &sheet);
            let value = *random.pick(&[
                0,
                1,
                2,
                8,
                9,
                16,
                17,
                32,
                33,
                128,
                129,
                254,
                255,
                4_095,
                4_096,
                (1 << 24) - 1,
                1 << 24,
                1 << 27,
                (1 << 27) + 1,
                -(1 << 27),
                -(1 << 27) - 1,
                i64::from(i32::MAX),
                i64::from(i32::MIN),
                -1,
            ]);
            sheet.set(field, value);
        }
        Damage::Ends => {
            let field = pick_field(random, &sheet);
            let value = *random.pick(&[field.low, field.low - 1, field.high, field.high + 1]);
            sheet.set(field, value);
        }
        Damage::Number => {
            let field = pick_field(random, &sheet);
            let last = field.place + field.size - 1;
            sheet.bytes[last] = if random.one_in(2) { sheet.bytes[last].wrapping_add(1) } else { sheet.bytes[last].wrapping_sub(1) };
        }
        Damage::Cut => {
            // Now and then in the paper number, or where there would be one, or right behind it.
            let length = if random.one_in(6) { 4 + random.below(5) } else { random.below(sheet.bytes.len()) };
            let length = length.min(sheet.bytes.len() - 1);
            sheet.bytes.truncate(length);
            sheet.fields.retain(|field| field.place + field.size <= length);
            if !random.one_in(4) {
                fix_length(&mut sheet.bytes);
            }
        }
        Damage::Added => {
            for _ in 0..1 + random.below(9) {
                sheet.bytes.push(random.below(3) as u8);
            }
            if !random.one_in(4) {
                fix_length(&mut sheet.bytes);
            }
        }
        Damage::Version => {
            let versions = VERSIONS.into_iter().filter(|&version| version != sheet.bytes[2]);
            let version = *random.pick(&versions.collect::<Vec<u8>>());
            let number = sheet.number().unwrap_or(random_number(random));
            sheet = if random.one_in(2) { sheet.in_version(version) } else { sheet.moved(version, number) };
        }
        Damage::Paper => {
            let version = sheet.bytes[2];
            sheet = match sheet.number() {
                Some(number) if !random.one_in(6) => sheet.moved(NUMBERED, other_number(random, number)),
                Some(_) => sheet.moved(1, 0),
                None => sheet.moved(NUMBERED, random_number(random)),
            };
            sheet = sheet.in_version(version);
        }
    }
    sheet
}

/// The head is hit now and then, the body mostly.
fn pick_field(random: &mut Random, sheet: &Sheet) -> Field {
    let first = if random.one_in(10) { 0 } else { 3.min(sheet.fields.len() - 1) };
    sheet.fields[first + random.below(sheet.fields.len() - first)]
}

/// Bytes behind a good header of this version, and of this paper number from version 3 on, mostly small.
pub fn random_bytes(random: &mut Random, kind: u8, version: u8, number: u32) -> Sheet {
    let length = match random.below(10) {
        0 => random.below(5),
        1 => 32_760 + random.below(12),
        2 => random.below(2_000),
        _ => 4 + random.below(120),
    };
    let mut sheet = Sheet::of(vec![]);
    let small = random.below(4);
    for _ in 0..length {
        let byte = if random.below(4) < small { random.draw() as u8 } else { random.below(3) as u8 };
        sheet.bytes.push(byte);
    }
    if length >= 4 && !random.one_in(8) {
        sheet.bytes[3] = kind;
        sheet = sheet.moved(version, number);
    }
    if !random.one_in(8) {
        fix_length(&mut sheet.bytes);
    }
    sheet
}
