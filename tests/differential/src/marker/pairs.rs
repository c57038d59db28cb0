//! Sheets that belong together (02, order 7): the paper number that a body begins with from version 3 on, and which second sheets a model
//! takes.

use super::answer::{Fault, Refusal};
use super::model::Model;
use super::reader::Reader;

/// The first version with a paper number.
const FIRST_VERSION: u8 = 3;
/// Where the version stands, which is the place of 18 where versions do not pair.
const PLACE_OF_VERSION: usize = 2;

/// Reads the paper number, which may be any; none below version 3, where there is no such field.
pub fn paper_number(reader: &mut Reader) -> Result<Option<u32>, Refusal> {
    if reader.version() < FIRST_VERSION { Ok(None) } else { reader.u32(..).map(Some) }
}

/// Do these versions pair? Models of versions 1 and 2 take second sheets of version 1, later ones those of their own version.
fn pair(model: u8, second: u8) -> bool {
    second == if model < FIRST_VERSION { 1 } else { model }
}

/// Opens a second sheet of this kind, and stands behind its paper number: length, version, kind, that the versions pair, then that the
/// paper number is the model's, at its field once it is read.
pub fn open_second<'a>(sheet: &'a [u8], kind: u8, model: &Model) -> Result<Reader<'a>, Refusal> {
    let mut reader = Reader::open(sheet, kind)?;
    if !pair(model.version, reader.version()) {
        return Err(Refusal::new(Fault::Pair, PLACE_OF_VERSION));
    }
    let place = reader.place();
    let number = paper_number(&mut reader)?;
    if number != model.paper_number {
        return Err(Refusal::new(Fault::Pair, place));
    }
    Ok(reader)
}
