//! The calls beside the marking (01, "Beside the marking").

use super::answer::{ARGUMENT, Answer, Fault, Refusal, Sheet};
use super::certificate::{Claim, Group, Hypotheses, Hypothesis};
use super::joint::{self, JointSwitch};
use super::limits::{Limits, open_model};
use super::pairs::open_second;

/// Which obligation a number stands for. The layout is that of the C interface.
#[derive(Clone, Copy, Debug, Default, PartialEq, Eq)]
#[repr(C)]
pub struct Which {
    pub number: u32,
    pub sheet: u32,
    pub place: u32,
    /// 0 start, 1 flow, 2 unsafe, 3 jump.
    pub kind: u32,
    /// The location, or the number of the joint switch.
    pub subject: u32,
    /// The region row, or the unsafe condition.
    pub line: u32,
}

/// The row of one hypothesis. The layout is that of the C interface.
#[derive(Clone, Copy, Debug, Default, PartialEq, Eq)]
#[repr(C)]
pub struct HypothesisRow {
    pub number: u32,
    pub sheet: u32,
    pub place: u32,
    /// The row's bytes, 0 for a row in no sheet.
    pub size: u32,
    /// 0 initial, 1 region, 2 invariant on x, 3 unsafe, 4 invariant on x', 5 flow, 6 time, 7 jump, 8 staying.
    pub role: u32,
    /// The component, or the variable that stays.
    pub owner: u32,
}

/// Fills the table with the joint switches in order. A refusal writes nothing, and later records keep their content.
pub fn joint_list(model: &[u8], table: &mut [JointSwitch], limits: Limits) -> Answer {
    let length = model.len();
    let model = match open_model(model, limits) {
        Ok(model) => model,
        Err((sheet, refusal)) => return Answer::refused(refusal, sheet, 0, 0),
    };
    match table.get_mut(..model.joint_count) {
        Some(records) => {
            records.copy_from_slice(&joint::list(&model));
            Answer::accepted(Sheet::Model, length, model.joint_count, 0)
        }
        None => Answer::refused(Refusal::new(Fault::Short, model.joint_count), Sheet::Call, 0, 0),
    }
}

/// The bytes of one hypothesis in the sheet that holds it, and the sister call's answer.
pub fn show_row<'a>(model: &'a [u8], second: &'a [u8], obligation: u32, hypothesis: u32, limits: Limits) -> (Answer, &'a [u8]) {
    let sheets = [model, second];
    let shown = with_claim(model, second, limits, |claim| {
        let found = find_hypothesis(claim, obligation, hypothesis)?;
        Ok((found.sheet, found.place, found.length))
    });
    match shown {
        Ok((sheet, place, 0)) => (Answer::accepted(sheet, place, 0, 0), &[]),
        Ok((sheet, place, length)) => (Answer::accepted(sheet, place, 0, 0), &sheets[sheet as usize][place..place + length]),
        Err((sheet, refusal)) => (Answer::refused(refusal, sheet, 0, 0), &[]),
    }
}

/// Where the row of one hypothesis stands, and what it is.
pub fn hypothesis(model: &[u8], second: &[u8], obligation: u32, hypothesis: u32, limits: Limits) -> HypothesisRow {
    let told = with_claim(model, second, limits, |claim| {
        let Hypothesis { role, owner, sheet, place, length, .. } = find_hypothesis(claim, obligation, hypothesis)?;
        let (sheet, place, size) = (sheet as u32, place as u32, length as u32);
        Ok(HypothesisRow { number: 0, sheet, place, size, role: role as u32, owner: owner as u32 })
    });
    told.unwrap_or_else(|(sheet, refusal)| {
        let (number, sheet, place) = (refusal.fault as u32, sheet as u32, refusal.place as u32);
        HypothesisRow { number, sheet, place, ..HypothesisRow::default() }
    })
}

/// Tells which obligation a number stands for.
pub fn which(model: &[u8], second: &[u8], obligation: u32, limits: Limits) -> Which {
    let found = with_claim(model, second, limits, |claim| find(claim, obligation));
    match found {
        Ok((group, line)) => {
            // As on every acceptance with two sheets: sheet 1 and its length.
            let (sheet, place) = (Sheet::Second as u32, second.len() as u32);
            Which { number: 0, sheet, place, kind: group.kind as u32, subject: group.subject as u32, line: line as u32 }
        }
        Err((sheet, refusal)) => {
            Which { number: refusal.fault as u32, sheet: sheet as u32, place: refusal.place as u32, ..Which::default() }
        }
    }
}

/// Tests the limits, reads the model and the regions, but no proof, then asks.
fn with_claim<T>(
    model: &[u8],
    second: &[u8],
    limits: Limits,
    ask: impl FnOnce(&Claim) -> Result<T, (Sheet, Refusal)>,
) -> Result<T, (Sheet, Refusal)> {
    let model = open_model(model, limits)?;
    let mut reader = open_second(second, 2, &model).map_err(|refusal| (Sheet::Second, refusal))?;
    let claim = Claim::read(&mut reader, &model).map_err(|refusal| (Sheet::Second, refusal))?;
    ask(&claim)
}

/// One hypothesis of an obligation.
fn find_hypothesis<'a>(claim: &'a Claim, obligation: u32, hypothesis: u32) -> Result<Hypothesis<'a>, (Sheet, Refusal)> {
    let (group, _) = find(claim, obligation)?;
    let mut hypotheses = Hypotheses::default();
    claim.list_hypotheses(&group, &mut hypotheses);
    hypotheses.get(hypothesis as usize).ok_or(ARGUMENT)
}

/// The group and the line of an obligation.
fn find(claim: &Claim, obligation: u32) -> Result<(Group, usize), (Sheet, Refusal)> {
    let mut left = obligation as usize;
    for group in claim.groups() {
        if left < group.lines.len() {
            let line = group.lines.start + left;
            return Ok((group, line));
        }
        left -= group.lines.len();
    }
    Err(ARGUMENT)
}
