//! The fair copy of a model, written from document 02, order 4, alone. The rows of each condition are divided, sorted and kept once; all
//! else stays as it is, and in its order.

use super::answer::{Answer, Fault, Refusal, Sheet};
use super::farkas::Row;
use super::limits::{Limits, open_model};
use super::model::{Component, Model};
use super::reader::Condition;

/// Stands for any mode in an unsafe condition.
const ANY: u8 = 255;

/// Copies a model into a lent buffer. A refusal writes nothing, and bytes past the copy stay.
pub fn fair_copy(model: &[u8], buffer: &mut [u8], limits: Limits) -> Answer {
    let fair = match open_model(model, limits) {
        Ok(read) => fair_sheet([model[2], model[3]], &read),
        Err((sheet, refusal)) => return Answer::refused(refusal, sheet, 0, 0),
    };
    match buffer.get_mut(..fair.len()) {
        Some(copy) => {
            copy.copy_from_slice(&fair);
            Answer::accepted(Sheet::Model, model.len(), fair.len(), 0)
        }
        None => Answer::refused(Refusal::new(Fault::Short, fair.len()), Sheet::Call, 0, 0),
    }
}

/// The sheet with the original's version, kind and paper number, and with the L of the copy.
fn fair_sheet([version, kind]: [u8; 2], model: &Model) -> Vec<u8> {
    let mut copy = vec![0, 0, version, kind];
    copy.extend(model.paper_number.map(u32::to_be_bytes).into_iter().flatten());
    copy.extend([model.variables, model.components.len(), model.unsafe_conditions.len()].map(|count| count as u8));
    copy.extend_from_slice(&model.owners);
    for component in &model.components {
        put_component(&mut copy, component);
    }
    for condition in &model.unsafe_conditions {
        copy.extend(condition.modes.iter().map(|mode| mode.unwrap_or(ANY)));
        put_condition(&mut copy, &condition.rows);
    }
    let length = copy.len() as u16 - 2;
    copy[..2].copy_from_slice(&length.to_be_bytes());
    copy
}

fn put_component(copy: &mut Vec<u8>, component: &Component) {
    copy.extend_from_slice(&component.alphabet.to_be_bytes());
    copy.extend([component.modes.len() as u8, component.switches.len() as u8]);
    for mode in &component.modes {
        copy.push(mode.start.into());
        for condition in [&mode.initial, &mode.invariant, &mode.flow] {
            put_condition(copy, condition);
        }
    }
    for switch in &component.switches {
        copy.extend([switch.source, switch.target, switch.label]);
        put_condition(copy, &switch.jump);
    }
}

fn put_condition(copy: &mut Vec<u8>, condition: &Condition) {
    let rows = fair_rows(condition);
    copy.push(rows.len() as u8);
    copy.extend(rows.iter().flatten().flat_map(|number| number.to_be_bytes()));
}

/// The rows of a condition in the copy: the coefficients of each, then its bound, which is also the order in which they are compared.
pub fn fair_rows(condition: &Condition) -> Vec<Vec<i32>> {
    let mut rows: Vec<Vec<i32>> = condition.rows().filter_map(fair_row).collect();
    rows.sort();
    rows.dedup();
    rows
}

/// A row's numbers in the copy; none for a row that is dropped.
fn fair_row(row: Row) -> Option<Vec<i32>> {
    if row.coefficients.iter().all(|&a| a == 0) {
        return (row.bound < 0).then(|| [row.coefficients, &[-1]].concat());
    }
    let divisor = divisor(row);
    Some(numbers(row).map(|number| (number / divisor) as i32).collect())
}

/// The greatest whole number that divides all numbers of a row, up to 2^31; 0 where all of them are 0.
pub fn divisor(row: Row) -> i64 {
    numbers(row).fold(0, |divisor, number| common_divisor(divisor, number.abs()))
}

/// The coefficients, then the bound.
fn numbers(row: Row) -> impl Iterator<Item = i64> {
    row.coefficients.iter().copied().chain([row.bound]).map(i64::from)
}

fn common_divisor(a: i64, b: i64) -> i64 {
    if b == 0 { a } else { common_divisor(b, a % b) }
}
