//! The library under test, called as C calls it: slices as pointer and length, structs by value, limits as two numbers.

use crate::marker::Answer;
use crate::marker::HypothesisRow;
use crate::marker::JointSwitch;
use crate::marker::Limits;
use crate::marker::TypedRow;
use crate::marker::Which;

mod entries {
    use super::*;

    unsafe extern "C" {
        pub fn silfoddra_mark_certificate(
            model: *const u8,
            model_length: usize,
            second: *const u8,
            second_length: usize,
            most_locations: u32,
            most_joints: u32,
        ) -> Answer;
        pub fn silfoddra_mark_run(
            model: *const u8,
            model_length: usize,
            second: *const u8,
            second_length: usize,
            most_locations: u32,
            most_joints: u32,
        ) -> Answer;
    }

    unsafe extern "C" {
        pub fn silfoddra_joint_list(
            model: *const u8,
            model_length: usize,
            table: *mut JointSwitch,
            table_length: usize,
            most_locations: u32,
            most_joints: u32,
        ) -> Answer;
    }

    unsafe extern "C" {
        pub fn silfoddra_show_row(
            model: *const u8,
            model_length: usize,
            second: *const u8,
            second_length: usize,
            obligation: u32,
            hypothesis: u32,
            most_locations: u32,
            most_joints: u32,
        ) -> Answer;
        pub fn silfoddra_hypothesis(
            model: *const u8,
            model_length: usize,
            second: *const u8,
            second_length: usize,
            obligation: u32,
            hypothesis: u32,
            most_locations: u32,
            most_joints: u32,
        ) -> HypothesisRow;
        pub fn silfoddra_which_obligation(
            model: *const u8,
            model_length: usize,
            second: *const u8,
            second_length: usize,
            obligation: u32,
            most_locations: u32,
            most_joints: u32,
        ) -> Which;
    }

    unsafe extern "C" {
        pub fn silfoddra_fair_copy(
            model: *const u8,
            length: usize,
            copy: *mut u8,
            copy_length: usize,
            most_locations: u32,
            most_joints: u32,
        ) -> Answer;
    }

    unsafe extern "C" {
        pub fn silfoddra_read_row(text: *const u8, length: usize, variables: u32) -> TypedRow;
    }
}

// Safety, for every call below: the entries read the lent bytes and write the lent table or buffer, and nothing else.

pub fn mark_certificate(model: &[u8], second: &[u8], limits: Limits) -> Answer {
    let Limits { locations, joints } = limits;
    unsafe { entries::silfoddra_mark_certificate(model.as_ptr(), model.len(), second.as_ptr(), second.len(), locations, joints) }
}

pub fn mark_run(model: &[u8], second: &[u8], limits: Limits) -> Answer {
    let Limits { locations, joints } = limits;
    unsafe { entries::silfoddra_mark_run(model.as_ptr(), model.len(), second.as_ptr(), second.len(), locations, joints) }
}

pub fn joint_list(model: &[u8], table: &mut [JointSwitch], limits: Limits) -> Answer {
    let Limits { locations, joints } = limits;
    unsafe { entries::silfoddra_joint_list(model.as_ptr(), model.len(), table.as_mut_ptr(), table.len(), locations, joints) }
}

/// The sister of show row: the answer without the bytes.
pub fn show_row(model: &[u8], second: &[u8], obligation: u32, hypothesis: u32, limits: Limits) -> Answer {
    let (m, s, Limits { locations, joints }) = (model, second, limits);
    unsafe { entries::silfoddra_show_row(m.as_ptr(), m.len(), s.as_ptr(), s.len(), obligation, hypothesis, locations, joints) }
}

pub fn hypothesis(model: &[u8], second: &[u8], obligation: u32, hypothesis: u32, limits: Limits) -> HypothesisRow {
    let (m, s, Limits { locations, joints }) = (model, second, limits);
    unsafe { entries::silfoddra_hypothesis(m.as_ptr(), m.len(), s.as_ptr(), s.len(), obligation, hypothesis, locations, joints) }
}

pub fn which(model: &[u8], second: &[u8], obligation: u32, limits: Limits) -> Which {
    let (m, s, Limits { locations, joints }) = (model, second, limits);
    unsafe { entries::silfoddra_which_obligation(m.as_ptr(), m.len(), s.as_ptr(), s.len(), obligation, locations, joints) }
}

pub fn fair_copy(model: &[u8], copy: &mut [u8], limits: Limits) -> Answer {
    let Limits { locations, joints } = limits;
    unsafe { entries::silfoddra_fair_copy(model.as_ptr(), model.len(), copy.as_mut_ptr(), copy.len(), locations, joints) }
}

pub fn read_row(text: &[u8], variables: u32) -> TypedRow {
    unsafe { entries::silfoddra_read_row(text.as_ptr(), text.len(), variables) }
}
