//! Runs made by walking through a model: steps that are not allowed are not taken.

use super::models::{ANY, Plan, row};
use super::random::Random;
use super::sheet::{RUN, Sheet};
use crate::marker::blanks::{kept_in_flow, kept_in_jump};
use crate::marker::joint::{self, JointSwitch, STAYS};
use crate::marker::run::{State, Step, admissible, after, may_begin};
use crate::marker::{EXAM, Model};

const LARGEST_VALUE: i64 = 1 << 27;

pub struct Walk {
    pub model: Sheet,
    pub second: Sheet,
}

/// The head of a run sheet.
pub fn run_sheet(q: i64, steps: usize, location: usize, locations: usize, values: &[i64]) -> Sheet {
    let mut sheet = Sheet::new(RUN);
    sheet.put(4, q, 1, (1 << 24) - 1);
    sheet.put(2, steps as i64, 0, 4_095);
    sheet.put(1, location as i64, 0, locations as i64 - 1);
    put_values(&mut sheet, values);
    sheet
}

fn put_values(sheet: &mut Sheet, values: &[i64]) {
    for &value in values {
        sheet.put(4, value, -LARGEST_VALUE, LARGEST_VALUE);
    }
}

/// A step and the values after it. `switches` has the number of switches of each component.
pub fn put_step(sheet: &mut Sheet, step: &Step, switches: &[usize], values: &[i64]) {
    match *step {
        Step::Flow(time) => {
            sheet.put(1, 0, 0, 1);
            sheet.put(4, time, 0, (1 << 24) - 1);
        }
        Step::Jump(event, chosen) => {
            sheet.put(1, 1, 0, 1);
            sheet.put(1, event.into(), 0, 15);
            for (number, &count) in chosen.iter().zip(switches) {
                sheet.put(1, (*number).into(), 0, count as i64 - 1);
            }
        }
    }
    put_values(sheet, values);
}

/// A model and a run through it. An unsafe condition that fits the end is added to the model, so that the run is accepted.
pub fn random_run(random: &mut Random, mut plan: Plan, most_steps: usize) -> Option<Walk> {
    let model = Model::read(&plan.sheet().bytes, EXAM).ok()?;
    let n = model.variables;
    let largest = plan.low.iter().chain(&plan.high).map(|bound| i64::from(bound.abs())).max().unwrap_or(0).max(1);
    let q = (*random.pick(&[1, 1, 2, 3, 12, 1_000, (1 << 24) - 1])).min(LARGEST_VALUE / largest);
    let joints = joint::list(&model);
    let switches: Vec<usize> = model.components.iter().map(|component| component.switches.len()).collect();

    let (first, mut state) = (0..20).find_map(|_| {
        let number = random.below(model.locations.len());
        let values = std::array::from_fn(|v| if v < n { i64::from(plan.start[v]) * q } else { 0 });
        let state = State { location: model.locations[number], values };
        may_begin(&model, &state, q).then_some((number, state))
    })?;
    let begin = state;
    let mut steps = vec![];
    for _ in 0..random.below(most_steps + 1) {
        let next = (0..6).find_map(|_| {
            let (step, values) = random_step(random, &plan, &model, &joints, &state, q);
            let values_fit = values.iter().all(|value| value.abs() <= LARGEST_VALUE);
            let next = values_fit.then(|| after(&model, &state, &step, values, q)).flatten()?;
            Some((step, next))
        });
        let Some((step, next)) = next else { break };
        state = next;
        steps.push((step, next));
    }

    let mut second = run_sheet(q, steps.len(), first, model.locations.len(), &begin.values[..n]);
    for (step, state) in &steps {
        put_step(&mut second, step, &switches, &state.values[..n]);
    }
    let second = plan.paired(second.finished());
    if second.bytes.len() > 32_768 {
        return None;
    }
    debug_assert!(admissible(&model, &state, q));
    if plan.unsafe_conditions.len() < 16 {
        plan.unsafe_conditions.push(fitting(random, &state, n, model.components.len(), q));
    }
    Some(Walk { model: plan.sheet(), second })
}

fn random_step(random: &mut Random, plan: &Plan, model: &Model, joints: &[JointSwitch], from: &State, q: i64) -> (Step, [i64; 8]) {
    let here = model.number_of(&from.location);
    let from_here: Vec<&JointSwitch> = joints.iter().filter(|joint| usize::from(joint.source) == here).collect();
    if from_here.is_empty() || random.one_in(2) {
        let time = *random.pick(&[0, 1, 1, 2, q.min(100), q]);
        let kept = kept_in_flow(model, &from.location);
        let values = std::array::from_fn(|v| {
            if v >= model.variables || kept >> v & 1 == 1 {
                return from.values[v];
            }
            let rate = random.between(-2, 2) * i64::from(random.one_in(2));
            let moved = from.values[v] + rate * time;
            if time > 0 { moved.clamp(i64::from(plan.low[v]) * q, i64::from(plan.high[v]) * q) } else { moved }
        });
        return (Step::Flow(time), values);
    }
    let joint = **random.pick(&from_here);
    let kept = kept_in_jump(model, &joint);
    let values = std::array::from_fn(|v| {
        if v >= model.variables || kept >> v & 1 == 1 {
            return from.values[v];
        }
        match random.below(5) {
            0 => i64::from(plan.start[v]) * q,
            1 => random.between(plan.low[v].into(), plan.high[v].into()) * q,
            2 => reset_value(model, &joint, v).map_or(from.values[v], |value| value * q),
            3 => (from.values[v] + random.between(-2, 2) * q).clamp(i64::from(plan.low[v]) * q, i64::from(plan.high[v]) * q),
            _ => from.values[v],
        }
    });
    (Step::Jump(joint.event, joint.switches), values)
}

/// A bound that a jump row puts on one variable afterwards.
fn reset_value(model: &Model, joint: &JointSwitch, variable: usize) -> Option<i64> {
    joint.moving(model).flat_map(|(_, switch)| switch.jump.rows()).find_map(|row| {
        let only = row.coefficients.iter().enumerate().all(|(i, &a)| (a != 0) == (i == model.variables + variable));
        only.then(|| i64::from(row.bound) / i64::from(row.coefficients[model.variables + variable]))
    })
}

/// An unsafe condition that fits a state, just.
fn fitting(random: &mut Random, state: &State, n: usize, components: usize, q: i64) -> (Vec<u8>, Vec<Vec<i32>>) {
    let modes = state.location[..components].iter().map(|&mode| if random.one_in(2) { ANY } else { mode }).collect();
    let rows = (0..random.below(4))
        .map(|_| {
            let coefficients: Vec<(usize, i32)> = (0..n).map(|v| (v, random.between(-3, 3) as i32)).collect();
            let sum: i64 = coefficients.iter().map(|&(v, a)| i64::from(a) * state.values[v]).sum();
            row(n, &coefficients, (-(-sum).div_euclid(q)) as i32)
        })
        .collect();
    (modes, rows)
}

/// No component moves.
pub const NONE: [u8; 4] = [STAYS; 4];
