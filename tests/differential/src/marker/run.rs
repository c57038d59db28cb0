//! The run sheet and the runs that a model allows (01, "Runs" and "Run sheet").

use super::answer::{Answer, Fault, Refusal, Sheet};
use super::blanks::{ascending, kept_in_flow, kept_in_jump};
use super::joint::{JointSwitch, STAYS};
use super::limits::{Limits, open_model};
use super::model::{EVENTS, Location, MOST_COMPONENTS, Model};
use super::pairs::open_second;
use super::reader::{Condition, Reader};
use std::ops::RangeInclusive;

const SCALE_LIMIT: u32 = 1 << 24;
const VALUES: RangeInclusive<i32> = -(1 << 27)..=1 << 27;
const MOST_STEPS: u16 = 4_095;

/// A location and values p over the run's q; the places after the last variable are 0.
#[derive(Clone, Copy, Debug, PartialEq, Eq)]
pub struct State {
    pub location: Location,
    pub values: [i64; 8],
}

pub enum Step {
    /// A flow with its time.
    Flow(i64),
    /// A jump with its event and switches.
    Jump(u8, [u8; MOST_COMPONENTS]),
}

fn holds(condition: &Condition, state: &State, q: i64) -> bool {
    condition.rows().all(|row| row.holds(state.values, q))
}

pub fn admissible(model: &Model, state: &State, q: i64) -> bool {
    model.modes(&state.location).all(|mode| holds(&mode.invariant, state, q))
}

/// May a run begin here?
pub fn may_begin(model: &Model, state: &State, q: i64) -> bool {
    admissible(model, state, q) && model.modes(&state.location).all(|mode| mode.start && holds(&mode.initial, state, q))
}

pub fn is_unsafe(model: &Model, state: &State, q: i64) -> bool {
    model.unsafe_conditions.iter().any(|condition| condition.fits(&state.location) && holds(&condition.rows, state, q))
}

/// The state that a step leads to with these values after it, if it is allowed.
pub fn after(model: &Model, from: &State, step: &Step, values: [i64; 8], q: i64) -> Option<State> {
    let location = match *step {
        Step::Flow(time) => flow_allowed(model, from, time, &values).then_some(from.location)?,
        Step::Jump(event, switches) => {
            let target = joint_target(model, &from.location, event, &switches)?;
            jump_allowed(model, from, event, switches, &values, q).then_some(target)?
        }
    };
    let state = State { location, values };
    admissible(model, &state, q).then_some(state)
}

fn flow_allowed(model: &Model, from: &State, time: i64, values: &[i64; 8]) -> bool {
    let change: [i64; 8] = std::array::from_fn(|v| values[v] - from.values[v]);
    let kept = ascending(kept_in_flow(model, &from.location)).all(|v| change[v] == 0);
    kept && (time > 0 || change == [0; 8]) && model.modes(&from.location).all(|mode| mode.flow.rows().all(|row| row.holds(change, time)))
}

/// The target of the joint switch with this source, event and switches, if there is one.
fn joint_target(model: &Model, source: &Location, event: u8, switches: &[u8; MOST_COMPONENTS]) -> Option<Location> {
    let moving: u8 = switches.iter().enumerate().map(|(i, &number)| u8::from(number != STAYS) << i).sum();
    let together = if event == 0 { moving.count_ones() == 1 } else { moving != 0 && moving == model.scope(usize::from(event)) };
    if !together {
        return None;
    }
    let mut target = *source;
    for (i, component) in model.components.iter().enumerate().filter(|(i, _)| moving >> i & 1 == 1) {
        let switch = &component.switches[usize::from(switches[i])];
        if switch.label != event || switch.source != source[i] {
            return None;
        }
        target[i] = switch.target;
    }
    Some(target)
}

fn jump_allowed(model: &Model, from: &State, event: u8, switches: [u8; MOST_COMPONENTS], values: &[i64; 8], q: i64) -> bool {
    let joint = JointSwitch { source: 0, event, switches, target: 0 };
    let n = model.variables;
    let both = || from.values[..n].iter().chain(&values[..n]).copied();
    let kept = ascending(kept_in_jump(model, &joint)).all(|v| values[v] == from.values[v]);
    kept && joint.moving(model).all(|(_, switch)| switch.jump.rows().all(|row| row.holds(both(), q)))
}

/// Marks a run sheet: the limits, the model, the start, step by step until one fails, then the end.
pub fn mark_run(model: &[u8], second: &[u8], limits: Limits) -> Answer {
    let model = match open_model(model, limits) {
        Ok(model) => model,
        Err((sheet, refusal)) => return Answer::refused(refusal, sheet, 0, 0),
    };
    let mut done = 0;
    match follow(&model, second, &mut done) {
        Ok(()) => Answer::accepted(Sheet::Second, second.len(), done, 100),
        Err(refusal) => Answer::refused(refusal, Sheet::Second, done, 0),
    }
}

/// Counts in `done` the steps that pass.
fn follow(model: &Model, sheet: &[u8], done: &mut usize) -> Result<(), Refusal> {
    let mut reader = open_second(sheet, 3, model)?;
    let q = i64::from(reader.u32(1..SCALE_LIMIT)?);
    let steps = reader.u16(..=MOST_STEPS)?;
    // The place of 12.
    let place_of_location = reader.place();
    let location = model.locations[usize::from(reader.u8(..model.locations.len() as u8)?)];
    let mut state = State { location, values: read_values(&mut reader, model)? };
    if !may_begin(model, &state, q) {
        return Err(Refusal::new(Fault::Start, place_of_location));
    }
    for _ in 0..steps {
        let place = reader.place();
        let step = read_step(&mut reader, model)?;
        let values = read_values(&mut reader, model)?;
        state = after(model, &state, &step, values, q).ok_or(Refusal::new(Fault::Step, place))?;
        *done += 1;
    }
    reader.finish()?;
    if is_unsafe(model, &state, q) { Ok(()) } else { Err(Refusal::new(Fault::End, sheet.len())) }
}

fn read_values(reader: &mut Reader, model: &Model) -> Result<[i64; 8], Refusal> {
    let mut values = [0; 8];
    for value in &mut values[..model.variables] {
        *value = i64::from(reader.s32(VALUES)?);
    }
    Ok(values)
}

fn read_step(reader: &mut Reader, model: &Model) -> Result<Step, Refusal> {
    if reader.u8(..=1)? == 0 {
        return Ok(Step::Flow(i64::from(reader.u32(..SCALE_LIMIT)?)));
    }
    let event = reader.u8(..EVENTS as u8)?;
    let mut switches = [STAYS; MOST_COMPONENTS];
    for (number, component) in switches.iter_mut().zip(&model.components) {
        *number = reader.u8_or_none(component.switches.len())?.unwrap_or(STAYS);
    }
    Ok(Step::Jump(event, switches))
}
