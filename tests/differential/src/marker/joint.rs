//! Joint switches (01, "Model"): which components move together, and in what order the joint switches are listed.

use super::model::{EVENTS, Location, MOST_COMPONENTS, Model, Switch};

/// The number that stands for no switch.
pub const STAYS: u8 = 255;

/// A record of the joint list. The layout is that of the C interface.
#[derive(Clone, Copy, Debug, Default, PartialEq, Eq)]
#[repr(C)]
pub struct JointSwitch {
    pub source: u8,
    pub event: u8,
    pub switches: [u8; MOST_COMPONENTS],
    pub target: u8,
}

impl JointSwitch {
    /// The moving components and their switches.
    pub fn moving<'a>(&'a self, model: &'a Model) -> impl Iterator<Item = (usize, &'a Switch)> {
        let moving = model.components.iter().zip(self.switches).enumerate().filter(|&(_, (_, number))| number != STAYS);
        moving.map(|(at, (component, number))| (at, &component.switches[usize::from(number)]))
    }
}

/// How many joint switches a model has, by multiplying: there may be a million.
pub fn count(model: &Model) -> usize {
    let departures = Departures::of(model);
    model.locations.iter().map(|location| (0..EVENTS).map(|event| departures.joint(model, location, event)).sum::<usize>()).sum()
}

/// All joint switches in order.
pub fn list(model: &Model) -> Vec<JointSwitch> {
    let departures = Departures::of(model);
    let mut joints = Vec::with_capacity(model.joint_count);
    for (number, location) in model.locations.iter().enumerate() {
        for event in 0..EVENTS {
            if departures.joint(model, location, event) == 0 {
                continue;
            }
            let none = JointSwitch { source: number as u8, event: event as u8, switches: [STAYS; MOST_COMPONENTS], target: 0 };
            if event == 0 {
                for component in 0..model.components.len() {
                    list_moves(model, location, 1 << component, none, *location, &mut joints);
                }
            } else {
                list_moves(model, location, model.scope(event), none, *location, &mut joints);
            }
        }
    }
    joints
}

/// Lists the ways in which the components of `scope` move, the lowest first; `joint` and `target` have the moves chosen so far.
fn list_moves(model: &Model, source: &Location, scope: u8, joint: JointSwitch, target: Location, joints: &mut Vec<JointSwitch>) {
    if scope == 0 {
        joints.push(JointSwitch { target: model.number_of(&target) as u8, ..joint });
        return;
    }
    let component = scope.trailing_zeros() as usize;
    for (number, switch) in model.components[component].switches.iter().enumerate() {
        if switch.label == joint.event && switch.source == source[component] {
            let (mut joint, mut target) = (joint, target);
            joint.switches[component] = number as u8;
            target[component] = switch.target;
            list_moves(model, source, scope & (scope - 1), joint, target, joints);
        }
    }
}

/// How many switches leave each mode with each label.
struct Departures {
    counts: [[[u8; EVENTS]; 8]; MOST_COMPONENTS],
    scopes: [u8; EVENTS],
}

impl Departures {
    fn of(model: &Model) -> Self {
        let mut counts = [[[0; EVENTS]; 8]; MOST_COMPONENTS];
        for (component, counts) in model.components.iter().zip(&mut counts) {
            for switch in &component.switches {
                counts[usize::from(switch.source)][usize::from(switch.label)] += 1;
            }
        }
        Departures { counts, scopes: std::array::from_fn(|event| model.scope(event)) }
    }

    /// The joint switches with this event from one location.
    fn joint(&self, model: &Model, location: &Location, event: usize) -> usize {
        let moves = |component: usize| usize::from(self.counts[component][usize::from(location[component])][event]);
        let components = 0..model.components.len();
        if event == 0 {
            components.map(moves).sum()
        } else if self.scopes[event].count_ones() == 0 {
            0
        } else {
            components.filter(|component| self.scopes[event] >> component & 1 == 1).map(moves).product()
        }
    }
}
