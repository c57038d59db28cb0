//! The model sheet (01, "Model").

use super::answer::{Fault, Refusal};
use super::blanks::{Variables, blanks};
use super::joint;
use super::limits::Limits;
use super::pairs::paper_number;
use super::reader::{Condition, Reader};

pub const MOST_COMPONENTS: usize = 4;
pub const EVENTS: usize = 16;
const MOST_ROWS: u8 = 8;

pub struct Mode {
    pub start: bool,
    pub initial: Condition,
    pub invariant: Condition,
    pub flow: Condition,
    /// What the flow rows do not mention, from version 2 on.
    pub blanks: Variables,
}

pub struct Switch {
    pub source: u8,
    pub target: u8,
    pub label: u8,
    pub jump: Condition,
    /// What the rows do not mention after the jump, from version 2 on.
    pub blanks: Variables,
}

pub struct Component {
    /// The variables that it owns.
    pub own: Variables,
    pub alphabet: u16,
    pub modes: Vec<Mode>,
    pub switches: Vec<Switch>,
}

pub struct UnsafeCondition {
    /// One for each component; none means any mode.
    pub modes: Vec<Option<u8>>,
    pub rows: Condition,
}

/// One mode for each component; the places after the last component are 0.
pub type Location = [u8; MOST_COMPONENTS];

pub struct Model {
    pub version: u8,
    /// From version 3 on.
    pub paper_number: Option<u32>,
    pub variables: usize,
    /// Each variable's component.
    pub owners: Vec<u8>,
    pub components: Vec<Component>,
    pub unsafe_conditions: Vec<UnsafeCondition>,
    /// All locations, by number.
    pub locations: Vec<Location>,
    /// How many joint switches there are.
    pub joint_count: usize,
}

impl Model {
    /// Reads a model to its end, with bytes left, then 7 and 8 by these limits, whose own ranges are not tested here.
    pub fn read(sheet: &[u8], limits: Limits) -> Result<Self, Refusal> {
        let mut reader = Reader::open(sheet, 1)?;
        let paper_number = paper_number(&mut reader)?;
        // The place of 7 and 8.
        let place_of_n = reader.place();
        let variables = usize::from(reader.u8(1..=8)?);
        let component_count = reader.u8(1..=MOST_COMPONENTS as u8)?;
        let unsafe_count = reader.u8(..=16)?;
        let owners = (0..variables).map(|_| reader.u8(..component_count)).collect::<Result<Vec<_>, _>>()?;
        let components = (0..component_count)
            .map(|number| read_component(&mut reader, variables, owned_by(number, &owners)))
            .collect::<Result<Vec<_>, _>>()?;
        let unsafe_conditions =
            (0..unsafe_count).map(|_| read_unsafe_condition(&mut reader, variables, &components)).collect::<Result<_, _>>()?;
        reader.finish()?;

        let location_count: usize = components.iter().map(|component| component.modes.len()).product();
        if location_count > limits.locations as usize {
            return Err(Refusal::new(Fault::Locations, place_of_n));
        }
        let locations = (0..location_count).map(|number| location(&components, number)).collect();
        let version = reader.version();
        let mut model = Model { version, paper_number, variables, owners, components, unsafe_conditions, locations, joint_count: 0 };
        model.joint_count = joint::count(&model);
        if model.joint_count > limits.joints as usize {
            return Err(Refusal::new(Fault::JointSwitches, place_of_n));
        }
        Ok(model)
    }

    /// All conditions, as they follow each other in the sheet.
    pub fn conditions(&self) -> Vec<&Condition> {
        let mut conditions = vec![];
        for component in &self.components {
            for mode in &component.modes {
                conditions.extend([&mode.initial, &mode.invariant, &mode.flow]);
            }
            conditions.extend(component.switches.iter().map(|switch| &switch.jump));
        }
        conditions.extend(self.unsafe_conditions.iter().map(|condition| &condition.rows));
        conditions
    }

    /// The number of a location.
    pub fn number_of(&self, location: &Location) -> usize {
        self.components.iter().zip(location).fold(0, |number, (component, &mode)| number * component.modes.len() + usize::from(mode))
    }

    /// The modes of a location, by component.
    pub fn modes<'a>(&'a self, location: &'a Location) -> impl Iterator<Item = &'a Mode> {
        self.components.iter().zip(location).map(|(component, &mode)| &component.modes[usize::from(mode)])
    }

    pub fn starts_in(&self, location: &Location) -> bool {
        self.modes(location).all(|mode| mode.start)
    }

    /// The components whose alphabet has the event, as a mask with bit i for component i.
    pub fn scope(&self, event: usize) -> u8 {
        self.components.iter().enumerate().map(|(i, component)| u8::from(component.alphabet >> event & 1 == 1) << i).sum()
    }
}

impl UnsafeCondition {
    pub fn fits(&self, location: &Location) -> bool {
        self.modes.iter().zip(location).all(|(fit, &mode)| fit.is_none_or(|fit| fit == mode))
    }
}

fn owned_by(component: u8, owners: &[u8]) -> Variables {
    owners.iter().enumerate().map(|(variable, &owner)| Variables::from(owner == component) << variable).sum()
}

fn read_component(reader: &mut Reader, variables: usize, own: Variables) -> Result<Component, Refusal> {
    let place = reader.place();
    let alphabet = reader.u16(..)?;
    if alphabet & 1 == 1 {
        return Err(Refusal::new(Fault::Range, place));
    }
    let mode_count = reader.u8(1..=8)?;
    let switch_count = reader.u8(..=32)?;
    let modes = (0..mode_count).map(|_| read_mode(reader, variables)).collect::<Result<_, _>>()?;
    let switches = (0..switch_count).map(|_| read_switch(reader, variables, alphabet, mode_count)).collect::<Result<_, _>>()?;
    Ok(Component { own, alphabet, modes, switches })
}

fn read_mode(reader: &mut Reader, variables: usize) -> Result<Mode, Refusal> {
    let start = reader.u8(..=1)? == 1;
    let initial = reader.condition(if start { MOST_ROWS } else { 0 }, variables)?;
    let invariant = reader.condition(MOST_ROWS, variables)?;
    let flow = reader.condition(MOST_ROWS, variables)?;
    let blanks = blanks(reader.version(), &flow, 0..variables);
    Ok(Mode { start, initial, invariant, flow, blanks })
}

fn read_switch(reader: &mut Reader, variables: usize, alphabet: u16, modes: u8) -> Result<Switch, Refusal> {
    let source = reader.u8(..modes)?;
    let target = reader.u8(..modes)?;
    let place = reader.place();
    let label = reader.u8(..EVENTS as u8)?;
    if label > 0 && alphabet >> label & 1 == 0 {
        return Err(Refusal::new(Fault::Label, place));
    }
    let jump = reader.condition(MOST_ROWS, 2 * variables)?;
    let blanks = blanks(reader.version(), &jump, variables..2 * variables);
    Ok(Switch { source, target, label, jump, blanks })
}

fn read_unsafe_condition(reader: &mut Reader, variables: usize, components: &[Component]) -> Result<UnsafeCondition, Refusal> {
    let modes = components.iter().map(|component| reader.u8_or_none(component.modes.len())).collect::<Result<_, _>>()?;
    let rows = reader.condition(MOST_ROWS, variables)?;
    Ok(UnsafeCondition { modes, rows })
}

/// Component 0 is the most significant digit of a location's number.
fn location(components: &[Component], mut number: usize) -> Location {
    let mut location = [0; MOST_COMPONENTS];
    for (mode, component) in location.iter_mut().zip(components).rev() {
        *mode = (number % component.modes.len()) as u8;
        number /= component.modes.len();
    }
    location
}
