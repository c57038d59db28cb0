//! The certificate (01, "Certificate"): regions, obligations, hypotheses, and the marking of proofs.

use super::answer::{Answer, Fault, Refusal, Sheet};
use super::blanks::{Variables, ascending, kept_in_flow, kept_in_jump};
use super::farkas::{Form, Row, Sum};
use super::joint::{self, JointSwitch};
use super::limits::{Limits, open_model};
use super::model::{Mode, Model};
use super::pairs::open_second;
use super::reader::{Condition, Reader};
use std::ops::Range;

const MOST_REGION_ROWS: u8 = 16;
const MOST_ENTRIES: u8 = 128;
/// k and multipliers are below this.
const MULTIPLIER_LIMIT: u32 = 1 << 24;

#[derive(Clone, Copy, Debug, PartialEq, Eq)]
pub enum Kind {
    Start = 0,
    Flow = 1,
    Unsafe = 2,
    Jump = 3,
}

/// Obligations in a row that have the same hypotheses.
pub struct Group {
    pub kind: Kind,
    /// The location, or the number of the joint switch.
    pub subject: usize,
    /// The region's rows (of the target's region after a jump), or the one unsafe condition.
    pub lines: Range<usize>,
}

/// What a row is among the hypotheses.
#[derive(Clone, Copy, Debug, PartialEq, Eq)]
pub enum Role {
    Initial = 0,
    Region = 1,
    InvariantBefore = 2,
    Unsafe = 3,
    InvariantAfter = 4,
    Flow = 5,
    Time = 6,
    Jump = 7,
    Staying = 8,
}

impl Role {
    /// What the row of a condition with this role says of the unknowns.
    fn form(self, row: Row<'_>) -> Form<'_> {
        match self {
            Role::InvariantAfter => Form::After(row),
            Role::Flow => Form::Rate(row),
            Role::Jump => Form::Both(row),
            _ => Form::Before(row),
        }
    }

    /// The sheet that has the conditions with this role.
    fn sheet(self) -> Sheet {
        if self == Role::Region { Sheet::Second } else { Sheet::Model }
    }
}

/// A hypothesis, what it is, and where its row stands.
#[derive(Clone, Copy)]
pub struct Hypothesis<'a> {
    pub form: Form<'a>,
    pub role: Role,
    /// The component that the row is of, or the variable that stays; 0 for a row of neither.
    pub owner: usize,
    pub sheet: Sheet,
    pub place: usize,
    /// The row's bytes, 0 for a row in no sheet.
    pub length: usize,
}

/// The hypotheses of a group, in order: conditions one after the other, then the rows that stand in no sheet.
#[derive(Default)]
pub struct Hypotheses<'a> {
    parts: Vec<Part<'a>>,
    /// For each row of the parts, the part that it is in.
    part_of: Vec<u8>,
    unwritten: Vec<Form<'a>>,
}

/// A condition among the hypotheses.
struct Part<'a> {
    /// The number of its first row.
    first: usize,
    condition: &'a Condition,
    role: Role,
    owner: usize,
}

impl<'a> Hypotheses<'a> {
    pub fn len(&self) -> usize {
        self.part_of.len() + self.unwritten.len()
    }

    pub fn is_empty(&self) -> bool {
        self.len() == 0
    }

    pub fn get(&self, number: usize) -> Option<Hypothesis<'a>> {
        let Some(&part) = self.part_of.get(number) else {
            let form = *self.unwritten.get(number - self.part_of.len())?;
            let (role, owner) = match form {
                Form::NotRaised(variable) | Form::NotLowered(variable) => (Role::Staying, variable),
                _ => (Role::Time, 0),
            };
            return Some(Hypothesis { form, role, owner, sheet: Sheet::Call, place: 0, length: 0 });
        };
        let &Part { first, condition, role, owner } = &self.parts[usize::from(part)];
        let line = number - first;
        let (place, length) = (condition.place_of(line), condition.row_length());
        Some(Hypothesis { form: role.form(condition.row(line)), role, owner, sheet: role.sheet(), place, length })
    }

    fn clear(&mut self) {
        self.parts.clear();
        self.part_of.clear();
        self.unwritten.clear();
    }

    fn push(&mut self, role: Role, owner: usize, condition: &'a Condition) {
        if !condition.is_empty() {
            let (number, first) = (self.parts.len() as u8, self.part_of.len());
            self.parts.push(Part { first, condition, role, owner });
            self.part_of.resize(first + condition.len(), number);
        }
    }

    /// A condition of each component's mode.
    fn push_modes(&mut self, role: Role, modes: impl Iterator<Item = &'a Mode>, condition: fn(&Mode) -> &Condition) {
        for (component, mode) in modes.enumerate() {
            self.push(role, component, condition(mode));
        }
    }

    /// The two staying rows of each variable that keeps its value.
    fn push_kept(&mut self, variables: Variables) {
        for variable in ascending(variables) {
            self.unwritten.extend([Form::NotRaised(variable), Form::NotLowered(variable)]);
        }
    }
}

/// A model with a region for each location: what the obligations are made of.
pub struct Claim<'a> {
    pub model: &'a Model,
    pub regions: Vec<Condition>,
    pub joints: Vec<JointSwitch>,
}

impl<'a> Claim<'a> {
    /// Reads the number of locations and the regions, and leaves the reader at the first proof.
    pub fn read(reader: &mut Reader, model: &'a Model) -> Result<Self, Refusal> {
        let locations = model.locations.len() as u8;
        reader.u8(locations..=locations)?;
        let regions = (0..locations).map(|_| reader.condition(MOST_REGION_ROWS, model.variables)).collect::<Result<_, _>>()?;
        Ok(Claim { model, regions, joints: joint::list(model) })
    }

    /// All obligations in order; a group may be empty.
    pub fn groups(&self) -> impl Iterator<Item = Group> {
        let by_location = self.model.locations.iter().enumerate().flat_map(|(subject, location)| {
            let rows = 0..self.regions[subject].len();
            let start = self.model.starts_in(location).then(|| Group { kind: Kind::Start, subject, lines: rows.clone() });
            let flow = Group { kind: Kind::Flow, subject, lines: rows };
            let fitting = self.model.unsafe_conditions.iter().enumerate().filter(|(_, condition)| condition.fits(location));
            let unsafes = fitting.map(move |(line, _)| Group { kind: Kind::Unsafe, subject, lines: line..line + 1 });
            start.into_iter().chain([flow]).chain(unsafes)
        });
        let jumps = self.joints.iter().enumerate().map(|(subject, joint)| {
            let lines = 0..self.regions[usize::from(joint.target)].len();
            Group { kind: Kind::Jump, subject, lines }
        });
        by_location.chain(jumps)
    }

    /// The goal of an obligation; an unsafe one has no row.
    pub fn goal(&self, group: &Group, line: usize) -> Option<Form<'_>> {
        match group.kind {
            Kind::Start => Some(Form::Before(self.regions[group.subject].row(line))),
            Kind::Flow => Some(Form::After(self.regions[group.subject].row(line))),
            Kind::Unsafe => None,
            Kind::Jump => Some(Form::After(self.regions[usize::from(self.joints[group.subject].target)].row(line))),
        }
    }

    /// Makes `hypotheses` those of a group.
    pub fn list_hypotheses<'b>(&'b self, group: &Group, hypotheses: &mut Hypotheses<'b>) {
        hypotheses.clear();
        let model = self.model;
        match group.kind {
            Kind::Start => {
                let location = &model.locations[group.subject];
                hypotheses.push_modes(Role::Initial, model.modes(location), |mode| &mode.initial);
                hypotheses.push_modes(Role::InvariantBefore, model.modes(location), |mode| &mode.invariant);
            }
            Kind::Flow => {
                let location = &model.locations[group.subject];
                hypotheses.push(Role::Region, 0, &self.regions[group.subject]);
                hypotheses.push_modes(Role::InvariantBefore, model.modes(location), |mode| &mode.invariant);
                hypotheses.push_modes(Role::InvariantAfter, model.modes(location), |mode| &mode.invariant);
                hypotheses.push_modes(Role::Flow, model.modes(location), |mode| &mode.flow);
                hypotheses.unwritten.push(Form::TimePasses);
                hypotheses.push_kept(kept_in_flow(model, location));
            }
            Kind::Unsafe => {
                let location = &model.locations[group.subject];
                hypotheses.push(Role::Region, 0, &self.regions[group.subject]);
                hypotheses.push_modes(Role::InvariantBefore, model.modes(location), |mode| &mode.invariant);
                hypotheses.push(Role::Unsafe, 0, &model.unsafe_conditions[group.lines.start].rows);
            }
            Kind::Jump => {
                let joint = &self.joints[group.subject];
                let source = &model.locations[usize::from(joint.source)];
                let target = &model.locations[usize::from(joint.target)];
                hypotheses.push(Role::Region, 0, &self.regions[usize::from(joint.source)]);
                hypotheses.push_modes(Role::InvariantBefore, model.modes(source), |mode| &mode.invariant);
                hypotheses.push_modes(Role::InvariantAfter, model.modes(target), |mode| &mode.invariant);
                joint.moving(model).for_each(|(component, switch)| hypotheses.push(Role::Jump, component, &switch.jump));
                hypotheses.push_kept(kept_in_jump(model, joint));
            }
        }
    }
}

/// Marks a certificate: the limits, the model, the regions, then proof by proof until one fails.
pub fn mark_certificate(model: &[u8], second: &[u8], limits: Limits) -> Answer {
    let model = match open_model(model, limits) {
        Ok(model) => model,
        Err((sheet, refusal)) => return Answer::refused(refusal, sheet, 0, 0),
    };
    let opened = open_second(second, 2, &model).and_then(|mut reader| Ok((Claim::read(&mut reader, &model)?, reader)));
    let (claim, mut reader) = match opened {
        Ok(opened) => opened,
        Err(refusal) => return Answer::refused(refusal, Sheet::Second, 0, 0),
    };
    let obligations = claim.groups().map(|group| group.lines.len()).sum();
    let mut done = 0;
    match mark_proofs(&claim, &mut reader, &mut done) {
        Ok(()) => Answer::accepted(Sheet::Second, second.len(), done, 100),
        Err(refusal) => Answer::refused(refusal, Sheet::Second, done, score(done, obligations).min(99)),
    }
}

/// The percentage, to the nearest whole one, a half to the even one (02, order 5); 100 without obligations.
fn score(done: usize, obligations: usize) -> u32 {
    if obligations == 0 {
        return 100;
    }
    // With half a percent more, rounding down sends halves up, and it was a half where nothing remains. All is doubled to be whole.
    let (part, whole) = (200 * done + obligations, 2 * obligations);
    let up = part / whole;
    let was_half = part % whole == 0;
    (if was_half { up - up % 2 } else { up }) as u32
}

/// Counts in `done` the proofs that pass.
fn mark_proofs(claim: &Claim, reader: &mut Reader, done: &mut usize) -> Result<(), Refusal> {
    let mut hypotheses = Hypotheses::default();
    for group in claim.groups().filter(|group| !group.lines.is_empty()) {
        claim.list_hypotheses(&group, &mut hypotheses);
        for line in group.lines.clone() {
            mark_proof(reader, &hypotheses, claim.goal(&group, line))?;
            *done += 1;
        }
    }
    reader.finish()
}

/// Reads a proof whole, then tests it.
fn mark_proof(reader: &mut Reader, hypotheses: &Hypotheses, goal: Option<Form>) -> Result<(), Refusal> {
    let place = reader.place();
    let k = reader.u32(..if goal.is_some() { MULTIPLIER_LIMIT } else { 1 })?;
    let entries = reader.u8(..=MOST_ENTRIES)?;
    let mut sum = Sum::new();
    let mut least = 0;
    for _ in 0..entries {
        let place = reader.place();
        let number = usize::from(reader.u8(..)?);
        let hypothesis = hypotheses.get(number).ok_or(Refusal::new(Fault::Range, place))?;
        if number < least {
            return Err(Refusal::new(Fault::Order, place));
        }
        least = number + 1;
        let multiplier = reader.u32(1..MULTIPLIER_LIMIT)?;
        sum.add(i64::from(multiplier), hypothesis.form);
    }
    sum.proves(k, goal).map_err(|fault| Refusal::new(fault, place))
}
