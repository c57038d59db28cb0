//! Random models that read well: boxes with rates, guards and resets, shared events, and variables of components that stay.

use super::extremes::plan;
use super::random::Random;
use super::sheet::{MODEL, Row, Sheet};
use crate::marker::Model;
use crate::marker::reader::Condition;

#[derive(Clone, Default)]
pub struct Mode {
    pub start: bool,
    pub initial: Vec<Row>,
    pub invariant: Vec<Row>,
    pub flow: Vec<Row>,
}

#[derive(Clone)]
pub struct Switch {
    pub source: u8,
    pub target: u8,
    pub label: u8,
    pub jump: Vec<Row>,
}

#[derive(Clone, Default)]
pub struct Component {
    pub alphabet: u16,
    pub modes: Vec<Mode>,
    pub switches: Vec<Switch>,
}

#[derive(Clone)]
pub struct Plan {
    pub version: u8,
    /// Stands in sheets of version 3.
    pub paper_number: u32,
    pub owners: Vec<u8>,
    pub components: Vec<Component>,
    /// Mode bytes and rows.
    pub unsafe_conditions: Vec<(Vec<u8>, Vec<Row>)>,
    /// A point inside the boxes where runs may begin.
    pub start: Vec<i32>,
    pub low: Vec<i32>,
    pub high: Vec<i32>,
}

pub const ANY: u8 = 255;

/// A row with some coefficients, given as (place, coefficient), and a bound.
pub fn row(width: usize, coefficients: &[(usize, i32)], bound: i32) -> Row {
    let mut numbers = vec![0; width + 1];
    for &(place, coefficient) in coefficients {
        numbers[place] += coefficient;
    }
    numbers[width] = bound;
    numbers
}

fn rows_of(condition: &Condition) -> Vec<Row> {
    condition.rows().map(|row| [row.coefficients, &[row.bound]].concat()).collect()
}

impl Plan {
    /// The plan of a model that was read. It says nothing of where runs begin.
    pub fn of(model: &Model) -> Self {
        let components = model.components.iter().map(|component| {
            let modes = component.modes.iter().map(|mode| {
                let [initial, invariant, flow] = [&mode.initial, &mode.invariant, &mode.flow].map(rows_of);
                Mode { start: mode.start, initial, invariant, flow }
            });
            let switches = component.switches.iter().map(|switch| {
                let jump = rows_of(&switch.jump);
                Switch { source: switch.source, target: switch.target, label: switch.label, jump }
            });
            Component { alphabet: component.alphabet, modes: modes.collect(), switches: switches.collect() }
        });
        let unsafe_conditions = model.unsafe_conditions.iter().map(|condition| {
            let modes = condition.modes.iter().map(|mode| mode.unwrap_or(ANY)).collect();
            (modes, rows_of(&condition.rows))
        });
        let (components, unsafe_conditions) = (components.collect(), unsafe_conditions.collect());
        let (version, owners) = (model.version, model.owners.clone());
        let paper_number = model.paper_number.unwrap_or(0);
        let none = || vec![0; model.variables];
        Plan { version, paper_number, owners, components, unsafe_conditions, start: none(), low: none(), high: none() }
    }

    /// Every condition that may have rows, with the number of coefficients in each row.
    pub fn conditions(&mut self) -> Vec<(usize, &mut Vec<Row>)> {
        let n = self.owners.len();
        let mut conditions = vec![];
        for component in &mut self.components {
            for mode in &mut component.modes {
                if mode.start {
                    conditions.push((n, &mut mode.initial));
                }
                conditions.extend([(n, &mut mode.invariant), (n, &mut mode.flow)]);
            }
            conditions.extend(component.switches.iter_mut().map(|switch| (2 * n, &mut switch.jump)));
        }
        conditions.extend(self.unsafe_conditions.iter_mut().map(|(_, rows)| (n, rows)));
        conditions
    }

    pub fn variables(&self) -> usize {
        self.owners.len()
    }

    pub fn locations(&self) -> usize {
        self.components.iter().map(|component| component.modes.len()).product()
    }

    /// The modes of a location by its number.
    pub fn modes(&self, mut location: usize) -> Vec<usize> {
        let mut modes = vec![0; self.components.len()];
        for (mode, component) in modes.iter_mut().zip(&self.components).rev() {
            *mode = location % component.modes.len();
            location /= component.modes.len();
        }
        modes
    }

    pub fn sheet(&self) -> Sheet {
        let mut sheet = Sheet::new(MODEL);
        sheet.put(1, self.owners.len() as i64, 1, 8);
        sheet.put(1, self.components.len() as i64, 1, 4);
        sheet.put(1, self.unsafe_conditions.len() as i64, 0, 16);
        for &owner in &self.owners {
            sheet.put(1, owner.into(), 0, self.components.len() as i64 - 1);
        }
        for component in &self.components {
            let modes = component.modes.len() as i64;
            sheet.put(2, component.alphabet.into(), 0, 65_534);
            sheet.put(1, modes, 1, 8);
            sheet.put(1, component.switches.len() as i64, 0, 32);
            for mode in &component.modes {
                sheet.put(1, mode.start.into(), 0, 1);
                sheet.put_rows(&mode.initial, if mode.start { 8 } else { 0 });
                sheet.put_rows(&mode.invariant, 8);
                sheet.put_rows(&mode.flow, 8);
            }
            for switch in &component.switches {
                sheet.put(1, switch.source.into(), 0, modes - 1);
                sheet.put(1, switch.target.into(), 0, modes - 1);
                sheet.put(1, switch.label.into(), 0, 15);
                sheet.put_rows(&switch.jump, 8);
            }
        }
        for (modes, rows) in &self.unsafe_conditions {
            for (&mode, component) in modes.iter().zip(&self.components) {
                sheet.put(1, mode.into(), 0, component.modes.len() as i64 - 1);
            }
            sheet.put_rows(rows, 8);
        }
        sheet.finished().moved(self.version, self.paper_number)
    }

    /// A second sheet as one of this model's.
    pub fn paired(&self, second: Sheet) -> Sheet {
        second.beside(self.version, self.paper_number)
    }
}

/// A random model of version 1 with at most `size` of most things (1 to 8).
pub fn random_plan(random: &mut Random, size: usize) -> Plan {
    let variables = 1 + random.below(size);
    let component_count = 1 + random.below(size.min(4));
    let scale = *random.pick(&[1, 1, 1, 1, 7, 1_000, 1 << 16]);
    let low: Vec<i32> = (0..variables).map(|_| random.between(-9, 0) as i32 * scale).collect();
    let high: Vec<i32> = low.iter().map(|low| low + random.between(0, 20) as i32 * scale).collect();
    let start: Vec<i32> = (0..variables).map(|v| random.between(low[v].into(), high[v].into()) as i32).collect();
    let owners = (0..variables).map(|_| random.below(component_count) as u8).collect();
    let mut plan = Plan { version: 1, paper_number: 0, owners, components: vec![], unsafe_conditions: vec![], start, low, high };

    // A small pool of events, so that components share them.
    let pool: Vec<u8> = (0..1 + random.below(3)).map(|_| random.between(1, 15) as u8).collect();
    let mut locations = 1;
    for number in 0..component_count {
        let most_modes = (64 / locations).min(size).min(8);
        let mode_count = 1 + random.below(most_modes);
        locations *= mode_count;
        let component = random_component(random, &plan, number, mode_count, &pool, size);
        plan.components.push(component);
    }
    for _ in 0..random.below(size.min(4) + 1) {
        let condition = random_unsafe(random, &plan);
        plan.unsafe_conditions.push(condition);
    }
    plan
}

/// A model without rows and with many modes and switches, so that both limits, 64 locations and 4,096 joint switches, are met and passed.
pub fn crowded_plan(random: &mut Random) -> Plan {
    let component_count = 1 + random.below(4);
    let shared = random.between(2, 15) as u8;
    let pool = [0, 1, shared, shared, shared, shared];
    let most_modes = *random.pick(&[1, 1, 2, 4, 8]);
    let most_switches = *random.pick(&[4, 16, 32]);
    let components = (0..component_count).map(|_| {
        let mode_count = 1 + random.below(most_modes);
        let alphabet = if random.one_in(3) { 1 << shared } else { 1 << shared | 2 };
        let mode = Mode { start: true, ..Mode::default() };
        let switches = (0..=random.below(most_switches)).map(|_| {
            let label = *random.pick(&pool);
            let label = if alphabet >> label & 1 == 1 { label } else { 0 };
            Switch { source: random.below(mode_count) as u8, target: random.below(mode_count) as u8, label, jump: vec![] }
        });
        Component { alphabet, switches: switches.collect(), modes: vec![mode; mode_count] }
    });
    plan(vec![0], components.collect(), vec![])
}

fn random_component(random: &mut Random, plan: &Plan, number: usize, mode_count: usize, pool: &[u8], size: usize) -> Component {
    let own: Vec<usize> = (0..plan.variables()).filter(|&v| usize::from(plan.owners[v]) == number).collect();
    let labels: Vec<u8> = pool.iter().copied().filter(|_| !random.one_in(3)).collect();
    let mut alphabet = labels.iter().fold(0, |alphabet, label| alphabet | 1 << label);
    if random.one_in(8) {
        alphabet |= 1 << random.between(1, 15);
    }
    let modes = (0..mode_count).map(|mode| random_mode(random, plan, &own, mode)).collect();
    let switches = (0..random.below(size + 1))
        .map(|_| {
            let label = if labels.is_empty() || random.one_in(3) { 0 } else { *random.pick(&labels) };
            let jump = random_jump(random, plan, &own);
            Switch { source: random.below(mode_count) as u8, target: random.below(mode_count) as u8, label, jump }
        })
        .collect();
    Component { alphabet, modes, switches }
}

fn random_mode(random: &mut Random, plan: &Plan, own: &[usize], mode: usize) -> Mode {
    let n = plan.variables();
    let start = mode == 0 || random.one_in(3);
    let (mut initial, mut invariant, mut flow) = (vec![], vec![], vec![]);
    for &v in own {
        let factor = *random.pick(&[1, 1, 1, 2, 3]);
        if start && !random.one_in(4) {
            initial.push(row(n, &[(v, factor)], factor * plan.start[v]));
            initial.push(row(n, &[(v, -1)], -plan.start[v]));
        }
        if !random.one_in(4) {
            invariant.push(row(n, &[(v, factor)], factor * plan.high[v]));
        }
        if !random.one_in(3) {
            invariant.push(row(n, &[(v, -factor)], -factor * plan.low[v]));
        }
        match random.below(5) {
            0 => {}
            1 => flow.extend([row(n, &[(v, 1)], 0), row(n, &[(v, -1)], 0)]),
            2 => flow.push(row(n, &[(v, -1)], -(random.below(2) as i32))),
            3 => flow.push(row(n, &[(v, factor)], random.between(-1, 3) as i32)),
            _ => flow.extend([row(n, &[(v, 1)], 2), row(n, &[(v, -1)], random.between(-1, 2) as i32)]),
        }
    }
    if random.one_in(6) {
        let (v, w) = (random.below(n), random.below(n));
        invariant.push(row(n, &[(v, 1), (w, 1)], plan.high[v] + plan.high[w] + random.below(3) as i32));
    }
    if random.one_in(10) {
        invariant.push(row(n, &[], random.between(-1, 2) as i32));
    }
    if random.one_in(6) {
        let (v, w) = (random.below(n), random.below(n));
        flow.push(row(n, &[(v, 1), (w, -1)], random.between(-1, 2) as i32));
    }
    for rows in [&mut initial, &mut invariant, &mut flow] {
        rows.truncate(8);
    }
    Mode { start, initial, invariant, flow }
}

fn random_jump(random: &mut Random, plan: &Plan, own: &[usize]) -> Vec<Row> {
    let n = plan.variables();
    let mut jump = vec![];
    for &v in own {
        let value = random.between(plan.low[v].into(), plan.high[v].into()) as i32;
        match random.below(7) {
            0 => {}
            1 => jump.push(row(2 * n, &[(v, 1)], value)),
            2 => jump.extend([row(2 * n, &[(n + v, 1)], value), row(2 * n, &[(n + v, -1)], -value)]),
            3 | 4 => jump.extend([row(2 * n, &[(n + v, 1), (v, -1)], 0), row(2 * n, &[(n + v, -1), (v, 1)], 0)]),
            5 => jump.push(row(2 * n, &[(n + v, 1), (v, -1)], random.between(-2, 2) as i32)),
            _ => jump.push(row(2 * n, &[(n + v, -2)], -2 * value)),
        }
    }
    if random.one_in(8) {
        let (v, w) = (random.below(2 * n), random.below(2 * n));
        jump.push(row(2 * n, &[(v, 1), (w, -1)], random.between(-2, 20) as i32));
    }
    if random.one_in(12) {
        jump.push(row(2 * n, &[], random.between(-1, 1) as i32));
    }
    jump.truncate(8);
    jump
}

fn random_unsafe(random: &mut Random, plan: &Plan) -> (Vec<u8>, Vec<Row>) {
    let n = plan.variables();
    let modes =
        plan.components.iter().map(|component| if random.one_in(2) { ANY } else { random.below(component.modes.len()) as u8 }).collect();
    let v = random.below(n);
    let first = match random.below(4) {
        0 => row(n, &[(v, 1)], plan.low[v] - 1),
        1 => row(n, &[(v, 1)], random.between(plan.low[v].into(), plan.high[v].into()) as i32),
        _ => row(n, &[(v, -1)], -plan.high[v] - 1),
    };
    let mut rows = vec![first];
    if random.one_in(3) {
        let v = random.below(n);
        rows.push(row(n, &[(v, 1)], plan.high[v]));
    }
    (modes, rows)
}
