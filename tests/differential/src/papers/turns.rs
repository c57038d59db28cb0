//! Variables that run in turn: one model in two spellings, of versions 2 and 3, where blanks do not change, and of version 1, with a pair
//! of staying rows for each blank. All allow the same runs, and a certificate for one has as many proofs as for the others. The benchmark
//! compares them.

use super::certificates::short_certificate;
use super::extremes::{Paper, plan};
use super::models::{ANY, Component, Mode, Plan, Switch, row};
use super::runs::{NONE, put_step, run_sheet};
use super::sheet::Row;
use crate::marker::run::Step;

const VARIABLES: usize = 8;
/// Each has as many modes as variables.
const COMPONENTS: usize = 2;
const MODES: usize = VARIABLES / COMPONENTS;
/// No variable goes above it.
const MOST: i32 = 10;
/// As many as fit in a sheet.
const STEPS: usize = 896;
/// Of the sheets of version 3.
const PAPER_NUMBER: u32 = 0x0102_0304;

/// In each mode one variable of the component runs, with rates 0 to 1. The switch to the next mode sets the variable that runs there to 0.
/// All else is blank.
fn turns(unsafe_conditions: Vec<(Vec<u8>, Vec<Row>)>) -> Plan {
    let components = (0..COMPONENTS).map(|number| {
        let running = |mode: usize| MODES * number + mode % MODES;
        let between = |width: usize, place: usize, most: i32| vec![row(width, &[(place, 1)], most), row(width, &[(place, -1)], 0)];
        let modes = (0..MODES).map(|mode| {
            let initial = if mode == 0 { (0..MODES).flat_map(|v| between(VARIABLES, running(v), 0)).collect() } else { vec![] };
            let invariant = between(VARIABLES, running(mode), MOST);
            Mode { start: mode == 0, initial, invariant, flow: between(VARIABLES, running(mode), 1) }
        });
        let switches = (0..MODES).map(|mode| {
            let jump = between(2 * VARIABLES, VARIABLES + running(mode + 1), 0);
            Switch { source: mode as u8, target: ((mode + 1) % MODES) as u8, label: 0, jump }
        });
        Component { alphabet: 0, modes: modes.collect(), switches: switches.collect() }
    });
    let owners = (0..VARIABLES).map(|v| (v / MODES) as u8).collect();
    Plan { paper_number: PAPER_NUMBER, ..plan(owners, components.collect(), unsafe_conditions) }
}

/// The same model with a pair of rows for each blank: rate 0 in a flow, the value before in a jump.
fn written_out(mut plan: Plan) -> Plan {
    for (number, component) in plan.components.iter_mut().enumerate() {
        for v in MODES * number..MODES * (number + 1) {
            for mode in component.modes.iter_mut().filter(|mode| mode.flow.iter().all(|row| row[v] == 0)) {
                mode.flow.extend([row(VARIABLES, &[(v, 1)], 0), row(VARIABLES, &[(v, -1)], 0)]);
            }
            let after = VARIABLES + v;
            for switch in component.switches.iter_mut().filter(|switch| switch.jump.iter().all(|row| row[after] == 0)) {
                switch.jump.extend([row(2 * VARIABLES, &[(after, 1), (v, -1)], 0), row(2 * VARIABLES, &[(v, 1), (after, -1)], 0)]);
            }
        }
    }
    plan
}

fn in_version(version: u8, plan: Plan) -> Plan {
    let plan = if version == 1 { written_out(plan) } else { plan };
    Plan { version, ..plan }
}

/// A certificate that all variables are from 0 to the most; none where a proof is not found.
pub fn certificate(version: u8) -> Option<Paper> {
    let above = (0..VARIABLES).map(|v| (vec![ANY; COMPONENTS], vec![row(VARIABLES, &[(v, -1)], -MOST - 1)]));
    let plan = in_version(version, turns(above.collect()));
    let region = (0..VARIABLES).flat_map(|v| [row(VARIABLES, &[(v, 1)], MOST), row(VARIABLES, &[(v, -1)], 0)]).collect();
    let second = short_certificate(&plan, &vec![region; MODES * MODES])?;
    Some(Paper::new(&format!("turns of version {version}, certificate"), plan.sheet(), second))
}

/// A run that flows and jumps in turn. Each variable runs for two flows, with rate 1.
pub fn run(version: u8) -> Paper {
    let plan = in_version(version, turns(vec![(vec![ANY; COMPONENTS], vec![])]));
    let mut second = run_sheet(1, STEPS, 0, MODES * MODES, &[0; VARIABLES]);
    let (mut modes, mut values) = ([0; COMPONENTS], [0; VARIABLES]);
    for step in 0..STEPS {
        if step % 2 == 0 {
            modes.iter().enumerate().for_each(|(number, mode)| values[MODES * number + mode] += 1);
            put_step(&mut second, &Step::Flow(1), &[MODES; COMPONENTS], &values);
        } else {
            let number = step / 2 % COMPONENTS;
            let mut switches = NONE;
            switches[number] = modes[number] as u8;
            modes[number] = (modes[number] + 1) % MODES;
            values[MODES * number + modes[number]] = 0;
            put_step(&mut second, &Step::Jump(0, switches), &[MODES; COMPONENTS], &values);
        }
    }
    Paper::new(&format!("turns of version {version}, run"), plan.sheet(), plan.paired(second.finished()))
}
