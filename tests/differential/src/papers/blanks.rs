//! Models with blanks (02, order 6): variables that the rows of their owner's mode or switch do not mention, while other rows may.

use super::certificates::certificate_sheet;
use super::extremes::{Paper, plan, proof};
use super::models::{ANY, Component, Mode, Plan, Switch, random_plan, row};
use super::pairs::in_any_version;
use super::random::Random;
use super::runs::{NONE, put_step, run_sheet};
use super::sheet::{Row, Sheet};
use crate::marker::run::Step;

const MOST_ROWS: usize = 8;

/// A random model of any version. Most of versions 2 and 3 are given blanks; so are some of version 1, whose runs move them.
pub fn random_plan_of_any_version(random: &mut Random, size: usize) -> Plan {
    let plan = random_plan(random, size);
    let mut plan = in_any_version(random, plan);
    if random.one_in(4) != (plan.version > 1) {
        leave_blanks(random, &mut plan);
    }
    plan
}

/// Takes a component's own variables out of rows of its modes and switches, and puts variables of others in.
fn leave_blanks(random: &mut Random, plan: &mut Plan) {
    let n = plan.variables();
    for (number, component) in plan.components.iter_mut().enumerate() {
        let (own, others): (Vec<usize>, Vec<usize>) = (0..n).partition(|&v| usize::from(plan.owners[v]) == number);
        for mode in &mut component.modes {
            take_out(random, &mut mode.flow, |v| [v].into(), &own);
            put_in(random, &mut mode.flow, &others, |random, v| row(n, &[(v, sign(random))], random.between(0, 2) as i32));
        }
        for switch in &mut component.switches {
            // In every other switch the variables stay as they are before the jump, which does not count.
            let with_before = random.one_in(2);
            take_out(random, &mut switch.jump, |v| if with_before { vec![v, n + v] } else { vec![n + v] }, &own);
            put_in(random, &mut switch.jump, &own, |_, v| row(2 * n, &[(v, 1)], plan.high[v]));
            put_in(random, &mut switch.jump, &others, |random, v| {
                let sign = sign(random);
                row(2 * n, &[(n + v, sign), (v, -sign)], random.between(0, 2) as i32)
            });
        }
    }
}

fn sign(random: &mut Random) -> i32 {
    *random.pick(&[1, -1])
}

/// Takes out all rows, or every other variable at its places. A row that is left with zeros goes too, or is always true.
fn take_out(random: &mut Random, rows: &mut Vec<Row>, places: impl Fn(usize) -> Vec<usize>, variables: &[usize]) {
    if random.one_in(4) {
        rows.clear();
    }
    for place in variables.iter().filter(|_| random.one_in(2)).flat_map(|&v| places(v)) {
        rows.iter_mut().for_each(|row| row[place] = 0);
    }
    rows.retain_mut(|row| {
        let (bound, coefficients) = row.split_last_mut().expect("a row has a bound");
        let zeros = coefficients.iter().all(|&a| a == 0);
        if zeros {
            *bound = 0.max(*bound);
        }
        !zeros || random.one_in(2)
    });
}

/// Puts in a row on one of the variables, or none.
fn put_in(random: &mut Random, rows: &mut Vec<Row>, variables: &[usize], row: impl Fn(&mut Random, usize) -> Row) {
    if !variables.is_empty() && rows.len() < MOST_ROWS && random.one_in(2) {
        let variable = *random.pick(variables);
        rows.push(row(random, variable));
    }
}

/// Papers of version 2 whose answers can be worked out by hand, as version 1 too.
pub fn fixed() -> Vec<Paper> {
    let mut papers = in_each_mode();
    papers.extend(mentioned_by_another());
    papers.extend(mentioned_before());
    papers.extend(two_that_move());
    papers.extend(without_flow_rows());
    papers.extend(in_one_list());
    papers
}

fn paper(name: &str, plan: Plan, second: Sheet) -> Paper {
    Paper::new(name, Plan { version: 2, ..plan }.sheet(), second)
}

/// A run with q 1 from location 0. `switches` has the number of switches of each component.
fn run(first: &[i64], switches: &[usize], steps: &[(Step, &[i64])]) -> Sheet {
    let mut sheet = run_sheet(1, steps.len(), 0, 1, first);
    for (step, values) in steps {
        put_step(&mut sheet, step, switches, values);
    }
    sheet.finished()
}

/// A jump by switch 0 of the first components.
fn jump(event: u8, moving: usize) -> Step {
    let mut switches = NONE;
    switches[..moving].fill(0);
    Step::Jump(event, switches)
}

/// Two rows that give a variable this value, or this rate.
fn exactly(n: usize, v: usize, value: i32) -> Vec<Row> {
    vec![row(n, &[(v, 1)], value), row(n, &[(v, -1)], -value)]
}

fn start(initial: Vec<Row>, flow: Vec<Row>) -> Mode {
    Mode { start: true, initial, invariant: vec![], flow }
}

/// A component of one mode, which may have a switch.
fn component(mode: Mode, switch: Option<(u8, Vec<Row>)>) -> Component {
    let alphabet = switch.as_ref().map_or(0, |&(label, _)| 1 << label & !1);
    let switches = switch.map(|(label, jump)| Switch { source: 0, target: 0, label, jump });
    Component { alphabet, modes: vec![mode], switches: switches.into_iter().collect() }
}

/// x flows in mode 0, where y is blank, y in mode 1, where x is blank; the switch between them has no rows.
fn in_each_mode() -> Vec<Paper> {
    let rates = |v| vec![row(2, &[(v, 1)], 1), row(2, &[(v, -1)], 0)];
    let first = start([exactly(2, 0, 0), exactly(2, 1, 0)].concat(), rates(0));
    let modes = vec![first, Mode { flow: rates(1), ..Mode::default() }];
    let switches = vec![Switch { source: 0, target: 1, label: 0, jump: vec![] }];
    let full = vec![row(2, &[(0, -1)], -3), row(2, &[(1, -1)], -4)];
    let plan = plan(vec![0, 0], vec![Component { alphabet: 0, modes, switches }], vec![(vec![1], full)]);
    let with_values = |name: &str, time: i64, values: [[i64; 2]; 3]| {
        let steps = [(Step::Flow(3), &values[0][..]), (jump(0, 1), &values[1]), (Step::Flow(time), &values[2])];
        paper(&format!("a blank in each mode, {name}"), plan.clone(), run(&[0, 0], &[1], &steps))
    };
    vec![
        with_values("kept", 4, [[3, 0], [3, 0], [3, 4]]),
        with_values("moved in mode 0", 3, [[3, 1], [3, 1], [3, 4]]),
        with_values("moved by the jump", 3, [[3, 0], [3, 1], [3, 4]]),
        with_values("moved in mode 1", 4, [[3, 0], [3, 0], [4, 4]]),
    ]
}

/// Each component's flow row is on the variable of the other.
fn mentioned_by_another() -> Vec<Paper> {
    let least = vec![row(2, &[(0, -1)], -5)];
    let components =
        vec![component(start(least.clone(), vec![row(2, &[(1, 1)], 1)]), None), component(start(vec![], vec![row(2, &[(0, 1)], 1)]), None)];
    let plan = plan(vec![0, 1], components, vec![(vec![ANY; 2], vec![row(2, &[(0, 1)], 4)])]);
    let proofs = [proof(1, &[(0, 1)]), proof(1, &[(0, 1), (5, 1)]), proof(0, &[(0, 1), (1, 1)])];
    let kept = certificate_sheet(&[least], &proofs);
    let moved = run(&[5, 0], &[0; 2], &[(Step::Flow(1), &[4, 0])]);
    vec![paper("mentioned by another, kept", plan.clone(), kept), paper("mentioned by another, moved", plan, moved)]
}

/// The switch has a row on x before the jump, none on x afterwards.
fn mentioned_before() -> Vec<Paper> {
    let guard = vec![row(2, &[(0, -1)], -5)];
    let components = vec![component(start(exactly(1, 0, 5), exactly(1, 0, 0)), Some((0, guard)))];
    let plan = plan(vec![0], components, vec![(vec![0], vec![vec![-1, -6]])]);
    let proofs = [proof(1, &[(0, 1)]), proof(1, &[(0, 1), (1, 1)]), proof(0, &[(0, 1), (1, 1)]), proof(1, &[(0, 1), (2, 1)])];
    let kept = certificate_sheet(&[vec![vec![1, 5]]], &proofs);
    let to = |value: i64| run(&[5], &[1], &[(jump(0, 1), &[value])]);
    vec![
        paper("mentioned before, kept", plan.clone(), kept),
        paper("mentioned before, kept by a run", plan.clone(), to(5)),
        paper("mentioned before, moved", plan, to(6)),
    ]
}

/// Two components move together. The rows of the first are on both variables, the second has none.
fn two_that_move() -> Vec<Paper> {
    let rows = [exactly(4, 2, 1), exactly(4, 3, 3)].concat();
    let most = vec![row(2, &[(1, 1)], 3)];
    let components = vec![
        component(start(vec![], exactly(2, 0, 0)), Some((1, rows))),
        component(start(most.clone(), exactly(2, 1, 0)), Some((1, vec![]))),
    ];
    let safe = plan(vec![0, 1], components, vec![]);
    let reached = Plan { unsafe_conditions: vec![(vec![ANY; 2], vec![row(2, &[(0, -1)], -1)])], ..safe.clone() };
    let proofs = [proof(1, &[(0, 1)]), proof(1, &[(0, 1), (3, 1)]), proof(1, &[(0, 1), (5, 1)])];
    let from = |y: i64| run(&[0, y], &[1; 2], &[(jump(1, 2), &[1, 3])]);
    vec![
        paper("two that move, kept", safe, certificate_sheet(&[most], &proofs)),
        paper("two that move, kept by a run", reached.clone(), from(3)),
        paper("two that move, moved", reached, from(0)),
    ]
}

/// A mode without flow rows, and one with a row of zeros.
fn without_flow_rows() -> Vec<Paper> {
    let with = |name: &str, flow: Vec<Row>| {
        let rows = flow.len() as u8;
        let plan = plan(vec![0], vec![component(start(exactly(1, 0, 0), flow), None)], vec![(vec![0], vec![vec![-1, -1]])]);
        let proofs = [proof(1, &[(0, 1)]), proof(1, &[(0, 1), (2 + rows, 1)]), proof(0, &[(0, 1), (1, 1)])];
        let kept = certificate_sheet(&[vec![vec![1, 0]]], &proofs);
        let moved = run(&[0], &[0], &[(Step::Flow(1), &[1])]);
        [paper(&format!("{name}, kept"), plan.clone(), kept), paper(&format!("{name}, moved"), plan, moved)]
    };
    with("no flow rows", vec![]).into_iter().chain(with("a flow row of zeros", vec![vec![0, 0]])).collect()
}

/// The first component moves and leaves x blank, the second stays with its y: x comes before y. As version 1 the list has y alone.
fn in_one_list() -> Vec<Paper> {
    let most = vec![row(2, &[(1, 1)], 0)];
    let components =
        vec![component(start(vec![], exactly(2, 0, 0)), Some((0, vec![]))), component(start(most.clone(), exactly(2, 1, 0)), None)];
    let plan = plan(vec![0, 1], components, vec![]);
    let with = |staying: u8| {
        let proofs = [proof(1, &[(0, 1)]), proof(1, &[(0, 1), (3, 1)]), proof(1, &[(0, 1), (staying, 1)])];
        paper(&format!("one list, hypothesis {staying}"), plan.clone(), certificate_sheet(std::slice::from_ref(&most), &proofs))
    };
    vec![with(1), with(3)]
}
