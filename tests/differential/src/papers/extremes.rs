//! Papers at the ends of ranges: document 01's tank, sheets of the greatest length, and the largest counts and numbers. The benchmark
//! uses them too.

use super::certificates::certificate_sheet;
use super::models::{ANY, Component, Mode, Plan, Switch, row};
use super::runs::{NONE, put_step, run_sheet};
use super::sheet::{NUMBERED, Proof, Row, Sheet};
use super::turns;
use crate::marker::run::Step;

pub struct Paper {
    pub name: String,
    pub model: Sheet,
    pub second: Sheet,
}

impl Paper {
    pub(super) fn new(name: &str, model: Sheet, second: Sheet) -> Self {
        Paper { name: name.to_string(), model, second }
    }

    /// The same paper with its two sheets in these versions; from version 3 on they have these paper numbers.
    pub fn moved(&self, versions: [u8; 2], numbers: [u32; 2]) -> Self {
        let [model, second] = [(&self.model, 0), (&self.second, 1)].map(|(sheet, i)| sheet.clone().moved(versions[i], numbers[i]));
        Paper { name: format!("{}, versions {versions:?}, numbers {numbers:?}", self.name), model, second }
    }

    /// The same paper in version 3.
    pub fn numbered(&self, number: u32) -> Self {
        self.moved([NUMBERED; 2], [number; 2])
    }
}

pub(super) fn plan(owners: Vec<u8>, components: Vec<Component>, unsafe_conditions: Vec<(Vec<u8>, Vec<Row>)>) -> Plan {
    let n = owners.len();
    let none = || vec![0; n];
    Plan { version: 1, paper_number: 0, owners, components, unsafe_conditions, start: none(), low: none(), high: none() }
}

pub(super) fn proof(k: u32, entries: &[(u8, u32)]) -> (Proof, bool) {
    (Proof { k, entries: entries.to_vec() }, false)
}

/// Switches from mode 0 to itself.
fn loops(label: u8, count: usize) -> Vec<Switch> {
    vec![Switch { source: 0, target: 0, label, jump: vec![] }; count]
}

/// Document 01's T, with another unsafe bound or with switches.
pub fn tank(unsafe_bound: i32, switches: Vec<Switch>) -> Sheet {
    let mode =
        Mode { start: true, initial: vec![vec![1, 5], vec![-1, -5]], invariant: vec![vec![1, 10]], flow: vec![vec![1, 2], vec![-1, 0]] };
    let component = Component { alphabet: 0, modes: vec![mode], switches };
    plan(vec![0], vec![component], vec![(vec![0], vec![vec![-1, unsafe_bound]])]).sheet()
}

/// Document 01's C, with another region bound.
pub fn tank_certificate(bound: i32) -> Sheet {
    let mut proofs = [proof(1, &[(2, 1)]), proof(1, &[(2, 1)]), proof(0, &[(0, 1), (2, 1)])];
    proofs[2].1 = true;
    certificate_sheet(&[vec![vec![1, bound]]], &proofs)
}

/// A run of T from 5.
pub(super) fn tank_run(first: i64, steps: &[(Step, i64)]) -> Sheet {
    let mut sheet = run_sheet(1, steps.len(), 0, 1, &[first]);
    for (step, value) in steps {
        put_step(&mut sheet, step, &[1], &[*value]);
    }
    sheet.finished()
}

/// Components of one mode whose switches all have event 1, so that the joint switches are the product; x ≤ 10 is kept everywhere.
pub fn products(switches: &[usize]) -> Sheet {
    let components = switches.iter().map(|&count| {
        let mode = Mode { start: true, invariant: vec![vec![1, 10]], ..Mode::default() };
        Component { alphabet: 2, modes: vec![mode], switches: loops(1, count) }
    });
    plan(vec![0], components.collect(), vec![]).sheet()
}

/// A certificate for such a model with one region row, x ≤ 10, and one entry in each proof.
pub fn products_certificate(switches: &[usize]) -> Sheet {
    let c = switches.len() as u8;
    let mut proofs = vec![proof(1, &[(0, 1)]), proof(1, &[(1 + c, 1)])];
    proofs.extend((0..switches.iter().product()).map(|_| proof(1, &[(1 + c, 1)])));
    certificate_sheet(&[vec![vec![1, 10]]], &proofs)
}

/// A certificate of exactly 32,768 bytes, accepted: 14 rows, 464 joint switches, 6,524 proofs, 6 of them with an entry.
pub fn longest_certificate() -> Paper {
    longest_certificate_with(14, [29, 16], 6)
}

/// The region has so many rows, and there is a joint switch for each pair of these switches.
fn longest_certificate_with(rows: usize, switches: [usize; 2], entries: usize) -> Paper {
    let mode = Mode { start: true, invariant: vec![vec![0, 0]], ..Mode::default() };
    let component = |count| Component { alphabet: 2, modes: vec![mode.clone()], switches: loops(1, count) };
    let model = plan(vec![0], switches.map(component).to_vec(), vec![]).sheet();
    let mut proofs = vec![proof(1, &[]); rows * (2 + switches[0] * switches[1])];
    proofs[..entries].fill(proof(1, &[(0, 1)]));
    Paper::new("certificate of 32,768 bytes", model, certificate_sheet(&vec![vec![vec![0, 0]; rows]; 1], &proofs))
}

/// Switches of the longest model.
const SWITCHES: usize = 128;

/// A model of exactly 32,768 bytes with a run of no steps, accepted.
pub fn longest_model() -> Paper {
    longest_model_with("model of 32,768 bytes", [3; 4], SWITCHES)
}

/// The same with rows that differ and have no common divisor, in descending order: its fair copy is as long as it is.
pub fn longest_copy() -> Paper {
    longest_model_with("model of 32,768 bytes, copy too", [i32::MAX, 5, 3, 0], SWITCHES)
}

/// Papers of version 3 with a sheet of exactly 32,768 bytes. To make room for the paper number the certificate has 16 rows, 405 joint
/// switches and 6,512 proofs, 14 of them with an entry; the models have one switch less; the run has two jumps in the place of flows.
pub fn longest_numbered() -> Vec<Paper> {
    let papers = [
        longest_certificate_with(16, [27, 15], 14),
        longest_model_with("model of 32,768 bytes", [3; 4], SWITCHES - 1),
        longest_model_with("model of 32,768 bytes, copy too", [i32::MAX, 5, 3, 0], SWITCHES - 1),
        long_run_with(MOST_STEPS, FLOWS - 2),
    ];
    papers.iter().map(|paper| paper.numbered(0xfedc_ba98)).collect()
}

/// So many switches of four jump rows each, none of which changes in a copy.
pub fn switches_to_copy(switches: usize) -> Paper {
    let jump = [i32::MAX, 5, 3, 0].map(|bound| row(16, &[(0, 1), (8, -1)], bound)).to_vec();
    let mut components = vec![];
    let mut left = switches;
    for _ in 0..4 {
        let mut some = loops(0, left.min(32));
        left -= some.len();
        some.iter_mut().for_each(|switch| switch.jump = jump.clone());
        components.push(Component { alphabet: 0, modes: vec![Mode { start: true, ..Mode::default() }], switches: some });
    }
    let model = plan(vec![0; 8], components, vec![]).sheet();
    Paper::new("switches to copy", model, run_sheet(1, 0, 0, 1, &[0; 8]).finished())
}

/// The bounds are those of the rows in each condition. The last switches have no rows.
fn longest_model_with(name: &str, bounds: [i32; 4], switches: usize) -> Paper {
    let jump = bounds.map(|bound| row(16, &[(0, 1), (8, -1)], bound));
    let mut jump_rows = 472;
    let mut components = vec![];
    for number in 0..4 {
        let mut switches = loops(0, (switches - 32 * number).min(32));
        for switch in &mut switches {
            switch.jump = jump[..jump_rows.min(4)].to_vec();
            jump_rows -= switch.jump.len();
        }
        components.push(Component { alphabet: 0, modes: vec![Mode { start: true, ..Mode::default() }], switches });
    }
    components[3].modes[0].invariant = bounds[..3].iter().map(|&bound| row(8, &[(1, 1)], bound)).collect();
    let model = plan(vec![0; 8], components, vec![(vec![ANY; 4], vec![])]).sheet();
    Paper::new(name, model, run_sheet(1, 0, 0, 1, &[0; 8]).finished())
}

/// The most that a run has, and the flows among them if it fills a sheet.
const MOST_STEPS: usize = 4_095;
const FLOWS: usize = 2_044;

/// A run of flows and jumps in turn through T; 4,095 steps take exactly 32,768 bytes.
pub fn long_run(steps: usize) -> Paper {
    long_run_with(steps, steps * FLOWS / MOST_STEPS)
}

fn long_run_with(steps: usize, flows: usize) -> Paper {
    let model = tank(-5, loops(0, 1));
    let mut second = run_sheet(1, steps, 0, 1, &[5]);
    for step in 0..steps {
        let jump = Step::Jump(0, [0, 255, 255, 255]);
        let step = if step % 2 == 0 && step / 2 < flows { Step::Flow(step as i64 % 3) } else { jump };
        put_step(&mut second, &step, &[1], &[5]);
    }
    Paper::new(&format!("run of {steps} steps"), model, second.finished())
}

/// A run of 4 components and 8 variables with full conditions, as many steps as fit.
pub fn wide_run() -> Paper {
    let rows: Vec<Row> = (0..8).map(|v| row(8, &[(v, 3), ((v + 1) % 8, -2)], 7)).collect();
    let jump: Vec<Row> = (0..8).map(|v| row(16, &[(v, 3), (8 + v, -2)], 7)).collect();
    let mode = Mode { start: true, initial: rows.clone(), invariant: rows.clone(), flow: rows };
    let switch = Switch { source: 0, target: 0, label: 1, jump };
    let component = Component { alphabet: 2, modes: vec![mode], switches: vec![switch] };
    let model = plan((0..8).map(|v| v / 2).collect(), vec![component; 4], vec![(vec![ANY; 4], vec![])]).sheet();
    let steps = 870;
    let mut second = run_sheet(2, steps, 0, 1, &[1; 8]);
    for step in 0..steps {
        let step = if step % 2 == 0 { Step::Flow(3) } else { Step::Jump(1, [0; 4]) };
        put_step(&mut second, &step, &[1; 4], &[1; 8]);
    }
    Paper::new("run of 870 steps, 8 variables, 4 components", model, second.finished())
}

/// Near all limits at once: 8 variables, 4 components, 64 locations, 4,096 joint switches, 16 unsafe conditions, full conditions, and
/// over 6,400 proofs.
pub fn near_limits() -> Paper {
    let rows = |count: usize| -> Vec<Row> { (0..count).map(|v| row(8, &[(v, 1), ((v + 3) % 8, -1)], 9)).collect() };
    let mut components = vec![];
    for (number, modes) in [8, 8, 1, 1].into_iter().enumerate() {
        let modes = (0..modes)
            .map(|mode| Mode { start: mode == 0, initial: if mode == 0 { rows(8) } else { vec![] }, invariant: rows(7), flow: rows(8) })
            .collect();
        let switches = (0..16).map(|i| Switch {
            source: 0,
            target: if number == 0 && i < 9 { 1 } else { 0 },
            label: 1,
            jump: (0..3).map(|v| row(16, &[(v, 1), (8 + v, -1)], 4)).collect(),
        });
        components.push(Component { alphabet: 2, modes, switches: if number < 3 { switches.collect() } else { vec![] } });
    }
    components[3].alphabet = 0;
    // A row that is never true, in the one mode of the last component: every unsafe state is excluded by it.
    components[3].modes[0].invariant.push(row(8, &[], -1));
    let unsafe_conditions = (0..16).map(|u| (vec![u % 8, u / 8, 0, 0], rows(2))).collect();
    let model = plan((0..8).map(|v| v % 4).collect(), components, unsafe_conditions).sheet();

    // Location 0 (mode 0 everywhere) has one region row and location 8 (mode 1 of component 0) two, all 0 ≤ 1.
    let mut regions = vec![vec![]; 64];
    regions[0] = vec![row(8, &[], 1)];
    regions[8] = vec![row(8, &[], 1); 2];
    let mut proofs = vec![];
    for (location, region) in regions.iter().enumerate() {
        let plain = region.len() * if location == 0 { 2 } else { 1 };
        proofs.extend((0..plain).map(|_| proof(1, &[])));
        // Locations with component 1 in mode 0 or 1 have one unsafe condition each. The last invariant is the row that is never true.
        if location % 8 < 2 {
            let never = region.len() + 3 * 7 + 7;
            proofs.push((Proof { k: 0, entries: vec![(never as u8, 1)] }, true));
        }
    }
    proofs.extend((0..9 * 256 * 2 + 7 * 256).map(|_| proof(1, &[])));
    Paper::new("certificate near all limits", model, certificate_sheet(&regions, &proofs))
}

/// Rows in pairs, a·x ≤ 0 and −a·x ≤ 0, on 8 variables.
fn pairs(count: usize) -> Vec<Row> {
    let row = |i: usize| -> Row {
        let sign = if i.is_multiple_of(2) { 1 } else { -1 };
        (0..9).map(|v| if v == 8 { 0 } else { sign * (1_000 + (i / 2 * 8 + v) as i32) }).collect()
    };
    (0..count).map(row).collect()
}

/// Eight jump rows in pairs, on 8 variables before and after.
fn jump_pairs() -> Vec<Row> {
    (0..8).map(|i| (0..17).map(|v| if v == 16 { 0 } else { [1, -1][i % 2] * (v + 3) }).collect()).collect()
}

/// Proofs that use nearly every hypothesis, up to all 120: rows come in pairs a·x ≤ 0 and −a·x ≤ 0, and a proof takes both sides of each
/// pair as often, the goal's own row once more.
pub fn many_entries() -> Paper {
    let jump = jump_pairs();
    let rows = pairs(32);
    let components = (0..4).map(|number| {
        let invariant = rows[8 * number..8 * number + 8].to_vec();
        let mode = Mode { start: true, initial: invariant.clone(), invariant: invariant.clone(), flow: invariant };
        let switches = vec![Switch { source: 0, target: 0, label: 1, jump: jump.clone() }];
        let moving = number < 3;
        Component { alphabet: if moving { 2 } else { 0 }, modes: vec![mode], switches: if moving { switches } else { vec![] } }
    });
    let model = plan(vec![3; 8], components.collect(), vec![]).sheet();
    let proof_of = |entries: usize, own: usize| {
        let entries = (0..entries).map(|h| (h as u8, if h == own { 70_000 + 65_000 } else { 70_000 })).collect();
        (Proof { k: 65_000, entries }, false)
    };
    let mut proofs = vec![];
    proofs.extend((0..16).map(|line| proof_of(64, 32 + line)));
    proofs.extend((0..16).map(|line| proof_of(112, 16 + 32 + line)));
    proofs.extend((0..16).map(|line| proof_of(120, 16 + 32 + line)));
    Paper::new("proofs with up to 120 entries", model, certificate_sheet(&[rows[..16].to_vec()], &proofs))
}

/// The most hypotheses there are, in version 2: 129 in a flow, 128 in a jump of all four components. All conditions are full, and neither
/// the flow rows nor the after-coefficients of a component are on its own two variables. Rows come in pairs, and proofs take both sides of
/// each pair: 128 entries, −d ≤ 0 aside. The last two proofs of a flow and of a jump take one staying row of variable 7 each, which are
/// the last hypotheses.
pub fn most_hypotheses() -> Paper {
    most_hypotheses_with("the most hypotheses", Faults::default())
}

/// The same certificate, then with an entry too many, and with a hypothesis too many in a flow and in a jump.
pub fn for_blanks() -> Vec<Paper> {
    vec![
        most_hypotheses(),
        most_hypotheses_with("129 entries", Faults { time: true, ..Faults::default() }),
        most_hypotheses_with("hypothesis 129 of a flow", Faults { beyond_flow: true, ..Faults::default() }),
        most_hypotheses_with("hypothesis 128 of a jump", Faults { beyond_jump: true, ..Faults::default() }),
    ]
}

/// What is wrong with a certificate for the most hypotheses.
#[derive(Default)]
struct Faults {
    /// Flow proofs take −d ≤ 0 too, and the bound of a flow row makes up for it.
    time: bool,
    /// The last flow proof, or jump proof, takes the hypothesis after the last.
    beyond_flow: bool,
    beyond_jump: bool,
}

/// Where −d ≤ 0 stands in a flow with full conditions, and the first staying row in a jump with them.
const AFTER_CONDITIONS: usize = 16 + 32 + 32 + 32;

fn most_hypotheses_with(name: &str, faults: Faults) -> Paper {
    let mut rows = pairs(32);
    (rows[14], rows[15]) = (row(8, &[(7, 1)], 0), row(8, &[(7, -1)], 0));
    let model = most_hypotheses_model(&rows, if faults.time { -1 } else { 0 });
    let mut proofs: Vec<Proof> = (0..16).map(|line| taken_by_all(64, 32 + line)).collect();
    for (staying, beyond) in [(AFTER_CONDITIONS + 1, faults.beyond_flow), (AFTER_CONDITIONS, faults.beyond_jump)] {
        for (line, region_row) in rows[..14].iter().enumerate() {
            let mut proof = kept_by_all(region_row, line, staying);
            if staying > AFTER_CONDITIONS && !faults.time {
                proof.entries.remove(AFTER_CONDITIONS);
            }
            proofs.push(proof);
        }
        for (line, beyond) in [(14, false), (15, beyond)] {
            let last = staying + line + usize::from(beyond);
            proofs.push(Proof { k: 1, entries: vec![(line as u8, 1), (last as u8, 1)] });
        }
    }
    let proofs: Vec<(Proof, bool)> = proofs.into_iter().map(|proof| (proof, false)).collect();
    Paper::new(name, model, certificate_sheet(&[rows[..16].to_vec()], &proofs))
}

/// The rows are initial rows and invariants, eight in each component. The bound is that of the first flow row.
fn most_hypotheses_model(rows: &[Row], bound: i32) -> Sheet {
    let components = rows.chunks(8).enumerate().map(|(number, rows)| {
        let (mut flow, mut jump) = (pairs(8), jump_pairs());
        flow.iter_mut().for_each(|row| row[2 * number..][..2].fill(0));
        jump.iter_mut().for_each(|row| row[8 + 2 * number..][..2].fill(0));
        flow[0][8] = if number == 0 { bound } else { 0 };
        let mode = Mode { start: true, initial: rows.to_vec(), invariant: rows.to_vec(), flow };
        Component { alphabet: 2, modes: vec![mode], switches: vec![Switch { source: 0, target: 0, label: 1, jump }] }
    });
    let plan = plan((0..8).map(|v| v / 2).collect(), components.collect(), vec![]);
    Plan { version: 2, ..plan }.sheet()
}

/// A proof that takes so many hypotheses, all as often but for its own, which it takes once more.
fn taken_by_all(count: usize, own: usize) -> Proof {
    let entries = (0..count).map(|h| (h as u8, if h == own { 70_001 } else { 70_000 })).collect();
    Proof { k: 1, entries }
}

/// Such a proof for a region row after a flow or a jump, with the staying rows that turn it into one on x'.
fn kept_by_all(region_row: &Row, line: usize, staying: usize) -> Proof {
    let mut proof = taken_by_all(staying + 16, line);
    for (v, &a) in region_row[..8].iter().enumerate() {
        proof.entries[staying + 2 * v + usize::from(a < 0)].1 += a.unsigned_abs();
    }
    proof
}

/// Sums that go up to 2^60 and come back to 0 in one proof, where only the last bound decides: accepted if it is at most −(2^31 − 1).
fn largest_sums(last_bound: i32) -> Paper {
    let most = (1 << 24) - 1;
    let full = |number: i32| vec![vec![number; 9]; 8];
    let mode = Mode { start: true, initial: full(i32::MAX), invariant: full(-i32::MAX), flow: full(i32::MIN) };
    let mut components = vec![Component { alphabet: 0, modes: vec![mode], switches: vec![] }; 4];
    components[3].modes[0].invariant[7][8] = last_bound;
    let model = plan(vec![0; 8], components, vec![]).sheet();
    let entries: Vec<(u8, u32)> = (0..64).map(|hypothesis| (hypothesis, most)).collect();
    let proofs = [proof(most, &entries), proof(most, &[])];
    Paper::new(&format!("largest sums, last bound {last_bound}"), model, certificate_sheet(&[vec![vec![0; 9]]], &proofs))
}

/// A flow row with a coefficient of −2^31, which does not fit 32 bits when its sign is turned. The region row is kept by a flow if −d ≤ 0,
/// taken as often as `time` says, makes up for the bound on d.
fn least_rate(bound: i32, time: u32) -> Paper {
    let flow = vec![vec![i32::MIN, bound]];
    let initial = vec![vec![i32::MIN, i32::MIN]];
    let mode = Mode { start: true, initial, flow, ..Mode::default() };
    let component = Component { alphabet: 0, modes: vec![mode], switches: vec![] };
    let model = plan(vec![0], vec![component], vec![]).sheet();
    let kept: &[(u8, u32)] = if time == 0 { &[(0, 1), (1, 1)] } else { &[(0, 1), (1, 1), (2, time)] };
    let proofs = [proof(1, &[(0, 1)]), proof(1, kept)];
    let name = format!("least rate, bound {bound}, time {time}");
    Paper::new(&name, model, certificate_sheet(&[vec![vec![i32::MIN, i32::MIN]]], &proofs))
}

/// A run with the greatest values, q and coefficients.
fn largest_values(bound: i32, value: i64) -> Paper {
    let rows = vec![[[i32::MIN; 8].as_slice(), &[bound]].concat(), [[i32::MAX; 8].as_slice(), &[bound]].concat()];
    let jump = vec![[[i32::MIN; 16].as_slice(), &[i32::MAX]].concat(), [[i32::MIN; 8].as_slice(), &[i32::MAX; 9]].concat()];
    let mode = Mode { start: true, initial: rows.clone(), invariant: vec![], flow: rows };
    let switch = Switch { source: 0, target: 0, label: 0, jump };
    let component = Component { alphabet: 0, modes: vec![mode], switches: vec![switch] };
    let model = plan(vec![0; 8], vec![component], vec![(vec![0], vec![])]).sheet();
    let q = (1 << 24) - 1;
    let mut second = run_sheet(q, 3, 0, 1, &[value; 8]);
    put_step(&mut second, &Step::Flow(q), &[1], &[value; 8]);
    put_step(&mut second, &Step::Jump(0, [0, 255, 255, 255]), &[1], &[-value; 8]);
    put_step(&mut second, &Step::Flow(q), &[1], &[value; 8]);
    Paper::new("largest values", model, second.finished())
}

/// The largest products in a run, up to 2^62 on either side of 0: a flow, then a jump, between these values of all 8 variables.
fn largest_products(values: [i64; 3]) -> Paper {
    let flow = vec![[[i32::MIN; 8].as_slice(), &[i32::MIN]].concat()];
    let jump = vec![[[i32::MIN; 16].as_slice(), &[i32::MAX]].concat()];
    let mode = Mode { start: true, initial: vec![], invariant: vec![], flow };
    let switch = Switch { source: 0, target: 0, label: 0, jump };
    let component = Component { alphabet: 0, modes: vec![mode], switches: vec![switch] };
    let model = plan(vec![0; 8], vec![component], vec![(vec![0], vec![])]).sheet();
    let most = (1 << 24) - 1;
    let mut second = run_sheet(most, 2, 0, 1, &[values[0]; 8]);
    put_step(&mut second, &Step::Flow(most), &[1], &[values[1]; 8]);
    put_step(&mut second, &Step::Jump(0, [0, 255, 255, 255]), &[1], &[values[2]; 8]);
    Paper::new(&format!("largest products {values:?}"), model, second.finished())
}

/// Components of these mode counts, every mode a start mode; a run of no steps, accepted where the limits allow so many locations.
pub fn locations(modes: &[usize]) -> Paper {
    let mode = Mode { start: true, ..Mode::default() };
    let components = modes.iter().map(|&count| Component { alphabet: 0, modes: vec![mode.clone(); count], switches: vec![] });
    let model = plan(vec![0], components.collect(), vec![(vec![ANY; modes.len()], vec![])]).sheet();
    Paper::new(&format!("modes {modes:?}"), model, run_sheet(1, 0, 0, 64, &[0]).finished())
}

/// Joint switches by product, with some that move alone beside them, and a certificate without regions.
pub fn joint_switches(switches: &[usize], alone: usize) -> Paper {
    let mut components: Vec<Component> = switches
        .iter()
        .map(|&count| Component { alphabet: 2, modes: vec![Mode { start: true, ..Mode::default() }], switches: loops(1, count) })
        .collect();
    components[0].switches.extend(loops(0, alone));
    let model = plan(vec![0], components, vec![]).sheet();
    let name = format!("joint switches {switches:?} and {alone}");
    Paper::new(&name, model, certificate_sheet(&[vec![]], &[]))
}

/// 64 locations, 15 events that all four components share and 32 switches in each: much to look through for few joint switches. The
/// certificate has no regions.
pub fn shared_events() -> Paper {
    let components = [4_u8, 4, 2, 2].map(|modes| {
        let switch = |i: u8| Switch { source: i % modes, target: 0, label: 1 + i * 7 % 15, jump: vec![] };
        let modes = vec![Mode { start: true, ..Mode::default() }; modes.into()];
        Component { alphabet: 65_534, modes, switches: (0..32).map(switch).collect() }
    });
    let model = plan(vec![0], components.to_vec(), vec![]).sheet();
    Paper::new("shared events", model, certificate_sheet(&vec![vec![]; 64], &[]))
}

/// A jump with these bytes in a plant of three components: event 1 moves the first two, event 2 nobody, event 3 the third.
fn scopes() -> Vec<Paper> {
    let mode = Mode { start: true, ..Mode::default() };
    let component = |alphabet, labels: &[u8]| {
        let switches = labels.iter().map(|&label| Switch { source: 0, target: 0, label, jump: vec![] }).collect();
        Component { alphabet, modes: vec![mode.clone(), mode.clone()], switches }
    };
    let components = vec![component(2, &[1, 0]), component(2, &[1, 1]), component(8, &[3, 0])];
    let model = plan(vec![0, 1, 2], components, vec![(vec![ANY; 3], vec![])]).sheet();
    let mut papers = vec![];
    for event in 0..5 {
        for bytes in 0..64_usize {
            let mut switches = NONE;
            for (i, switch) in switches[..3].iter_mut().enumerate() {
                *switch = [0, 1, 2, 255][bytes >> (2 * i) & 3];
            }
            let mut second = run_sheet(1, 1, 0, 8, &[0; 3]);
            put_step(&mut second, &Step::Jump(event, switches), &[2; 3], &[1, 0, 0]);
            papers.push(Paper::new(&format!("event {event}, switches {switches:?}"), model.clone(), second.finished()));
        }
    }
    papers
}

/// Papers at and beside the limits of the exam desk and of the practice desk, in locations and in joint switches; one is over both limits
/// of the practice desk, and two models do not read. The last two have version 3.
pub fn for_limits() -> Vec<Paper> {
    let mut papers = vec![
        Paper::new("T with C", tank(-11, vec![]), tank_certificate(10)),
        Paper::new("C with T", tank_certificate(10), tank(-11, vec![])),
        Paper::new("nothing", Sheet::of(vec![]), Sheet::of(vec![])),
        joint_switches(&[1], 0),
        joint_switches(&[16, 16], 0),
        joint_switches(&[16, 16], 1),
        joint_switches(&[16, 16, 16], 0),
        joint_switches(&[16, 16, 16], 1),
        shared_events(),
    ];
    papers.extend([&[4, 4][..], &[6, 3], &[8, 8], &[7, 5, 2]].map(locations));
    papers.extend([joint_switches(&[16, 16], 1), locations(&[6, 3])].map(|paper| paper.numbered(7)));
    papers
}

/// A model with these rows in each of its conditions, twice the coefficients in the jump, and a run of no steps from 0.
fn with_rows<const N: usize>(name: &str, rows: &[[i32; N]]) -> Paper {
    let n = N - 1;
    let jump = rows.iter().map(|row| [&row[..n], row].concat()).collect();
    let rows: Vec<Row> = rows.iter().map(|row| row.to_vec()).collect();
    let mode = Mode { start: true, initial: rows.clone(), invariant: rows.clone(), flow: rows.clone() };
    let switch = Switch { source: 0, target: 0, label: 0, jump };
    let component = Component { alphabet: 0, modes: vec![mode], switches: vec![switch] };
    let model = plan(vec![0; n], vec![component], vec![(vec![ANY], rows)]).sheet();
    Paper::new(name, model, run_sheet(1, 0, 0, 1, &vec![0; n]).finished())
}

/// Models with rows that a fair copy divides, drops or moves, up to 16 coefficients in a jump row, and two of the greatest length.
pub fn for_fair_copy() -> Vec<Paper> {
    let (least, most) = (i32::MIN, i32::MAX);
    let times = |factor: i32| [3, -1, 0, 2, 0, 0, -7, 1, 5].map(|number| factor * number);
    let one_of = |place: usize| std::array::from_fn::<i32, 9, _>(|i| i32::from(i == place));
    vec![
        with_rows("divisors", &[[2, 3], [2, 4], [2, 0], [6, 9], [-6, -9], [-4, 6]]),
        with_rows("divisors up to 2^31", &[[least, least], [least, 0], [most, most], [-most, 0], [1 << 30, least], [least, most]]),
        with_rows("rows of zeros", &[[0, 1], [0, 0], [0, -1], [0, least], [0, most], [1, 0]]),
        with_rows("rows of zeros, all true", &[[0, 0, 1], [0, 0, 0], [0, 0, most]]),
        with_rows("a row of zeros that is never true", &[[0, 0, least]]),
        with_rows("2^31 throughout", &[[least; 9]]),
        with_rows("2^31 throughout, eight times", &[[least; 9]; 8]),
        with_rows("eight rows that fall to one", &std::array::from_fn::<_, 8, _>(|i| times(8 - i as i32))),
        with_rows("equal but for the bound", &[[1, 1, 3], [1, 1, -3], [1, 1, 0], [2, 2, 6], [1, 1, most], [1, 1, least], [3, 3, 7]]),
        with_rows("signs", &[[1, 0, 0], [0, 1, 0], [0, -1, 0], [-1, 0, 0], [-1, -1, 0], [1, least, 0], [least, 1, 0], [-1, 1, -1]]),
        with_rows("one coefficient each", &std::array::from_fn::<_, 8, _>(one_of)),
        longest_model(),
        longest_copy(),
        with_rows("divisors", &[[2, 3], [2, 4], [6, 9]]).numbered(0x0102_0304),
    ]
}

/// All of them.
pub fn all() -> Vec<Paper> {
    let t = tank(-11, vec![]);
    let c = tank_certificate(10);
    let flow = |time, value| (Step::Flow(time), value);
    let mut papers = vec![
        Paper::new("T with C", t.clone(), c.clone()),
        Paper::new("C with T", c.clone(), t.clone()),
        Paper::new("C with region bound 9", t.clone(), tank_certificate(9)),
        Paper::new("T from 6", t.clone(), tank_run(6, &[])),
        Paper::new("T, 5 to 8", t.clone(), tank_run(5, &[flow(1, 8)])),
        Paper::new("T at 5", t.clone(), tank_run(5, &[])),
        Paper::new("T, 5 to 9", tank(-9, vec![]), tank_run(5, &[flow(2, 9)])),
        Paper::new("zero time, drift", tank(-9, vec![]), tank_run(5, &[flow(0, 9)])),
        Paper::new("label outside its alphabet", tank(-11, loops(1, 1)), c.clone()),
        Paper::new("one switch", tank(-11, loops(0, 1)), c),
        longest_certificate(),
        longest_model(),
        long_run(4_095),
        long_run(64),
        wide_run(),
        near_limits(),
        many_entries(),
        joint_switches(&[16, 16, 16], 0),
        joint_switches(&[16, 16, 16], 1),
        joint_switches(&[32, 32, 32, 32], 0),
        joint_switches(&[32, 32, 4], 0),
        joint_switches(&[32, 32, 32], 0),
        joint_switches(&[5, 0, 7], 3),
        shared_events(),
        Paper::new("products", products(&[8, 4, 2]), products_certificate(&[8, 4, 2])),
    ];
    papers.extend((1..=3).filter_map(turns::certificate));
    papers.extend((1..=3).map(turns::run));
    papers.extend([i32::MIN, -i32::MAX, 1 - i32::MAX, 0, i32::MAX].map(largest_sums));
    let most = (1 << 24) - 1;
    papers.extend([(0, 0), (-1, 1), (-1, 0), (0, 1), (1, 1), (-(most as i32), most), (i32::MIN, most)].map(|(b, t)| least_rate(b, t)));
    papers.extend([(i32::MAX, 8), (0, 1 << 27), (i32::MIN, -(1 << 27)), (0, 0), (i32::MAX, 1 << 27)].map(|(b, v)| largest_values(b, v)));
    for signs in 0..8_usize {
        papers.push(largest_products(std::array::from_fn(|i| if signs >> i & 1 == 1 { 1 << 27 } else { -(1 << 27) })));
    }
    for modes in [&[8, 8][..], &[8, 8, 1, 1], &[4, 4, 4], &[8, 8, 2], &[5, 4, 3], &[8, 3, 3], &[8, 8, 8, 8], &[1; 4], &[2, 4, 8]] {
        papers.push(locations(modes));
    }
    papers.extend(scopes());
    papers
}
