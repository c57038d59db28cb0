//! Certificates with correct proofs: regions are guessed, rows that a short search does not prove are given up, until all is proved.

use super::models::{Plan, row};
use super::random::Random;
use super::sheet::{CERTIFICATE, Proof, Row, Sheet};
use crate::marker::certificate::{Claim, Group, Hypotheses, Kind};
use crate::marker::farkas::{Form, Sum};
use crate::marker::reader::Reader;
use crate::marker::{EXAM, Model};

const MULTIPLIER_LIMIT: i64 = 1 << 24;
const MOST_BYTES: usize = 32_768;

pub struct Proved {
    pub model: Sheet,
    pub second: Sheet,
}

/// A certificate sheet.
pub fn certificate_sheet(regions: &[Vec<Row>], proofs: &[(Proof, bool)]) -> Sheet {
    let mut sheet = Sheet::new(CERTIFICATE);
    sheet.put(1, regions.len() as i64, regions.len() as i64, regions.len() as i64);
    for region in regions {
        sheet.put_rows(region, 16);
    }
    for (proof, unsafe_goal) in proofs {
        sheet.put_proof(proof, *unsafe_goal);
    }
    sheet.finished()
}

/// A model and an accepted certificate; none where the model has too many joint switches or the proofs do not fit in a sheet. Unsafe
/// conditions that are not proved away are taken out of the model.
pub fn random_certificate(random: &mut Random, mut plan: Plan) -> Option<Proved> {
    let mut regions: Vec<Vec<Row>> = (0..plan.locations()).map(|location| random_region(random, &plan, location)).collect();
    for _ in 0..12 {
        let model = plan.sheet();
        match prove_all(&model.bytes, &regions, |hypotheses, goal, found| vary(random, hypotheses, goal, found))? {
            Outcome::Proved(proofs) => {
                let second = plan.paired(certificate_sheet(&regions, &proofs));
                return (second.bytes.len() <= MOST_BYTES).then_some(Proved { model, second });
            }
            Outcome::Failed(failed) => give_up(&mut plan, &mut regions, failed),
        }
    }
    None
}

/// A certificate with the first proofs that are found; none where one is not.
pub fn short_certificate(plan: &Plan, regions: &[Vec<Row>]) -> Option<Sheet> {
    match prove_all(&plan.sheet().bytes, regions, |_, _, found| as_proof(found))? {
        Outcome::Proved(proofs) => Some(plan.paired(certificate_sheet(regions, &proofs))),
        Outcome::Failed(_) => None,
    }
}

/// A region row by location and line, or an unsafe condition.
#[derive(Clone, Copy, PartialEq, Eq, PartialOrd, Ord)]
enum Failed {
    Row(usize, usize),
    Unsafe(usize),
}

enum Outcome {
    Proved(Vec<(Proof, bool)>),
    Failed(Vec<Failed>),
}

fn give_up(plan: &mut Plan, regions: &mut [Vec<Row>], mut failed: Vec<Failed>) {
    failed.sort();
    failed.dedup();
    for failed in failed.into_iter().rev() {
        match failed {
            Failed::Row(location, line) => drop(regions[location].remove(line)),
            Failed::Unsafe(line) => drop(plan.unsafe_conditions.remove(line)),
        }
    }
}

/// Rows that may hold wherever a run is in this location.
fn random_region(random: &mut Random, plan: &Plan, location: usize) -> Vec<Row> {
    let n = plan.variables();
    let modes = plan.modes(location);
    let mut region = if plan.version > 1 { values_at_start(random, plan) } else { vec![] };
    for (component, &mode) in plan.components.iter().zip(&modes) {
        for invariant in &component.modes[mode].invariant {
            if random.one_in(2) {
                let mut looser = invariant.clone();
                looser[n] = looser[n].saturating_add(random.below(3) as i32);
                region.push(looser);
            }
        }
    }
    for v in 0..n {
        match random.below(6) {
            0 => region.push(row(n, &[(v, 1)], plan.high[v])),
            1 => region.push(row(n, &[(v, -1)], -plan.low[v])),
            2 => region.push(row(n, &[(v, -1)], -plan.start[v])),
            3 => region.push(row(n, &[(v, 2)], plan.start[v].saturating_mul(2))),
            _ => {}
        }
    }
    if random.one_in(3) {
        let (v, w) = (random.below(n), random.below(n));
        region.push(row(n, &[(v, 1), (w, 2)], plan.high[v] + 2 * plan.high[w] + random.below(2) as i32));
    }
    if random.one_in(3) {
        let (v, w) = (random.below(n), random.below(n));
        region.push(row(n, &[(v, 1), (w, -1)], plan.start[v] - plan.start[w]));
    }
    if random.one_in(3) {
        region.push(row(n, &[], random.below(2) as i32));
    }
    region.truncate(if random.one_in(10) { 16 } else { 5 });
    region
}

/// Rows that hold as long as some variables keep the values that runs begin with.
fn values_at_start(random: &mut Random, plan: &Plan) -> Vec<Row> {
    let n = plan.variables();
    let kept: Vec<usize> = (0..n).filter(|_| random.one_in(3)).collect();
    kept.into_iter().flat_map(|v| [row(n, &[(v, 1)], plan.start[v]), row(n, &[(v, -1)], -plan.start[v])]).collect()
}

/// Each proof is made of what is found for it. None where the model is refused. The regions stand in a sheet of version 1 here, whichever
/// the model's is: it makes no difference to the obligations.
fn prove_all(model: &[u8], regions: &[Vec<Row>], mut made_of: impl FnMut(&[Form], Option<Form>, Found) -> Proof) -> Option<Outcome> {
    let model = Model::read(model, EXAM).ok()?;
    let sheet = certificate_sheet(regions, &[]);
    let claim = Claim::read(&mut Reader::open(&sheet.bytes, 2).ok()?, &model).ok()?;
    if claim.groups().map(|group| group.lines.len()).sum::<usize>() > 6_500 {
        return None;
    }
    let (mut proofs, mut failed) = (vec![], vec![]);
    let mut hypotheses = Hypotheses::default();
    for group in claim.groups().filter(|group| !group.lines.is_empty()) {
        claim.list_hypotheses(&group, &mut hypotheses);
        let hypotheses: Vec<Form> = (0..).map_while(|number| Some(hypotheses.get(number)?.form)).collect();
        for line in group.lines.clone() {
            let goal = claim.goal(&group, line);
            match prove(&hypotheses, goal) {
                Some(found) => proofs.push((made_of(&hypotheses, goal, found), group.kind == Kind::Unsafe)),
                None => failed.push(failure(&claim, &group, line)),
            }
        }
    }
    Some(if failed.is_empty() { Outcome::Proved(proofs) } else { Outcome::Failed(failed) })
}

fn failure(claim: &Claim, group: &Group, line: usize) -> Failed {
    match group.kind {
        Kind::Start | Kind::Flow => Failed::Row(group.subject, line),
        Kind::Unsafe => Failed::Unsafe(line),
        Kind::Jump => Failed::Row(claim.joints[group.subject].target.into(), line),
    }
}

type Dense = ([i64; 17], i64);

fn dense(form: Form) -> Dense {
    let mut sum = Sum::new();
    sum.add(1, form);
    sum.parts()
}

/// A proof with few entries.
fn prove(hypotheses: &[Form], goal: Option<Form>) -> Option<Found> {
    let rows: Vec<Dense> = hypotheses.iter().map(|&form| dense(form)).collect();
    (0..4).find_map(|depth| {
        let shown = goal.and_then(|goal| {
            let (coefficients, bound) = dense(goal);
            Search::new(&rows).close(coefficients, bound, 1, depth)
        });
        shown.or_else(|| (depth > 0).then(|| contradiction(&rows, depth)).flatten())
    })
}

fn contradiction(rows: &[Dense], depth: usize) -> Option<Found> {
    (0..rows.len()).find_map(|first| {
        let (coefficients, bound) = rows[first];
        let mut search = Search::new(rows);
        search.used.push((first, 1));
        search.close(coefficients.map(|a| -a), -1 - bound, 0, depth - 1)
    })
}

/// k and the multipliers.
type Found = (i64, Vec<(usize, i64)>);

struct Search<'a> {
    rows: &'a [Dense],
    used: Vec<(usize, i64)>,
    nodes: usize,
}

impl<'a> Search<'a> {
    fn new(rows: &'a [Dense]) -> Self {
        Search { rows, used: vec![], nodes: 300 }
    }

    /// Closes what is missing, `rest` and at most `slack`, with at most `depth` more rows.
    fn close(&mut self, rest: [i64; 17], slack: i64, k: i64, depth: usize) -> Option<Found> {
        let Some(at) = rest.iter().position(|&r| r != 0) else {
            return (slack >= 0).then(|| (k, self.used.clone()));
        };
        for h in 0..if depth == 0 { 0 } else { self.rows.len() } {
            let (coefficients, bound) = &self.rows[h];
            if coefficients[at].signum() != rest[at].signum() || self.used.iter().any(|&(used, _)| used == h) {
                continue;
            }
            self.nodes = self.nodes.checked_sub(1)?;
            let divisor = gcd(coefficients[at].abs(), rest[at].abs());
            let (scale, multiplier) = (coefficients[at].abs() / divisor, rest[at].abs() / divisor);
            let before = self.used.clone();
            self.used.iter_mut().for_each(|(_, multiplier)| *multiplier *= scale);
            self.used.push((h, multiplier));
            if k * scale < MULTIPLIER_LIMIT && self.used.iter().all(|&(_, multiplier)| multiplier < MULTIPLIER_LIMIT) {
                let left = std::array::from_fn(|i| rest[i] * scale - coefficients[i] * multiplier);
                let found = self.close(left, slack * scale - bound * multiplier, k * scale, depth - 1);
                if found.is_some() {
                    return found;
                }
            }
            self.used = before;
        }
        None
    }
}

pub(super) fn gcd(a: i64, b: i64) -> i64 {
    if b == 0 { a } else { gcd(b, a % b) }
}

fn as_proof((k, mut used): Found) -> Proof {
    used.sort();
    Proof { k: k as u32, entries: used.iter().map(|&(h, multiplier)| (h as u8, multiplier as u32)).collect() }
}

/// The same proof, or one multiplied by a number, or one with more entries that still passes.
fn vary(random: &mut Random, hypotheses: &[Form], goal: Option<Form>, found: Found) -> Proof {
    let mut proof = as_proof(found);
    if random.one_in(5) {
        let largest = proof.entries.iter().map(|entry| entry.1).chain([proof.k, 1]).max().unwrap_or(1);
        let scale = random.between(1, (MULTIPLIER_LIMIT - 1) / i64::from(largest)) as u32;
        proof.k *= scale;
        proof.entries.iter_mut().for_each(|entry| entry.1 *= scale);
    }
    for _ in 0..if random.one_in(4) { 6 } else { 0 } {
        let mut longer = proof.clone();
        let first = random.below(hypotheses.len().max(1));
        let multiplier = random.between(1, 1_000) as u32;
        for h in first..(first + 1 + random.below(2)).min(hypotheses.len()) {
            match longer.entries.iter_mut().find(|entry| usize::from(entry.0) == h) {
                Some(entry) => entry.1 = (entry.1 + multiplier).min(MULTIPLIER_LIMIT as u32 - 1),
                None => longer.entries.push((h as u8, multiplier)),
            }
        }
        longer.entries.sort();
        if passes(hypotheses, goal, &longer) {
            proof = longer;
        }
    }
    proof
}

fn passes(hypotheses: &[Form], goal: Option<Form>, proof: &Proof) -> bool {
    let mut sum = Sum::new();
    for &(hypothesis, multiplier) in &proof.entries {
        sum.add(multiplier.into(), hypotheses[usize::from(hypothesis)]);
    }
    sum.proves(proof.k, goal).is_ok()
}
