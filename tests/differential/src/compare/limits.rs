//! The limits that each call states: mostly such that the model is within them, else beside its counts, out of range, or any. And that a
//! paper within the limits of two desks gets the same answer at both.

use super::{Compared, Comparison, Paper};
use differential::library;
use differential::marker::{EXAM, JointSwitch, Limits, Model, PRACTICE};
use differential::papers::Random;
use std::fmt::Debug;

/// How many locations and joint switches a model has, whatever the limits; 1 and 0 for one that does not read.
#[derive(Clone, Copy)]
pub(super) struct Size {
    locations: u32,
    joints: u32,
}

impl Size {
    pub fn of(model: &[u8]) -> Self {
        let read = Model::read(model, Limits { locations: u32::MAX, joints: u32::MAX });
        let (locations, joints) = read.map_or((1, 0), |model| (model.locations.len(), model.joint_count));
        Size { locations: locations as u32, joints: joints as u32 }
    }

    pub fn joints(self) -> usize {
        self.joints as usize
    }

    fn within(self, limits: Limits) -> bool {
        self.locations <= limits.locations && self.joints <= limits.joints
    }

    /// Limits in their ranges that the model is within; none if there are none.
    fn desk(self, random: &mut Random) -> Option<Limits> {
        if !self.within(EXAM) {
            return None;
        }
        let mut limit = |count: u32, most: u32| match random.below(4) {
            0 => count.max(1),
            1 => most,
            _ => random.between(count.max(1).into(), most.into()) as u32,
        };
        Some(Limits { locations: limit(self.locations, EXAM.locations), joints: limit(self.joints, EXAM.joints) })
    }
}

fn random_limits(random: &mut Random, size: Size) -> Limits {
    match random.below(16) {
        0..=2 => EXAM,
        3 | 4 => PRACTICE,
        5..=7 => Limits { locations: size.locations, joints: size.joints.max(1) },
        8 => Limits { locations: size.locations + 1, joints: size.joints + 1 },
        9 | 10 => size.desk(random).unwrap_or(EXAM),
        _ => {
            let locations = random_limit(random, size.locations, EXAM.locations);
            Limits { locations, joints: random_limit(random, size.joints, EXAM.joints) }
        }
    }
}

/// A limit beside the model's count or beside an end of its range, or any.
fn random_limit(random: &mut Random, count: u32, most: u32) -> u32 {
    match random.below(14) {
        0 => 0,
        1 => 1,
        2 | 3 => most,
        4 => most + 1,
        5 => u32::MAX,
        6..=8 => count,
        9 => count.saturating_sub(1),
        10 => count + 1,
        11 => 1 << random.below(32),
        12 => random.below(most as usize + 1) as u32,
        _ => random.draw() as u32,
    }
}

/// How often limits were stated that are out of range, that the model is over, and that refuse nothing; and how often two desks were
/// compared.
#[derive(Default)]
pub(super) struct Stated {
    out_of_range: u64,
    exceeded: u64,
    fitting: u64,
    desks: u64,
}

impl Stated {
    pub fn print(&self) {
        let Stated { out_of_range, exceeded, fitting, desks } = self;
        println!("limits stated: {fitting} that refuse nothing, {exceeded} that the model is over, {out_of_range} out of range");
        println!("answers compared between two desks: {desks}");
    }
}

impl Comparison {
    /// The limits for the next call: those of the desk at hand, or random ones.
    pub(super) fn limits(&mut self, size: Size, random: &mut Random) -> Limits {
        let limits = self.desk.unwrap_or_else(|| random_limits(random, size));
        let times = if !limits.in_range() {
            &mut self.stated.out_of_range
        } else if !size.within(limits) {
            &mut self.stated.exceeded
        } else {
            &mut self.stated.fitting
        };
        *times += 1;
        limits
    }

    /// One of the library's calls at two desks that the model is within the limits of.
    pub(super) fn compare_desks(&mut self, paper: Paper, size: Size, random: &mut Random) -> Compared<()> {
        let (Some(one), Some(other)) = (size.desk(random), size.desk(random)) else { return Ok(()) };
        let desks = [one, other];
        let (o, h) = (random.below(40) as u32, random.below(20) as u32);
        match random.below(7) {
            0 => self.at_both("silfoddra_mark_certificate", paper, desks, |own, limits| {
                own.on_sheets(paper, |model, second| library::mark_certificate(model, second, limits))
            }),
            1 => self.at_both("silfoddra_mark_run", paper, desks, |own, limits| {
                own.on_sheets(paper, |model, second| library::mark_run(model, second, limits))
            }),
            2 => self.at_both(&format!("silfoddra_which_obligation({o})"), paper, desks, |own, limits| {
                own.on_sheets(paper, |model, second| library::which(model, second, o, limits))
            }),
            3 => self.at_both(&format!("silfoddra_show_row({o}, {h})"), paper, desks, |own, limits| {
                own.on_sheets(paper, |model, second| library::show_row(model, second, o, h, limits))
            }),
            4 => self.at_both(&format!("silfoddra_hypothesis({o}, {h})"), paper, desks, |own, limits| {
                own.on_sheets(paper, |model, second| library::hypothesis(model, second, o, h, limits))
            }),
            5 => {
                self.at_both("silfoddra_fair_copy", paper, desks, |own, limits| own.copy_fairly(paper, vec![77; paper.model.len()], limits))
            }
            _ => self.at_both("silfoddra_joint_list", paper, desks, |own, limits| {
                own.list_joints(paper, vec![JointSwitch::default(); size.joints()], limits)
            }),
        }
    }

    fn at_both<T: Debug + PartialEq>(
        &mut self,
        call: &str,
        paper: Paper,
        desks: [Limits; 2],
        ask: impl Fn(&mut Self, Limits) -> T,
    ) -> Compared<()> {
        let [one, other] = desks.map(|limits| ask(self, limits));
        self.stated.desks += 1;
        let call = || format!("{call} at two desks, {} and {}", shown(desks[0]), shown(desks[1]));
        self.agree(call, paper.kind, &paper.handed(), [("one desk", one), ("other", other)])
    }
}

/// Limits as a mismatch shows them.
pub(super) fn shown(limits: Limits) -> String {
    format!("limits {} {}", limits.locations, limits.joints)
}
