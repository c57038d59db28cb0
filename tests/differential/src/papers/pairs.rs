//! Sheets that belong together (02, order 7): versions, paper numbers, and papers in every pair of versions.

use super::blanks;
use super::extremes::{Paper, longest_certificate, longest_model, longest_numbered, tank, tank_certificate, tank_run};
use super::models::Plan;
use super::random::Random;
use super::sheet::{NUMBERED, Sheet, fix_length};
use crate::marker::run::Step;

/// Those that a sheet may have, and some that none has.
pub const VERSIONS: [u8; 7] = [0, 1, 2, 3, 4, 5, 255];

/// The same plan in version 1, 2 or 3, with some paper number.
pub fn in_any_version(random: &mut Random, plan: Plan) -> Plan {
    Plan { version: 1 + random.below(NUMBERED.into()) as u8, paper_number: random_number(random), ..plan }
}

/// Mostly versions that some sheet may have, for two sheets.
pub fn random_pair(random: &mut Random) -> [u8; 2] {
    [0; 2].map(|_| *random.pick(&[0, 1, 1, 1, 2, 2, 3, 3, 3, 4, 5]))
}

/// A paper number: an end of its range, a small one, one bit, or any.
pub fn random_number(random: &mut Random) -> u32 {
    match random.below(6) {
        0 => 0,
        1 => u32::MAX,
        2 => random.below(300) as u32,
        3 => 1 << random.below(32),
        _ => random.draw() as u32,
    }
}

/// Another paper number: mostly one that differs in one byte, else by 1, in the order of its bytes or halves, or anyhow.
pub fn other_number(random: &mut Random, number: u32) -> u32 {
    let other = match random.below(8) {
        0 => random_number(random),
        1 => number.wrapping_add(1),
        2 => number.swap_bytes(),
        3 => number.rotate_left(16),
        _ => number ^ (1 + random.below(255) as u32) << (8 * random.below(4)),
    };
    if other == number { !number } else { other }
}

/// Paper numbers that differ in one byte, or in all.
const NUMBERS: [u32; 10] = [0, 1, 0xff, 0x100, 0xff00, 0x1_0000, 0xff_0000, 0x100_0000, u32::MAX - 1, u32::MAX];

/// Certificates and runs, accepted and refused, in every pair of versions. A certificate and a run, both accepted, with every pair of
/// numbers, and with either sheet cut before, in and after its paper number. Then sheets of version 3 of the greatest length, and two that
/// are longer.
pub fn fixed() -> Vec<Paper> {
    let t = || tank(-11, vec![]);
    let accepted =
        [Paper::new("T with C", t(), tank_certificate(10)), Paper::new("T, 5 to 9", tank(-9, vec![]), tank_run(5, &[(Step::Flow(2), 9)]))];
    let others = [Paper::new("T with T", t(), t()), Paper::new("T from 6", t(), tank_run(6, &[]))];
    let of_blanks: Vec<Paper> = blanks::fixed().into_iter().filter(|paper| paper.name.starts_with("no flow rows")).collect();
    let mut papers = vec![];
    for paper in accepted.iter().chain(&others).chain(&of_blanks) {
        papers.extend(pairs(VERSIONS).map(|versions| paper.moved(versions, [7; 2])));
    }
    for paper in &accepted {
        papers.extend(pairs(NUMBERS).map(|numbers| paper.moved([NUMBERED; 2], numbers)));
        papers.extend(pairs([1, 2, 3]).flat_map(|versions| cut(&paper.moved(versions, [0x0102_0304; 2]))));
    }
    papers.extend(longest_numbered());
    papers.extend([longest_certificate(), longest_model()].map(|paper| paper.numbered(7)));
    papers
}

fn pairs<T: Copy, const N: usize>(list: [T; N]) -> impl Iterator<Item = [T; 2]> {
    list.into_iter().flat_map(move |one| list.map(|other| [one, other]))
}

/// A paper with either sheet cut to 4 up to 9 bytes, or both.
fn cut(paper: &Paper) -> Vec<Paper> {
    let short = |sheet: &Sheet, length: usize| {
        let mut sheet = sheet.clone();
        sheet.bytes.truncate(length);
        fix_length(&mut sheet.bytes);
        sheet
    };
    let cuts = (4..10).flat_map(|length| {
        let (model, second) = (short(&paper.model, length), short(&paper.second, length));
        [(paper.model.clone(), second.clone()), (model.clone(), paper.second.clone()), (model, second)]
    });
    cuts.map(|(model, second)| Paper { name: format!("{}, cut", paper.name), model, second }).collect()
}
