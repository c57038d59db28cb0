//! The independent marker under the limits of document 02, order 2.

use differential::marker::{Answer, EXAM, JointSwitch, Limits, PRACTICE};
use differential::marker::{hypothesis, joint_list, mark_certificate, mark_run, show_row, which};
use differential::papers::extremes::{Paper, joint_switches, locations, tank, tank_certificate};

const REFUSED: Answer = Answer { number: 5, sheet: 2, place: 0, done: 0, score: 0 };

fn limits(locations: u32, joints: u32) -> Limits {
    Limits { locations, joints }
}

/// The number of a certificate's answer; the rest of a refusal of the limits, or by them, is settled.
fn number(paper: &Paper, limits: Limits) -> u32 {
    let answer = mark_certificate(&paper.model.bytes, &paper.second.bytes, limits);
    match answer.number {
        5 => assert_eq!(answer, REFUSED),
        7 | 8 => assert_eq!(answer, Answer { number: answer.number, place: 4, ..Answer::default() }),
        _ => {}
    }
    answer.number
}

#[test]
fn each_limit_has_its_own_range() {
    let (t, c) = (tank(-11, vec![]).bytes, tank_certificate(10).bytes);
    let accepted = Answer { number: 0, sheet: 1, place: 49, done: 3, score: 100 };
    for most in [1, 16, 17, 63, 64] {
        assert_eq!(mark_certificate(&t, &c, limits(most, 1)), accepted);
        assert_eq!(mark_certificate(&t, &c, limits(most, 4_096)), accepted);
    }
    for most in [1, 64, 65, 256, 257, 4_095, 4_096] {
        assert_eq!(mark_certificate(&t, &c, limits(1, most)), accepted);
        assert_eq!(mark_certificate(&t, &c, limits(64, most)), accepted);
    }
    for most in [0, 65, 256, 4_096, 4_097, u32::MAX] {
        assert_eq!(mark_certificate(&t, &c, limits(most, 1)), REFUSED);
    }
    for most in [0, 4_097, u32::MAX] {
        assert_eq!(mark_certificate(&t, &c, limits(1, most)), REFUSED);
    }
}

#[test]
fn limits_are_tested_before_an_empty_model() {
    let none = &[][..];
    for unfit in [limits(0, 1), limits(1, 0), limits(65, 4_096), limits(64, 4_097), limits(u32::MAX, u32::MAX)] {
        assert_eq!(mark_certificate(none, none, unfit), REFUSED);
        assert_eq!(mark_run(none, none, unfit), REFUSED);
        assert_eq!(joint_list(none, &mut [], unfit), REFUSED);
        assert_eq!(show_row(none, none, 0, 0, unfit), (REFUSED, none));
        let row = hypothesis(none, none, 0, 0, unfit);
        assert_eq!([row.number, row.sheet, row.place, row.size, row.role, row.owner], [5, 2, 0, 0, 0, 0]);
        let named = which(none, none, 0, unfit);
        assert_eq!([named.number, named.sheet, named.place, named.kind, named.subject, named.line], [5, 2, 0, 0, 0, 0]);
    }
    assert_eq!(mark_certificate(none, none, EXAM).number, 1);
    assert_eq!(mark_certificate(none, none, PRACTICE).number, 1);
}

#[test]
fn seven_and_eight_compare_with_what_is_stated() {
    let many = joint_switches(&[16, 16], 1);
    assert_eq!([PRACTICE, limits(64, 256), limits(1, 257), EXAM].map(|limits| number(&many, limits)), [8, 8, 0, 0]);
    assert_eq!([PRACTICE, EXAM].map(|limits| number(&joint_switches(&[16, 16], 0), limits)), [0, 0]);
    let wide = locations(&[6, 3]);
    assert_eq!([16, 17].map(|most| number(&wide, limits(most, 4_096))), [7, 7]);
    for most in [18, 19, 64] {
        assert_eq!(mark_run(&wide.model.bytes, &wide.second.bytes, limits(most, 1)).number, 0);
    }
}

#[test]
fn a_refused_list_writes_nothing() {
    let model = joint_switches(&[2, 2], 0).model.bytes;
    let record = JointSwitch { source: 77, event: 77, switches: [77; 4], target: 77 };
    for unfit in [limits(0, 4), limits(1, 3), limits(1, 4_097)] {
        let mut table = [record; 5];
        assert_ne!(joint_list(&model, &mut table, unfit).number, 0);
        assert_eq!(table, [record; 5]);
    }
    let mut table = [record; 5];
    assert_eq!(joint_list(&model, &mut table, limits(1, 4)).done, 4);
    assert_eq!(table[4], record);
}
