//! The independent marker on papers with blanks (02, order 6), with their model as version 1 and as version 2; and in version 3, which
//! keeps them (order 7). Limits are the exam's.

use differential::marker::{Answer, EXAM, HypothesisRow, hypothesis, joint_list, mark_certificate, mark_run, show_row};
use differential::marker::{JointSwitch, fair_copy};
use differential::papers::blanks::fixed;
use differential::papers::extremes::{Paper, for_blanks, most_hypotheses};
use differential::papers::turns;

const RUN: u8 = 3;

fn paper(name: &str) -> Paper {
    fixed().into_iter().chain(for_blanks()).find(|paper| paper.name == name).expect("a fixed paper")
}

/// The bytes with another version.
fn in_version(bytes: &[u8], version: u8) -> Vec<u8> {
    let mut bytes = bytes.to_vec();
    bytes[2] = version;
    bytes
}

/// By the call that the second sheet is for.
fn mark(model: &[u8], second: &[u8]) -> Answer {
    if second[3] == RUN { mark_run(model, second, EXAM) } else { mark_certificate(model, second, EXAM) }
}

/// The answers with the model as version 1 and as version 2. In version 3 the answer is that of version 2, four bytes later.
#[track_caller]
fn answers(name: &str) -> [Answer; 2] {
    let paper = paper(name);
    assert_eq!(paper.model.bytes[2], 2);
    let answers = [1, 2].map(|version| mark(&in_version(&paper.model.bytes, version), &paper.second.bytes));
    let Paper { model, second, .. } = paper.numbered(7);
    assert_eq!((model.bytes[2], second.bytes[2]), (3, 3));
    assert_eq!(mark(&model.bytes, &second.bytes), Answer { place: answers[1].place + 4, ..answers[1] });
    answers
}

fn accepted(length: u32, done: u32) -> Answer {
    Answer { number: 0, sheet: 1, place: length, done, score: 100 }
}

fn refused(number: u32, place: u32, done: u32, score: u32) -> Answer {
    Answer { number, sheet: 1, place, done, score }
}

#[test]
fn a_blank_in_one_mode_is_mentioned_in_another() {
    let all = accepted(56, 3);
    assert_eq!(answers("a blank in each mode, kept"), [all, all]);
    assert_eq!(answers("a blank in each mode, moved in mode 0"), [all, refused(13, 19, 0, 0)]);
    assert_eq!(answers("a blank in each mode, moved by the jump"), [all, refused(13, 32, 1, 0)]);
    assert_eq!(answers("a blank in each mode, moved in mode 1"), [all, refused(13, 43, 2, 0)]);
}

#[test]
fn rows_of_other_components_do_not_count_in_a_flow() {
    assert_eq!(answers("mentioned by another, kept"), [refused(5, 38, 1, 33), accepted(58, 3)]);
    assert_eq!(answers("mentioned by another, moved"), [accepted(32, 1), refused(13, 19, 0, 0)]);
}

#[test]
fn coefficients_before_a_jump_do_not_count() {
    assert_eq!(answers("mentioned before, kept"), [refused(5, 64, 3, 75), accepted(69, 4)]);
    assert_eq!(answers("mentioned before, kept by a run"), [refused(14, 22, 1, 0); 2]);
    assert_eq!(answers("mentioned before, moved"), [accepted(22, 1), refused(13, 15, 0, 0)]);
}

#[test]
fn rows_of_other_moving_components_do_not_count() {
    assert_eq!(answers("two that move, kept"), [refused(5, 53, 2, 67), accepted(58, 3)]);
    assert_eq!(answers("two that move, kept by a run"), [accepted(31, 1); 2]);
    assert_eq!(answers("two that move, moved"), [accepted(31, 1), refused(13, 19, 0, 0)]);
}

#[test]
fn without_rows_all_is_blank() {
    for rows in ["no flow rows", "a flow row of zeros"] {
        assert_eq!(answers(&format!("{rows}, kept")), [refused(5, 34, 1, 33), accepted(54, 3)]);
        assert_eq!(answers(&format!("{rows}, moved")), [accepted(24, 1), refused(13, 15, 0, 0)]);
    }
}

#[test]
fn staying_variables_and_blanks_are_in_one_list() {
    // As version 1, hypothesis 1 says that y is not raised; as version 2, that x is not, which comes first.
    assert_eq!(answers("one list, hypothesis 1"), [accepted(58, 3), refused(10, 43, 2, 67)]);
    assert_eq!(answers("one list, hypothesis 3"), [refused(5, 53, 2, 67), accepted(58, 3)]);
    staying_rows("one list, hypothesis 3", 2, 1, &[0, 1]);
}

/// From this hypothesis of an obligation on there are the two staying rows of each of these variables, and no more.
#[track_caller]
fn staying_rows(name: &str, obligation: u32, first: u32, variables: &[u32]) {
    let Paper { model, second, .. } = paper(name);
    let rows = variables.iter().flat_map(|&variable| [variable; 2]);
    for (number, variable) in (first..).zip(rows) {
        let row = HypothesisRow { number: 0, sheet: 2, place: 0, size: 0, role: 8, owner: variable };
        assert_eq!(hypothesis(&model.bytes, &second.bytes, obligation, number, EXAM), row, "hypothesis {number}");
        let shown = show_row(&model.bytes, &second.bytes, obligation, number, EXAM);
        assert_eq!(shown, (Answer { sheet: 2, ..Answer::default() }, &[][..]), "hypothesis {number}");
    }
    let beyond = first + 2 * variables.len() as u32;
    assert_eq!(hypothesis(&model.bytes, &second.bytes, obligation, beyond, EXAM).number, 5);
    let before = hypothesis(&model.bytes, &second.bytes, obligation, first - 1, EXAM);
    assert_eq!((before.number, before.role == 8), (0, false));
}

#[test]
fn staying_rows_come_last() {
    staying_rows("mentioned by another, kept", 1, 4, &[0, 1]);
    staying_rows("mentioned before, kept", 3, 2, &[0]);
    // Its own row mentions x.
    staying_rows("mentioned before, kept", 1, 4, &[]);
    staying_rows("two that move, kept", 2, 5, &[1]);
    staying_rows("no flow rows, kept", 1, 2, &[0]);
    staying_rows("a flow row of zeros, kept", 1, 3, &[0]);
    staying_rows("the most hypotheses", 16, 113, &[0, 1, 2, 3, 4, 5, 6, 7]);
    staying_rows("the most hypotheses", 47, 112, &[0, 1, 2, 3, 4, 5, 6, 7]);
    // After −d ≤ 0.
    let Paper { model, second, .. } = most_hypotheses();
    let time = HypothesisRow { number: 0, sheet: 2, place: 0, size: 0, role: 6, owner: 0 };
    assert_eq!(hypothesis(&model.bytes, &second.bytes, 31, 112, EXAM), time);
}

#[test]
fn the_most_hypotheses_and_entries() {
    // A region of 16 rows, then 16 proofs of 64 entries.
    let flow = 6 + 16 * 36 + 16 * 325;
    // 14 of 128 entries and two of two entries.
    let jump = flow + 14 * 645 + 2 * 15;
    let end = jump + 14 * 645 + 2 * 15;
    assert_eq!(answers("the most hypotheses"), [refused(5, flow + 5 + 5 * 112, 16, 33), accepted(end, 48)]);
    let last = 5 + 5;
    assert_eq!(answers("hypothesis 129 of a flow")[1], refused(5, jump - 15 + last, 31, 65));
    assert_eq!(answers("hypothesis 128 of a jump")[1], refused(5, end - 15 + last, 47, 98));
    assert_eq!(answers("129 entries")[1], refused(5, flow + 4, 16, 33));
}

#[test]
fn staying_rows_may_be_written_out_in_version_1() {
    for version in 1..=3 {
        let Paper { model, second, .. } = turns::certificate(version).expect("all is proved");
        assert_eq!(model.bytes[2], version);
        // 16 at the start; 16 after a flow and 8 unsafe ones in each of 16 locations; 16 after each of 32 joint switches.
        assert_eq!(mark(&model.bytes, &second.bytes), accepted(second.bytes.len() as u32, 16 + 24 * 16 + 16 * 32));
        let Paper { model, second, .. } = turns::run(version);
        assert_eq!(model.bytes[2], version);
        assert_eq!(mark(&model.bytes, &second.bytes), accepted(if version == 3 { 32_751 } else { 32_747 }, 896));
    }
}

#[test]
fn a_fair_copy_has_the_same_version_and_blanks() {
    for Paper { name, model, second } in fixed().into_iter().chain(for_blanks()) {
        let mut copies = [1, 2].map(|version| {
            let model = in_version(&model.bytes, version);
            let mut copy = vec![0; model.len()];
            let answer = fair_copy(&model, &mut copy, EXAM);
            copy.truncate(answer.done as usize);
            assert_eq!((answer.number, copy[2]), (0, version), "{name}");
            assert_eq!(mark_run(&copy, &second.bytes, EXAM), mark_run(&model, &second.bytes, EXAM), "{name}");
            copy
        });
        copies[0][2] = 2;
        assert_eq!(copies[0], copies[1], "{name}");
    }
}

#[test]
fn joint_switches_are_the_same_in_both_versions() {
    let model = paper("two that move, kept").model.bytes;
    let mut table = [JointSwitch::default(); 1];
    for version in 1..=2 {
        let listed = Answer { place: model.len() as u32, done: 1, ..Answer::default() };
        assert_eq!(joint_list(&in_version(&model, version), &mut table, EXAM), listed);
        assert_eq!(table, [JointSwitch { source: 0, event: 1, switches: [0, 0, 255, 255], target: 0 }]);
    }
}
