//! The independent marker on the examples of document 01's table, and on the fixed papers that must be accepted. Limits are the exam's.

use differential::marker::{Answer, EXAM, HypothesisRow, JointSwitch, hypothesis, joint_list, mark_certificate, mark_run, show_row, which};
use differential::papers::extremes::{self, all, tank, tank_certificate};
use differential::papers::models::Switch;
use differential::papers::sheet::fix_length;

fn answer(numbers: [u32; 5]) -> Answer {
    let [number, sheet, place, done, score] = numbers;
    Answer { number, sheet, place, done, score }
}

fn paper(name: &str) -> extremes::Paper {
    all().into_iter().find(|paper| paper.name == name).expect("a fixed paper")
}

/// T and C with one byte changed.
fn changed(place: usize, value: u8) -> (Vec<u8>, Vec<u8>) {
    let mut t = tank(-11, vec![]).bytes;
    t[place] = value;
    (t, tank_certificate(10).bytes)
}

#[test]
fn the_table_of_document_01() {
    let t = tank(-11, vec![]).bytes;
    let c = tank_certificate(10).bytes;
    assert_eq!((t.len(), c.len()), (66, 49));
    assert_eq!(mark_certificate(&t, &c, EXAM), answer([0, 1, 49, 3, 100]));
    assert_eq!(mark_certificate(&[], &c, EXAM), answer([1, 0, 0, 0, 0]));
    let (version, c) = changed(2, 9);
    assert_eq!(mark_certificate(&version, &c, EXAM), answer([2, 0, 2, 0, 0]));
    assert_eq!(mark_certificate(&c, &c, EXAM), answer([3, 0, 3, 0, 0]));
    let mut cut = t[..65].to_vec();
    fix_length(&mut cut);
    assert_eq!(mark_certificate(&cut, &c, EXAM), answer([4, 0, 62, 0, 0]));
    assert_eq!(mark_certificate(&changed(4, 0).0, &c, EXAM), answer([5, 0, 4, 0, 0]));
    let labelled = |label| tank(-11, vec![Switch { source: 0, target: 0, label, jump: vec![] }]).bytes;
    assert_eq!(mark_certificate(&labelled(1), &c, EXAM).number, 6);
    let many = paper("modes [8, 8, 2]");
    assert_eq!(mark_run(&many.model.bytes, &many.second.bytes, EXAM), answer([7, 0, 4, 0, 0]));
    let many = paper("joint switches [32, 32, 32] and 0");
    assert_eq!(mark_certificate(&many.model.bytes, &many.second.bytes, EXAM), answer([8, 0, 4, 0, 0]));
    let mut order = c.clone();
    (order[39], order[44]) = (2, 0);
    assert_eq!(mark_certificate(&t, &order, EXAM), answer([9, 1, 44, 2, 67]));
    let mut multiplier = c.clone();
    multiplier[23] = 2;
    assert_eq!(mark_certificate(&t, &multiplier, EXAM), answer([10, 1, 14, 0, 0]));
    assert_eq!(mark_certificate(&t, &tank_certificate(9).bytes, EXAM), answer([11, 1, 14, 0, 0]));
    let run = |name| mark_run(&paper(name).model.bytes, &paper(name).second.bytes, EXAM);
    assert_eq!(run("T from 6"), answer([12, 1, 10, 0, 0]));
    assert_eq!(run("T, 5 to 8"), answer([13, 1, 15, 0, 0]));
    assert_eq!(run("T at 5"), answer([14, 1, 15, 0, 0]));
    assert_eq!(run("T, 5 to 9"), answer([0, 1, 24, 1, 100]));
    let mut table = [JointSwitch::default(); 2];
    assert_eq!(joint_list(&labelled(0), &mut table[..0], EXAM), answer([15, 2, 1, 0, 0]));
    assert_eq!(joint_list(&labelled(0), &mut table, EXAM), answer([0, 0, 70, 1, 0]));
    assert_eq!(table, [JointSwitch { source: 0, event: 0, switches: [0, 255, 255, 255], target: 0 }, JointSwitch::default()]);
}

#[test]
fn rows_are_shown_and_obligations_named() {
    let t = tank(-11, vec![]).bytes;
    let c = tank_certificate(10).bytes;
    assert_eq!(show_row(&t, &c, 0, 0, EXAM), (answer([0, 0, 14, 0, 0]), &t[14..22]));
    assert_eq!(show_row(&t, &c, 2, 0, EXAM), (answer([0, 1, 6, 0, 0]), &c[6..14]));
    assert_eq!(show_row(&t, &c, 1, 5, EXAM), (answer([0, 2, 0, 0, 0]), &[][..]));
    assert_eq!(show_row(&t, &c, 1, 6, EXAM), (answer([5, 2, 0, 0, 0]), &[][..]));
    assert_eq!(show_row(&t, &c, 3, 0, EXAM), (answer([5, 2, 0, 0, 0]), &[][..]));
    let named = which(&t, &c, 2, EXAM);
    assert_eq!((named.number, named.kind, named.subject, named.line), (0, 2, 0, 0));
}

#[test]
fn rows_of_hypotheses_have_a_role() {
    let t = tank(-11, vec![]).bytes;
    let c = tank_certificate(10).bytes;
    let rows = [
        (0, 1, [0, 0, 22, 8, 0, 0]),
        (0, 2, [0, 0, 31, 8, 2, 0]),
        (1, 0, [0, 1, 6, 8, 1, 0]),
        (1, 1, [0, 0, 31, 8, 2, 0]),
        (1, 2, [0, 0, 31, 8, 4, 0]),
        (1, 4, [0, 0, 48, 8, 5, 0]),
        (1, 5, [0, 2, 0, 0, 6, 0]),
        (2, 2, [0, 0, 58, 8, 3, 0]),
        (2, 3, [5, 2, 0, 0, 0, 0]),
    ];
    for (obligation, asked, [number, sheet, place, size, role, owner]) in rows {
        let expected = HypothesisRow { number, sheet, place, size, role, owner };
        assert_eq!(hypothesis(&t, &c, obligation, asked, EXAM), expected, "hypothesis {asked} of obligation {obligation}");
    }
}

#[test]
fn large_papers_are_accepted() {
    let certificates = [
        ("certificate of 32,768 bytes", 6_524),
        ("certificate near all limits", 6_420),
        ("proofs with up to 120 entries", 48),
        ("joint switches [16, 16, 16] and 0", 0),
        ("products", 66),
        ("shared events", 0),
        ("largest sums, last bound -2147483647", 2),
        ("least rate, bound -16777215, time 16777215", 2),
    ];
    for (name, done) in certificates {
        let paper = paper(name);
        let length = paper.second.bytes.len() as u32;
        assert_eq!(mark_certificate(&paper.model.bytes, &paper.second.bytes, EXAM), answer([0, 1, length, done, 100]), "{name}");
    }
    let runs = [
        ("model of 32,768 bytes", 0),
        ("run of 4095 steps", 4_095),
        ("run of 870 steps, 8 variables, 4 components", 870),
        ("modes [8, 8]", 0),
        ("largest products [-134217728, 134217728, 134217728]", 2),
    ];
    for (name, done) in runs {
        let paper = paper(name);
        let length = paper.second.bytes.len() as u32;
        assert_eq!(mark_run(&paper.model.bytes, &paper.second.bytes, EXAM), answer([0, 1, length, done, 100]), "{name}");
    }
    assert_eq!(paper("certificate of 32,768 bytes").second.bytes.len(), 32_768);
    assert_eq!(paper("model of 32,768 bytes").model.bytes.len(), 32_768);
    assert_eq!(paper("run of 4095 steps").second.bytes.len(), 32_768);
}
