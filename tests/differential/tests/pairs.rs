//! The independent marker on sheets that belong together (02, order 7): versions, pairs of them, and paper numbers. Limits are the exam's.

use differential::marker::{Answer, EXAM, HypothesisRow, JointSwitch, fair_copy, hypothesis, joint_list, mark_certificate, mark_run};
use differential::marker::{show_row, which};
use differential::papers::extremes::{self, Paper, joint_switches, locations, longest_numbered, tank, tank_certificate};
use differential::papers::models::Switch;
use differential::papers::sheet::fix_length;
use differential::papers::{Sheet, blanks, turns};

fn answer(numbers: [u32; 5]) -> Answer {
    let [number, sheet, place, done, score] = numbers;
    Answer { number, sheet, place, done, score }
}

/// Paper number 7.
fn numbered(sheet: Sheet) -> Vec<u8> {
    sheet.moved(3, 7).bytes
}

/// T and C of version 3.
fn tank_paper() -> (Vec<u8>, Vec<u8>) {
    (numbered(tank(-11, vec![])), numbered(tank_certificate(10)))
}

fn changed(bytes: &[u8], place: usize, value: u8) -> Vec<u8> {
    let mut bytes = bytes.to_vec();
    bytes[place] = value;
    bytes
}

/// The first bytes, with L right.
fn cut(bytes: &[u8], length: usize) -> Vec<u8> {
    let mut bytes = bytes[..length].to_vec();
    fix_length(&mut bytes);
    bytes
}

/// The number, sheet and place that every call on two sheets gives: both markings, show row, the row of a hypothesis and which-obligation.
/// Those for certificates come first, then the run's.
fn told(model: &[u8], second: &[u8]) -> [[u32; 3]; 2] {
    let certificate = mark_certificate(model, second, EXAM);
    let first = [certificate.number, certificate.sheet, certificate.place];
    let run = mark_run(model, second, EXAM);
    if certificate.number > 0 {
        assert_eq!((certificate.done, certificate.score), (0, 0));
        assert_eq!(show_row(model, second, 0, 0, EXAM), (certificate, &[][..]));
        let [number, sheet, place] = first;
        assert_eq!(hypothesis(model, second, 0, 0, EXAM), HypothesisRow { number, sheet, place, ..HypothesisRow::default() });
        let named = which(model, second, 0, EXAM);
        assert_eq!([named.number, named.sheet, named.place, named.kind, named.subject, named.line], [number, sheet, place, 0, 0, 0]);
    } else {
        assert_eq!(show_row(model, second, 0, 0, EXAM).0.number, 0);
        assert_eq!(hypothesis(model, second, 0, 0, EXAM).number, 0);
        assert_eq!(which(model, second, 0, EXAM).number, 0);
    }
    [first, [run.number, run.sheet, run.place]]
}

#[test]
fn the_table_in_version_3() {
    let (t, c) = tank_paper();
    assert_eq!((t.len(), c.len(), &t[..9], &c[..9]), (70, 53, &[0, 68, 3, 1, 0, 0, 0, 7, 1][..], &[0, 51, 3, 2, 0, 0, 0, 7, 1][..]));
    assert_eq!(mark_certificate(&t, &c, EXAM), answer([0, 1, 53, 3, 100]));
    assert_eq!(mark_certificate(&[], &c, EXAM), answer([1, 0, 0, 0, 0]));
    assert_eq!(mark_certificate(&changed(&t, 2, 9), &c, EXAM), answer([2, 0, 2, 0, 0]));
    assert_eq!(mark_certificate(&c, &c, EXAM), answer([3, 0, 3, 0, 0]));
    assert_eq!(mark_certificate(&cut(&t, 69), &c, EXAM), answer([4, 0, 66, 0, 0]));
    assert_eq!(mark_certificate(&changed(&t, 8, 0), &c, EXAM), answer([5, 0, 8, 0, 0]));
    assert_eq!(mark_certificate(&t, &changed(&c, 8, 2), EXAM), answer([5, 1, 8, 0, 0]));
    let labelled = |label| numbered(tank(-11, vec![Switch { source: 0, target: 0, label, jump: vec![] }]));
    // The label follows the 52 bytes of the head, the owner, the component and its mode, then the switch's source and target.
    assert_eq!(mark_certificate(&labelled(1), &c, EXAM), answer([6, 0, 8 + 52 + 2, 0, 0]));
    let many = locations(&[8, 8, 2]).numbered(7);
    assert_eq!(mark_run(&many.model.bytes, &many.second.bytes, EXAM), answer([7, 0, 8, 0, 0]));
    let many = joint_switches(&[32, 32, 32], 0).numbered(7);
    assert_eq!(mark_certificate(&many.model.bytes, &many.second.bytes, EXAM), answer([8, 0, 8, 0, 0]));
    assert_eq!(mark_certificate(&t, &changed(&changed(&c, 43, 2), 48, 0), EXAM), answer([9, 1, 48, 2, 67]));
    assert_eq!(mark_certificate(&t, &changed(&c, 27, 2), EXAM), answer([10, 1, 18, 0, 0]));
    assert_eq!(mark_certificate(&t, &numbered(tank_certificate(9)), EXAM), answer([11, 1, 18, 0, 0]));
    let run = |name: &str| {
        let Paper { model, second, .. } = extremes::all().into_iter().find(|paper| paper.name == name).expect("a fixed paper").numbered(7);
        mark_run(&model.bytes, &second.bytes, EXAM)
    };
    assert_eq!(run("T from 6"), answer([12, 1, 14, 0, 0]));
    assert_eq!(run("T, 5 to 8"), answer([13, 1, 19, 0, 0]));
    assert_eq!(run("T at 5"), answer([14, 1, 19, 0, 0]));
    assert_eq!(run("T, 5 to 9"), answer([0, 1, 28, 1, 100]));
    let mut table = [JointSwitch::default(); 1];
    assert_eq!(joint_list(&labelled(0), &mut [], EXAM), answer([15, 2, 1, 0, 0]));
    assert_eq!(joint_list(&labelled(0), &mut table, EXAM), answer([0, 0, 74, 1, 0]));
    assert_eq!(table, [JointSwitch { source: 0, event: 0, switches: [0, 255, 255, 255], target: 0 }]);
}

#[test]
fn rows_are_shown_four_bytes_later() {
    let (t, c) = tank_paper();
    assert_eq!(show_row(&t, &c, 0, 0, EXAM), (answer([0, 0, 18, 0, 0]), &t[18..26]));
    assert_eq!(show_row(&t, &c, 2, 0, EXAM), (answer([0, 1, 10, 0, 0]), &c[10..18]));
    assert_eq!(show_row(&t, &c, 1, 5, EXAM), (answer([0, 2, 0, 0, 0]), &[][..]));
    assert_eq!(show_row(&t, &c, 3, 0, EXAM), (answer([5, 2, 0, 0, 0]), &[][..]));
    let row = HypothesisRow { number: 0, sheet: 0, place: 62, size: 8, role: 3, owner: 0 };
    assert_eq!(hypothesis(&t, &c, 2, 2, EXAM), row);
    let named = which(&t, &c, 2, EXAM);
    assert_eq!([named.number, named.sheet, named.place, named.kind, named.subject, named.line], [0, 1, 53, 2, 0, 0]);
}

#[test]
fn pairs_of_versions() {
    let versions = [0, 1, 2, 3, 4, 5, 255];
    for (model, second) in versions.iter().flat_map(|model| versions.map(|second| (*model, second))) {
        let t = tank(-11, vec![]).moved(model, 7).bytes;
        let c = tank_certificate(10).moved(second, 7).bytes;
        let expected = match (model, second) {
            (1 | 2, 1) => [[0, 1, 49], [3, 1, 3]],
            (3, 3) => [[0, 1, 53], [3, 1, 3]],
            // The kind comes before the pair.
            (1..=3, 1 | 3) => [[18, 1, 2], [3, 1, 3]],
            (1..=3, _) => [[2, 1, 2]; 2],
            _ => [[2, 0, 2]; 2],
        };
        assert_eq!(told(&t, &c), expected, "versions {model} and {second}");
    }
    let Paper { model, second, .. } = blanks::fixed().into_iter().find(|paper| paper.name == "no flow rows, moved").expect("a fixed paper");
    let run = |versions: [u8; 2]| {
        let [one, other] = [(&model, versions[0]), (&second, versions[1])].map(|(sheet, version)| sheet.clone().moved(version, 7).bytes);
        told(&one, &other)
    };
    assert_eq!([[1, 1], [2, 1], [3, 3]].map(|pair| run(pair)[1]), [[0, 1, 24], [13, 1, 15], [13, 1, 19]]);
    assert_eq!([[1, 3], [2, 3], [3, 1]].map(run), [[[3, 1, 3], [18, 1, 2]]; 3]);
    assert_eq!([[1, 2], [2, 2], [3, 2]].map(run), [[[2, 1, 2]; 2]; 3]);
}

#[test]
fn versions_that_a_model_may_have() {
    for version in [0, 4, 5, 255] {
        let t = tank(-11, vec![]).moved(version, 7).bytes;
        let refused = answer([2, 0, 2, 0, 0]);
        assert_eq!(joint_list(&t, &mut [], EXAM), refused);
        assert_eq!(fair_copy(&t, &mut [77; 80], EXAM), refused);
    }
    for version in 1..=3 {
        let t = tank(-11, vec![]).moved(version, 7).bytes;
        let length = t.len() as u32;
        assert_eq!(joint_list(&t, &mut [], EXAM), answer([0, 0, length, 0, 0]));
        assert_eq!(fair_copy(&t, &mut [77; 80], EXAM), answer([0, 0, length, length, 0]));
    }
    // The version of a model, the kind of none; then the version of no second sheet, whatever its kind.
    let (t, c) = (tank(-11, vec![]), tank_certificate(10));
    assert_eq!(told(&c.clone().in_version(2).bytes, &c.bytes), [[3, 0, 3]; 2]);
    assert_eq!(told(&t.bytes, &t.clone().in_version(2).bytes), [[2, 1, 2]; 2]);
    assert_eq!(told(&t.bytes, &t.clone().moved(3, 7).bytes), [[3, 1, 3]; 2]);
}

#[test]
fn paper_numbers_are_compared_whole() {
    let numbers =
        [0, 1, 0xff, 0x100, 0xff00, 0x1_0000, 0xff_0000, 0x100_0000, 0xff00_0000, 0x0102_0304, 0x0403_0201, u32::MAX - 1, u32::MAX];
    for (one, other) in numbers.iter().flat_map(|one| numbers.map(|other| (*one, other))) {
        let t = tank(-11, vec![]).moved(3, one).bytes;
        let c = tank_certificate(10).moved(3, other).bytes;
        let expected = if one == other { [0, 1, 53] } else { [18, 1, 4] };
        assert_eq!(told(&t, &c)[0], expected, "numbers {one} and {other}");
    }
}

#[test]
fn a_second_sheet_is_refused_in_order() {
    let (t, c) = tank_paper();
    let first = tank_certificate(10).bytes;
    let other = tank_certificate(10).moved(3, 8).bytes;
    let at = |second: &[u8]| told(&t, second)[0];
    for length in 0..4 {
        assert_eq!(at(&cut(&first, length)), [1, 1, 0]);
    }
    // Kind 2 has no version 2; the kind of a run; versions that do not pair; all before the body.
    assert_eq!(at(&changed(&cut(&c, 4), 2, 2)), [2, 1, 2]);
    assert_eq!(at(&changed(&cut(&first, 4), 3, 3)), [3, 1, 3]);
    for length in [4, 5, 48, 49] {
        assert_eq!(at(&cut(&first, length)), [18, 1, 2]);
    }
    assert_eq!(at(&changed(&first, 4, 99)), [18, 1, 2]);
    // A number that is cut is not compared.
    for length in 4..8 {
        assert_eq!([&c, &other].map(|second| at(&cut(second, length))), [[4, 1, 4]; 2]);
    }
    // Numbers are compared before the rest is read.
    assert_eq!(at(&cut(&other, 8)), [18, 1, 4]);
    assert_eq!(at(&changed(&other, 8, 99)), [18, 1, 4]);
    assert_eq!(at(&cut(&c, 8)), [4, 1, 8]);
    assert_eq!(at(&changed(&c, 8, 99)), [5, 1, 8]);
    // The model first.
    assert_eq!(told(&changed(&t, 8, 0), &other), [[5, 0, 8]; 2]);
    // Arguments last.
    assert_eq!(show_row(&t, &other, u32::MAX, 0, EXAM), (answer([18, 1, 4, 0, 0]), &[][..]));
    assert_eq!(which(&t, &other, u32::MAX, EXAM).number, 18);
    assert_eq!(hypothesis(&t, &first, u32::MAX, 0, EXAM).number, 18);
}

#[test]
fn a_model_that_is_cut_in_its_number() {
    let (t, c) = tank_paper();
    for length in 4..10 {
        let model = cut(&t, length);
        let place = if length < 8 { 4 } else { length as u32 };
        assert_eq!(told(&model, &c), [[4, 0, place]; 2]);
        assert_eq!(joint_list(&model, &mut [], EXAM), answer([4, 0, place, 0, 0]));
        assert_eq!(fair_copy(&model, &mut [], EXAM), answer([4, 0, place, 0, 0]));
    }
}

#[test]
fn one_sheet_may_have_any_number() {
    for number in [0, 1, 7, 0x8000_0000, u32::MAX] {
        let t = tank(-11, vec![]).moved(3, number).bytes;
        assert_eq!(joint_list(&t, &mut [], EXAM), answer([0, 0, 70, 0, 0]));
        let mut copy = vec![77; 71];
        assert_eq!(fair_copy(&t, &mut copy, EXAM), answer([0, 0, 70, 70, 0]));
        let mut of_first = vec![0; 66];
        assert_eq!(fair_copy(&tank(-11, vec![]).bytes, &mut of_first, EXAM).number, 0);
        assert_eq!(copy[..4], [0, 68, 3, 1]);
        assert_eq!(copy[4..8], number.to_be_bytes());
        assert_eq!(copy[8..70], of_first[4..]);
        assert_eq!(copy[70], 77);
        assert_eq!(fair_copy(&t, &mut [0; 69], EXAM), answer([15, 2, 70, 0, 0]));
        // A certificate of the paper is one of the copy.
        assert_eq!(told(&copy[..70], &tank_certificate(10).moved(3, number).bytes)[0], [0, 1, 53]);
        assert_eq!(told(&copy[..70], &tank_certificate(10).moved(3, !number).bytes)[0], [18, 1, 4]);
    }
}

#[test]
fn the_longest_sheets_of_version_3() {
    let done = [6_512, 0, 0, 4_095];
    for (Paper { name, model, second }, done) in longest_numbered().into_iter().zip(done) {
        assert_eq!(model.bytes.len().max(second.bytes.len()), 32_768, "{name}");
        let length = second.bytes.len() as u32;
        let mark = if second.bytes[3] == 2 { mark_certificate } else { mark_run };
        assert_eq!(mark(&model.bytes, &second.bytes, EXAM), answer([0, 1, length, done, 100]), "{name}");
    }
    let longer = extremes::longest_model().numbered(7);
    assert_eq!(told(&longer.model.bytes, &longer.second.bytes), [[1, 0, 0]; 2]);
    let longer = extremes::longest_certificate().numbered(7);
    assert_eq!(told(&longer.model.bytes, &longer.second.bytes), [[1, 1, 0]; 2]);
}

#[test]
fn a_sheet_that_goes_to_version_3_and_comes_back() {
    let Paper { model, second, .. } = turns::run(2);
    for sheet in [model, second, tank(-11, vec![]), tank_certificate(10)] {
        let version = sheet.bytes[2];
        let there = sheet.clone().moved(3, 0x0102_0304);
        assert_eq!(there.bytes[4..8], [1, 2, 3, 4]);
        assert_eq!((there.number(), sheet.number()), (Some(0x0102_0304), None));
        assert_eq!(there.fields.len(), sheet.fields.len() + 1);
        let back = there.moved(version, 0);
        assert_eq!(back.bytes, sheet.bytes);
        assert!(back.fields.iter().zip(&sheet.fields).all(|(one, other)| one.place == other.place && one.size == other.size));
    }
}
