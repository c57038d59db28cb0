//! The independent marker's fair copy on the examples of document 02, order 4, and of its readings.

use differential::marker::{Answer, EXAM, Limits, Model, fair_copy, joint_list, mark_certificate, mark_run};
use differential::papers::extremes::{for_fair_copy, longest_copy, tank, tank_certificate};
use differential::papers::models::{ANY, Component, Mode, Plan, Switch, random_plan};
use differential::papers::sheet::Row;
use differential::papers::spellings::{respelled, rough_plan};
use differential::papers::{Random, runs};

const MIN: i32 = i32::MIN;
const MAX: i32 = i32::MAX;

/// A model of one component and mode with these rows in each condition, jump rows aside.
fn plan(n: usize, rows: &[Row], jump: &[Row]) -> Plan {
    let mode = Mode { start: true, initial: rows.to_vec(), invariant: rows.to_vec(), flow: rows.to_vec() };
    let switch = Switch { source: 0, target: 0, label: 0, jump: jump.to_vec() };
    let component = Component { alphabet: 0, modes: vec![mode], switches: vec![switch] };
    let none = || vec![0; n];
    let unsafe_conditions = vec![(vec![ANY], rows.to_vec())];
    let (owners, components) = (vec![0; n], vec![component]);
    Plan { version: 1, paper_number: 0, owners, components, unsafe_conditions, start: none(), low: none(), high: none() }
}

/// The copy of an accepted model, whole and by itself.
#[track_caller]
fn copied(model: &[u8]) -> Vec<u8> {
    let mut copy = vec![0; model.len()];
    let answer = fair_copy(model, &mut copy, EXAM);
    copy.truncate(answer.done as usize);
    assert_eq!(answer, Answer { place: model.len() as u32, done: copy.len() as u32, ..Answer::default() });
    copy
}

/// These rows become those, in each condition.
#[track_caller]
fn become_rows(rows: &[Row], expected: &[Row]) {
    let n = rows[0].len() - 1;
    assert_eq!(copied(&plan(n, rows, &[]).sheet().bytes), plan(n, expected, &[]).sheet().bytes);
}

#[track_caller]
fn become_fair<const N: usize, const M: usize, const L: usize>(rows: [[i32; N]; M], expected: [[i32; N]; L]) {
    become_rows(&rows.map(|row| row.to_vec()), &expected.map(|row| row.to_vec()));
}

#[test]
fn rows_are_divided_without_rounding() {
    become_fair([[2, 3]], [[2, 3]]);
    become_fair([[2, 4]], [[1, 2]]);
    become_fair([[2, 0]], [[1, 0]]);
    become_fair([[-6, -9]], [[-2, -3]]);
    become_fair([[0, -4, 6]], [[0, -2, 3]]);
    become_fair([[6, 10, 15]], [[6, 10, 15]]);
    become_fair([[MAX, MAX]], [[1, 1]]);
    become_fair([[-MAX, MAX]], [[-1, 1]]);
    become_fair([[MIN, MAX]], [[MIN, MAX]]);
}

#[test]
fn a_divisor_can_be_the_greatest() {
    become_fair([[MIN, MIN]], [[-1, -1]]);
    become_fair([[MIN, 0]], [[-1, 0]]);
    become_fair([[0, MIN, 0, MIN]], [[0, -1, 0, -1]]);
    become_fair([[MIN, 1 << 30]], [[-2, 1]]);
    become_fair([[MIN; 9]; 8], [[-1; 9]]);
    let throughout = plan(8, &[vec![MIN; 9]], &[vec![MIN; 17]]).sheet().bytes;
    assert_eq!(copied(&throughout), plan(8, &[vec![-1; 9]], &[vec![-1; 17]]).sheet().bytes);
}

#[test]
fn rows_of_zeros_are_dropped_or_never_true() {
    become_fair([[0, 1]], []);
    become_fair([[0, 0]], []);
    become_fair([[0, MAX]], []);
    become_fair([[0, -1]], [[0, -1]]);
    become_fair([[0, MIN]], [[0, -1]]);
    become_fair([[0, -6]], [[0, -1]]);
    become_fair([[0, 1], [0, 0], [0, -1], [0, MIN]], [[0, -1]]);
    become_fair([[0, 0, 0, 5], [0, 1, 0, 5], [0, 0, 0, -5]], [[0, 0, 0, -1], [0, 1, 0, 5]]);
}

#[test]
fn rows_are_sorted_by_signed_numbers_and_kept_once() {
    become_fair([[1, 5], [-1, -5]], [[-1, -5], [1, 5]]);
    become_fair([[1, MAX], [0, -7], [MIN, 1], [-1, 3], [1, MIN + 1]], [[MIN, 1], [-1, 3], [0, -1], [1, MIN + 1], [1, MAX]]);
    become_fair([[1, 1, 0], [1, -1, 9], [1, 0, 0]], [[1, -1, 9], [1, 0, 0], [1, 1, 0]]);
    // After dividing: 4x ≤ 20 is x ≤ 5.
    become_fair([[4, 20], [3, 1]], [[1, 5], [3, 1]]);
    // Weaker rows stay.
    become_fair([[1, 7], [1, 5], [2, 14], [3, 15], [1, 5]], [[1, 5], [1, 7]]);
    become_rows(&(1..=8).map(|k| vec![2 * k, -k, 0, 3 * k]).collect::<Vec<_>>(), &[vec![2, -1, 0, 3]]);
}

#[test]
fn jump_rows_have_twice_the_coefficients() {
    let row = |before: i32, after: i32, bound: i32| {
        let mut row = vec![0; 17];
        (row[7], row[8], row[16]) = (before, after, bound);
        row
    };
    let jump = [row(1, 1, 0), row(0, 2, 1), row(-2, 4, 6), row(0, 0, 3), row(1, -1, 0), row(0, 0, -9), row(-1, 2, 3), row(0, 2, 0)];
    let fair = [row(-1, 2, 3), row(0, 0, -1), row(0, 1, 0), row(0, 2, 1), row(1, -1, 0), row(1, 1, 0)];
    assert_eq!(copied(&plan(8, &[], &jump).sheet().bytes), plan(8, &[], &fair).sheet().bytes);
}

#[test]
fn all_else_keeps_its_place() {
    let mode = |start, number| Mode { start, invariant: vec![vec![0, 2, 4 * number], vec![0, 1, 2 * number]], ..Mode::default() };
    let switch = |source, label| Switch { source, target: 1 - source, label, jump: vec![vec![0, 0, 0, 0, 1]] };
    let component = |alphabet| Component {
        alphabet,
        modes: vec![mode(true, 9), mode(false, 3), mode(true, 9)],
        switches: vec![switch(1, 0), switch(0, 14), switch(1, 0), switch(1, 0)],
    };
    let unsafe_conditions = vec![(vec![2, ANY], vec![vec![3, 0, 3]]), (vec![ANY, 0], vec![]), (vec![2, ANY], vec![vec![1, 0, 1]])];
    let mut model = plan(2, &[], &[]);
    (model.owners, model.components, model.unsafe_conditions) = (vec![1, 0], vec![component(0x4000), component(0xfffe)], unsafe_conditions);
    let original = model.sheet().bytes;
    for (_, rows) in model.conditions() {
        *rows = match rows.len() {
            2 => vec![rows[1].clone()],
            _ => rows.iter().filter(|row| row[0] != 0).map(|_| vec![1, 0, 1]).collect(),
        };
    }
    assert_eq!(copied(&original), model.sheet().bytes);
}

#[test]
fn the_tank_is_copied_into_a_buffer() {
    let t = tank(-11, vec![]).bytes;
    let mut fair = t.clone();
    // The two initial rows and the two flow rows change places.
    fair[14..30].rotate_left(8);
    fair[40..56].rotate_left(8);
    for length in 66..70 {
        let mut buffer = vec![77; length];
        assert_eq!(fair_copy(&t, &mut buffer, EXAM), Answer { place: 66, done: 66, ..Answer::default() });
        assert_eq!(buffer[..66], fair);
        assert!(buffer[66..].iter().all(|&byte| byte == 77));
    }
    for length in 0..66 {
        let mut buffer = vec![77; length];
        assert_eq!(fair_copy(&t, &mut buffer, EXAM), Answer { number: 15, sheet: 2, place: 66, done: 0, score: 0 });
        assert_eq!(buffer, vec![77; length]);
    }
}

#[test]
fn limits_and_the_model_are_refused_before_the_buffer() {
    let t = tank(-11, vec![Switch { source: 0, target: 0, label: 0, jump: vec![] }; 2]).bytes;
    let c = tank_certificate(10).bytes;
    let refused = |number, sheet, place| Answer { number, sheet, place, done: 0, score: 0 };
    for length in [0, 73, 74, 200] {
        let mut buffer = vec![77; length];
        for (locations, joints) in [(0, 2), (1, 0), (65, 2), (1, 4_097), (u32::MAX, u32::MAX)] {
            let limits = Limits { locations, joints };
            assert_eq!(fair_copy(&[], &mut buffer, limits), refused(5, 2, 0));
            assert_eq!(fair_copy(&t, &mut buffer, limits), refused(5, 2, 0));
        }
        assert_eq!(fair_copy(&t, &mut buffer, Limits { locations: 1, joints: 1 }), refused(8, 0, 4));
        assert_eq!(fair_copy(&[], &mut buffer, EXAM), refused(1, 0, 0));
        assert_eq!(fair_copy(&c, &mut buffer, EXAM), refused(3, 0, 3));
        assert_eq!(fair_copy(&t[..73], &mut buffer, EXAM), refused(1, 0, 0));
        let mut unfit = t.clone();
        unfit[4] = 0;
        assert_eq!(fair_copy(&unfit, &mut buffer, EXAM), refused(5, 0, 4));
        assert_eq!(buffer, vec![77; length]);
    }
}

#[test]
fn the_longest_copy_is_as_long_as_the_longest_sheet() {
    let model = longest_copy().model.bytes;
    assert_eq!(model.len(), 32_768);
    let copy = copied(&model);
    assert_eq!(copy.len(), 32_768);
    assert_ne!(copy, model);
}

/// What document 02 says of every copy.
#[track_caller]
fn is_fair(model: &[u8], copy: &[u8]) {
    assert!(copy.len() <= model.len());
    assert_eq!(copied(copy), copy);
    let [before, after] = [model, copy].map(|sheet| Model::read(sheet, EXAM).expect("it reads well"));
    assert_eq!(before.conditions().len(), after.conditions().len());
    for condition in after.conditions() {
        let rows: Vec<Row> = condition.rows().map(|row| [row.coefficients, &[row.bound]].concat()).collect();
        assert!(rows.is_sorted_by(|one, next| one < next));
        for row in rows {
            let zeros = row[..row.len() - 1].iter().all(|&a| a == 0);
            assert!(!zeros || row[row.len() - 1] == -1);
            assert!((2..=100).all(|divisor| row.iter().any(|number| number % divisor != 0)));
        }
    }
    let lists = [model, copy].map(|sheet| {
        let mut table = vec![Default::default(); 4_096];
        (joint_list(sheet, &mut table, EXAM).done, table)
    });
    assert_eq!(lists[0], lists[1]);
}

#[test]
fn other_spellings_have_the_same_copy() {
    let mut random = Random::new(2, 0);
    let mut models: Vec<Vec<u8>> = for_fair_copy().into_iter().map(|paper| paper.model.bytes).collect();
    models.extend((0..100).map(|_| random_plan(&mut random, 4).sheet().bytes));
    models.extend((0..100).map(|_| rough_plan(&mut random).sheet().bytes));
    for model in models.iter().filter(|model| Model::read(model, EXAM).is_ok()) {
        let copy = copied(model);
        is_fair(model, &copy);
        for _ in 0..4 {
            let other = respelled(&mut random, model).expect("it reads well").bytes;
            assert_eq!(copied(&other), copy);
        }
    }
}

#[test]
fn runs_are_marked_alike() {
    let mut random = Random::new(3, 0);
    for round in 0..200 {
        let plan = if round % 2 == 0 { random_plan(&mut random, 3) } else { rough_plan(&mut random) };
        let Some(walk) = runs::random_run(&mut random, plan, 8) else { continue };
        let (model, run) = (&walk.model.bytes, &walk.second.bytes);
        let other = respelled(&mut random, model).expect("it reads well").bytes;
        let answer = mark_run(model, run, EXAM);
        assert_eq!([&copied(model), &other, &copied(&other)].map(|sheet| mark_run(sheet, run, EXAM)), [answer; 3]);
    }
}

#[test]
fn a_certificate_belongs_to_its_sheet() {
    let (t, c) = (tank(-11, vec![]).bytes, tank_certificate(10).bytes);
    // Its proofs name the invariant, which keeps its number in this copy; a row that goes takes numbers with it.
    assert_eq!(mark_certificate(&copied(&t), &c, EXAM).number, 0);
    let mut plan = Plan::of(&Model::read(&t, EXAM).expect("it reads well"));
    plan.components[0].modes[0].initial.push(vec![1, 6]);
    plan.components[0].modes[0].initial.push(vec![2, 12]);
    let mut other = c.clone();
    other[19] = 4;
    let longer = plan.sheet().bytes;
    assert_eq!(mark_certificate(&longer, &other, EXAM).number, 0);
    assert_eq!(mark_certificate(&copied(&longer), &other, EXAM).number, 5);
}
