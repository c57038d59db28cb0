//! Models for the fair copy: other spellings of a model, which all have the same copy, and models with rows of every kind that a copy
//! changes.

use super::certificates::gcd;
use super::models::{ANY, Plan, crowded_plan, random_plan, row};
use super::pairs::in_any_version;
use super::random::Random;
use super::sheet::{Row, Sheet};
use crate::marker::{Limits, Model};

const MOST_BYTES: usize = 32_768;
const MOST_ROWS: usize = 8;

/// The same model in another spelling: the rows of each condition are multiplied, repeated and shuffled, and rows of zeros that are always
/// true come in, as many as there is room for. None for bytes that are no model.
pub fn respelled(random: &mut Random, model: &[u8]) -> Option<Sheet> {
    let any = Limits { locations: u32::MAX, joints: u32::MAX };
    let mut plan = Plan::of(&Model::read(model, any).ok()?);
    let mut room = MOST_BYTES - model.len();
    let most = *random.pick(&[0, 1, 3, MOST_ROWS]);
    for (width, rows) in plan.conditions() {
        let size = 4 * (width + 1);
        for _ in 0..random.below(most + 1).min(MOST_ROWS - rows.len()).min(room / size) {
            let more = if rows.is_empty() || random.one_in(3) { row(width, &[], 0) } else { random.pick(rows).clone() };
            rows.push(more);
            room -= size;
        }
        rows.iter_mut().for_each(|row| respell(random, row));
        random.shuffle(rows);
    }
    Some(plan.sheet())
}

/// The same row with other numbers.
fn respell(random: &mut Random, row: &mut Row) {
    let (bound, coefficients) = row.split_last_mut().expect("a row has a bound");
    if coefficients.iter().all(|&a| a == 0) {
        let other = *random.pick(&[0, 1, 2, 6, 1 << 30, i32::MAX]);
        *bound = if *bound < 0 { -1 - other } else { other };
        return;
    }
    let divisor = row.iter().fold(0, |divisor, &number| gcd(divisor, i64::from(number).abs()));
    row.iter_mut().for_each(|number| *number = (i64::from(*number) / divisor) as i32);
    multiply(random, row);
}

/// Multiplies a row by 1, by a small number, by the greatest that fits, or by any.
fn multiply(random: &mut Random, row: &mut Row) {
    let most = row.iter().map(|&number| most_factor(number)).min().expect("a row has a bound");
    let factor = match random.below(5) {
        0 => 1,
        1 => most,
        2 => random.between(1, most),
        _ => random.between(1, most.min(12)),
    };
    row.iter_mut().for_each(|number| *number = (i64::from(*number) * factor) as i32);
}

/// The greatest factor, up to 2^31, that leaves a number in s32.
fn most_factor(number: i32) -> i64 {
    match i64::from(number) {
        0 => 1 << 31,
        number @ 1.. => i64::from(i32::MAX) / number,
        number => (1 << 31) / -number,
    }
}

/// A model with rows of every kind that a copy changes. In every other one no bound is below 0, so that runs can begin with all values 0.
pub fn rough_plan(random: &mut Random) -> Plan {
    let plan = if random.one_in(8) { crowded_plan(random) } else { random_plan(random, 3) };
    let mut plan = in_any_version(random, plan);
    let n = *random.pick(&[1, 2, 3, 8]);
    plan.owners = (0..n).map(|_| random.below(plan.components.len()) as u8).collect();
    (plan.start, plan.low, plan.high) = (vec![0; n], vec![-2; n], vec![2; n]);
    plan.unsafe_conditions = vec![(vec![ANY; plan.components.len()], vec![]); random.below(4)];
    plan.conditions().into_iter().for_each(|(_, rows)| rows.clear());

    let mut room = MOST_BYTES - plan.sheet().bytes.len();
    let with_runs = random.one_in(2);
    for (width, rows) in plan.conditions() {
        let size = 4 * (width + 1);
        *rows = rough_rows(random, width, MOST_ROWS.min(room / size));
        room -= size * rows.len();
        for row in rows.iter_mut().filter(|_| with_runs) {
            row[width] = row[width].max(-1 - row[width]);
        }
    }
    plan
}

/// Rows of one condition: now and then as many as there may be, all spellings of one.
fn rough_rows(random: &mut Random, width: usize, most: usize) -> Vec<Row> {
    let mut rows = vec![];
    let all_one = random.one_in(6);
    for _ in 0..if all_one { most } else { random.below(most + 1) } {
        let mut row = rough_row(random, width, &rows);
        if all_one && !rows.is_empty() {
            row = rows[0].clone();
            respell(random, &mut row);
        }
        rows.push(row);
    }
    rows
}

/// A row of zeros, of one number, of the least numbers, of large ones or of small ones, or an earlier row with another number in it; half
/// of them multiplied.
fn rough_row(random: &mut Random, width: usize, earlier: &[Row]) -> Row {
    const NUMBERS: [i32; 10] = [i32::MIN, i32::MAX, 1 << 30, 0, 0, 1, -1, 6, -4, 1_000_003];
    let numbers = 0..=width;
    let mut rough = match random.below(8) {
        0 | 1 => row(width, &[], *random.pick(&[1, 0, -1, i32::MIN, i32::MAX, -6])),
        2 => vec![*random.pick(&NUMBERS); width + 1],
        3 => numbers.map(|_| *random.pick(&[0, i32::MIN])).collect(),
        4 => numbers.map(|_| *random.pick(&NUMBERS)).collect(),
        5 | 6 if !earlier.is_empty() => {
            let mut other = random.pick(earlier).clone();
            other[random.below(width + 1)] = *random.pick(&NUMBERS);
            other
        }
        _ => numbers.map(|_| random.between(-3, 3) as i32).collect(),
    };
    if random.one_in(2) {
        multiply(random, &mut rough);
    }
    rough
}
