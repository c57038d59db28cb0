//! Compares the library with the independent marker on many papers and typed texts.
//!
//!     differential [--seed N] [--seconds N] [--rounds N] [--round R] [--guard] [--folder DIR]
//!
//! Without options it runs for about 60 seconds from a fixed seed, which DIFFERENTIAL_SEED may set too. A round makes papers from the
//! seed and its own number, so `--round R` repeats one exactly. With `--guard` the sheets, the table, the buffer and the texts lie between
//! closed pages; that is slower, and goes on for 20 seconds. At the first mismatch the sheets or the text are written as hex files to the
//! folder, and the exit status is 1.

mod compare;

use compare::{Compared, Comparison};
use differential::marker::{EXAM, Limits};
use differential::papers::damage::{ALL, damaged, random_bytes};
use differential::papers::pairs::{self, in_any_version, random_number};
use differential::papers::sheet::{NUMBERED, second_version};
use differential::papers::{Random, Sheet, blanks, certificates, extremes, models, runs, scores, spellings, texts};
use std::path::PathBuf;
use std::process::ExitCode;
use std::time::{Duration, Instant};

struct Options {
    seed: u64,
    /// None for the default, which depends on `guard`.
    seconds: Option<u64>,
    rounds: u64,
    only: Option<u64>,
    guard: bool,
    folder: PathBuf,
}

fn options() -> Result<Options, String> {
    let seed = std::env::var("DIFFERENTIAL_SEED").ok();
    let seed = seed.map_or(Ok(1), |text| text.parse()).map_err(|_| "DIFFERENTIAL_SEED is not a number")?;
    let mut options = Options { seed, seconds: None, rounds: u64::MAX, only: None, guard: false, folder: ".".into() };
    let mut words = std::env::args().skip(1);
    while let Some(word) = words.next() {
        let mut number = || -> Result<u64, String> {
            let text = words.next().ok_or(format!("{word} needs a number"))?;
            text.parse().map_err(|_| format!("{word} needs a number, not {text}"))
        };
        match word.as_str() {
            "--seed" => options.seed = number()?,
            "--seconds" => options.seconds = Some(number()?),
            "--rounds" => options.rounds = number()?,
            "--round" => options.only = Some(number()?),
            "--guard" => options.guard = true,
            "--folder" => options.folder = words.next().ok_or("--folder needs a folder")?.into(),
            _ => return Err(format!("unknown option {word}")),
        }
    }
    Ok(options)
}

fn main() -> ExitCode {
    let options = match options() {
        Ok(options) => options,
        Err(problem) => {
            eprintln!("differential: {problem}");
            return ExitCode::from(2);
        }
    };
    let mut comparison = Comparison::new(options.guard);
    match compare_all(&options, &mut comparison) {
        Ok(rounds) => {
            comparison.print_counts();
            println!("{rounds} rounds from seed {}: no mismatch", options.seed);
            ExitCode::SUCCESS
        }
        Err(mismatch) => {
            comparison.print_counts();
            mismatch.report(&options.folder);
            ExitCode::FAILURE
        }
    }
}

/// The fixed papers and texts, all short texts, then round after round until time is up; the number of rounds.
fn compare_all(options: &Options, comparison: &mut Comparison) -> Compared<u64> {
    let start = Instant::now();
    let seconds = options.seconds.unwrap_or(if options.guard { 20 } else { 60 });
    let limit = Duration::from_secs(seconds);
    let mut random = Random::new(options.seed, u64::MAX);
    for paper in extremes::all() {
        comparison.origin = format!("fixed paper \"{}\"", paper.name);
        comparison.compare("fixed", &paper.model, &paper.second, &mut random)?;
        comparison.compare_numbered("fixed", &paper.model, &paper.second, &mut random)?;
    }
    compare_blanks(&mut random, comparison)?;
    compare_pairs(&mut random, comparison)?;
    compare_limits(&mut random, comparison)?;
    compare_copies(&mut random, comparison)?;
    compare_scores(&mut random, comparison)?;
    let short = texts::short().filter(|_| !options.guard);
    for text in texts::fixed().into_iter().chain(short) {
        comparison.origin = format!("fixed text of {} bytes", text.bytes.len());
        comparison.compare_text(&text)?;
    }
    if let Some(round) = options.only {
        compare_round(options.seed, round, comparison)?;
        return Ok(1);
    }
    let mut shown = start;
    let mut round = 0;
    while round < options.rounds && start.elapsed() < limit {
        compare_round(options.seed, round, comparison)?;
        round += 1;
        if shown.elapsed() > Duration::from_secs(10) {
            shown = Instant::now();
            let (papers, texts) = (comparison.papers(), comparison.texts());
            println!("{} s of {seconds}: {round} rounds, {papers} papers, {texts} typed texts", start.elapsed().as_secs());
        }
    }
    Ok(round)
}

/// Papers with blanks at the exam desk: in all versions, then with another version in the header of either sheet, and each hypothesis of
/// each obligation.
fn compare_blanks(random: &mut Random, comparison: &mut Comparison) -> Compared<()> {
    comparison.desk = Some(EXAM);
    for paper in blanks::fixed().into_iter().chain(extremes::for_blanks()) {
        comparison.origin = format!("fixed paper \"{}\"", paper.name);
        let (model, second) = (&paper.model, &paper.second);
        comparison.compare("fixed, with blanks", model, second, random)?;
        comparison.compare_versions("fixed, with blanks", model, second, random)?;
        comparison.compare_numbered("fixed, with blanks", model, second, random)?;
        for version in [0, 3, 4, 255] {
            comparison.compare("fixed, with blanks, worse version", &model.clone().in_version(version), second, random)?;
        }
        for version in [0, 2, 3, 255] {
            comparison.compare("fixed, with blanks, worse version", model, &second.clone().in_version(version), random)?;
        }
    }
    for paper in blanks::fixed().into_iter().chain([extremes::most_hypotheses()]) {
        comparison.origin = format!("fixed paper \"{}\"", paper.name);
        for version in 1..=NUMBERED {
            let number = random_number(random);
            let (model, second) = (paper.model.clone().moved(version, number), paper.second.clone().beside(version, number));
            comparison.compare_every_row("fixed, with blanks", &model, &second, random)?;
        }
    }
    comparison.desk = None;
    Ok(())
}

/// Papers in every pair of versions and with every pair of paper numbers, at the exam desk.
fn compare_pairs(random: &mut Random, comparison: &mut Comparison) -> Compared<()> {
    comparison.desk = Some(EXAM);
    for paper in pairs::fixed() {
        comparison.origin = format!("fixed paper \"{}\"", paper.name);
        comparison.compare("fixed, pairs of versions", &paper.model, &paper.second, random)?;
    }
    comparison.desk = None;
    Ok(())
}

/// Papers on both sides of the limits of two desks, under all limits beside the ends of their ranges and beside the papers' counts.
fn compare_limits(random: &mut Random, comparison: &mut Comparison) -> Compared<()> {
    const LOCATIONS: [u32; 15] = [0, 1, 2, 15, 16, 17, 18, 63, 64, 65, 256, 257, 4_096, 4_097, u32::MAX];
    const JOINTS: [u32; 15] = [0, 1, 2, 15, 16, 17, 64, 65, 255, 256, 257, 4_095, 4_096, 4_097, u32::MAX];
    for paper in extremes::for_limits() {
        for (locations, joints) in LOCATIONS.into_iter().flat_map(|locations| JOINTS.map(|joints| (locations, joints))) {
            comparison.origin = format!("fixed paper \"{}\"", paper.name);
            comparison.desk = Some(Limits { locations, joints });
            comparison.compare("fixed, each under many limits", &paper.model, &paper.second, random)?;
        }
    }
    comparison.desk = None;
    Ok(())
}

/// Papers with rows that a fair copy changes, each in several spellings and with many lengths of the buffer.
fn compare_copies(random: &mut Random, comparison: &mut Comparison) -> Compared<()> {
    for paper in extremes::for_fair_copy() {
        comparison.origin = format!("fixed paper \"{}\"", paper.name);
        for _ in 0..8 {
            comparison.compare("fixed, for the fair copy", &paper.model, &paper.second, random)?;
            compare_spellings(&paper.model, &paper.second, random, comparison)?;
        }
    }
    Ok(())
}

/// Certificates of 0 to 64 obligations and of 200, cut at each of their proofs.
fn compare_scores(random: &mut Random, comparison: &mut Comparison) -> Compared<()> {
    for paper in (0..=64).chain([200]).flat_map(scores::cut_at_each_proof) {
        comparison.origin = format!("fixed paper \"{}\"", paper.name);
        comparison.compare_score(&paper, random)?;
    }
    Ok(())
}

/// One model with a certificate, one with a run, what becomes of them in other versions and by damage, one with rows that a fair copy
/// changes, and random bytes; typed texts between them.
fn compare_round(seed: u64, round: u64, comparison: &mut Comparison) -> Compared<()> {
    let random = &mut Random::new(seed, round);
    comparison.origin = format!("seed {seed}, round {round}");
    let size = [1, 2, 2, 3, 3, 4, 5, 8][random.below(8)];

    let plan = blanks::random_plan_of_any_version(random, size);
    match certificates::random_certificate(random, plan.clone()) {
        Some(paper) => {
            compare_with_damage("certificate", &paper.model, &paper.second, random, comparison)?;
            compare_spellings(&paper.model, &paper.second, random, comparison)?;
        }
        // Too much for a sheet, or over a limit: the model is still compared, with a certificate that has no regions.
        None => compare_model("model", &plan, random, comparison)?,
    }
    if random.one_in(4) {
        let plan = models::crowded_plan(random);
        compare_model("crowded model", &in_any_version(random, plan), random, comparison)?;
    }

    let plan = blanks::random_plan_of_any_version(random, size);
    let most_steps = if random.one_in(50) { 4_095 } else { 12 };
    if let Some(paper) = runs::random_run(random, plan, most_steps) {
        compare_with_damage("run", &paper.model, &paper.second, random, comparison)?;
        compare_spellings(&paper.model, &paper.second, random, comparison)?;
    }
    compare_rough(random, comparison)?;

    let plan = blanks::random_plan_of_any_version(random, 2);
    let (version, number) = (plan.version, plan.paper_number);
    let kind = 2 + random.below(2) as u8;
    let second = random_bytes(random, kind, second_version(version), number);
    comparison.compare("random second sheet", &plan.sheet(), &second, random)?;
    compare_texts(random, comparison)?;
    let model = random_bytes(random, 1, version, number);
    comparison.compare("random model", &model, &second, random)
}

/// A model with rows that a fair copy changes, with a run if one is found.
fn compare_rough(random: &mut Random, comparison: &mut Comparison) -> Compared<()> {
    let plan = spellings::rough_plan(random);
    let (kind, model, second) = match runs::random_run(random, plan.clone(), 6) {
        Some(paper) => ("rough model with a run", paper.model, paper.second),
        None => ("rough model", plan.sheet(), no_regions(&plan)),
    };
    comparison.compare(kind, &model, &second, random)?;
    compare_spellings(&model, &second, random, comparison)
}

/// Another spelling of a model has the same copy; it is compared too, with the second sheet as it is and damaged.
fn compare_spellings(model: &Sheet, second: &Sheet, random: &mut Random, comparison: &mut Comparison) -> Compared<()> {
    let Some(other) = spellings::respelled(random, &model.bytes) else { return Ok(()) };
    comparison.compare_spellings("another spelling", model, &other)?;
    comparison.compare("another spelling", &other, second, random)?;
    let damage = *random.pick(&ALL);
    let worse = damaged(random, second, damage);
    comparison.compare("another spelling, second: worse", &other, &worse, random)
}

fn compare_texts(random: &mut Random, comparison: &mut Comparison) -> Compared<()> {
    for _ in 0..8 {
        comparison.compare_text(&texts::random_text(random))?;
    }
    Ok(())
}

fn compare_model(name: &str, plan: &models::Plan, random: &mut Random, comparison: &mut Comparison) -> Compared<()> {
    let (model, second) = (plan.sheet(), no_regions(plan));
    comparison.compare(name, &model, &second, random)?;
    comparison.compare_numbered(name, &model, &second, random)
}

/// A certificate that has no regions.
fn no_regions(plan: &models::Plan) -> Sheet {
    plan.paired(certificates::certificate_sheet(&vec![vec![]; plan.locations()], &[]))
}

fn compare_with_damage(
    name: &'static str,
    model: &Sheet,
    second: &Sheet,
    random: &mut Random,
    comparison: &mut Comparison,
) -> Compared<()> {
    comparison.compare(name, model, second, random)?;
    comparison.compare_versions(name, model, second, random)?;
    comparison.compare_numbered(name, model, second, random)?;
    for damage in ALL {
        compare_texts(random, comparison)?;
        for _ in 0..2 {
            let worse = damaged(random, model, damage);
            comparison.compare(&format!("{name}, model: {damage:?}"), &worse, second, random)?;
            if random.one_in(8) {
                comparison.compare_numbered(&format!("{name}, model: {damage:?}"), &worse, second, random)?;
            }
            let worse = damaged(random, second, damage);
            comparison.compare(&format!("{name}, second: {damage:?}"), model, &worse, random)?;
            if random.one_in(8) {
                comparison.compare_numbered(&format!("{name}, second: {damage:?}"), model, &worse, random)?;
            }
            if worse.fields.len() > 3 {
                let again = *random.pick(&ALL[..4]);
                let worse = damaged(random, &worse, again);
                comparison.compare(&format!("{name}, second: twice"), model, &worse, random)?;
            }
        }
    }
    Ok(())
}
