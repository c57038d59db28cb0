//! The papers that are timed, and the number that each is answered with.

use crate::measure::Call;
use differential::papers::{Random, certificates, extremes, models, turns};

pub struct Case {
    pub name: String,
    pub call: Call,
    pub model: Vec<u8>,
    pub second: Vec<u8>,
    pub number: u32,
}

fn case(name: &str, call: Call, number: u32, paper: extremes::Paper) -> Case {
    Case { name: name.to_string(), call, model: paper.model.bytes, second: paper.second.bytes, number }
}

/// Different kinds of papers, from the smallest to those near the limits.
pub fn cases() -> Vec<Case> {
    let tank = extremes::all().swap_remove(0);
    vec![
        case("T with C", Call::Certificate, 0, tank),
        medium_certificate(),
        case("near all limits, 6,420 proofs", Call::Certificate, 0, extremes::near_limits()),
        case("6,524 proofs of hardly any entries", Call::Certificate, 0, extremes::longest_certificate()),
        products(&[16, 16, 12]),
        case("48 proofs of 64 to 120 entries", Call::Certificate, 0, extremes::many_entries()),
        case("4,095 steps, 1 variable", Call::Run, 0, extremes::long_run(4_095)),
        case("870 steps, 8 variables, full conditions", Call::Run, 0, extremes::wide_run()),
        case("2^20 joint switches, refused by 8", Call::Certificate, 8, extremes::joint_switches(&[32; 4], 0)),
        case("4,096 joint switches, no regions", Call::Certificate, 0, extremes::joint_switches(&[16; 3], 0)),
        case("64 locations, 15 events shared by all, no regions", Call::Certificate, 0, extremes::shared_events()),
        case("model of 32,768 bytes", Call::Run, 0, extremes::longest_model()),
        case("4,096 joint switches", Call::JointList, 0, extremes::joint_switches(&[16; 3], 0)),
        case("near all limits", Call::ShowRow(0), 0, extremes::near_limits()),
        case("near all limits", Call::ShowRow(6_419), 0, extremes::near_limits()),
        case("T", Call::FairCopy, 0, extremes::all().swap_remove(0)),
        case("model of 32,768 bytes, its copy as long", Call::Run, 0, extremes::longest_copy()),
        case("the same model", Call::FairCopy, 0, extremes::longest_copy()),
        case("the same model, a buffer one byte too short", Call::ShortCopy, 15, extremes::longest_copy()),
        case("model of 32,768 bytes, most of it repeated rows", Call::FairCopy, 0, extremes::longest_model()),
        case("blanks of version 2, 912 proofs", Call::Certificate, 0, proved_turns(2)),
        case("the same in version 3, with a paper number", Call::Certificate, 0, proved_turns(3)),
        case("the same in version 1, staying rows written out", Call::Certificate, 0, proved_turns(1)),
        case("blanks of version 2, 896 steps", Call::Run, 0, turns::run(2)),
        case("the same in version 3, with a paper number", Call::Run, 0, turns::run(3)),
        case("the same in version 1, staying rows written out", Call::Run, 0, turns::run(1)),
    ]
}

/// The first random certificate of 2,000 to 4,000 bytes from a fixed seed.
fn medium_certificate() -> Case {
    let found = (0..).find_map(|round| {
        let random = &mut Random::new(1, round);
        let plan = models::random_plan(random, 6);
        certificates::random_certificate(random, plan).filter(|paper| (2_000..4_000).contains(&paper.second.bytes.len()))
    });
    let paper = found.expect("rounds go on until one is found");
    Case { name: "medium".into(), call: Call::Certificate, model: paper.model.bytes, second: paper.second.bytes, number: 0 }
}

fn proved_turns(version: u8) -> extremes::Paper {
    turns::certificate(version).expect("its proofs are found")
}

/// A certificate with one proof of one entry for each joint switch.
fn products(switches: &[usize]) -> Case {
    let count: usize = switches.iter().product();
    Case {
        name: format!("{count} joint switches, a proof of one entry for each"),
        call: Call::Certificate,
        model: extremes::products(switches).bytes,
        second: extremes::products_certificate(switches).bytes,
        number: 0,
    }
}

/// The same certificate with another multiplier in its first proof, whose coefficients are then unequal.
fn refused_at_first(switches: &[usize]) -> Case {
    /// The lowest byte of that multiplier: after the header, the number of locations, the one region with its row, the proof's k and its
    /// count of entries, and the number of the hypothesis.
    const MULTIPLIER: usize = 4 + 1 + (1 + 8) + (4 + 1) + 1 + 3;
    let mut case = products(switches);
    assert_eq!(case.second[MULTIPLIER], 1);
    case.second[MULTIPLIER] = 2;
    Case { name: format!("{} joint switches, the first proof fails", switches.iter().product::<usize>()), number: 10, ..case }
}

/// A model with so many joint switches.
fn joints(call: Call, switches: &[usize]) -> Case {
    let count: usize = switches.iter().product();
    case(&format!("{count} joint switches"), call, 0, extremes::joint_switches(switches, 0))
}

/// A model with so many switches of four jump rows each, none of which changes in its copy.
fn copied(call: Call, switches: usize) -> Case {
    let number = if call == Call::Run { 14 } else { 0 };
    case(&format!("{switches} switches of four jump rows each"), call, number, extremes::switches_to_copy(switches))
}

/// Papers of doubling size.
pub fn growing() -> Vec<(&'static str, Vec<Case>)> {
    let certificates = [[2, 4, 4], [4, 4, 4], [4, 4, 8], [4, 8, 8], [8, 8, 8], [8, 8, 16], [8, 16, 16]];
    let models = [[2, 4, 4], [4, 4, 4], [4, 4, 8], [4, 8, 8], [8, 8, 8], [8, 8, 16], [8, 16, 16], [16, 16, 16]];
    let runs = [64, 128, 256, 512, 1_024, 2_048, 4_095];
    let copies = [7, 14, 29, 59, 118];
    vec![
        ("Certificates of doubling size:", certificates.iter().map(|switches| products(switches)).collect()),
        (
            "Runs of doubling length:",
            runs.iter().map(|&steps| case(&format!("{steps} steps"), Call::Run, 0, extremes::long_run(steps))).collect(),
        ),
        (
            "Certificates of doubling size that are refused at their first proof:",
            certificates.iter().map(|switches| refused_at_first(switches)).collect(),
        ),
        (
            "Models of doubling joint switches, a certificate without regions:",
            models.iter().map(|switches| joints(Call::Certificate, switches)).collect(),
        ),
        ("The same models, the joint list:", models.iter().map(|switches| joints(Call::JointList, switches)).collect()),
        ("Models of doubling size, the fair copy:", copies.iter().map(|&switches| copied(Call::FairCopy, switches)).collect()),
        ("The same models, only read, beside a run without steps:", copies.iter().map(|&switches| copied(Call::Run, switches)).collect()),
    ]
}

/// All of them, in the order of the tables.
pub fn every_case() -> Vec<Case> {
    let grown = growing().into_iter().flat_map(|(_, cases)| cases);
    cases().into_iter().chain(grown).collect()
}
