//! One comparison: every call of the library against the independent marker, on two sheets or on a typed text.

mod fair;
mod joint_list;
mod limits;
mod rows;
mod scores;
mod typed;
mod versions;

use differential::fence::{Edge, Fence};
use differential::marker::{Answer, Limits};
use differential::papers::{Random, Sheet};
use differential::{hex, library, marker};
use fair::Changed;
use limits::{Size, Stated, shown};
use std::collections::BTreeMap;
use std::fmt::Debug;
use std::path::Path;
use versions::Versions;

/// What a call gave on both sides, and on which paper.
pub struct Mismatch {
    call: String,
    origin: String,
    kind: String,
    /// Who gave what.
    sides: [(&'static str, String); 2],
    /// What was handed over, by name.
    handed: Vec<(&'static str, Vec<u8>)>,
}

pub type Compared<T> = Result<T, Box<Mismatch>>;

impl Mismatch {
    /// Prints both answers and writes what was handed over as hex files.
    pub fn report(&self, folder: &Path) {
        println!("MISMATCH in {}: {} ({})", self.call, self.origin, self.kind);
        for (who, answer) in &self.sides {
            println!("  {:<9} {answer}", format!("{who}:"));
        }
        for (name, bytes) in &self.handed {
            let hex = hex(bytes);
            let path = folder.join(format!("mismatch-{name}.hex"));
            match std::fs::write(&path, format!("{hex}\n")) {
                Ok(()) => println!("  {} ({} bytes): {hex}", path.display(), bytes.len()),
                Err(error) => println!("  {} cannot be written ({error}): {hex}", path.display()),
            }
        }
    }
}

/// How many papers or texts of a kind were compared and accepted, and how many proofs and steps the accepted ones have.
#[derive(Default)]
struct Count {
    compared: u64,
    accepted: u64,
    passed: u64,
}

impl Count {
    /// One more paper, by the answers of the two markings.
    fn add(&mut self, answers: [Answer; 2]) {
        self.compared += 1;
        for answer in answers.iter().filter(|answer| answer.number == 0) {
            self.accepted += 1;
            self.passed += u64::from(answer.done);
        }
    }

    fn print(&self, kind: &str) {
        println!("{kind:<36} {:>9} {:>9} {:>17}", self.compared, self.accepted, self.passed);
    }
}

/// The paper at hand: its kind, its sheets, and which end of what is lent touches a closed page.
#[derive(Clone, Copy)]
struct Paper<'a> {
    kind: &'a str,
    model: &'a [u8],
    second: &'a [u8],
    edge: Edge,
}

impl<'a> Paper<'a> {
    fn handed(&self) -> [(&'static str, &'a [u8]); 2] {
        [("model", self.model), ("second", self.second)]
    }
}

/// The numbers of answers, from 0.
const NUMBERS: usize = 19;

pub struct Comparison {
    /// What to say of the paper at hand, should it show a mismatch.
    pub origin: String,
    /// The limits to state; none for random ones, of which each call has its own.
    pub desk: Option<Limits>,
    counts: BTreeMap<String, Count>,
    /// Of all papers those whose model has version 2, and version 3.
    later_versions: [Count; 2],
    texts: BTreeMap<&'static str, Count>,
    /// How often each number was the answer, by call.
    certificate_numbers: [u64; NUMBERS],
    run_numbers: [u64; NUMBERS],
    fair_numbers: [u64; NUMBERS],
    typed_numbers: [u64; NUMBERS],
    /// How often the row of a hypothesis had each role.
    roles: [u64; 9],
    /// How often it was the staying row of a blank in a flow.
    blanks_in_flows: u64,
    versions: Versions,
    changed: Changed,
    /// How often two spellings of a model were copied.
    spellings: u64,
    /// How many certificates' scores were compared with the definition.
    scores: u64,
    stated: Stated,
    other_calls: u64,
    fences: Option<Fences>,
}

struct Fences {
    model: Fence,
    second: Fence,
    table: Fence,
    text: Fence,
}

impl Comparison {
    pub fn new(guard: bool) -> Self {
        let fences =
            || Fences { model: Fence::new(40_000), second: Fence::new(40_000), table: Fence::new(40_000), text: Fence::new(40_000) };
        Comparison {
            origin: String::new(),
            desk: None,
            counts: BTreeMap::new(),
            later_versions: Default::default(),
            texts: BTreeMap::new(),
            certificate_numbers: [0; NUMBERS],
            run_numbers: [0; NUMBERS],
            fair_numbers: [0; NUMBERS],
            typed_numbers: [0; NUMBERS],
            roles: [0; 9],
            blanks_in_flows: 0,
            versions: Versions::default(),
            changed: Changed::default(),
            spellings: 0,
            scores: 0,
            stated: Stated::default(),
            other_calls: 0,
            fences: guard.then(fences),
        }
    }

    pub fn papers(&self) -> u64 {
        self.counts.values().map(|count| count.compared).sum()
    }

    pub fn texts(&self) -> u64 {
        self.texts.values().map(|count| count.compared).sum()
    }

    pub fn print_counts(&self) {
        println!("{:<36} {:>9} {:>9} {:>17}", "papers", "compared", "accepted", "proofs and steps");
        let mut all = Count::default();
        for (kind, count) in &self.counts {
            count.print(kind);
            all.compared += count.compared;
            all.accepted += count.accepted;
            all.passed += count.passed;
        }
        all.print("all");
        for (version, count) in (2..).zip(&self.later_versions) {
            count.print(&format!("of these with a model of version {version}"));
        }
        println!("{:<36} {:>9} {:>9}", "typed texts", "compared", "accepted");
        for (kind, count) in &self.texts {
            println!("{kind:<36} {:>9} {:>9}", count.compared, count.accepted);
        }
        let (compared, accepted) = (self.texts(), self.texts.values().map(|count| count.accepted).sum::<u64>());
        println!("{:<36} {compared:>9} {accepted:>9}", "all");
        let marking = [("certificate", &self.certificate_numbers[..]), ("run", &self.run_numbers)];
        let calls = marking.into_iter().chain([("fair copy", &self.fair_numbers[..]), ("typed row", &self.typed_numbers)]);
        for (call, numbers) in calls {
            println!("answers of the {call} call by number: {}", by_number(numbers));
        }
        println!("rows of hypotheses by role: {}; of role 8 in flows: {}", by_number(&self.roles), self.blanks_in_flows);
        self.versions.print();
        self.changed.print();
        println!("copies compared between two spellings: {}", self.spellings);
        println!("certificates cut at each proof, scores compared with the definition: {}", self.scores);
        println!("calls beside the marking: {}", self.other_calls);
        self.stated.print();
    }

    /// Compares every call on this paper; the first that differs is given back.
    pub fn compare(&mut self, kind: &str, model: &Sheet, second: &Sheet, random: &mut Random) -> Compared<()> {
        let (model, second) = (&model.bytes[..], &second.bytes[..]);
        let size = Size::of(model);
        let (certificate_limits, run_limits) = (self.limits(size, random), self.limits(size, random));
        let certificate = marker::mark_certificate(model, second, certificate_limits);
        let run = marker::mark_run(model, second, run_limits);
        self.certificate_numbers[certificate.number as usize] += 1;
        self.run_numbers[run.number as usize] += 1;
        self.counts.entry(kind.to_string()).or_default().add([certificate, run]);
        if let Some(version @ 2..=3) = model.get(2) {
            self.later_versions[usize::from(version - 2)].add([certificate, run]);
        }

        for &edge in self.edges() {
            let paper = Paper { kind, model, second, edge };
            let answer = self.on_sheets(paper, |model, second| library::mark_certificate(model, second, certificate_limits));
            self.same("silfoddra_mark_certificate", paper, certificate_limits, answer, certificate)?;
            let answer = self.on_sheets(paper, |model, second| library::mark_run(model, second, run_limits));
            self.same("silfoddra_mark_run", paper, run_limits, answer, run)?;
            self.compare_joint_list(paper, size, random)?;
            self.compare_fair_copy(paper, size, random)?;
            self.compare_rows(paper, size, random)?;
            self.compare_desks(paper, size, random)?;
        }
        Ok(())
    }

    /// Which ends of what is handed over touch a closed page, in turn.
    fn edges(&self) -> &'static [Edge] {
        if self.fences.is_some() { &[Edge::Front, Edge::Back] } else { &[Edge::Back] }
    }

    /// Makes a call, on copies between closed pages where that is asked for.
    fn on_sheets<T>(&mut self, paper: Paper, call: impl FnOnce(&[u8], &[u8]) -> T) -> T {
        match &mut self.fences {
            Some(fences) => call(fences.model.lend(paper.model, paper.edge), fences.second.lend(paper.second, paper.edge)),
            None => call(paper.model, paper.second),
        }
    }

    fn same<T: Debug + PartialEq>(&self, call: &str, paper: Paper, limits: Limits, library: T, marker: T) -> Compared<()> {
        let call = || format!("{call}, {}", shown(limits));
        self.agree(call, paper.kind, &paper.handed(), [("library", library), ("marker", marker)])
    }

    fn agree<T: Debug + PartialEq>(
        &self,
        call: impl FnOnce() -> String,
        kind: &str,
        handed: &[(&'static str, &[u8])],
        sides: [(&'static str, T); 2],
    ) -> Compared<()> {
        if sides[0].1 == sides[1].1 {
            return Ok(());
        }
        Err(Box::new(Mismatch {
            call: call(),
            origin: self.origin.clone(),
            kind: kind.to_string(),
            sides: sides.map(|(who, answer)| (who, format!("{answer:?}"))),
            handed: handed.iter().map(|&(name, bytes)| (name, bytes.to_vec())).collect(),
        }))
    }
}

/// What was seen, by number, and how often.
fn by_number(times: &[u64]) -> String {
    let seen: Vec<String> = times.iter().enumerate().filter(|seen| *seen.1 > 0).map(|(n, times)| format!("{n}: {times}")).collect();
    seen.join(", ")
}
