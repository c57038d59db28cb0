//! Instruction counts: the program runs itself under callgrind, which counts the same in every run, whatever else the machine does.

use crate::measure::{Mark, calls};
use crate::papers::{Case, every_case};
use differential::marker::Answer;
use std::fs;
use std::hint::black_box;
use std::path::Path;
use std::process::Command;

/// The word by which the program knows that it is being counted.
pub const COUNTED: &str = "--counted";

/// Instructions of one call, of the library and of the Rust marker.
#[derive(Clone, Copy)]
pub struct Counts {
    pub library: u64,
    pub rust: u64,
}

impl Counts {
    pub fn ratio(&self) -> f64 {
        self.library as f64 / self.rust as f64
    }
}

/// Counts are taken inside this function, and written out each time that it returns.
#[unsafe(no_mangle)]
#[inline(never)]
pub fn counted(mark: &Mark, case: &Case) -> Answer {
    black_box(mark(black_box(&case.model), black_box(&case.second)))
}

/// Every case once on each side, after a call that is not counted.
pub fn call_each() {
    for case in every_case() {
        let (by_library, by_rust) = calls(case.call);
        assert_eq!(by_library(&case.model, &case.second), by_rust(&case.model, &case.second), "{}", case.name);
        counted(&by_library, &case);
        counted(&by_rust, &case);
    }
}

/// The counts of all cases, in their order.
pub fn count() -> Vec<Counts> {
    let folder = std::env::temp_dir().join(format!("silfoddra-bench-{}", std::process::id()));
    fs::create_dir_all(&folder).expect("a folder for the counts");
    let output = Command::new("valgrind")
        .args(["-q", "--tool=callgrind", "--toggle-collect=counted", "--dump-after=counted"])
        .arg(format!("--callgrind-out-file={}", folder.join("out").display()))
        .arg(std::env::current_exe().expect("the program's own name"))
        .arg(COUNTED)
        .output()
        .expect("valgrind counts the instructions");
    assert!(output.status.success(), "{}", String::from_utf8_lossy(&output.stderr));
    let totals: Vec<u64> = (1..=2 * every_case().len()).map(|part| total(&folder.join(format!("out.{part}")))).collect();
    fs::remove_dir_all(&folder).expect("the folder goes");
    totals.chunks(2).map(|pair| Counts { library: pair[0], rust: pair[1] }).collect()
}

/// What one part of callgrind's output says in all.
fn total(path: &Path) -> u64 {
    let text = fs::read_to_string(path).unwrap_or_else(|error| panic!("{}: {error}", path.display()));
    let line = text.lines().find_map(|line| line.strip_prefix("totals: ").or(line.strip_prefix("summary: ")));
    line.and_then(|number| number.trim().parse().ok()).unwrap_or_else(|| panic!("no total in {}", path.display()))
}
