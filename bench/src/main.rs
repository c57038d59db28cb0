//! Times the library against the independent marker, counts the instructions of both, and prints the figures as tables.
//!
//!     bench [--samples N]
//!
//! A sample times both on the same paper, one after the other, in turn first; each is called often enough for the sample to last a
//! millisecond or more. The tables have the medians over all samples and the ratio of the two, then the instructions of one call.

mod instructions;
mod measure;
mod papers;

use instructions::Counts;
use measure::{Figures, measure};
use papers::{Case, cases, growing};

fn main() {
    let mut words = std::env::args().skip(1);
    let samples = match (words.next().as_deref(), words.next()) {
        (None, _) => 41,
        (Some(instructions::COUNTED), None) => return instructions::call_each(),
        (Some("--samples"), Some(number)) => number.parse().expect("--samples takes a number"),
        _ => panic!("usage: bench [--samples N]"),
    };
    let mut counts = instructions::count().into_iter();
    println!("| paper | call | model, second (bytes) | library | Rust | library / Rust | library, instructions | Rust | library / Rust |");
    println!("|---|---|---|---|---|---|---|---|---|");
    for case in cases() {
        let figures = measure(&case, samples);
        let bytes = format!("{}, {}", thousands(case.model.len() as u64), thousands(case.second.len() as u64));
        println!("| {} | {} | {bytes} | {} |", case.name, case.call, columns(figures, counts.next()));
    }
    for (title, cases) in growing() {
        println!("\n{title}\n");
        print_growing(&cases, samples, &mut counts);
    }
}

fn print_growing(cases: &[Case], samples: usize, counts: &mut impl Iterator<Item = Counts>) {
    println!(
        "| paper | bytes | library | Rust | library / Rust | library, instructions | Rust | library / Rust | instructions, times the row above |"
    );
    println!("|---|---|---|---|---|---|---|---|---|");
    let mut above: Option<Counts> = None;
    for case in cases {
        let figures = measure(case, samples);
        let count = counts.next().expect("each case is counted");
        let growth = above.map_or(String::new(), |above| format!("{:.2}", count.library as f64 / above.library as f64));
        let bytes = thousands((case.model.len() + case.second.len()) as u64);
        println!("| {} | {bytes} | {} | {growth} |", case.name, columns(figures, Some(count)));
        above = Some(count);
    }
}

/// Times and instructions, each with its ratio.
fn columns(figures: Figures, counts: Option<Counts>) -> String {
    let counts = counts.expect("each case is counted");
    format!(
        "{} | {} | {:.2} | {} | {} | {:.2}",
        time(figures.library),
        time(figures.rust),
        figures.ratio(),
        thousands(counts.library),
        thousands(counts.rust),
        counts.ratio()
    )
}

/// Seconds for people.
fn time(seconds: f64) -> String {
    match seconds {
        s if s < 1e-6 => format!("{:.0} ns", s * 1e9),
        s if s < 1e-3 => format!("{:.2} µs", s * 1e6),
        s => format!("{:.2} ms", s * 1e3),
    }
}

fn thousands(number: u64) -> String {
    if number < 1_000 { number.to_string() } else { format!("{},{:03}", thousands(number / 1_000), number % 1_000) }
}
