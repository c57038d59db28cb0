//! Certificates of any number of obligations that stop at any of their proofs, for the rounding of scores (02, order 5).

use super::certificates::certificate_sheet;
use super::extremes::plan;
use super::models::{ANY, Component, Mode};
use super::sheet::{Proof, Sheet, fix_length};

/// In each of the two components; they make 64 locations.
const MODES: usize = 8;

/// A certificate with the proofs of its first obligations, and what its answer is but for the score.
pub struct Cut {
    pub name: String,
    pub model: Sheet,
    pub second: Sheet,
    /// Of the obligations.
    pub total: usize,
    pub done: usize,
    pub number: u32,
    pub place: usize,
}

/// An accepted certificate of so many obligations, cut where each of its proofs begins, then with a byte left over, then as it is.
pub fn cut_at_each_proof(total: usize) -> Vec<Cut> {
    let model = model(total);
    let paper = |done: usize, number: u32, what: &str| {
        let second = certificate(done);
        let name = format!("{done} of {total} proofs{what}");
        Cut { name, model: model.clone(), place: second.bytes.len(), second, total, done, number }
    };
    let mut papers: Vec<Cut> = (0..total).map(|done| paper(done, 4, "")).collect();
    let mut longer = paper(total, 4, " and a byte");
    longer.second.bytes.push(0);
    fix_length(&mut longer.second.bytes);
    papers.extend([longer, paper(total, 0, "")]);
    papers
}

/// A model with so many obligations, 254 at most. They are those of unsafe conditions, each of which gives one in every location that it
/// fits: in all 64, in the 8 with a mode of the first component, or in one. The 16 that a model may have are enough.
fn model(total: usize) -> Sheet {
    let everywhere = vec![vec![ANY, ANY]; total / (MODES * MODES)];
    let in_mode = (0..total / MODES % MODES).map(|mode| vec![mode as u8, ANY]);
    let in_location = (0..total % MODES).map(|mode| vec![0, mode as u8]);
    let modes = everywhere.into_iter().chain(in_mode).chain(in_location);
    let component = Component { modes: vec![Mode { start: true, ..Mode::default() }; MODES], ..Component::default() };
    plan(vec![0], vec![component; 2], modes.map(|modes| (modes, vec![vec![0, -1]])).collect()).sheet()
}

/// No region has rows, and each proof is the unsafe condition's row, 0 ≤ −1, once.
fn certificate(proofs: usize) -> Sheet {
    let proof = Proof { k: 0, entries: vec![(0, 1)] };
    certificate_sheet(&vec![vec![]; MODES * MODES], &vec![(proof, true); proofs])
}
