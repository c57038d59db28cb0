//! Show row's sister, the row of a hypothesis and which-obligation, with arguments in range and beside it.

use super::{Compared, Comparison, Paper, Size};
use differential::marker::EXAM;
use differential::marker::certificate::{Claim, Hypotheses, Kind, Role};
use differential::marker::pairs::open_second;
use differential::papers::{Random, Sheet};
use differential::{library, marker};

impl Comparison {
    pub(super) fn compare_rows(&mut self, paper: Paper, size: Size, random: &mut Random) -> Compared<()> {
        let Paper { model, second, .. } = paper;
        let obligations = obligation_count(model, second);
        for _ in 0..3 {
            let obligation = random_argument(random, obligations);
            let limits = self.limits(size, random);
            let which = marker::which(model, second, obligation, limits);
            let got = self.on_sheets(paper, |model, second| library::which(model, second, obligation, limits));
            self.same(&format!("silfoddra_which_obligation({obligation})"), paper, limits, got, which)?;

            let hypothesis = random_argument(random, hypothesis_count(model, second, obligation));
            self.compare_row(paper, size, obligation, hypothesis, random)?;
            self.other_calls += 3;
        }
        Ok(())
    }

    /// The row of a hypothesis, shown and told.
    fn compare_row(&mut self, paper: Paper, size: Size, obligation: u32, hypothesis: u32, random: &mut Random) -> Compared<()> {
        let Paper { model, second, .. } = paper;
        let limits = self.limits(size, random);
        let (answer, bytes) = marker::show_row(model, second, obligation, hypothesis, limits);
        let got = self.on_sheets(paper, |model, second| library::show_row(model, second, obligation, hypothesis, limits));
        self.same(&format!("silfoddra_show_row({obligation}, {hypothesis})"), paper, limits, got, answer)?;
        if let Some(sheet) = [model, second].get(answer.sheet as usize).filter(|_| answer.number == 0) {
            assert!(sheet[answer.place as usize..].starts_with(bytes) && !bytes.is_empty());
        }

        let limits = self.limits(size, random);
        let row = marker::hypothesis(model, second, obligation, hypothesis, limits);
        let got = self.on_sheets(paper, |model, second| library::hypothesis(model, second, obligation, hypothesis, limits));
        self.same(&format!("silfoddra_hypothesis({obligation}, {hypothesis})"), paper, limits, got, row)?;
        if row.number == 0 {
            self.roles[row.role as usize] += 1;
            let staying = row.role == Role::Staying as u32;
            self.blanks_in_flows += u64::from(staying && marker::which(model, second, obligation, EXAM).kind == Kind::Flow as u32);
        }
        Ok(())
    }

    /// Each hypothesis of each obligation, and one beyond.
    pub fn compare_every_row(&mut self, kind: &str, model: &Sheet, second: &Sheet, random: &mut Random) -> Compared<()> {
        let (model, second) = (&model.bytes[..], &second.bytes[..]);
        let size = Size::of(model);
        for &edge in self.edges() {
            let paper = Paper { kind, model, second, edge };
            for obligation in 0..obligation_count(model, second) as u32 {
                for hypothesis in 0..=hypothesis_count(model, second, obligation) as u32 {
                    self.compare_row(paper, size, obligation, hypothesis, random)?;
                    self.other_calls += 2;
                }
            }
        }
        Ok(())
    }
}

/// How many obligations a paper has; 0 if it is refused before they are known.
pub(super) fn obligation_count(model: &[u8], second: &[u8]) -> usize {
    with_claim(model, second, |claim| Some(claim.groups().map(|group| group.lines.len()).sum())).unwrap_or(0)
}

/// How many hypotheses an obligation has; 0 if there is no such obligation.
pub(super) fn hypothesis_count(model: &[u8], second: &[u8], obligation: u32) -> usize {
    let count = |claim: &Claim| {
        let mut passed = 0;
        let group = claim.groups().find(|group| {
            passed += group.lines.len();
            (obligation as usize) < passed
        })?;
        let mut hypotheses = Hypotheses::default();
        claim.list_hypotheses(&group, &mut hypotheses);
        Some(hypotheses.len())
    };
    with_claim(model, second, count).unwrap_or(0)
}

fn with_claim<T>(model: &[u8], second: &[u8], ask: impl FnOnce(&Claim) -> Option<T>) -> Option<T> {
    let model = marker::Model::read(model, EXAM).ok()?;
    ask(&Claim::read(&mut open_second(second, 2, &model).ok()?, &model).ok()?)
}

/// A number below the count mostly, or at the count, or among the greatest.
pub(super) fn random_argument(random: &mut Random, count: usize) -> u32 {
    match random.below(10) {
        0 => u32::MAX - random.below(2) as u32,
        1 | 2 => count as u32,
        3 => (count as u32).saturating_sub(1),
        _ => random.below(count.max(1)) as u32,
    }
}
