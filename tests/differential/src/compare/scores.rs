//! The scores of certificates that are cut at each proof: both markers as on every paper, and the library's answer against what it must
//! be, with the score as it is defined (02, order 5).

use super::{Compared, Comparison, Paper, shown};
use differential::library;
use differential::marker::{Answer, EXAM};
use differential::papers::Random;
use differential::papers::scores::Cut;

impl Comparison {
    /// Compares every call on this paper, at the exam desk, then the answer of the certificate call with the definition.
    pub fn compare_score(&mut self, cut: &Cut, random: &mut Random) -> Compared<()> {
        let kind = "fixed, cut at each proof";
        self.desk = Some(EXAM);
        self.compare(kind, &cut.model, &cut.second, random)?;
        self.desk = None;
        let score = score(cut.done, cut.total, cut.number == 0);
        let expected = Answer { number: cut.number, sheet: 1, place: cut.place as u32, done: cut.done as u32, score };
        for &edge in self.edges() {
            let paper = Paper { kind, model: &cut.model.bytes, second: &cut.second.bytes, edge };
            let got = self.on_sheets(paper, |model, second| library::mark_certificate(model, second, EXAM));
            let call = || format!("silfoddra_mark_certificate by definition, {}", shown(EXAM));
            self.agree(call, kind, &paper.handed(), [("library", got), ("document", expected)])?;
        }
        self.scores += 1;
        Ok(())
    }
}

/// Of 0 to 100 the number nearest to 100·done over all obligations, of two equally near ones the even one; 100 if there are no obligations.
/// Then at most 99 if the paper is refused. Distances are multiplied by the obligations, so that they are whole.
fn score(done: usize, total: usize, accepted: bool) -> u32 {
    let nearest = (0..=100).min_by_key(|n| ((100 * done).abs_diff(n * total), n % 2)).expect("0 to 100 are some");
    let score = if total == 0 { 100 } else { nearest };
    (if accepted { score } else { score.min(99) }) as u32
}
