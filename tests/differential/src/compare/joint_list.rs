//! The joint list on tables that are long enough or not: the answer, the records written, and the others.

use super::{Compared, Comparison, Paper, Size};
use differential::marker::{self, Answer, EXAM, JointSwitch, Limits};
use differential::{library, papers::Random};

impl Comparison {
    pub(super) fn compare_joint_list(&mut self, paper: Paper, size: Size, random: &mut Random) -> Compared<()> {
        let count = marker::Model::read(paper.model, EXAM).map_or(0, |model| model.joint_count);
        for length in [count, count + 1 + random.below(3), random.below(count + 1)] {
            let before: Vec<JointSwitch> = (0..length).map(|_| random_record(random)).collect();
            let mut expected = before.clone();
            let limits = self.limits(size, random);
            let answer = marker::joint_list(paper.model, &mut expected, limits);
            let got = self.list_joints(paper, before, limits);
            self.same(&format!("silfoddra_joint_list with {length} records"), paper, limits, got, (answer, expected))?;
            self.other_calls += 1;
        }
        Ok(())
    }

    /// The library's joint list on a table with this content: its answer and the table after it.
    pub(super) fn list_joints(&mut self, paper: Paper, mut table: Vec<JointSwitch>, limits: Limits) -> (Answer, Vec<JointSwitch>) {
        match &mut self.fences {
            Some(fences) => {
                let lent = fences.table.lend_table(&table, paper.edge);
                (library::joint_list(fences.model.lend(paper.model, paper.edge), lent, limits), lent.to_vec())
            }
            None => (library::joint_list(paper.model, &mut table, limits), table),
        }
    }
}

fn random_record(random: &mut Random) -> JointSwitch {
    let [source, event, a, b, c, d, target, _] = random.draw().to_be_bytes();
    JointSwitch { source, event, switches: [a, b, c, d], target }
}
