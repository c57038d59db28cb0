//! The fair copy in buffers that are long enough or not: the answer, and every byte of the buffer. Then the copy as a model: its own copy,
//! its joint list and its runs. And that two spellings of a model have one copy.

use super::{Compared, Comparison, Paper, Size, shown};
use differential::marker::fair::{divisor, fair_rows};
use differential::marker::{self, Answer, EXAM, JointSwitch, Limits, Model};
use differential::papers::{Random, Sheet};
use differential::{hex, library};
use std::fmt::{Debug, Formatter};

/// What a buffer holds after a call.
#[derive(PartialEq)]
pub(super) struct Bytes(pub Vec<u8>);

impl Debug for Bytes {
    fn fmt(&self, formatter: &mut Formatter) -> std::fmt::Result {
        formatter.write_str(&hex(&self.0))
    }
}

/// How many rows of copied models were of a kind that the copy changes.
#[derive(Default)]
pub(super) struct Changed {
    divided: u64,
    divided_by_most: u64,
    zeros_dropped: u64,
    zeros_kept: u64,
    repeated: u64,
    eight_to_one: u64,
    of_sixteen: u64,
}

impl Changed {
    pub fn print(&self) {
        let Changed { divided, divided_by_most, zeros_dropped, zeros_kept, repeated, eight_to_one, of_sixteen } = self;
        println!(
            "rows of copied models: {divided} divided, {divided_by_most} of them by 2^31, {repeated} repeated, {of_sixteen} of 16 coefficients"
        );
        println!("rows of zeros: {zeros_dropped} dropped, {zeros_kept} kept; conditions of eight rows that fall to one: {eight_to_one}");
    }

    fn count(&mut self, model: &[u8]) {
        let Ok(model) = Model::read(model, EXAM) else { return };
        for condition in model.conditions() {
            let mut left = 0;
            for row in condition.rows() {
                let (zeros, divisor) = (row.coefficients.iter().all(|&a| a == 0), divisor(row));
                self.zeros_dropped += u64::from(zeros && row.bound >= 0);
                self.zeros_kept += u64::from(zeros && row.bound < 0);
                self.divided += u64::from(!zeros && divisor > 1);
                self.divided_by_most += u64::from(!zeros && divisor == 1 << 31);
                self.of_sixteen += u64::from(row.coefficients.len() == 16);
                left += usize::from(!zeros || row.bound < 0);
            }
            let kept = fair_rows(condition).len();
            self.repeated += (left - kept) as u64;
            self.eight_to_one += u64::from(left == 8 && kept == 1);
        }
    }
}

impl Comparison {
    pub(super) fn compare_fair_copy(&mut self, paper: Paper, size: Size, random: &mut Random) -> Compared<()> {
        let needed = needed(paper.model);
        for length in [needed, random_length(random, needed, paper.model.len())] {
            let before: Vec<u8> = (0..length.div_ceil(8)).flat_map(|_| random.draw().to_be_bytes()).take(length).collect();
            let mut expected = before.clone();
            let limits = self.limits(size, random);
            let answer = marker::fair_copy(paper.model, &mut expected, limits);
            let got = self.copy_fairly(paper, before, limits);
            self.fair_numbers[answer.number as usize] += 1;
            let expected = (answer, Bytes(expected));
            self.same(&format!("silfoddra_fair_copy into {length} bytes"), paper, limits, &got, &expected)?;
            if answer.number == 0 && length == needed {
                self.changed.count(paper.model);
                self.compare_with_copy(paper, size, &got.1.0[..answer.done as usize], limits)?;
            }
        }
        Ok(())
    }

    /// The library's fair copy in a buffer with this content: its answer and the buffer after it.
    pub(super) fn copy_fairly(&mut self, paper: Paper, mut buffer: Vec<u8>, limits: Limits) -> (Answer, Bytes) {
        match &mut self.fences {
            Some(fences) => {
                let lent = fences.table.lend_table(&buffer, paper.edge);
                (library::fair_copy(fences.model.lend(paper.model, paper.edge), lent, limits), Bytes(lent.to_vec()))
            }
            None => (library::fair_copy(paper.model, &mut buffer, limits), Bytes(buffer)),
        }
    }

    /// What the library says of a copy under the limits that it was made under: it is its own copy and has the model's joint switches, and
    /// the second sheet is marked alike as a run of the model and of the copy.
    fn compare_with_copy(&mut self, paper: Paper, size: Size, copy: &[u8], limits: Limits) -> Compared<()> {
        assert!(copy.len() <= paper.model.len(), "a copy is longer than its model");
        let with_copy = Paper { model: copy, ..paper };
        let length = copy.len() as u32;
        let itself = (Answer { place: length, done: length, ..Answer::default() }, Bytes(copy.to_vec()));
        let again = self.copy_fairly(with_copy, vec![0; copy.len()], limits);
        self.alike("silfoddra_fair_copy of a copy", paper, limits, [("copy", itself), ("its copy", again)])?;

        let mark = |model: &[u8], second: &[u8]| library::mark_run(model, second, limits);
        let answers = [paper, with_copy].map(|paper| self.on_sheets(paper, mark));
        self.alike("silfoddra_mark_run", paper, limits, with_names(answers))?;

        let table = vec![JointSwitch::default(); size.joints()];
        let lists = [paper, with_copy].map(|paper| {
            let (answer, records) = self.list_joints(paper, table.clone(), limits);
            // The place is the length of the sheet that was handed over.
            (Answer { place: answer.place.abs_diff(paper.model.len() as u32), ..answer }, records)
        });
        self.alike("silfoddra_joint_list", paper, limits, with_names(lists))
    }

    /// Two spellings of a model: the library's copies are the same bytes.
    pub fn compare_spellings(&mut self, kind: &str, one: &Sheet, other: &Sheet) -> Compared<()> {
        for &edge in self.edges() {
            let [one_copied, other_copied] = [one, other].map(|sheet| {
                let paper = Paper { kind, model: &sheet.bytes, second: &[], edge };
                let (answer, Bytes(mut copy)) = self.copy_fairly(paper, vec![0; sheet.bytes.len()], EXAM);
                copy.truncate(answer.done as usize);
                (answer.number, answer.sheet, Bytes(copy))
            });
            self.spellings += 1;
            let handed = [("model", &one.bytes[..]), ("other", &other.bytes[..])];
            let call = || "silfoddra_fair_copy of two spellings".to_string();
            self.agree(call, kind, &handed, [("model", one_copied), ("other", other_copied)])?;
        }
        Ok(())
    }

    fn alike<T: Debug + PartialEq>(&self, call: &str, paper: Paper, limits: Limits, sides: [(&'static str, T); 2]) -> Compared<()> {
        self.agree(|| format!("{call}, with a model and its copy, {}", shown(limits)), paper.kind, &paper.handed(), sides)
    }
}

fn with_names<T>([model, copy]: [T; 2]) -> [(&'static str, T); 2] {
    [("model", model), ("copy", copy)]
}

/// The length of the copy at the exam desk; for a model that is refused there, its own.
fn needed(model: &[u8]) -> usize {
    let answer = marker::fair_copy(model, &mut [], EXAM);
    if answer.number == 15 { answer.place as usize } else { model.len() }
}

/// A buffer's length: beside what is needed, nothing, the original's, less or more.
fn random_length(random: &mut Random, needed: usize, original: usize) -> usize {
    match random.below(12) {
        0..=2 => needed.saturating_sub(1),
        3 | 4 => needed + 1,
        5 => 0,
        6 | 7 => original,
        8 => original + 1 + random.below(30),
        9 if random.one_in(8) => 32_768,
        9 | 10 => random.below(needed.max(1)),
        _ => needed + random.below(200),
    }
}
