//! Papers in all their versions (02, orders 6 and 7): how many are accepted in versions 1 and 2, and in one alone; and that the library
//! says of version 3 what it says of version 2, whatever the paper number, unless the two sheets have different ones.

use super::fair::Bytes;
use super::rows::{hypothesis_count, obligation_count, random_argument};
use super::{Compared, Comparison, Paper, Size};
use differential::library;
use differential::marker::{Answer, EXAM, HypothesisRow, JointSwitch, Which, mark_certificate, mark_run};
use differential::papers::pairs::{other_number, random_number, random_pair};
use differential::papers::{Random, Sheet};
use std::fmt::Debug;

/// The longest sheet that is read.
const LONGEST: usize = 32_768;

/// How many certificates and runs were accepted, at the exam desk, by the versions of their model; and how many papers the library was
/// asked of in versions 2 and 3.
#[derive(Default)]
pub(super) struct Versions {
    certificates: Accepted,
    runs: Accepted,
    numbered: u64,
}

#[derive(Default)]
struct Accepted {
    both: u64,
    first_alone: u64,
    second_alone: u64,
}

impl Versions {
    pub fn print(&self) {
        for (what, accepted) in [("certificates", &self.certificates), ("runs", &self.runs)] {
            let Accepted { both, first_alone, second_alone } = accepted;
            println!(
                "{what} in versions 1 and 2: {both} accepted in both, {first_alone} in version 1 alone, {second_alone} in version 2 alone"
            );
        }
        println!("papers whose answers in version 3 were compared with those in version 2: {}", self.numbered);
    }
}

impl Accepted {
    fn count(&mut self, in_version: [bool; 2]) {
        match in_version {
            [true, true] => self.both += 1,
            [true, false] => self.first_alone += 1,
            [false, true] => self.second_alone += 1,
            [false, false] => {}
        }
    }
}

/// What any call hands back: the first three numbers are the same in all, the others are as in the call.
#[derive(Clone, Copy, Debug, PartialEq, Eq)]
struct Told {
    number: u32,
    sheet: u32,
    place: u32,
    others: [u32; 3],
}

impl From<Answer> for Told {
    fn from(Answer { number, sheet, place, done, score }: Answer) -> Self {
        Told { number, sheet, place, others: [done, score, 0] }
    }
}

impl From<HypothesisRow> for Told {
    fn from(HypothesisRow { number, sheet, place, size, role, owner }: HypothesisRow) -> Self {
        Told { number, sheet, place, others: [size, role, owner] }
    }
}

impl From<Which> for Told {
    fn from(Which { number, sheet, place, kind, subject, line }: Which) -> Self {
        Told { number, sheet, place, others: [kind, subject, line] }
    }
}

impl Told {
    /// The same of version 3: a place in a body, or a sheet's length, is four more.
    fn four_later(self) -> Self {
        let in_body = self.sheet < 2 && self.place >= 4;
        Told { place: self.place + if in_body { 4 } else { 0 }, ..self }
    }

    /// The same where the second sheet has another paper number: the model and the second sheet's header are refused as ever; else 18.
    fn with_two_numbers(self) -> Self {
        let before = self.number > 0 && (self.sheet == 0 || self.sheet == 1 && self.place < 4);
        if before { self } else { Told { number: 18, sheet: 1, place: 4, others: [0; 3] } }
    }
}

/// A call on two sheets at the exam desk; the numbers are those of an obligation and a hypothesis.
type Ask = fn(&[u8], &[u8], [u32; 2]) -> Told;

const ON_TWO_SHEETS: [(&str, Ask); 5] = [
    ("silfoddra_mark_certificate", |model, second, _| library::mark_certificate(model, second, EXAM).into()),
    ("silfoddra_mark_run", |model, second, _| library::mark_run(model, second, EXAM).into()),
    ("silfoddra_show_row", |model, second, [o, h]| library::show_row(model, second, o, h, EXAM).into()),
    ("silfoddra_hypothesis", |model, second, [o, h]| library::hypothesis(model, second, o, h, EXAM).into()),
    ("silfoddra_which_obligation", |model, second, [o, _]| library::which(model, second, o, EXAM).into()),
];

impl Comparison {
    /// Compares every call on a paper in its other versions, with two paper numbers, and in some pair of versions.
    pub fn compare_versions(&mut self, kind: &str, model: &Sheet, second: &Sheet, random: &mut Random) -> Compared<()> {
        let number = random_number(random);
        let versions = [1, 2, 3].map(|version| (model.clone().moved(version, number), second.clone().beside(version, number)));
        let accepted = |mark: fn(&[u8], &[u8]) -> Answer| {
            let [first, then, _] = &versions;
            [first, then].map(|(model, second)| mark(&model.bytes, &second.bytes).number == 0)
        };
        self.versions.certificates.count(accepted(|model, second| mark_certificate(model, second, EXAM)));
        self.versions.runs.count(accepted(|model, second| mark_run(model, second, EXAM)));

        for (other, second) in versions.iter().filter(|(other, _)| other.bytes[2] != model.bytes[2]) {
            self.compare(&format!("{kind}, other version"), other, second, random)?;
        }
        let [.., (numbered, second)] = &versions;
        let other = second.clone().moved(3, other_number(random, number));
        self.compare(&format!("{kind}, two numbers"), numbered, &other, random)?;
        let [one, other] = random_pair(random);
        let (model, second) = (model.clone().moved(one, number), second.clone().moved(other, number));
        self.compare(&format!("{kind}, any two versions"), &model, &second, random)
    }

    /// What the library says of a paper in version 3 is what it says of it in version 2, four bytes later, and the same with another number
    /// on both sheets. With two numbers it is 18 once the second sheet's is read.
    pub fn compare_numbered(&mut self, kind: &str, model: &Sheet, second: &Sheet, random: &mut Random) -> Compared<()> {
        let one = random_number(random);
        let other = other_number(random, one);
        let of_model = |version, number| model.clone().moved(version, number);
        let of_second = |version, number| second.clone().beside(version, number);
        let before = (of_model(2, 0), of_second(2, 0));
        let [first, then] = [one, other].map(|number| (of_model(3, number), of_second(3, number)));
        if first.0.bytes.len().max(first.1.bytes.len()) > LONGEST {
            return Ok(());
        }
        let two = (of_model(3, one), of_second(3, other));
        let obligation = random_argument(random, obligation_count(&before.0.bytes, &before.1.bytes));
        let hypothesis = random_argument(random, hypothesis_count(&before.0.bytes, &before.1.bytes, obligation));
        let asked = [obligation, hypothesis];
        for &edge in self.edges() {
            let [before, first, then, two] = [&before, &first, &then, &two].map(|(model, second)| {
                let (model, second) = (&model.bytes[..], &second.bytes[..]);
                Paper { kind, model, second, edge }
            });
            for (name, ask) in ON_TWO_SHEETS {
                let mut ask = |paper| self.on_sheets(paper, |model, second| ask(model, second, asked));
                let expected = ask(before).four_later();
                let got = [first, then, two].map(|paper| (paper, ask(paper)));
                for ((paper, got), expected) in got.into_iter().zip([expected, expected, expected.with_two_numbers()]) {
                    self.as_in_version_2(&format!("{name}({asked:?})"), paper, [expected, got])?;
                }
            }
            for (paper, number) in [(first, one), (then, other)] {
                self.compare_one_sheet(before, paper, number)?;
            }
        }
        self.versions.numbered += 1;
        Ok(())
    }

    /// Calls on the model alone, which do nothing with its paper number: the joint list is the same, and so is the fair copy behind the
    /// number.
    fn compare_one_sheet(&mut self, before: Paper, paper: Paper, number: u32) -> Compared<()> {
        let table = vec![JointSwitch::default(); Size::of(before.model).joints().min(EXAM.joints as usize)];
        let (answer, records) = self.list_joints(before, table.clone(), EXAM);
        let expected = (Told::from(answer).four_later(), records);
        let (answer, records) = self.list_joints(paper, table, EXAM);
        self.as_in_version_2("silfoddra_joint_list", paper, [expected, (answer.into(), records)])?;

        let (answer, Bytes(mut copy)) = self.copy_fairly(before, vec![0; before.model.len()], EXAM);
        let mut expected = Told::from(answer).four_later();
        if answer.number == 0 {
            copy.truncate(answer.done as usize);
            copy = Sheet::of(copy).moved(3, number).bytes;
            expected.others[0] += 4;
        }
        copy.resize(paper.model.len(), 0);
        let (answer, got) = self.copy_fairly(paper, vec![0; paper.model.len()], EXAM);
        self.as_in_version_2("silfoddra_fair_copy", paper, [(expected, Bytes(copy)), (answer.into(), got)])
    }

    fn as_in_version_2<T: Debug + PartialEq>(&self, call: &str, paper: Paper, [expected, got]: [T; 2]) -> Compared<()> {
        let call = || format!("{call}, in version 3 and as expected from version 2");
        self.agree(call, paper.kind, &paper.handed(), [("library", got), ("expected", expected)])
    }
}
