//! Typed rows: the answer, the coefficients and the bound.

use super::{Compared, Comparison};
use differential::fence::Edge;
use differential::papers::texts::Text;
use differential::{library, marker};

impl Comparison {
    /// Compares the typed row of this text.
    pub fn compare_text(&mut self, text: &Text) -> Compared<()> {
        let expected = marker::read_row(&text.bytes, text.variables);
        let number = expected.answer.number as usize;
        self.typed_numbers[number] += 1;
        let count = self.texts.entry(text.kind).or_default();
        count.compared += 1;
        count.accepted += u64::from(number == 0);
        for &edge in self.edges() {
            let got = self.read_row(edge, &text.bytes, text.variables);
            let call = || format!("silfoddra_read_row on {} variables", text.variables);
            self.agree(call, text.kind, &[("text", &text.bytes)], [("library", got), ("marker", expected)])?;
        }
        Ok(())
    }

    fn read_row(&mut self, edge: Edge, text: &[u8], variables: u32) -> marker::TypedRow {
        match &mut self.fences {
            Some(fences) => library::read_row(fences.text.lend(text, edge), variables),
            None => library::read_row(text, variables),
        }
    }
}
