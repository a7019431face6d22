//! Labels, and when two of them are equal.

use super::folding;
use super::text::{is_space, Descent, Part, Text};
use super::wrong::Within;
use super::{Reader, Wrong};

/// A label has "at most 999 characters (code points)".
pub const LONGEST_LABEL: usize = 999;

impl Descent<'_> {
    /// A label, up to its closing bracket.
    ///
    /// "A label ends at the first unescaped `]`. It has no unescaped `[`, a character other than
    /// space, tab and LF, and at most 999 characters (code points)." Document 02, request 3: "The 999 limit
    /// counts characters before folding."
    fn label(&mut self) -> Option<Part> {
        let start = self.place();
        let first = self.at;
        let mut has_other_than_space = self.misreads(Wrong::BlankLabel);
        loop {
            if self.escape(Within::Label) {
                has_other_than_space = true;
                continue;
            }
            match self.next()? {
                ']' => break,
                '[' if !self.misreads(Wrong::BracketInLabel) => return None,
                '\n' if self.misreads(Wrong::LabelOnOneLine) => return None,
                character => has_other_than_space |= !is_space(character),
            }
            self.at += 1;
        }
        let label = self.since(start);
        let reader = self.text.reader;
        let length = reader.counted_characters(&self.text.characters[first..self.at]);
        (has_other_than_space && length <= reader.longest_label()).then_some(label)
    }

    /// "`[`, a label, `]`".
    pub fn bracketed_label(&mut self) -> Option<Part> {
        self.exactly('[')?;
        let label = self.label()?;
        self.exactly(']')?;
        Some(label)
    }
}

impl Reader {
    pub(super) fn longest_label(self) -> usize {
        self.limit(LONGEST_LABEL, Wrong::LabelOneShorter, Wrong::LabelOneLonger)
    }

    /// Whether the text, "set between `[` and `]`", is "exactly one label".
    pub(super) fn is_label(self, text: &str) -> bool {
        let bracketed = Text::of_string(self, &format!("[{text}]"));
        let mut descent = Descent::from(&bracketed, 0);
        descent.bracketed_label().is_some() && descent.next().is_none()
    }

    /// "Equal labels: fold .., trim space, tab and LF, make each inner run of them one space; then the bytes
    /// agree. Escapes are not undone." Any bytes have a form.
    pub(super) fn compared_form(self, label: &[u8]) -> Vec<u8> {
        let folded = self.misread_folded(label);
        let folded = folded.unwrap_or_else(|| folding::folded(label));
        let form = self.misread_runs(&folded);
        let form = form.unwrap_or_else(|| words(&folded, is_space).join(&b' '));
        self.misread_form(label, form)
    }

    pub fn same_label(self, a: &[u8], b: &[u8]) -> bool {
        self.compared_form(a) == self.compared_form(b)
    }
}

/// What stands between the spaces of a label.
pub(super) fn words(label: &[u8], is_space: impl Fn(char) -> bool) -> Vec<&[u8]> {
    let between = label.split(|byte| is_space(char::from(*byte)));
    between.filter(|word| !word.is_empty()).collect()
}
