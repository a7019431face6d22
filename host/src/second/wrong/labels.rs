//! Misreadings of labels and destinations.

use super::super::folding::fold;
use super::super::labels::words;
use super::super::text::is_space;
use super::{Purpose, Reader, Wrong};

impl Reader {
    /// How many characters a label has, which stand here with their places.
    pub(in super::super) fn counted_characters(self, label: &[(usize, char)]) -> usize {
        let folded = |own: char| fold(own).map_or(1, |folded| folded.chars().count());
        match self.wrong {
            Some(Wrong::LabelInBytes) => label.iter().map(|(_, own)| own.len_utf8()).sum(),
            Some(Wrong::LabelCountedFolded) => label.iter().map(|(_, own)| folded(*own)).sum(),
            _ => label.len(),
        }
    }

    /// What a wrong reading makes of the spaces of a folded label.
    pub(in super::super) fn misread_runs(self, folded: &[u8]) -> Option<Vec<u8>> {
        match self.wrong? {
            Wrong::RunsDropped => Some(words(folded, is_space).concat()),
            Wrong::RunsKept => Some(trimmed(folded).to_vec()),
            Wrong::NotTrimmed => {
                let space = |end: Option<&u8>| end.filter(|byte| is_blank(byte)).map(|_| b' ');
                let [before, after] = [folded.first(), folded.last()].map(space);
                let inner = words(folded, is_space).join(&b' ');
                Some(before.into_iter().chain(inner).chain(after).collect())
            }
            Wrong::NoLabelSpace(other) => {
                let space = |character| is_space(character) && character != other;
                Some(words(folded, space).join(&b' '))
            }
            _ => None,
        }
    }

    /// The compared form as it is. Wrong readings call labels unequal for what stands before it here.
    pub(in super::super) fn misread_form(self, label: &[u8], form: Vec<u8>) -> Vec<u8> {
        let own = || words(label, is_space).join(&b' ');
        let before = match self.wrong {
            Some(Wrong::FirstBytesCompared) => {
                usize::from(own().first().map_or(0, u8::to_ascii_lowercase))
            }
            Some(Wrong::LabelLengthsCompared) => own().len(),
            Some(Wrong::LabelCountsCompared) => String::from_utf8_lossy(&own()).chars().count(),
            _ => return form,
        };
        [before.to_string().as_bytes(), b"\n", &form].concat()
    }

    /// Who compares labels for this purpose.
    pub(in super::super) fn comparing(self, purpose: Purpose) -> Reader {
        match self.wrong {
            Some(Wrong::FoldsAscii(misread)) if misread == purpose => {
                Reader::misreading(Wrong::OnlyAsciiFolded)
            }
            _ => self,
        }
    }

    /// "No depth limit on parentheses."
    pub(in super::super) fn most_parentheses(self) -> usize {
        match self.wrong {
            Some(Wrong::ParenthesesLimited) => 32,
            _ => usize::MAX,
        }
    }
}

fn is_blank(byte: &u8) -> bool {
    is_space(char::from(*byte))
}

/// The label without the spaces at its ends.
fn trimmed(label: &[u8]) -> &[u8] {
    let ink = |byte: &u8| !is_blank(byte);
    let start = label.iter().position(ink).unwrap_or(label.len());
    let end = label.iter().rposition(ink).map_or(start, |last| last + 1);
    &label[start..end]
}
