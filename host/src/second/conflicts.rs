//! Conflicting definitions, which stop a release (document 02, request 8).

use super::answers::{number, Refusal};
use super::definitions::Definition;
use super::text::Part;
use super::wrong::Written;
use super::Reader;

/// What a definition says of its label: the destination's bytes, and the title's where there is one. Two
/// conflict where they "differ in destination bytes, title bytes or the presence of a title".
#[derive(Debug, PartialEq, Eq)]
pub(super) struct Said {
    pub destination: String,
    pub title: Option<String>,
}

/// Two definitions, by their places in the joined list, from 0.
#[derive(Clone, Copy, Debug)]
pub(super) struct Pair {
    pub earlier: usize,
    pub later: usize,
}

impl Pair {
    /// Every two of so many definitions.
    fn all(count: usize) -> impl Iterator<Item = Pair> {
        (0..count).flat_map(|later| (0..later).map(move |earlier| Pair { earlier, later }))
    }
}

impl Definition<'_> {
    /// As it stands in its own text, without delimiters, escapes not undone.
    fn said(&self, reader: Reader) -> Said {
        let bytes = |part: Part, written: Written| {
            let misread = reader.misread_compared(self, part, written);
            misread.unwrap_or_else(|| part.of(self.source.text).to_string())
        };
        let destination = bytes(self.destination, Written::Destination);
        let title = self.title.map(|title| bytes(title, Written::Title));
        reader.misread_said(self, Said { destination, title })
    }
}

impl Reader {
    /// Refusal 9: of all pairs "with equal labels (in the note, the sheet or one in each)" that differ in what
    /// they say, the one whose later definition is the first. "It names text 0 and returns the row number,
    /// from 1".
    pub(super) fn check_conflicts(
        self,
        joined: &[Definition],
        release: bool,
    ) -> Result<(), Refusal> {
        if !self.judges_conflicts(release) {
            return Ok(());
        }
        let said: Vec<Said> = joined.iter().map(|each| each.said(self)).collect();
        let conflicts = Pair::all(joined.len()).filter(|pair| {
            let Pair { earlier, later } = *pair;
            let equal = joined[earlier].compared_label == joined[later].compared_label;
            self.misread_pair(joined, *pair, equal) && said[earlier] != said[later]
        });
        match self.first_conflict(conflicts) {
            Some(pair) => {
                let refusal = Refusal::of(number::CONFLICTING_DEFINITIONS, pair.later + 1);
                Err(self.misread_conflict(refusal, joined, pair))
            }
            None => Ok(()),
        }
    }
}
