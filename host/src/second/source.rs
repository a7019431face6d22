//! The two texts that are lent, the note and the sheet, and their refusals 1 and 2.

use super::answers::{number, Refusal};
use super::rows::row_number;
use super::text::LONGEST_NOTE;
use super::{Reader, Wrong};

/// Which of the two texts: "0 the note, 1 the sheet" (document 02, request 1).
#[derive(Clone, Copy, Debug, PartialEq, Eq)]
pub enum Origin {
    Note,
    Sheet,
}

impl Origin {
    pub fn number(self) -> usize {
        self as usize
    }
}

/// A text that is good, with the places of its LFs.
#[derive(Debug)]
pub(super) struct Source<'t> {
    pub origin: Origin,
    pub text: &'t str,
    /// The other text: wrong readings take bytes and lines from it.
    pub beside: &'t str,
    line_feeds: Vec<usize>,
}

impl<'t> Source<'t> {
    fn of(origin: Origin, text: &'t str, beside: &'t str) -> Source<'t> {
        Source {
            origin,
            text,
            beside,
            line_feeds: text.match_indices('\n').map(|(place, _)| place).collect(),
        }
    }

    /// A note with no sheet beside it.
    pub fn alone(note: &'t str) -> Source<'t> {
        Source::of(Origin::Note, note, "")
    }

    /// A note and the sheet beside it.
    pub fn both([note, sheet]: [&'t str; 2]) -> [Source<'t>; 2] {
        [
            Source::of(Origin::Note, note, sheet),
            Source::of(Origin::Sheet, sheet, note),
        ]
    }

    /// The line of a place: "one more than the LFs before that place in its own text" (document 02,
    /// request 9).
    pub fn line(&self, place: usize) -> u32 {
        row_number(1 + self.line_feeds.partition_point(|feed| *feed < place))
    }
}

impl Reader {
    /// "refusals 1 and 2 are checked on the note, then both on the sheet, and say which text" (document
    /// 02, request 1).
    pub(super) fn checked_texts<'t>(
        self,
        note: &'t [u8],
        sheet: &'t [u8],
    ) -> Result<[&'t str; 2], Refusal> {
        self.misread_order(note, sheet)?;
        let note = self.checked_text(note, Origin::Note)?;
        let sheet = self.checked_text(sheet, Origin::Sheet)?;
        Ok([note, sheet])
    }

    /// Refusals 1 and 2 of one text.
    pub(super) fn checked_text(self, bytes: &[u8], origin: Origin) -> Result<&str, Refusal> {
        if self.misreads(Wrong::IllFormedBeforeTooLong) {
            self.well_formed(bytes, origin)?;
        }
        self.check_length(bytes, origin)?;
        self.well_formed(bytes, origin)
    }

    fn longest_text(self) -> usize {
        self.limit(LONGEST_NOTE, Wrong::NoteOneShorter, Wrong::NoteOneLonger)
    }

    /// Refusal 1.
    pub(super) fn check_length(self, bytes: &[u8], origin: Origin) -> Result<(), Refusal> {
        let checked =
            origin == Origin::Note || !self.misreads(Wrong::SheetUnchecked(number::TEXT_TOO_LONG));
        if checked && self.counted_length(bytes) > self.longest_text() {
            return Err(Refusal {
                number: number::TEXT_TOO_LONG,
                value: bytes.len(),
                text: origin.number(),
            });
        }
        Ok(())
    }

    /// Refusal 2.
    fn well_formed(self, bytes: &[u8], origin: Origin) -> Result<&str, Refusal> {
        self.good_text(bytes).map_err(|place| Refusal {
            number: number::TEXT_ILL_FORMED,
            value: place,
            text: origin.number(),
        })
    }
}
