//! Misreadings of the two texts: which is which, in what order, and what of the sheet is read.

use std::borrow::Cow;

use super::super::answers::{number, Left, Lent, Refusal, ResolveAnswer};
use super::super::definitions::Definition;
use super::super::marking::Marking;
use super::super::rows::{DefinitionRow, Target};
use super::super::source::{Origin, Source};
use super::super::text::{Part, LONGEST_NOTE};
use super::lines::DEFINITION_LINE;
use super::{Reader, Written, Wrong};

impl Reader {
    /// Note and sheet as they are lent.
    pub(in super::super) fn misread_texts<'t>(
        self,
        note: &'t [u8],
        sheet: &'t [u8],
    ) -> [Cow<'t, [u8]>; 2] {
        match self.wrong {
            Some(Wrong::SheetIgnored) => [note.into(), Cow::default()],
            Some(Wrong::OneText(feeds)) => {
                let between = vec![b'\n'; feeds];
                [[note, &between, sheet].concat().into(), Cow::default()]
            }
            Some(Wrong::SheetUnchecked(number::TEXT_ILL_FORMED)) => {
                [note.into(), without_bad_bytes(sheet).into()]
            }
            _ => [note, sheet].map(|text| self.forgiven(text)),
        }
    }

    /// The refusals that a wrong reading gives before it checks the note.
    pub(in super::super) fn misread_order(self, note: &[u8], sheet: &[u8]) -> Result<(), Refusal> {
        let together = note.len() + sheet.len();
        match self.wrong {
            Some(Wrong::SheetCheckedFirst) => self.checked_text(sheet, Origin::Sheet).map(drop),
            Some(Wrong::LengthsFirst) => {
                self.check_length(note, Origin::Note)?;
                self.check_length(sheet, Origin::Sheet)
            }
            Some(Wrong::LimitOfBothTexts) if together > LONGEST_NOTE => {
                Err(Refusal::of(number::TEXT_TOO_LONG, together))
            }
            Some(Wrong::BadPlaceGoesOn) => {
                self.checked_text(note, Origin::Note)?;
                self.checked_text(sheet, Origin::Sheet)
                    .map(drop)
                    .map_err(|refusal| goes_on(refusal, note.len()))
            }
            _ => Ok(()),
        }
    }

    /// The same in the enquiry.
    pub(in super::super) fn misread_enquiry_order(
        self,
        note: &[u8],
        label: &[u8],
    ) -> Result<(), Refusal> {
        match self.wrong {
            Some(Wrong::LabelBeforeNote) => {}
            Some(Wrong::LabelBeforeSheet) => drop(self.checked_text(note, Origin::Note)?),
            _ => return Ok(()),
        }
        self.checked_label(label).map(drop)
    }

    /// What a wrong reading stores before it looks at the sheet.
    pub(in super::super) fn store_definitions_alone(
        self,
        note: &[u8],
        lent: Lent,
        left: &mut Left,
    ) -> Result<(), Refusal> {
        let note = Source::alone(self.checked_text(note, Origin::Note)?);
        let definitions = self.outline(&note).definitions;
        self.write_definitions(&definitions, lent, left).map(drop)
    }

    /// The rows of the joined list, as many as are needed.
    pub(in super::super) fn misread_needed(
        self,
        mut rows: Vec<DefinitionRow>,
        joined: &[Definition],
        lent: usize,
    ) -> Vec<DefinitionRow> {
        if self.misreads(Wrong::NoteRowsCounted) {
            rows.truncate(count_of_note(joined).max(lent));
        }
        rows
    }

    /// The rows of the joined list as they are.
    pub(in super::super) fn misread_joined_rows(
        self,
        mut rows: Vec<DefinitionRow>,
        joined: &[Definition],
    ) -> Vec<DefinitionRow> {
        for (row, definition) in rows.iter_mut().zip(joined) {
            match self.wrong {
                Some(Wrong::LeadingZero) => row[0] = 0,
                Some(Wrong::TextsFromOne) => row[0] += 1,
                _ if definition.is_of_sheet() => self.misread_row_of_sheet(row, definition),
                _ => {}
            }
        }
        if self.misreads(Wrong::SheetRowsFirst) {
            rows.rotate_left(count_of_note(joined));
        }
        rows
    }

    /// The row of a definition of the sheet as it is.
    fn misread_row_of_sheet(self, row: &mut DefinitionRow, definition: &Definition) {
        let note = definition.source.beside;
        let feeds = |bytes: &str| bytes.matches('\n').count() as u32;
        let places = 1..DEFINITION_LINE;
        match self.wrong {
            Some(Wrong::SheetPlacesGoOn) => {
                let present = row[places].iter_mut().filter(|place| **place > 0);
                present.for_each(|place| *place += note.len() as u32);
            }
            Some(Wrong::SheetLinesInNote) => {
                let before = definition.label.start - 1;
                let before = &note.as_bytes()[..before.min(note.len())];
                row[DEFINITION_LINE] = 1 + feeds(&String::from_utf8_lossy(before));
            }
            Some(Wrong::SheetLinesGoOn) => row[DEFINITION_LINE] += feeds(note),
            _ => {}
        }
    }

    /// The number of a definition in the joined list as it is.
    pub(in super::super) fn misread_definition_number(
        self,
        joined: &[Definition],
        number: usize,
    ) -> usize {
        let of_note = count_of_note(joined);
        match self.wrong {
            Some(Wrong::NumberInOwnText) if number > of_note => number - of_note,
            _ => number,
        }
    }

    /// Whether the sheet's paragraphs are read.
    pub(in super::super) fn reads_paragraphs_of_sheet(self) -> bool {
        matches!(
            self.wrong,
            Some(Wrong::SheetSpans | Wrong::SheetOnPage | Wrong::SheetDeep)
        )
    }

    /// The markings of the note's paragraphs; with the wrong reading those of the sheet too.
    pub(in super::super) fn of_note_unless<'m, 't>(
        self,
        wrong: Wrong,
        markings: &'m [Marking<'t>],
    ) -> &'m [Marking<'t>] {
        let of_note = |marking: &Marking| marking.source.origin == Origin::Note;
        if self.misreads(wrong) {
            return markings;
        }
        &markings[..markings.partition_point(of_note)]
    }

    /// The bytes that a wrong reading takes for a destination or a title on the page.
    pub(in super::super) fn misread_bytes(
        self,
        target: Target,
        part: Part,
        written: Written,
    ) -> Option<String> {
        let from_beside = match self.wrong? {
            Wrong::ReferenceFrom(origin, which) => {
                which == written && target.definition > 0 && target.source.origin != origin
            }
            Wrong::InlineFromSheet(which) => which == written && target.definition == 0,
            _ => false,
        };
        let beside = target.source.beside.as_bytes();
        let bytes = beside.get(part.start..part.end).unwrap_or_default();
        from_beside.then(|| String::from_utf8_lossy(bytes).into_owned())
    }

    /// The text that an answer with this number names.
    pub(super) fn misread_name(self, number: u32, text: usize) -> usize {
        match self.wrong {
            Some(Wrong::NamesSheet(always)) if always == number => Origin::Sheet.number(),
            Some(Wrong::NamesNote(always)) if always == number => Origin::Note.number(),
            _ => text,
        }
    }

    /// The enquiry's answer as it is.
    pub(in super::super) fn misread_named(self, mut answer: ResolveAnswer) -> ResolveAnswer {
        answer.text = match self.wrong {
            Some(Wrong::EnquiryNames(origin)) if answer.number == number::SUCCESS => {
                origin.number()
            }
            _ => self.misread_name(answer.number, answer.text),
        };
        answer
    }

    /// The part that a wrong reading hands back.
    pub(in super::super) fn misread_part<'t>(
        self,
        texts: [&'t [u8]; 2],
        answer: &ResolveAnswer,
    ) -> Option<&'t [u8]> {
        let text = match self.wrong? {
            Wrong::PartOf(origin) => origin.number(),
            _ => answer.text,
        };
        let part = texts[text].get(answer.destination.clone());
        Some(part.unwrap_or_default())
    }
}

/// How many definitions of the joined list are the note's.
pub(super) fn count_of_note(joined: &[Definition]) -> usize {
    joined.partition_point(|definition| !definition.is_of_sheet())
}

/// The refusal with its place so much further on.
fn goes_on(refusal: Refusal, length: usize) -> Refusal {
    match refusal.number {
        number::TEXT_ILL_FORMED => Refusal {
            value: length + refusal.value,
            ..refusal
        },
        _ => refusal,
    }
}

/// The bytes with `?` for each that is no part of a good character.
pub(super) fn without_bad_bytes(bytes: &[u8]) -> Vec<u8> {
    let mut bytes = bytes.to_vec();
    while let Err(place) = Reader::RIGHT.good_text(&bytes) {
        bytes[place] = b'?';
    }
    bytes
}
