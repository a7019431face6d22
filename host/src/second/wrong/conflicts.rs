//! Misreadings of conflicting definitions: what is compared, which pairs, what is answered, when, and what is
//! left.

use super::super::answers::{number, Lent, Refusal, RenderAnswer};
use super::super::conflicts::{Pair, Said};
use super::super::definitions::Definition;
use super::super::text::{Part, LONGEST_NOTE};
use super::folding::folded_text;
use super::sheets::{count_of_note, without_bad_bytes};
use super::{Purpose, Reader, Written, Wrong};

impl Reader {
    /// Whether conflicts are judged after 3: "With no, all old answers hold."
    pub(in super::super) fn judges_conflicts(self, release: bool) -> bool {
        match self.wrong {
            Some(Wrong::ConflictsAlways) => true,
            Some(Wrong::ConflictsIgnored | Wrong::ConflictsAfter(_)) => false,
            _ => release,
        }
    }

    /// The bytes that a wrong reading compares in the place of a destination's or a title's.
    pub(in super::super) fn misread_compared(
        self,
        definition: &Definition,
        part: Part,
        written: Written,
    ) -> Option<String> {
        let source = definition.source;
        let bytes = part.of(source.text);
        let misread = |which: Written, bytes: String| (which == written).then_some(bytes);
        match self.wrong? {
            Wrong::UndoneCompared(which) => misread(which, self.undo_escapes(bytes, written)),
            Wrong::FoldedCompared(which) => misread(which, folded_text(bytes)),
            Wrong::ComparedAsLabels(which) => {
                let form = self.compared_form(bytes.as_bytes());
                misread(which, String::from_utf8_lossy(&form).into_owned())
            }
            Wrong::LengthsCompared(which) => misread(which, bytes.len().to_string()),
            Wrong::DelimitersCompared(which) => {
                let before = source.text[..part.start].chars().last();
                let delimiter = before.filter(|before| "<\"'(".contains(*before));
                misread(which, delimiter.into_iter().chain(bytes.chars()).collect())
            }
            Wrong::ComparedFrom(origin, which) if source.origin != origin => {
                let beside = source.beside.as_bytes();
                let beside = beside.get(part.start..part.end).unwrap_or_default();
                misread(which, String::from_utf8_lossy(beside).into_owned())
            }
            _ => None,
        }
    }

    /// What a definition says as it is.
    pub(in super::super) fn misread_said(self, definition: &Definition, mut said: Said) -> Said {
        match self.wrong {
            Some(Wrong::DestinationsUncompared) => said.destination.clear(),
            Some(Wrong::TitlesUncompared) => said.title = None,
            Some(Wrong::TitleBytesUncompared) => said.title = said.title.map(|_| String::new()),
            Some(Wrong::EmptyTitleIsNone) => said.title = said.title.filter(|t| !t.is_empty()),
            Some(Wrong::PlacesCompared) => {
                let [_, _, places @ .., _] = definition.row();
                said.destination = format!("{places:?}");
                said.title = None;
            }
            Some(Wrong::RepeatsConflict) => {
                said.destination = format!("{:?} {:?}", definition.source.origin, definition.row());
            }
            _ => {}
        }
        said
    }

    /// Whether two definitions are compared: where their labels are equal.
    pub(in super::super) fn misread_pair(
        self,
        joined: &[Definition],
        pair: Pair,
        equal: bool,
    ) -> bool {
        let both = [pair.earlier, pair.later].map(|place| &joined[place]);
        let origins = both.map(|definition| definition.source.origin);
        let bytes = both.map(|definition| definition.label.of(definition.source.text));
        match self.wrong {
            Some(Wrong::AnyLabelsConflict) => true,
            Some(Wrong::LabelBytesCompared) => bytes[0] == bytes[1],
            Some(Wrong::FoldsAscii(Purpose::Conflict)) => {
                let [earlier, later] = bytes.map(str::as_bytes);
                self.comparing(Purpose::Conflict).same_label(earlier, later)
            }
            Some(Wrong::NeighboursCompared) => equal && pair.later == pair.earlier + 1,
            Some(Wrong::TextsComparedApart) => equal && origins[0] == origins[1],
            Some(Wrong::TextsComparedAcross) => equal && origins[0] != origins[1],
            Some(Wrong::OneTextCompared(origin)) => equal && origins == [origin; 2],
            _ => equal,
        }
    }

    /// The conflict that is answered: "the first definition that so differs from an earlier one".
    pub(in super::super) fn first_conflict(
        self,
        conflicts: impl Iterator<Item = Pair>,
    ) -> Option<Pair> {
        match self.wrong {
            Some(Wrong::LastConflict) => conflicts.max_by_key(|pair| pair.later),
            Some(Wrong::FirstOfEarlier) => conflicts.min_by_key(|pair| pair.earlier),
            _ => conflicts.min_by_key(|pair| pair.later),
        }
    }

    /// The refusal for a conflict as it is.
    pub(in super::super) fn misread_conflict(
        self,
        mut refusal: Refusal,
        joined: &[Definition],
        pair: Pair,
    ) -> Refusal {
        let later = &joined[pair.later];
        let opening_bracket = later.label.start - 1;
        match self.wrong {
            Some(Wrong::ConflictFromZero) => refusal.value -= 1,
            Some(Wrong::ConflictIsEarlier) => refusal.value = pair.earlier + 1,
            Some(Wrong::ConflictInOwnText) if later.is_of_sheet() => {
                refusal.value -= count_of_note(joined);
            }
            Some(Wrong::ConflictIsLine) => {
                refusal.value = later.source.line(opening_bracket) as usize;
            }
            Some(Wrong::ConflictIsPlace) => refusal.value = opening_bracket,
            Some(Wrong::ConflictNamesItsText) => refusal.text = later.source.origin.number(),
            _ => {}
        }
        refusal
    }

    /// The answer as it is; wrong readings judge conflicts at another time, or leave something else after one.
    pub(in super::super) fn misread_release(
        self,
        mut answer: RenderAnswer,
        texts: [&[u8]; 2],
        release: bool,
        lent: Lent,
    ) -> RenderAnswer {
        let [note, sheet] = texts;
        let without = || Reader::RIGHT.answer(note, sheet, false, lent);
        match self.wrong {
            Some(Wrong::ConflictsAfter(refusal)) if release => {
                return judged_after(refusal, without(), texts, lent);
            }
            _ if answer.number != number::CONFLICTING_DEFINITIONS => {}
            Some(Wrong::ConflictTakesBack) => answer.definition_rows = None,
            Some(Wrong::RowsBeforeConflict) => {
                let before = answer.value - 1;
                let rows = answer.definition_rows.iter_mut();
                rows.for_each(|rows| rows.truncate(before));
            }
            Some(Wrong::SpansDespiteConflict) => answer.span_rows = without().span_rows,
            Some(Wrong::PageDespiteConflict) => answer.page = without().page,
            _ => {}
        }
        answer
    }
}

/// The answer for a release where conflicts are judged after the refusal with this number and not after 3, given
/// the answer without one. Of texts that are refused, what is good is judged.
fn judged_after(
    refusal: u32,
    without: RenderAnswer,
    texts: [&[u8]; 2],
    lent: Lent,
) -> RenderAnswer {
    let [note, sheet] = texts.map(|text| without_bad_bytes(&text[..text.len().min(LONGEST_NOTE)]));
    let enough = Lent {
        definition_numbers: usize::MAX,
        ..lent
    };
    let conflict = Reader::RIGHT.answer(&note, &sheet, true, enough);
    let refused_before = (1..=refusal).contains(&without.number);
    if refused_before || conflict.number != number::CONFLICTING_DEFINITIONS {
        return without;
    }
    RenderAnswer {
        definition_rows: without.definition_rows,
        ..conflict
    }
}
