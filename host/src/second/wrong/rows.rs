//! Misreadings of rows, but for their lines.

use super::super::rows::{kind, DefinitionRow, SpanRow};
use super::super::text::Text;
use super::{Reader, Wrong};
use std::ops::Range;

/// Where a row has its destination and title, start and end of each.
const DEFINITION_TARGET: Range<usize> = 3..7;
const SPAN_TARGET: Range<usize> = 6..10;

impl Reader {
    /// A definition row as it is.
    pub(in super::super) fn misread_definition_row(self, mut row: DefinitionRow) -> DefinitionRow {
        match self.wrong {
            Some(Wrong::BracketsInLabelRow) => (row[1], row[2]) = (row[1] - 1, row[2] + 1),
            Some(Wrong::EndsInclusive) => row[2] -= 1,
            _ => self.misread_target(&mut row[DEFINITION_TARGET]),
        }
        row
    }

    /// A span row of a paragraph as it is.
    pub(in super::super) fn misread_span_row(self, mut row: SpanRow, text: &Text) -> SpanRow {
        let [kind, start, end, text_start, text_end, definition, ..] = row;
        let first = text.place(0) as u32;
        let places = 1..5;
        if kind >= kind::INLINE_IMAGE {
            self.misread_image_row(&mut row);
        }
        match (self.wrong, kind) {
            (Some(Wrong::EndsInclusive), _) => row[2] -= 1,
            (Some(Wrong::PlacesInCharacters), _) => {
                row[places]
                    .iter_mut()
                    .for_each(|place| *place = in_characters(text, *place));
            }
            (Some(Wrong::PlacesFromParagraph), _) => {
                row[places].iter_mut().for_each(|place| *place -= first);
            }
            (Some(Wrong::BackticksInText), kind::CODE_SPAN) => (row[3], row[4]) = (start, end),
            (Some(Wrong::BracketsInText), kind::INLINE..) => {
                (row[3], row[4]) = (text_start - 1, text_end + 1);
            }
            (Some(Wrong::SpanWithoutTail), kind::INLINE..) => row[2] = text_end + 1,
            (Some(Wrong::KindsSwapped), kind::COLLAPSED | kind::SHORTCUT) => {
                row[0] = kind::COLLAPSED + kind::SHORTCUT - kind;
            }
            (Some(Wrong::NumberFromZero), _) if definition > 0 => row[5] -= 1,
            (Some(Wrong::ReferenceWithoutTarget), _) if definition > 0 => row[SPAN_TARGET].fill(0),
            _ => self.misread_target(&mut row[SPAN_TARGET]),
        }
        row
    }

    /// Destination and title of a row, start and end of each, as they are.
    fn misread_target(self, target: &mut [u32]) {
        match self.wrong {
            Some(Wrong::EmptyTitleAbsent) if target[2] == target[3] => target[2..].fill(0),
            Some(Wrong::EmptyDestinationAbsent) if target[0] == target[1] => target[..2].fill(0),
            Some(Wrong::AbsentTitleAtEnd) if target[3] == 0 => {
                let end = target[1];
                target[2..].fill(end);
            }
            _ => {}
        }
    }
}

/// A place counted in characters from the paragraph's start.
pub(super) fn in_characters(text: &Text, place: u32) -> u32 {
    let earlier = text
        .characters
        .iter()
        .filter(|(at, _)| *at < place as usize);
    (text.place(0) + earlier.count()) as u32
}
