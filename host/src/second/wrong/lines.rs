//! Misreadings of lines.

use super::super::definitions::Definition;
use super::super::marking::{Marking, Piece, PieceKind};
use super::super::rows::{kind, DefinitionRow, SpanRow};
use super::super::source::Source;
use super::super::text::is_space;
use super::{Reader, Wrong};

/// Where a row has its line.
pub(super) const DEFINITION_LINE: usize = 7;
const SPAN_LINE: usize = 10;

impl Reader {
    /// The rows of the joined list as they are.
    pub(in super::super) fn misread_definition_lines(
        self,
        mut rows: Vec<DefinitionRow>,
        joined: &[Definition],
    ) -> Vec<DefinitionRow> {
        // In each text.
        let mut inside_earlier = [0, 0];
        for (row, definition) in rows.iter_mut().zip(joined) {
            let [text, label_start, _, destination_start, destination_end, _, title_end, right] =
                *row;
            let source = definition.source;
            let inside_earlier = &mut inside_earlier[text as usize];
            let start = label_start as usize - 1;
            row[DEFINITION_LINE] = match self.wrong {
                Some(Wrong::LineOfDestination) => source.line(destination_start as usize),
                Some(Wrong::DefinitionLinesUncounted) => right - *inside_earlier,
                _ => self.misread_line(source, start, right),
            };
            *inside_earlier += source.line(destination_end.max(title_end) as usize) - right;
        }
        rows
    }

    /// A span row of a paragraph as it is.
    pub(in super::super) fn misread_span_line(
        self,
        mut row: SpanRow,
        marking: &Marking,
    ) -> SpanRow {
        let lines = marking.source;
        let [kind, start, end, _, text_end, _, destination, destination_end, .., right] = row;
        let bracket = |place: Option<usize>| place.map_or(right, |place| lines.line(place));
        row[SPAN_LINE] = match (self.wrong, kind) {
            (Some(Wrong::LinesFromParagraph), _) => 1 + right - lines.line(marking.text.place(0)),
            (Some(Wrong::LineOfSpanEnd), _) => lines.line(end as usize),
            (Some(Wrong::CodeLinesUncounted), _) => {
                let code = |piece: &Piece| matches!(piece.kind, PieceKind::Code(_));
                right - line_feeds_within(marking, start, code)
            }
            (Some(Wrong::TailLinesUncounted), _) => {
                let tail = |piece: &Piece| piece.kind == PieceKind::Tail;
                right - line_feeds_within(marking, start, tail)
            }
            (Some(Wrong::LineOfTarget), kind::INLINE..) if destination_end > 0 => {
                lines.line(destination as usize)
            }
            (Some(Wrong::LineOfFirstBracket), kind::INLINE..) => {
                bracket(openings_before(marking, text_end).next())
            }
            (Some(Wrong::LineOfLastBracket), kind::INLINE..) => {
                bracket(openings_before(marking, text_end).last())
            }
            _ => self.misread_line(lines, start as usize, right),
        };
        row
    }

    /// The line of a place of either table as it is.
    fn misread_line(self, source: &Source, place: usize, right: u32) -> u32 {
        let before = &source.text[..place];
        let ends_line = |character: &char| {
            matches!(
                character,
                '\n' | '\u{b}' | '\u{c}' | '\u{85}' | '\u{2028}' | '\u{2029}'
            )
        };
        let is_blank = |line: &&str| line.ends_with('\n') && line.chars().all(is_space);
        match self.wrong {
            Some(Wrong::LinesFromZero) => right - 1,
            Some(Wrong::OtherLineEnds) => 1 + before.chars().filter(ends_line).count() as u32,
            Some(Wrong::BlankLinesUncounted) => {
                right - before.split_inclusive('\n').filter(is_blank).count() as u32
            }
            _ => right,
        }
    }
}

/// How many LFs stand in the pieces of one sort that end by a place.
fn line_feeds_within(marking: &Marking, place: u32, sort: impl Fn(&Piece) -> bool) -> u32 {
    let text = marking.text;
    let earlier = |piece: &&Piece| text.place(piece.to) <= place as usize;
    let pieces = marking.pieces.iter().filter(earlier);
    let of_sort = pieces.filter(|piece| sort(piece));
    let within = of_sort.flat_map(|piece| &text.characters[piece.from..piece.to]);
    within.filter(|(_, character)| *character == '\n').count() as u32
}

/// The places of the opening brackets before a place.
fn openings_before<'m>(marking: &'m Marking, place: u32) -> impl Iterator<Item = usize> + 'm {
    let opening = |piece: &&Piece| piece.opens().is_some();
    let openings = marking.pieces.iter().filter(opening);
    let places = openings.map(|piece| marking.text.place(piece.from));
    places.take_while(move |opening| *opening < place as usize)
}
