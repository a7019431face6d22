//! The rows of both tables.

use super::alone;
use super::definitions::Definition;
use super::marking::{Marking, Piece, PieceKind, Tailed};
use super::source::Source;
use super::text::Part;
use super::{Reader, Wrong};

/// Document 02, request 1: "Definition rows gain a leading number, 0 for note and 1 for sheet".
pub const DEFINITION_ROW_WIDTH: usize = 1 + alone::DEFINITION_ROW_WIDTH;
/// "Span table, ten 32-bit numbers a row", and the line (document 02, request 9).
pub const SPAN_ROW_WIDTH: usize = 11;

/// The text, and the row of the definition in it.
pub type DefinitionRow = [u32; DEFINITION_ROW_WIDTH];
/// "kind, start, end, text start, text end, definition number (from 1; 0 if none), destination
/// start and end, title start and end", and the line "of the span's start".
pub type SpanRow = [u32; SPAN_ROW_WIDTH];

/// "The five kinds of row have fixed numbers", and so have those of images (document 02, request 5).
pub mod kind {
    /// "1 code span".
    pub const CODE_SPAN: u32 = 1;
    /// "2 inline".
    pub const INLINE: u32 = 2;
    /// "3 full".
    pub const FULL: u32 = 3;
    /// "4 collapsed".
    pub const COLLAPSED: u32 = 4;
    /// "5 shortcut".
    pub const SHORTCUT: u32 = 5;
    /// "kinds 6 inline".
    pub const INLINE_IMAGE: u32 = 6;
    /// "7 full".
    pub const FULL_IMAGE: u32 = 7;
    /// "8 collapsed".
    pub const COLLAPSED_IMAGE: u32 = 8;
    /// "9 shortcut".
    pub const SHORTCUT_IMAGE: u32 = 9;

    /// The kind of an image that has the tail of such a link.
    pub(in super::super) fn of_image(link: u32) -> u32 {
        match link {
            INLINE => INLINE_IMAGE,
            FULL => FULL_IMAGE,
            COLLAPSED => COLLAPSED_IMAGE,
            _ => SHORTCUT_IMAGE,
        }
    }
}

/// Where a link leads or an image lies: its destination and title, each a part of the source without its delimiters,
/// and the number of the definition that names them, 0 if none does.
#[derive(Clone, Copy, Debug)]
pub(super) struct Target<'t> {
    pub source: &'t Source<'t>,
    pub definition: usize,
    pub destination: Option<Part>,
    pub title: Option<Part>,
}

impl<'t> Target<'t> {
    /// What a code span has.
    fn none(source: &'t Source<'t>) -> Target<'t> {
        Target {
            source,
            definition: 0,
            destination: None,
            title: None,
        }
    }
}

/// A place or a count as a row holds it; a text's places are far below 2 to the 32nd.
pub(super) fn row_number(number: usize) -> u32 {
    u32::try_from(number).expect("a place in a text of at most 32,768 bytes")
}

/// The two numbers of a part: "An absent part is 0, 0."
fn part_numbers(part: Option<Part>) -> [u32; 2] {
    part.map_or([0, 0], |part| {
        [row_number(part.start), row_number(part.end)]
    })
}

impl Reader {
    /// The definition rows of the joined list: "All definitions stand there in note order, repeats too",
    /// the sheet's after them.
    pub(super) fn definition_rows(self, joined: &[Definition]) -> Vec<DefinitionRow> {
        let rows = joined.iter().map(Definition::row_with_text).collect();
        let rows = self.misread_definition_lines(rows, joined);
        let rows = self.misread_joined_rows(rows, joined).into_iter();
        rows.map(|row| self.misread_definition_row(row)).collect()
    }
}

impl Definition<'_> {
    /// The row in a table of its own text: "label start and end (inside the brackets), destination start
    /// and end, title start and end", and "the line of the label's opening bracket".
    pub fn row(&self) -> alone::DefinitionRow {
        let opening_bracket = self.label.start - 1;
        let [label_start, label_end] = part_numbers(Some(self.label));
        let [destination_start, destination_end] = part_numbers(Some(self.destination));
        let [title_start, title_end] = part_numbers(self.title);
        [
            label_start,
            label_end,
            destination_start,
            destination_end,
            title_start,
            title_end,
            self.source.line(opening_bracket),
        ]
    }

    /// The row with the leading number.
    fn row_with_text(&self) -> DefinitionRow {
        let mut row = [0; DEFINITION_ROW_WIDTH];
        row[0] = row_number(self.source.origin.number());
        row[1..].copy_from_slice(&self.row());
        row
    }
}

impl Marking<'_> {
    /// The span rows of the paragraph: "Rows stand in increasing order of end."
    pub fn span_rows(&self) -> Vec<SpanRow> {
        let reader = self.text.reader;
        let code_spans = self.pieces.iter().filter_map(|piece| self.code_row(*piece));
        let links = self.links.iter();
        let links = links.map(|link| self.tailed_row(link.tail.kind, link));
        let images = self.images.iter();
        let images = images.map(|image| self.tailed_row(kind::of_image(image.tail.kind), image));
        let mut rows: Vec<SpanRow> = code_spans.chain(links).chain(images).collect();
        rows.retain(|row| !reader.misreads_as_no_row(row, self));
        if !reader.misreads(Wrong::RowsByKind) {
            rows.sort_by_key(|row| reader.misread_order_of(row));
        }
        rows.into_iter()
            .map(|row| reader.misread_span_line(row, self))
            .map(|row| reader.misread_span_row(row, self.text))
            .collect()
    }

    /// Whether a span stands between the two brackets of one of these.
    pub fn stands_in(&self, row: &SpanRow, list: &[Tailed]) -> bool {
        let [_, start, end, ..] = row.map(|number| number as usize);
        list.iter().any(|around| {
            let opening = self.pieces[around.pair.opening];
            let closing = self.pieces[around.pair.closing];
            let inside = self.text.part(opening.to, closing.from);
            inside.start <= start && end <= inside.end
        })
    }

    /// "For a code span the text lies between the backtick strings".
    fn code_row(&self, piece: Piece) -> Option<SpanRow> {
        let PieceKind::Code(backticks) = piece.kind else {
            return None;
        };
        let whole = self.text.part(piece.from, piece.to);
        let inside = self.text.part(piece.from + backticks, piece.to - backticks);
        let target = Target::none(self.source);
        Some(self.span_row(kind::CODE_SPAN, whole, inside, target))
    }

    /// "A span runs from its opening bracket or backtick to the end of its tail or closing
    /// backticks", the text "for a link between its two brackets". "An image's span starts at its `!`; the rest
    /// of its row is made as a link's" (document 02, request 5).
    fn tailed_row(&self, kind: u32, span: &Tailed) -> SpanRow {
        let opening = self.pieces[span.pair.opening];
        let closing = self.pieces[span.pair.closing];
        let whole = self.text.part(opening.from, span.tail.to);
        let inside = self.text.part(opening.to, closing.from);
        self.span_row(kind, whole, inside, span.tail.target)
    }

    fn span_row(&self, kind: u32, whole: Part, text: Part, target: Target) -> SpanRow {
        let [start, end] = part_numbers(Some(whole));
        let [text_start, text_end] = part_numbers(Some(text));
        let [destination_start, destination_end] = part_numbers(target.destination);
        let [title_start, title_end] = part_numbers(target.title);
        [
            kind,
            start,
            end,
            text_start,
            text_end,
            row_number(target.definition),
            destination_start,
            destination_end,
            title_start,
            title_end,
            self.source.line(whole.start),
        ]
    }
}
