//! What the three entries answer, and what they leave in the memory lent to them.

use std::ops::Range;

use super::rows::{DefinitionRow, SpanRow};
use super::source::Origin;

/// The answer numbers: 0 for success, then the table of refusals.
pub mod number {
    /// "Success is number 0".
    pub const SUCCESS: u32 = 0;
    /// "note longer than 32,768 bytes", or the sheet; with it "its length".
    pub const TEXT_TOO_LONG: u32 = 1;
    /// "byte 0 or 13, or ill-formed UTF-8"; with it "where reading from the start first meets no
    /// good character".
    pub const TEXT_ILL_FORMED: u32 = 2;
    /// "fewer whole definition rows lent than definitions", those of the note and of the sheet; with it
    /// "rows needed".
    pub const FEW_DEFINITION_ROWS: u32 = 3;
    /// Some paragraph has over `MOST_BRACKETS_OPEN` brackets open at once; with it "place of the first
    /// bracket too many".
    pub const BRACKETS_TOO_DEEP: u32 = 4;
    /// "fewer whole span rows lent than spans"; with it "rows needed".
    pub const FEW_SPAN_ROWS: u32 = 5;
    /// "page buffer shorter than the HTML"; with it "bytes needed".
    pub const PAGE_TOO_SHORT: u32 = 6;
    /// "enquiry: no definition has an equal label"; with it 0.
    pub const LABEL_UNDEFINED: u32 = 7;
    /// "enquiry: the bytes given, set between `[` and `]`, are not exactly one label, or hold byte
    /// 0 or 13 or ill-formed UTF-8"; with it 0.
    pub const NOT_A_LABEL: u32 = 8;
    /// For a release: "two definitions with equal labels (in the note, the sheet or one in each) differ in
    /// destination bytes, title bytes or the presence of a title" (document 02, request 8); with it "the row
    /// number, from 1, of the first definition that so differs from an earlier one of equal label".
    pub const CONFLICTING_DEFINITIONS: u32 = 9;
}

/// What the reader answers, and what it leaves in the lent tables.
#[derive(Clone, Debug, PartialEq, Eq)]
pub struct ReadAnswer {
    /// 0 or the refusal's number.
    pub number: u32,
    /// What the refusal is returned with; 0 on success.
    pub value: usize,
    /// How many definitions the note and the sheet have; given on success, otherwise 0.
    pub definition_count: usize,
    /// How many spans the note has; given on success, otherwise 0.
    pub span_count: usize,
    /// "which text, 0 the note, 1 the sheet; an answer about neither says 0" (document 02, request 1).
    pub text: usize,
    /// The rows at the start of the definition table, or `None` where it is unchanged.
    pub definition_rows: Option<Vec<DefinitionRow>>,
    /// The rows at the start of the span table, or `None` where it is unchanged.
    pub span_rows: Option<Vec<SpanRow>>,
}

/// What the page writer answers, and what it leaves in the lent tables and the page buffer.
#[derive(Clone, Debug, PartialEq, Eq)]
pub struct RenderAnswer {
    /// 0 or the refusal's number.
    pub number: u32,
    /// What the refusal is returned with; 0 on success.
    pub value: usize,
    /// How many definitions the note and the sheet have; given on success, otherwise 0.
    pub definition_count: usize,
    /// How many spans the note has; given on success, otherwise 0.
    pub span_count: usize,
    /// The HTML's length; given on success, otherwise 0.
    pub page_length: usize,
    /// "which text, 0 the note, 1 the sheet; an answer about neither says 0" (document 02, request 1).
    pub text: usize,
    /// The rows at the start of the definition table, or `None` where it is unchanged.
    pub definition_rows: Option<Vec<DefinitionRow>>,
    /// The rows at the start of the span table, or `None` where it is unchanged.
    pub span_rows: Option<Vec<SpanRow>>,
    /// The bytes at the start of the page buffer, or `None` where it is unchanged.
    pub page: Option<Vec<u8>>,
}

/// What the enquiry answers.
#[derive(Clone, Debug, PartialEq, Eq)]
pub struct ResolveAnswer {
    /// 0 or the refusal's number.
    pub number: u32,
    /// The destination's start, or what the refusal is returned with.
    pub value: usize,
    /// The destination "as a part of whichever of the two texts defines the label, named in its answer"
    /// (document 02, request 1); 0..0 on a refusal ("On a refusal the part is empty").
    pub destination: Range<usize>,
    /// The text that defines the label, or that a refusal is about: 0 the note, 1 the sheet.
    pub text: usize,
}

/// A line of the table of refusals: its number, what is returned with it, and the text it names.
#[derive(Clone, Copy, Debug, PartialEq, Eq)]
pub(super) struct Refusal {
    pub number: u32,
    pub value: usize,
    pub text: usize,
}

impl Refusal {
    /// "an answer about neither says 0".
    pub fn of(number: u32, value: usize) -> Refusal {
        let text = Origin::Note.number();
        Refusal {
            number,
            value,
            text,
        }
    }
}

/// What is lent to a call: numbers of each table, and bytes of a page where one is asked for.
#[derive(Clone, Copy)]
pub(super) struct Lent {
    pub definition_numbers: usize,
    pub span_numbers: usize,
    pub page_bytes: Option<usize>,
}

/// What a call leaves at the start of what was lent; `None` where it is unchanged.
#[derive(Default)]
pub(super) struct Left {
    pub definition_rows: Option<Vec<DefinitionRow>>,
    pub span_rows: Option<Vec<SpanRow>>,
    pub page: Option<Vec<u8>>,
}

/// "the counts of definitions and spans, from the page writer also the HTML's length".
#[derive(Clone, Copy, Default)]
pub(super) struct Counts {
    pub definitions: usize,
    pub spans: usize,
    pub page: usize,
}

impl RenderAnswer {
    /// The answer of a call that gave these counts or this refusal, and left this.
    pub(super) fn of(given: Result<Counts, Refusal>, left: Left) -> RenderAnswer {
        let (refusal, counts) = match given {
            Ok(counts) => (None, counts),
            Err(refusal) => (Some(refusal), Counts::default()),
        };
        RenderAnswer {
            number: refusal.map_or(number::SUCCESS, |refusal| refusal.number),
            value: refusal.map_or(0, |refusal| refusal.value),
            definition_count: counts.definitions,
            span_count: counts.spans,
            page_length: counts.page,
            text: refusal.map_or(Origin::Note.number(), |refusal| refusal.text),
            definition_rows: left.definition_rows,
            span_rows: left.span_rows,
            page: left.page,
        }
    }

    /// The same from the reader, which has no page.
    pub fn without_page(self) -> ReadAnswer {
        ReadAnswer {
            number: self.number,
            value: self.value,
            definition_count: self.definition_count,
            span_count: self.span_count,
            text: self.text,
            definition_rows: self.definition_rows,
            span_rows: self.span_rows,
        }
    }

    /// The whole definition table after the call, given what it held before.
    pub fn definition_table(&self, before: &[u32]) -> Vec<u32> {
        table_after(before, self.definition_rows.as_deref())
    }

    /// The whole span table after the call, given what it held before.
    pub fn span_table(&self, before: &[u32]) -> Vec<u32> {
        table_after(before, self.span_rows.as_deref())
    }

    /// The whole page buffer after the call, given what it held before.
    pub fn page_buffer(&self, before: &[u8]) -> Vec<u8> {
        written_over(before, self.page.as_deref().unwrap_or_default())
    }
}

impl ReadAnswer {
    /// The whole definition table after the call, given what it held before.
    pub fn definition_table(&self, before: &[u32]) -> Vec<u32> {
        table_after(before, self.definition_rows.as_deref())
    }

    /// The whole span table after the call, given what it held before.
    pub fn span_table(&self, before: &[u32]) -> Vec<u32> {
        table_after(before, self.span_rows.as_deref())
    }
}

impl ResolveAnswer {
    /// A destination that was found, and the text in which.
    pub(super) fn found(destination: Range<usize>, origin: Origin) -> ResolveAnswer {
        ResolveAnswer {
            number: number::SUCCESS,
            value: destination.start,
            destination,
            text: origin.number(),
        }
    }

    pub(super) fn refused(refusal: Refusal) -> ResolveAnswer {
        ResolveAnswer {
            number: refusal.number,
            value: refusal.value,
            destination: 0..0,
            text: refusal.text,
        }
    }
}

/// A table once `rows` stand at its start.
fn table_after<const WIDTH: usize>(before: &[u32], rows: Option<&[[u32; WIDTH]]>) -> Vec<u32> {
    written_over(before, &rows.unwrap_or_default().concat())
}

/// "After every answer, numbers and bytes past the part in use are unchanged."
fn written_over<T: Clone>(before: &[T], part_in_use: &[T]) -> Vec<T> {
    let mut after = part_in_use.to_vec();
    after.extend(before.iter().skip(part_in_use.len()).cloned());
    after
}
