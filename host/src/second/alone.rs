//! The answers for a note alone, as they are without the sheet of document 02's request 1 and the setting of
//! request 8: there is one text, a definition row has seven numbers, and conflicts are not judged. "An empty sheet
//! must give the old answers, where as many whole definition rows are lent, but for that leading 0 and the text
//! named." For the setting: "With no, all old answers hold."

use std::ops::Range;

use super::answers::{number, Counts, Lent, Refusal};
use super::answers::{RenderAnswer, ResolveAnswer};
use super::marking::mark_each;
use super::rows::SpanRow;
use super::source::{Origin, Source};
use super::Reader;

/// "Definition row, six 32-bit numbers"; document 02, request 9: "Each definition row and span row
/// gets one more number at its end".
pub const DEFINITION_ROW_WIDTH: usize = 7;
pub type DefinitionRow = [u32; DEFINITION_ROW_WIDTH];

const READER: Reader = Reader::RIGHT;

/// What the reader or the page writer answers and leaves; `None` where lent memory is unchanged.
#[derive(Clone, Debug, Default, PartialEq, Eq)]
pub struct Answer {
    pub number: u32,
    pub value: usize,
    pub definition_count: usize,
    pub span_count: usize,
    pub page_length: usize,
    pub definition_rows: Option<Vec<DefinitionRow>>,
    pub span_rows: Option<Vec<SpanRow>>,
    pub page: Option<Vec<u8>>,
}

/// What the enquiry answers.
#[derive(Clone, Debug, PartialEq, Eq)]
pub struct Found {
    pub number: u32,
    pub value: usize,
    pub destination: Range<usize>,
}

/// The reader.
pub fn read(note: &[u8], definition_numbers: usize, span_numbers: usize) -> Answer {
    Answer::of(
        note,
        Lent {
            definition_numbers,
            span_numbers,
            page_bytes: None,
        },
    )
}

/// The page writer.
pub fn render(
    note: &[u8],
    definition_numbers: usize,
    span_numbers: usize,
    page_bytes: usize,
) -> Answer {
    Answer::of(
        note,
        Lent {
            definition_numbers,
            span_numbers,
            page_bytes: Some(page_bytes),
        },
    )
}

/// The enquiry.
pub fn resolve(note: &[u8], label: &[u8]) -> Found {
    match find(note, label) {
        Ok(destination) => Found {
            number: number::SUCCESS,
            value: destination.start,
            destination,
        },
        Err(refusal) => Found {
            number: refusal.number,
            value: refusal.value,
            destination: 0..0,
        },
    }
}

/// "The enquiry checks 1, 2, 8, 7."
fn find(note: &[u8], label: &[u8]) -> Result<Range<usize>, Refusal> {
    let note = Source::alone(READER.checked_text(note, Origin::Note)?);
    let label = READER.checked_label(label)?;
    let definitions = READER.outline(&note).definitions;
    match READER.look_up(&definitions, label) {
        Some(found) => {
            let destination = definitions[found - 1].destination;
            Ok(destination.start..destination.end)
        }
        None => Err(Refusal::of(number::LABEL_UNDEFINED, 0)),
    }
}

impl Answer {
    fn of(note: &[u8], lent: Lent) -> Answer {
        let mut answer = Answer::default();
        match answer.write(note, lent) {
            Ok(counts) => {
                answer.definition_count = counts.definitions;
                answer.span_count = counts.spans;
                answer.page_length = counts.page;
            }
            Err(refusal) => (answer.number, answer.value) = (refusal.number, refusal.value),
        }
        answer
    }

    /// "The first that applies, in order 1 to 6, is the answer".
    fn write(&mut self, note: &[u8], lent: Lent) -> Result<Counts, Refusal> {
        let note = Source::alone(READER.checked_text(note, Origin::Note)?);
        let outline = READER.outline(&note);
        let rows: Vec<DefinitionRow> = outline.definitions.iter().map(|each| each.row()).collect();
        let definitions = READER.hand_over(
            rows,
            lent.definition_numbers / DEFINITION_ROW_WIDTH,
            &mut self.definition_rows,
            number::FEW_DEFINITION_ROWS,
        )?;
        let markings = mark_each(&note, &outline.paragraphs, &outline.definitions);
        READER.check_depth(&markings)?;
        let spans = READER.write_spans(&markings, lent, &mut self.span_rows)?;
        let page = READER.write_page(&markings, lent, &mut self.page)?;
        Ok(Counts {
            definitions,
            spans,
            page,
        })
    }

    /// What an empty sheet must give: the same, "but for that leading 0 and the text named", which is 0.
    pub fn with_empty_sheet(self) -> RenderAnswer {
        let behind_0 = |[a, b, c, d, e, f, g]: DefinitionRow| [0, a, b, c, d, e, f, g];
        let rows = self.definition_rows;
        RenderAnswer {
            number: self.number,
            value: self.value,
            definition_count: self.definition_count,
            span_count: self.span_count,
            page_length: self.page_length,
            text: 0,
            definition_rows: rows.map(|rows| rows.into_iter().map(behind_0).collect()),
            span_rows: self.span_rows,
            page: self.page,
        }
    }
}

impl Found {
    /// What an empty sheet must give.
    pub fn with_empty_sheet(self) -> ResolveAnswer {
        ResolveAnswer {
            number: self.number,
            value: self.value,
            destination: self.destination,
            text: 0,
        }
    }
}
