//! The cases that the program `samples` is run on, and what it has to print for them: the files
//! crates/samples/stdin and crates/samples/stdout, which the program `cases` writes.
//!
//! Nothing here reads a note by the rules. What is expected is the second reader's answer.

mod chance;
mod characters;
mod definitions;
mod enquiries;
mod expected;
pub mod folded_bytes;
pub mod folded_texts;
pub mod folding;
mod image_limits;
mod images;
pub mod labels;
mod lending;
mod limits;
mod lines;
mod links;
mod named;
pub mod release;
mod release_refusals;
mod sheet_refusals;
mod sheets;

pub use expected::{comparison, enquiry, expected, tables_and_page};

use crate::second::{DEFINITION_ROW_WIDTH, SPAN_ROW_WIDTH};

/// The most that the program has room to lend: numbers of each table, bytes of the page.
pub const DEFINITION_ROOM: usize = 1_200;
pub const SPAN_ROOM: usize = 3_000;
pub const PAGE_ROOM: usize = 40_960;
/// The room for note, sheet and label, each with a line end.
pub const TEXT_ROOM: usize = 65_536;

/// One case: what it is, what is lent, the note, the sheet, the label that is asked for, and whether it is for a
/// release. The note and the label are compared as two labels, too.
#[derive(Clone)]
pub struct Case {
    pub name: String,
    pub definition_numbers: usize,
    pub span_numbers: usize,
    pub page_bytes: usize,
    pub note: Vec<u8>,
    pub sheet: Vec<u8>,
    pub label: Vec<u8>,
    pub release: bool,
}

impl Case {
    /// A case with an empty sheet, for no release, that lends enough for the note, and more: a row for each
    /// `]:`, for each `]` and for each pair of backticks, part of a row, and a page some times as long as a
    /// short note. It asks for what stands from the first `[` to the next `]`.
    fn of(name: impl Into<String>, note: impl AsRef<[u8]>) -> Case {
        let note = note.as_ref().to_vec();
        let count = |byte: u8| note.iter().filter(|other| **other == byte).count();
        Case {
            name: name.into(),
            definition_numbers: DEFINITION_ROW_WIDTH * colons(&note) + 4,
            span_numbers: SPAN_ROW_WIDTH * (count(b']') + count(b'`') / 2) + 3,
            page_bytes: (6 * note.len() + 60).min(note.len() + 400),
            label: first_bracketed(&note).to_vec(),
            note,
            sheet: Vec::new(),
            release: false,
        }
    }

    /// The case with this sheet, and a row more for each `]:` of it.
    fn beside(self, sheet: impl AsRef<[u8]>) -> Case {
        let sheet = sheet.as_ref().to_vec();
        Case {
            definition_numbers: self.definition_numbers + DEFINITION_ROW_WIDTH * colons(&sheet),
            sheet,
            ..self
        }
    }

    /// A case for each name and note.
    fn of_each(list: &[(&str, &str)]) -> Vec<Case> {
        let case = |(name, note): &(&str, &str)| Case::of(*name, note);
        list.iter().map(case).collect()
    }

    /// The case with so many whole rows lent to each table.
    fn rows(self, definitions: usize, spans: usize) -> Case {
        self.tables(definitions * DEFINITION_ROW_WIDTH, spans * SPAN_ROW_WIDTH)
    }

    /// The case with so many numbers lent to each table.
    fn tables(self, definition_numbers: usize, span_numbers: usize) -> Case {
        Case {
            definition_numbers,
            span_numbers,
            ..self
        }
    }

    /// The case with so many bytes lent to the page.
    fn page(self, page_bytes: usize) -> Case {
        Case { page_bytes, ..self }
    }

    /// The case with this label asked for.
    fn asking(self, label: impl AsRef<[u8]>) -> Case {
        Case {
            label: label.as_ref().to_vec(),
            ..self
        }
    }

    /// The case for a release.
    fn for_release(self) -> Case {
        Case {
            release: true,
            ..self
        }
    }

    /// The case in the container: a header line of six numbers of six digits (numbers lent to the
    /// definition table, numbers lent to the span table, bytes lent to the page, bytes of the note,
    /// of the sheet and of the label) and a digit, 1 for a release and else 0; and the note, the sheet
    /// and the label, each with a line end.
    fn contained(&self) -> Vec<u8> {
        let numbers = [
            self.definition_numbers,
            self.span_numbers,
            self.page_bytes,
            self.note.len(),
            self.sheet.len(),
            self.label.len(),
        ];
        let sizes = numbers.map(|number| format!("{number:06}")).join(" ");
        let header = format!("{sizes} {}", u8::from(self.release));
        let lines = [header.as_bytes(), &self.note, &self.sheet, &self.label];
        lines.map(|line| [line, b"\n"].concat()).concat()
    }
}

/// How often `]:` stands in a text.
fn colons(text: &[u8]) -> usize {
    text.windows(2).filter(|two| *two == b"]:").count()
}

/// What stands from the first `[` to the next `]`, or to the end.
fn first_bracketed(note: &[u8]) -> &[u8] {
    let mut parts = note.splitn(2, |byte| *byte == b'[').skip(1);
    let after = parts.next().unwrap_or_default();
    after.split(|byte| *byte == b']').next().unwrap_or_default()
}

/// Every case, in order.
pub fn all() -> Vec<Case> {
    [
        named::cases(),
        limits::cases(),
        definitions::cases(),
        links::cases(),
        lines::cases(),
        characters::cases(),
        lending::cases(),
        sheets::cases(),
        sheet_refusals::cases(),
        release::cases(),
        release_refusals::cases(),
        enquiries::cases(),
        labels::cases(),
        folding::cases(),
        folded_texts::cases(),
        folded_bytes::cases(),
        images::cases(),
        image_limits::cases(),
        chance::cases(),
    ]
    .into_iter()
    .flatten()
    .collect()
}

/// The container of the cases.
pub fn container(cases: &[Case]) -> Vec<u8> {
    cases.iter().flat_map(Case::contained).collect()
}
