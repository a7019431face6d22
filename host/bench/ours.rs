//! The proved entries, the quick reader and the second one, as the benchmark calls them.

use std::hint::black_box;

use host::entries::{self, Reading, MOST_DEFINITION_ROWS, MOST_SPAN_ROWS};
use host::generate::bench_notes::BenchNote;
use host::quick;
use host::second::{self, RenderAnswer, DEFINITION_ROW_WIDTH, SPAN_ROW_WIDTH};

/// Tables with room for any note and sheet, as of a caller who does not know what they need, and a page. They are lent once
/// and used again by every call, with what the call before left in them: an entry trusts nothing in them.
#[derive(Clone)]
pub struct Lent {
    definitions: Vec<u32>,
    spans: Vec<u32>,
    page: Vec<u8>,
    wanted: RenderAnswer,
}

impl Lent {
    pub fn for_note(note: &BenchNote) -> Lent {
        let wanted = second(note);
        Lent {
            definitions: vec![0; MOST_DEFINITION_ROWS * DEFINITION_ROW_WIDTH],
            spans: vec![0; MOST_SPAN_ROWS * SPAN_ROW_WIDTH],
            page: vec![0; wanted.page_length],
            wanted,
        }
    }

    /// How many spans the note has.
    pub fn spans(&self) -> usize {
        self.wanted.span_count
    }

    /// The answer's number.
    pub fn answer(&self) -> u32 {
        self.wanted.number
    }

    /// Whether the library and the quick reader answer as the second reader does: other figures would mean nothing.
    pub fn check(&mut self, note: &BenchNote) -> Result<(), String> {
        let read = self.read(note);
        self.check_rows("the reader")?;
        let quick = self.read_quickly(&mut quick::Reader::default(), note);
        self.check_rows("the quick reader")?;
        let rendered = self.render(note);
        self.check_rows("the page writer")?;
        let wanted = &self.wanted;
        if read.number != wanted.number || quick != read || rendered.number != wanted.number {
            return Err(format!(
                "{read:?}, {quick:?}, {rendered:?}, wanted {}",
                wanted.number
            ));
        }
        if self.page != wanted.page.as_deref().unwrap_or_default() {
            return Err("the page differs from the second reader's".to_string());
        }
        Ok(())
    }

    /// Whether the tables are as the second reader leaves them; and clears them.
    fn check_rows(&mut self, name: &str) -> Result<(), String> {
        let [definitions, spans] = [&mut self.definitions, &mut self.spans].map(|table| {
            let empty = vec![0; table.len()];
            std::mem::replace(table, empty)
        });
        let wanted = self.wanted.definition_table(&self.definitions);
        if definitions != wanted || spans != self.wanted.span_table(&self.spans) {
            return Err(format!("rows of {name} differ from the second reader's"));
        }
        Ok(())
    }

    pub fn read(&mut self, note: &BenchNote) -> Reading {
        entries::read(
            black_box(&note.bytes),
            black_box(&note.sheet),
            note.release,
            &mut self.definitions,
            &mut self.spans,
        )
    }

    /// The same by the quick reader.
    pub fn read_quickly(&mut self, reader: &mut quick::Reader, note: &BenchNote) -> Reading {
        reader.read(
            black_box(&note.bytes),
            black_box(&note.sheet),
            note.release,
            &mut self.definitions,
            &mut self.spans,
        )
    }

    pub fn render(&mut self, note: &BenchNote) -> entries::Rendering {
        entries::render(
            black_box(&note.bytes),
            black_box(&note.sheet),
            note.release,
            &mut self.definitions,
            &mut self.spans,
            &mut self.page,
        )
    }
}

/// The second reader, rows and page.
pub fn second(note: &BenchNote) -> RenderAnswer {
    second::render(
        black_box(&note.bytes),
        black_box(&note.sheet),
        note.release,
        usize::MAX,
        usize::MAX,
        usize::MAX,
    )
}

/// One text for a library that knows no sheet: the note, and the sheet after a blank line.
pub fn in_one_text(note: &BenchNote) -> Vec<u8> {
    if note.sheet.is_empty() {
        return note.bytes.clone();
    }
    [&note.bytes[..], b"\n\n", &note.sheet].concat()
}
