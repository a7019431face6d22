//! The quick reader. It is compared wherever the library's reader is (`compare::read`); here are the notes of the
//! benchmark, as that lends tables.

use std::cell::RefCell;

use crate::compare::{self, Lending, Texts};
use crate::named::must;
use host::entries::{Reading, MOST_DEFINITION_ROWS, MOST_SPAN_ROWS};
use host::generate::bench_notes;
use host::quick::Reader;
use host::second::{DEFINITION_ROW_WIDTH, SPAN_ROW_WIDTH};

thread_local! {
    /// One reader for all calls, so that what one leaves in its memory is there for the next.
    static READER: RefCell<Reader> = RefCell::default();
}

/// The quick reader, called as the library's.
pub fn read(
    note: &[u8],
    sheet: &[u8],
    release: bool,
    definitions: &mut [u32],
    spans: &mut [u32],
) -> Reading {
    READER.with_borrow_mut(|reader| reader.read(note, sheet, release, definitions, spans))
}

#[test]
fn notes_of_the_benchmark_with_tables_for_any_text() {
    let lending = Lending {
        definition_numbers: MOST_DEFINITION_ROWS * DEFINITION_ROW_WIDTH,
        span_numbers: MOST_SPAN_ROWS * SPAN_ROW_WIDTH,
        page_bytes: 0,
    };
    for note in bench_notes::all() {
        let texts = Texts {
            note: &note.bytes,
            sheet: &note.sheet,
        };
        must(texts, compare::read(texts, note.release, lending));
    }
}
