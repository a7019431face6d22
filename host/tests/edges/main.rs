//! The edges of document 01 against the second reader. Rows and numbers were computed by hand from
//! document 01, lines, images and what a sheet adds from document 02; where the reader disagreed, they were
//! counted again from the note. What characters fold to is from Unicode's file. But for those of `sheets` and
//! `folding`, and one of `images`, the notes are read beside an empty sheet, and but for those of `release` and
//! `folding` for no release.

mod alt;
mod bench;
mod blocks;
mod brackets;
mod deep_images;
mod folding;
mod images;
mod labels;
mod lengths;
mod lines;
mod markings;
mod pages;
mod refusals;
mod release;
mod sheets;

use host::second::{self, DefinitionRow, ReadAnswer, RenderAnswer, ResolveAnswer, SpanRow};
use host::second::{DEFINITION_ROW_WIDTH, SPAN_ROW_WIDTH};

/// The reader with more lent than any note needs.
fn read(note: &[u8]) -> ReadAnswer {
    second::read(note, b"", false, usize::MAX, usize::MAX)
}

/// The page writer with more lent than any note needs.
fn render(note: &[u8]) -> RenderAnswer {
    second::render(note, b"", false, usize::MAX, usize::MAX, usize::MAX)
}

/// The enquiry.
fn resolve(note: &[u8], label: &[u8]) -> ResolveAnswer {
    second::resolve(note, b"", label)
}

/// A character on the page: four are replaced.
fn html_of(character: char) -> String {
    match character {
        '&' => "&amp;".to_string(),
        '<' => "&lt;".to_string(),
        '>' => "&gt;".to_string(),
        '"' => "&quot;".to_string(),
        other => other.to_string(),
    }
}

fn page(note: &str) -> String {
    let answer = render(note.as_bytes());
    assert_eq!(answer.number, 0, "{note:?}");
    String::from_utf8(answer.page.unwrap()).unwrap()
}

fn spans(note: &str) -> Vec<SpanRow> {
    let answer = read(note.as_bytes());
    assert_eq!(answer.number, 0, "{note:?}");
    answer.span_rows.unwrap()
}

fn definitions(note: &str) -> Vec<DefinitionRow> {
    let answer = read(note.as_bytes());
    assert_eq!(answer.number, 0, "{note:?}");
    answer.definition_rows.unwrap()
}

/// A note, its rows and its page, number for number, from both entries.
fn check(note: &str, definition_rows: &[DefinitionRow], span_rows: &[SpanRow], html: &str) {
    check_beside("", note, definition_rows, span_rows, html);
}

/// The same of a note with this sheet beside it.
fn check_beside(
    sheet: &str,
    note: &str,
    definition_rows: &[DefinitionRow],
    span_rows: &[SpanRow],
    html: &str,
) {
    let [note_bytes, sheet_bytes] = [note, sheet].map(str::as_bytes);
    let rendered = RenderAnswer {
        number: 0,
        value: 0,
        definition_count: definition_rows.len(),
        span_count: span_rows.len(),
        page_length: html.len(),
        text: 0,
        definition_rows: Some(definition_rows.to_vec()),
        span_rows: Some(span_rows.to_vec()),
        page: Some(html.as_bytes().to_vec()),
    };
    // Exactly what is needed is lent.
    let definition_numbers = definition_rows.len() * DEFINITION_ROW_WIDTH;
    let span_numbers = span_rows.len() * SPAN_ROW_WIDTH;
    assert_eq!(
        second::render(
            note_bytes,
            sheet_bytes,
            false,
            definition_numbers,
            span_numbers,
            html.len()
        ),
        rendered,
        "{note:?}"
    );
    assert_eq!(
        second::read(
            note_bytes,
            sheet_bytes,
            false,
            definition_numbers,
            span_numbers
        ),
        rendered.without_page(),
        "{note:?}"
    );
}

fn refused(number: u32, value: usize) -> ReadAnswer {
    ReadAnswer {
        number,
        value,
        definition_count: 0,
        span_count: 0,
        text: 0,
        definition_rows: None,
        span_rows: None,
    }
}

fn refused_enquiry(number: u32, value: usize) -> ResolveAnswer {
    ResolveAnswer {
        number,
        value,
        destination: 0..0,
        text: 0,
    }
}

fn found(start: usize, end: usize) -> ResolveAnswer {
    ResolveAnswer {
        number: 0,
        value: start,
        destination: start..end,
        text: 0,
    }
}
