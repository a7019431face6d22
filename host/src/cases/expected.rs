//! What the program `samples` has to print for a case: what the four entries answer and leave, by
//! a reader of one's choice.

use super::Case;
use crate::second::{Reader, DEFINITION_ROW_WIDTH, SPAN_ROW_WIDTH};

/// What each lent number holds before the call: no text, place, kind, definition number or line.
const GUARD: u32 = 99_999;
/// What each byte of the page holds before the call: no byte of a good text or of a page.
const PAGE_GUARD: u8 = 13;

/// The lines for the case with this number, from 1.
pub fn expected(reader: Reader, index: usize, case: &Case) -> Vec<u8> {
    let name = format!("case {index}\n").into_bytes();
    let answers = [tables_and_page, enquiry, comparison].map(|lines| lines(reader, case));
    [name, answers.concat()].concat()
}

/// The lines of the reader and the page writer.
pub fn tables_and_page(reader: Reader, case: &Case) -> Vec<u8> {
    [reading(reader, case), rendering(reader, case)].concat()
}

/// The reader's answer, and both tables whole.
fn reading(reader: Reader, case: &Case) -> Vec<u8> {
    let answer = reader.read(
        &case.note,
        &case.sheet,
        case.release,
        case.definition_numbers,
        case.span_numbers,
    );
    let line = format!(
        "answer {} {} {} {} {}\n",
        answer.number, answer.value, answer.definition_count, answer.span_count, answer.text
    );
    let definitions = answer.definition_table(&vec![GUARD; case.definition_numbers]);
    let spans = answer.span_table(&vec![GUARD; case.span_numbers]);
    (line + &tables(&definitions, &spans)).into_bytes()
}

/// The page writer's answer, both tables and the page buffer whole.
fn rendering(reader: Reader, case: &Case) -> Vec<u8> {
    let answer = reader.render(
        &case.note,
        &case.sheet,
        case.release,
        case.definition_numbers,
        case.span_numbers,
        case.page_bytes,
    );
    let line = format!(
        "rendering {} {} {} {} {} {}\n",
        answer.number,
        answer.value,
        answer.definition_count,
        answer.span_count,
        answer.page_length,
        answer.text
    );
    let definitions = answer.definition_table(&vec![GUARD; case.definition_numbers]);
    let spans = answer.span_table(&vec![GUARD; case.span_numbers]);
    let page = answer.page_buffer(&vec![PAGE_GUARD; case.page_bytes]);
    let tables = tables(&definitions, &spans);
    [line.as_bytes(), tables.as_bytes(), &page, b"\n"].concat()
}

/// The enquiry's answer, and the part of the note or of the sheet that it hands back.
pub fn enquiry(reader: Reader, case: &Case) -> Vec<u8> {
    let answer = reader.resolve(&case.note, &case.sheet, &case.label);
    let part = reader.part(&case.note, &case.sheet, &answer);
    let line = format!(
        "enquiry {} {} {}\n",
        answer.number, answer.value, answer.text
    );
    [line.as_bytes(), part, b"\n"].concat()
}

/// Whether the note's bytes and the label's are equal as labels.
pub fn comparison(reader: Reader, case: &Case) -> Vec<u8> {
    let equal = reader.same_label(&case.note, &case.label);
    format!("same {}\n", u8::from(equal)).into_bytes()
}

/// Both tables whole.
fn tables(definitions: &[u32], spans: &[u32]) -> String {
    rows("definition", definitions, DEFINITION_ROW_WIDTH) + &rows("span", spans, SPAN_ROW_WIDTH)
}

/// Every number of the table, a row to a line; what is no whole row at the end is a line too.
fn rows(name: &str, table: &[u32], width: usize) -> String {
    let mut lines = String::new();
    for row in table.chunks(width) {
        let numbers: Vec<String> = row.iter().map(u32::to_string).collect();
        lines += &format!("{name} {}\n", numbers.join(" "));
    }
    lines
}
