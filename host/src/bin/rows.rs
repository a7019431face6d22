//! Prints what the second reader makes of a note: its definition rows and those of the sheet, its span
//! rows and its page, one item a line. The note is the file named as the argument, or standard input;
//! the sheet is a file that is named after it, or empty.
//!
//! A refusal is printed as `refusal NUMBER VALUE TEXT` and ends the program with 1. The page is one
//! quoted string; `--page` as the first argument prints the page alone, as it is. With `--release` before
//! the names the texts are read for a release.

use std::fs::read;
use std::io::{Error, Read, Write};
use std::process::ExitCode;

use host::second;

fn main() -> ExitCode {
    let mut arguments: Vec<String> = std::env::args().skip(1).collect();
    let page_alone = taken(&mut arguments, "--page");
    let release = taken(&mut arguments, "--release");
    let texts = match arguments.as_slice() {
        [] => standard_input().map(|note| [note, Vec::new()]),
        [note] => read(note).map(|note| [note, Vec::new()]),
        [note, sheet] => read(note).and_then(|note| Ok([note, read(sheet)?])),
        _ => {
            eprintln!("usage: rows [--page] [--release] [NOTE [SHEET]]");
            return ExitCode::from(2);
        }
    };
    match texts.and_then(|[note, sheet]| print(&note, &sheet, release, page_alone)) {
        Ok(code) => code,
        Err(error) => {
            eprintln!("rows: {error}");
            ExitCode::from(2)
        }
    }
}

/// Takes the option away where it is the first argument; whether it is.
fn taken(arguments: &mut Vec<String>, option: &str) -> bool {
    let first = arguments.first().is_some_and(|first| first == option);
    if first {
        arguments.remove(0);
    }
    first
}

fn standard_input() -> Result<Vec<u8>, Error> {
    let mut note = Vec::new();
    std::io::stdin().read_to_end(&mut note)?;
    Ok(note)
}

/// Prints the answer for a note and a sheet, as if all memory it needs were lent.
fn print(note: &[u8], sheet: &[u8], release: bool, page_alone: bool) -> Result<ExitCode, Error> {
    let answer = second::render(note, sheet, release, usize::MAX, usize::MAX, usize::MAX);
    let mut out = std::io::stdout().lock();
    let page = answer.page.unwrap_or_default();
    if page_alone && answer.number == second::number::SUCCESS {
        out.write_all(&page)?;
        return Ok(ExitCode::SUCCESS);
    }
    for row in answer.definition_rows.unwrap_or_default() {
        writeln!(out, "definition {}", spaced(&row))?;
    }
    if answer.number != second::number::SUCCESS {
        let (number, value, text) = (answer.number, answer.value, answer.text);
        writeln!(out, "refusal {number} {value} {text}")?;
        return Ok(ExitCode::FAILURE);
    }
    for row in answer.span_rows.unwrap_or_default() {
        writeln!(out, "span {}", spaced(&row))?;
    }
    writeln!(out, "page {:?}", String::from_utf8_lossy(&page))?;
    Ok(ExitCode::SUCCESS)
}

/// Numbers with spaces between them.
fn spaced(row: &[u32]) -> String {
    let numbers: Vec<String> = row.iter().map(u32::to_string).collect();
    numbers.join(" ")
}
