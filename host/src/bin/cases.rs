//! Writes the cases that the program `samples` is run on, and what it has to print for them.
//!
//! `cases FOLDER` writes the files `stdin` and `stdout` of that folder (crates/samples); `cases
//! --list` prints a line for each case: its number, what it lends, the lengths of the note, the sheet
//! and the label, 1 for a release or 0, what it is.

use std::io::{Error, Write};
use std::path::Path;
use std::process::ExitCode;

use host::cases::{all, container, expected, Case};
use host::second::Reader;

fn main() -> ExitCode {
    let arguments: Vec<String> = std::env::args().skip(1).collect();
    let done = match arguments.as_slice() {
        [option] if option == "--list" => list(&all()),
        [folder] if !folder.starts_with('-') => write(Path::new(folder), &all()),
        _ => {
            eprintln!("usage: cases FOLDER | cases --list");
            return ExitCode::from(2);
        }
    };
    match done {
        Ok(()) => ExitCode::SUCCESS,
        Err(error) => {
            eprintln!("cases: {error}");
            ExitCode::FAILURE
        }
    }
}

/// Writes both files.
fn write(folder: &Path, cases: &[Case]) -> Result<(), Error> {
    let mut output = Vec::new();
    for (index, case) in cases.iter().enumerate() {
        output.extend(expected(Reader::RIGHT, index + 1, case));
    }
    std::fs::write(folder.join("stdin"), container(cases))?;
    std::fs::write(folder.join("stdout"), output)
}

/// Prints a line for each case.
fn list(cases: &[Case]) -> Result<(), Error> {
    let mut out = std::io::stdout().lock();
    for (index, case) in cases.iter().enumerate() {
        let numbers = [
            index + 1,
            case.definition_numbers,
            case.span_numbers,
            case.page_bytes,
            case.note.len(),
            case.sheet.len(),
            case.label.len(),
            usize::from(case.release),
        ];
        let numbers = numbers.map(|number| number.to_string()).join("\t");
        writeln!(out, "{numbers}\t{}", case.name)?;
    }
    Ok(())
}
