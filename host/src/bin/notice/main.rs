//! The command-line tool `notice`, over the entries of the proved library.
//!
//! Whatever it says of a note and a sheet comes from those entries; what is its own is the arguments, the
//! columns, the lines that no row has, and the words. `help.txt` is what `notice --help` prints.

#![forbid(unsafe_code)]

mod arguments;
mod conflict;
mod definitions;
mod fault;
mod files;
mod json;
mod library;
mod listing;
mod places;
mod refusal;
mod rows;
mod standalone;
mod table;
mod texts;
mod visible;

use std::ffi::OsStr;
use std::process::ExitCode;

use arguments::Command;
use fault::Fault;
use places::Place;
use texts::{Files, Texts};

const HELP: &str = include_str!("help.txt");
const VERSION: &str = concat!("notice ", env!("CARGO_PKG_VERSION"), "\n");

fn main() -> ExitCode {
    let words = std::env::args_os().skip(1);
    match arguments::parse(words).and_then(run) {
        Ok(status) => ExitCode::from(status),
        Err(fault) => {
            fault.report();
            ExitCode::from(fault.status())
        }
    }
}

/// Does what one command asks, and gives the exit status.
fn run(command: Command) -> Result<u8, Fault> {
    match command {
        Command::Help => files::write(&[HELP.as_bytes()])?,
        Command::Version => files::write(&[VERSION.as_bytes()])?,
        Command::Page {
            standalone,
            release,
            files,
        } => page(standalone, release, files)?,
        Command::Links { json, files } => links(json, files)?,
        Command::Where { label, files } => destination(&label, files)?,
        Command::Check { release, files } => return check(release, files),
    }
    Ok(0)
}

fn page(standalone: bool, release: bool, files: Files) -> Result<(), Fault> {
    let texts = Texts::read(files)?;
    let page = library::page(&texts, release).map_err(|failure| refusal::fault(failure, &texts))?;
    if standalone {
        let head = standalone::head(&texts.files.note);
        files::write(&[head.as_bytes(), &page, standalone::FOOT.as_bytes()])
    } else {
        files::write(&[&page])
    }
}

fn links(json: bool, files: Files) -> Result<(), Fault> {
    let texts = Texts::read(files)?;
    let listing = listing::of(&texts).map_err(|failure| refusal::fault(failure, &texts))?;
    let text = if json {
        json::text(&listing, &texts.files)
    } else {
        table::text(&listing, &texts.files)
    };
    files::write(&[text.as_bytes()])
}

/// Says in which file the destination stands where there are two.
fn destination(label: &OsStr, files: Files) -> Result<(), Fault> {
    let texts = Texts::read(files)?;
    let (which, found) = library::resolve(&texts, label.as_encoded_bytes())
        .map_err(|failure| refusal::fault(failure, &texts))?;
    let bytes = texts.bytes(which);
    let Place { line, column } = Place::counted(bytes, found.start);
    let shown = visible::destination(&String::from_utf8_lossy(&bytes[found]));
    let file = texts.files.told_apart(which);
    let file = file.map_or_else(String::new, |name| files::shown_name(name) + " ");
    let text = format!("{shown}, {file}line {line} (column {column})\n");
    files::write(&[text.as_bytes()])
}

/// A refusal is what was asked for here, so it stands on standard output.
fn check(release: bool, files: Files) -> Result<u8, Fault> {
    let texts = Texts::read(files)?;
    let Err(failure) = library::read(&texts, release) else {
        return Ok(0);
    };
    match refusal::fault(failure, &texts) {
        Fault::Refused { number, line } => {
            files::write(&[line.as_bytes(), b"\n"])?;
            Ok(number)
        }
        fault => Err(fault),
    }
}
