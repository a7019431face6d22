//! What the command line asks for.

use std::ffi::{OsStr, OsString};

use crate::fault::Fault;
use crate::files::STANDARD_INPUT;
use crate::texts::Files;
use crate::visible::visible;

/// One thing to do.
#[derive(Debug, PartialEq, Eq)]
pub enum Command {
    Help,
    Version,
    Page {
        standalone: bool,
        release: bool,
        files: Files,
    },
    Links {
        json: bool,
        files: Files,
    },
    Where {
        label: OsString,
        files: Files,
    },
    Check {
        release: bool,
        files: Files,
    },
}

/// Asks that conflicting definitions be refused.
const RELEASE: &str = "--release";

/// The words of a command line, sorted.
enum Words {
    /// A word that asks for one answer, whatever stands beside it.
    Answered(Command),
    Sorted {
        options: Vec<OsString>,
        /// What stands after each `--sheet`, if it can be a file's name.
        sheets: Vec<Option<OsString>>,
        names: Vec<OsString>,
    },
}

/// Reads the words after the program's name.
pub fn parse(words: impl Iterator<Item = OsString>) -> Result<Command, Fault> {
    match sort(words) {
        Words::Answered(command) => Ok(command),
        Words::Sorted {
            options,
            sheets,
            names,
        } => command(&options, one_sheet(sheets)?, names),
    }
}

/// Tells options from names: after `--` every word is a name.
fn sort(words: impl Iterator<Item = OsString>) -> Words {
    let (mut options, mut sheets, mut names) = (Vec::new(), Vec::new(), Vec::new());
    let mut only_names = false;
    let mut words = words.peekable();
    while let Some(word) = words.next() {
        if only_names || is_name(&word) {
            names.push(word);
        } else if word == "--" {
            only_names = true;
        } else if word == "--help" || word == "-h" {
            return Words::Answered(Command::Help);
        } else if word == "--version" || word == "-V" {
            return Words::Answered(Command::Version);
        } else if word == "--sheet" {
            sheets.push(words.next_if(|word| is_name(word)));
        } else {
            options.push(word);
        }
    }
    Words::Sorted {
        options,
        sheets,
        names,
    }
}

/// Whether a word before `--` is a name; `-` always is.
fn is_name(word: &OsStr) -> bool {
    word == STANDARD_INPUT || !word.as_encoded_bytes().starts_with(b"-")
}

/// The sheet's file, if one is given.
fn one_sheet(mut sheets: Vec<Option<OsString>>) -> Result<Option<OsString>, Fault> {
    match (sheets.len(), sheets.pop().flatten()) {
        (0, _) => Ok(None),
        (1, Some(file)) => Ok(Some(file)),
        (1, None) => usage("--sheet needs a FILE after it".to_string()),
        _ => usage("only one --sheet may be given".to_string()),
    }
}

/// The command that the first name is.
fn command(
    options: &[OsString],
    sheet: Option<OsString>,
    names: Vec<OsString>,
) -> Result<Command, Fault> {
    let mut names = names.into_iter();
    let Some(name) = names.next() else {
        return no_command(options);
    };
    let names: Vec<OsString> = names.collect();
    match name.to_str() {
        Some("page") => {
            let [standalone, release] = flags(options, ["--standalone", RELEASE])?;
            Ok(Command::Page {
                standalone,
                release,
                files: one_file(names, sheet)?,
            })
        }
        Some("links") => {
            let [json] = flags(options, ["--json"])?;
            let files = one_file(names, sheet)?;
            Ok(Command::Links { json, files })
        }
        Some("where") => {
            let [] = flags(options, [])?;
            let [label, file] = exactly(names, "where needs a LABEL and one FILE")?;
            let files = both(file, sheet)?;
            Ok(Command::Where { label, files })
        }
        Some("check") => {
            let [release] = flags(options, [RELEASE])?;
            let files = one_file(names, sheet)?;
            Ok(Command::Check { release, files })
        }
        _ => usage(format!("unknown command {}", quoted(&name))),
    }
}

fn no_command<T>(options: &[OsString]) -> Result<T, Fault> {
    match options.first() {
        Some(option) => usage(format!("unknown option {}", quoted(option))),
        None => usage("no command given".to_string()),
    }
}

/// Which of the options that a command knows are given; no other may be.
fn flags<const COUNT: usize>(
    options: &[OsString],
    known: [&str; COUNT],
) -> Result<[bool; COUNT], Fault> {
    let unknown = options
        .iter()
        .find(|option| known.iter().all(|known| option.as_os_str() != *known));
    match unknown {
        Some(option) => usage(format!("unknown option {}", quoted(option))),
        None => Ok(known.map(|known| options.iter().any(|option| option.as_os_str() == known))),
    }
}

/// The only name is the note's file.
fn one_file(names: Vec<OsString>, sheet: Option<OsString>) -> Result<Files, Fault> {
    let [note] = exactly(names, "exactly one FILE is needed (- is standard input)")?;
    both(note, sheet)
}

/// The two files: standard input can be read once.
fn both(note: OsString, sheet: Option<OsString>) -> Result<Files, Fault> {
    if note == STANDARD_INPUT && sheet.as_deref() == Some(STANDARD_INPUT.as_ref()) {
        return usage("standard input (-) can't be both the notice and the sheet".to_string());
    }
    Ok(Files { note, sheet })
}

/// The names, if there are as many as are asked for.
fn exactly<const COUNT: usize>(
    names: Vec<OsString>,
    otherwise: &str,
) -> Result<[OsString; COUNT], Fault> {
    names.try_into().or_else(|_| usage(otherwise.to_string()))
}

fn usage<T>(words: String) -> Result<T, Fault> {
    Err(Fault::Usage(words))
}

fn quoted(word: &OsStr) -> String {
    format!("'{}'", visible(&word.to_string_lossy()))
}

#[cfg(test)]
mod tests;
