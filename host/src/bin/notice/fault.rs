//! Why the tool stops, and its exit status then.

use std::fmt::{Display, Formatter, Result};
use std::io::{Error, ErrorKind, Write};

/// Every way to stop without having done what was asked.
#[derive(Debug)]
pub enum Fault {
    /// The command line is wrong.
    Usage(String),
    /// The library refuses the note, the sheet or the label; the line says where and why.
    Refused { number: u8, line: String },
    /// The library gave an answer that its promise excludes.
    Library(&'static str),
    /// There is not enough memory for what the note and the sheet need.
    Memory,
    /// A file can't be read.
    File { name: String, error: Error },
    /// The output can't be written.
    Output(Error),
}

impl Fault {
    /// The exit status: the refusal's number, otherwise as in sysexits.h.
    pub fn status(&self) -> u8 {
        match self {
            Fault::Refused { number, .. } => *number,
            Fault::Usage(_) => 64,
            Fault::Library(_) => 70,
            Fault::Memory => 71,
            Fault::File { .. } | Fault::Output(_) => 74,
        }
    }

    /// Says it on standard error; nothing is said to a reader that has gone.
    pub fn report(&self) {
        if let Fault::Output(error) = self {
            if error.kind() == ErrorKind::BrokenPipe {
                return;
            }
        }
        // Where standard error can't be written, the exit status is all there is left to say it.
        let _ = std::io::stderr().write_all(format!("{self}\n").as_bytes());
    }
}

impl Display for Fault {
    fn fmt(&self, formatter: &mut Formatter<'_>) -> Result {
        match self {
            Fault::Refused { line, .. } => formatter.write_str(line),
            Fault::Usage(words) => {
                write!(
                    formatter,
                    "notice: {words}\nSee notice --help for how it is used."
                )
            }
            Fault::Library(words) => write!(formatter, "notice: fault in the library: {words}"),
            Fault::Memory => formatter.write_str("notice: not enough memory for this note"),
            Fault::File { name, error } => write!(formatter, "notice: {name}: {error}"),
            Fault::Output(error) => write!(formatter, "notice: can't write the output: {error}"),
        }
    }
}
