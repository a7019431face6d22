//! Reading a text and writing the output.

use std::ffi::OsStr;
use std::io::{Read, Write};

use crate::fault::Fault;
use crate::visible::visible;

/// The name that stands for standard input.
pub const STANDARD_INPUT: &str = "-";

/// All bytes of the file, or of standard input.
pub fn read(file: &OsStr) -> Result<Vec<u8>, Fault> {
    let bytes = if file == STANDARD_INPUT {
        let mut bytes = Vec::new();
        std::io::stdin()
            .lock()
            .read_to_end(&mut bytes)
            .map(|_| bytes)
    } else {
        std::fs::read(file)
    };
    bytes.map_err(|error| Fault::File {
        name: shown_name(file),
        error,
    })
}

/// Writes the parts one after the other on standard output.
pub fn write(parts: &[&[u8]]) -> Result<(), Fault> {
    let mut out = std::io::stdout().lock();
    parts
        .iter()
        .try_for_each(|part| out.write_all(part))
        .and_then(|()| out.flush())
        .map_err(Fault::Output)
}

/// The file's name as it stands in messages: on one line, whatever it holds.
pub fn shown_name(file: &OsStr) -> String {
    visible(&file.to_string_lossy())
}

/// The title of the file's page: the last part of its name.
pub fn title(file: &OsStr) -> String {
    if file == STANDARD_INPUT {
        return "Notice".to_string();
    }
    let last = std::path::Path::new(file).file_name().unwrap_or(file);
    shown_name(last)
}
