//! The note and the sheet of definitions beside it: their files and their bytes.

use std::ffi::{OsStr, OsString};

use crate::fault::Fault;
use crate::files;

/// Which of the two texts: "0 the note, 1 the sheet".
#[derive(Clone, Copy, Debug, PartialEq, Eq)]
pub enum Which {
    Note,
    Sheet,
}

impl Which {
    /// The text that this number names.
    pub fn of(number: u64) -> Option<Which> {
        match number {
            0 => Some(Which::Note),
            1 => Some(Which::Sheet),
            _ => None,
        }
    }
}

/// The names of the files.
#[derive(Debug, PartialEq, Eq)]
pub struct Files {
    pub note: OsString,
    pub sheet: Option<OsString>,
}

impl Files {
    /// The name of a text's file, if there is such a text.
    pub fn name(&self, which: Which) -> Option<&OsStr> {
        match which {
            Which::Note => Some(&self.note),
            Which::Sheet => self.sheet.as_deref(),
        }
    }

    /// The same where there are two files to tell apart.
    pub fn told_apart(&self, which: Which) -> Option<&OsStr> {
        self.sheet.as_ref().and(self.name(which))
    }
}

/// Both texts. Where no sheet is given, it is empty.
pub struct Texts {
    pub files: Files,
    pub note: Vec<u8>,
    pub sheet: Vec<u8>,
}

impl Texts {
    /// Reads both files, the note's first.
    pub fn read(files: Files) -> Result<Texts, Fault> {
        let note = files::read(&files.note)?;
        let sheet = match &files.sheet {
            Some(file) => files::read(file)?,
            None => Vec::new(),
        };
        Ok(Texts { files, note, sheet })
    }

    pub fn bytes(&self, which: Which) -> &[u8] {
        match which {
            Which::Note => &self.note,
            Which::Sheet => &self.sheet,
        }
    }
}

#[cfg(test)]
impl Texts {
    /// The texts of two files named `note` and `sheet`.
    pub fn of(note: &str, sheet: Option<&str>) -> Texts {
        Texts {
            files: Files {
                note: "note".into(),
                sheet: sheet.map(|_| "sheet".into()),
            },
            note: note.into(),
            sheet: sheet.unwrap_or_default().into(),
        }
    }
}
