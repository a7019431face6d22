//! Good characters, parts of a text, and the descent through a text.

use super::wrong::{Gap, Within};
use super::{Reader, Wrong};

/// "A note is bytes, 0 to 32,768 of them"; document 02, request 1: "The sheet is a second text under the
/// same limits".
pub const LONGEST_NOTE: usize = 32_768;

impl Reader {
    /// The bytes as text, or "where reading from the start first meets no good character": the byte
    /// 0 or 13, or the first byte of the ill-formed sequence. "UTF-8 is that of the Unicode
    /// standard, table 3-7", which is also the standard library's.
    pub(super) fn good_text(self, bytes: &[u8]) -> Result<&str, usize> {
        let text = std::str::from_utf8(bytes);
        let well_formed_to = match text {
            Ok(text) => text.len(),
            Err(error) => self.ill_formed_place(bytes, error),
        };
        let bad_byte = bytes[..well_formed_to]
            .iter()
            .position(|byte| self.is_bad(*byte));
        let place = match (bad_byte, text) {
            (_, Err(_)) if self.misreads(Wrong::IllFormedBeforeBadByte) => well_formed_to,
            (Some(place), _) => place,
            (None, Ok(text)) => return Ok(text),
            (None, Err(_)) => well_formed_to,
        };
        Err(self.misread_bad_place(bytes, place))
    }
}

/// A part of a text: "Ends are exclusive, places count from the note's start", or from the sheet's where
/// the part lies there.
#[derive(Clone, Copy, Debug, PartialEq, Eq)]
pub(super) struct Part {
    pub start: usize,
    pub end: usize,
}

impl Part {
    /// The part's own text.
    pub fn of(self, whole: &str) -> &str {
        &whole[self.start..self.end]
    }
}

/// A part of a text as a list of its characters, each with its place, for one reader.
#[derive(Clone, Debug)]
pub(super) struct Text {
    pub reader: Reader,
    pub characters: Vec<(usize, char)>,
    end: usize,
}

impl Text {
    /// The characters of `part` of the whole text.
    pub fn of_part(reader: Reader, whole: &str, part: Part) -> Text {
        Text {
            reader,
            characters: part
                .of(whole)
                .char_indices()
                .map(|(offset, character)| (part.start + offset, character))
                .collect(),
            end: part.end,
        }
    }

    /// The text and what follows it in the whole text.
    pub fn to_end(&self, whole: &str) -> Text {
        let part = Part {
            start: self.place(0),
            end: whole.len(),
        };
        Text::of_part(self.reader, whole, part)
    }

    /// A text that stands by itself.
    pub fn of_string(reader: Reader, string: &str) -> Text {
        let whole = Part {
            start: 0,
            end: string.len(),
        };
        Text::of_part(reader, string, whole)
    }

    /// The place of the character with this index, or the text's end.
    pub fn place(&self, index: usize) -> usize {
        self.characters
            .get(index)
            .map_or(self.end, |(place, _)| *place)
    }

    /// The part from one index to another.
    pub fn part(&self, from: usize, to: usize) -> Part {
        Part {
            start: self.place(from),
            end: self.place(to),
        }
    }

    pub fn get(&self, index: usize) -> Option<char> {
        self.characters.get(index).map(|(_, character)| *character)
    }

    /// "An escape is `\` and ASCII punctuation (bytes 33-47, 58-64, 91-96, 123-126)."
    pub fn escape_stands_at(&self, index: usize) -> bool {
        let punctuation = |character: char| {
            character.is_ascii_punctuation() != self.reader.misreads(Wrong::EscapeOf(character))
        };
        self.get(index) == Some('\\') && self.get(index + 1).is_some_and(punctuation)
    }

    /// Where the escape at an index ends, if one stands there: "escapes are read from its start and
    /// never overlap".
    pub fn escape_end(&self, index: usize, within: Within) -> Option<usize> {
        let reader = self.reader;
        if !self.escape_stands_at(index) || reader.misreads(Wrong::EscapeIgnored(within)) {
            return None;
        }
        let overlaps =
            reader.misreads(Wrong::EscapesOverlap(within)) && self.escape_stands_at(index + 1);
        Some(if overlaps { index + 1 } else { index + 2 })
    }
}

/// A reader of the grammar: where it stands in a text. Each production answers `None` where it
/// does not match; the caller then goes on from the copy it kept.
#[derive(Clone, Copy)]
pub(super) struct Descent<'t> {
    pub text: &'t Text,
    pub at: usize,
}

impl<'t> Descent<'t> {
    pub fn from(text: &'t Text, at: usize) -> Descent<'t> {
        Descent { text, at }
    }

    pub fn misreads(&self, wrong: Wrong) -> bool {
        self.text.reader.misreads(wrong)
    }

    pub fn next(&self) -> Option<char> {
        self.text.get(self.at)
    }

    pub fn place(&self) -> usize {
        self.text.place(self.at)
    }

    /// The part from an earlier place to where the descent stands.
    pub fn since(&self, start: usize) -> Part {
        Part {
            start,
            end: self.place(),
        }
    }

    /// This one character.
    pub fn exactly(&mut self, wanted: char) -> Option<()> {
        if self.next() != Some(wanted) {
            return None;
        }
        self.at += 1;
        Some(())
    }

    /// Reads by `production` if it matches; otherwise stays where it is.
    pub fn optionally<T>(
        &mut self,
        production: impl FnOnce(&mut Descent<'t>) -> Option<T>,
    ) -> Option<T> {
        let mut ahead = *self;
        let found = production(&mut ahead)?;
        *self = ahead;
        Some(found)
    }

    /// An escape, if one stands here.
    pub fn escape(&mut self, within: Within) -> bool {
        let end = self.text.escape_end(self.at, within);
        self.at = end.unwrap_or(self.at);
        end.is_some()
    }

    /// "any or no spaces and tabs".
    pub fn spaces_and_tabs(&mut self, gap: Gap) {
        while let Some(character @ (' ' | '\t')) = self.next() {
            if self.misreads(Wrong::NoSpace(gap, character)) {
                break;
            }
            self.at += 1;
        }
    }

    /// Optional space: "Space below means spaces, tabs and at most one LF (004)."
    pub fn optional_space(&mut self, gap: Gap) {
        self.spaces_and_tabs(gap);
        if self.misreads(Wrong::NoSpace(gap, '\n')) {
            return;
        }
        if self.exactly('\n').is_some() {
            self.spaces_and_tabs(gap);
        }
    }

    /// "at least one byte of space".
    pub fn some_space(&mut self, gap: Gap) -> Option<()> {
        let before = self.at;
        self.optional_space(gap);
        (self.at > before || self.misreads(Wrong::SpaceNotNeeded(gap))).then_some(())
    }

    /// "An end of line is its LF, taken with it, or the note's end." A block without a last LF ends
    /// where the note does.
    pub fn end_of_line(&mut self) -> Option<()> {
        match self.next() {
            None if self.misreads(Wrong::LineEndNeedsLineFeed) => None,
            None => Some(()),
            Some(_) => self.exactly('\n'),
        }
    }
}

/// "space, tab and LF".
pub(super) fn is_space(character: char) -> bool {
    matches!(character, ' ' | '\t' | '\n')
}
