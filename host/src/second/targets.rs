//! Destinations and titles.

use super::text::{Descent, Part};
use super::wrong::{Gap, Within};
use super::Wrong;

impl Descent<'_> {
    /// A destination, of one form or the other by its first character. "Destinations and titles
    /// exclude their delimiters."
    pub fn destination(&mut self) -> Option<Part> {
        match self.next()? {
            '<' if self.misreads(Wrong::PointedFallsBack) => self
                .optionally(Descent::pointed_destination)
                .or_else(|| self.bare_destination()),
            '<' => self.pointed_destination(),
            _ => self.bare_destination(),
        }
    }

    /// "`<...>` with no LF and no unescaped `<` or `>`".
    fn pointed_destination(&mut self) -> Option<Part> {
        self.exactly('<')?;
        let start = self.place();
        loop {
            if self.escape(Within::Pointed) {
                continue;
            }
            match self.next()? {
                '>' => break,
                '<' if !self.misreads(Wrong::OpeningInPointed) => return None,
                '\n' if !self.misreads(Wrong::LineFeedInPointed) => return None,
                ' ' if self.misreads(Wrong::NoSpaceInPointed) => return None,
                _ => self.at += 1,
            }
        }
        let inside = self.since(start);
        self.exactly('>')?;
        if self.misreads(Wrong::PointsInDestination) {
            return Some(self.since(start - 1));
        }
        Some(inside)
    }

    /// "or, not starting with `<`, the longest run of characters with no byte below 33 and no 127
    /// that never closes an unescaped parenthesis it has not opened, nonempty and with all
    /// parentheses closed." The longest run is taken first and judged then. "No depth limit on
    /// parentheses": they are counted.
    fn bare_destination(&mut self) -> Option<Part> {
        let start = self.place();
        let mut parentheses_open = 0_usize;
        loop {
            if self.escape(Within::Bare) {
                continue;
            }
            match self.next() {
                None => break,
                Some(character) if self.ends_bare(character) => break,
                Some(')') if parentheses_open == 0 => break,
                Some(')') => parentheses_open -= 1,
                Some('(') => parentheses_open += 1,
                Some(_) => {}
            }
            if parentheses_open > self.text.reader.most_parentheses() {
                return None;
            }
            self.at += 1;
        }
        let run = self.since(start);
        let nonempty = run.start < run.end || self.misreads(Wrong::EmptyBare);
        let closed = parentheses_open == 0 || self.misreads(Wrong::ParenthesesLeftOpen);
        (nonempty && closed).then_some(run)
    }

    /// "no byte below 33 and no 127".
    fn ends_bare(&self, character: char) -> bool {
        match character {
            ' ' | '\t' | '\n' => true,
            '\0'..=' ' => !self.misreads(Wrong::ControlInBare),
            '\u{7f}' => !self.misreads(Wrong::DeleteInBare),
            '\u{80}'..='\u{9f}' => self.misreads(Wrong::LaterControlEndsBare),
            other => self.misreads(Wrong::UnicodeSpaceEndsBare) && other.is_whitespace(),
        }
    }

    /// "Title: between two `"`, two `'`, or `(` and `)`, none of its own delimiters unescaped
    /// inside."
    fn title(&mut self) -> Option<Part> {
        let opening = self.next()?;
        let closing = match opening {
            '\'' if self.misreads(Wrong::NoApostropheTitle) => return None,
            '(' if self.misreads(Wrong::NoParenthesisTitle) => return None,
            '"' | '\'' => opening,
            '(' => ')',
            _ => return None,
        };
        self.exactly(opening)?;
        let start = self.place();
        loop {
            if self.escape(Within::Title) {
                continue;
            }
            match self.next()? {
                character if character == closing => break,
                '(' if self.misreads(Wrong::OpeningInTitle) => self.at += 1,
                '\n' if self.misreads(Wrong::TitleOnOneLine) => return None,
                character if character == opening => return None,
                _ => self.at += 1,
            }
        }
        let inside = self.since(start);
        self.exactly(closing)?;
        if self.misreads(Wrong::QuotesInTitle) {
            return Some(self.since(start - 1));
        }
        Some(inside)
    }

    /// "at least one byte of space, a title".
    pub fn spaced_title(&mut self, gap: Gap) -> Option<Part> {
        self.some_space(gap)?;
        self.title()
    }
}
