//! The tail of a pair of brackets: what makes it a link or an image.

use super::definitions::Definition;
use super::rows::{kind, Target};
use super::source::Source;
use super::text::{Descent, Part, Text};
use super::wrong::{Gap, Purpose};
use super::Wrong;

/// A tail as read: the kind of link that has it, where it ends in the paragraph's characters, and
/// where the link leads. "Tail rules are the same" for images (document 02, request 5).
#[derive(Debug)]
pub(super) struct Tail<'t> {
    pub kind: u32,
    pub to: usize,
    pub target: Target<'t>,
}

/// What a tail is read by: the text it stands in, the definitions, and the paragraph.
#[derive(Clone, Copy)]
pub(super) struct Tails<'t, 'p> {
    pub source: &'t Source<'t>,
    pub definitions: &'t [Definition<'t>],
    pub text: &'p Text,
}

impl Descent<'_> {
    /// "`(`, optional space, optionally a destination and after it optionally at least one byte of
    /// space and a title, optional space, `)`: inline." Answers destination and title.
    fn inline_tail(&mut self) -> Option<(Option<Part>, Option<Part>)> {
        self.exactly('(')?;
        self.optional_space(Gap::TailStart);
        let destination = self.optionally(Descent::destination);
        let title = match destination {
            Some(_) => self.optionally(|ahead| ahead.spaced_title(Gap::TailTitle)),
            None => None,
        };
        self.optional_space(Gap::TailEnd);
        self.exactly(')')?;
        if destination.is_none() && self.misreads(Wrong::DestinationNeeded) {
            return None;
        }
        Some((destination, title))
    }
}

impl<'t> Tails<'t, '_> {
    fn misreads(&self, wrong: Wrong) -> bool {
        self.text.reader.misreads(wrong)
    }

    /// The tail of a pair: "what follows the closing bracket is read on its own, to the paragraph's
    /// end at most, first match only". The text of the pair lies between `text_from` and `text_to`,
    /// where the closing bracket stands.
    pub fn after(&self, text_from: usize, text_to: usize) -> Option<Tail<'t>> {
        if self.misreads(Wrong::TailPastParagraph) {
            let text = &self.text.to_end(self.source.text);
            return Tails { text, ..*self }.first_match(text_from, text_to);
        }
        self.first_match(text_from, text_to)
    }

    fn first_match(&self, text_from: usize, text_to: usize) -> Option<Tail<'t>> {
        let mut after = Descent::from(self.text, text_to + 1);
        if self.misreads(Wrong::SpaceBeforeTail) {
            let _ = after.exactly(' ');
        }
        if self.misreads(Wrong::ShortcutFirst) {
            if let Some(tail) = self.by_text(text_from, text_to, after) {
                return Some(tail);
            }
        }
        self.inline(after)
            .or_else(|| self.reference(text_from, text_to, after))
    }

    /// 1. "inline".
    fn inline(&self, mut descent: Descent) -> Option<Tail<'t>> {
        let (destination, title) = descent.inline_tail()?;
        Some(Tail {
            kind: kind::INLINE,
            to: descent.at,
            target: Target {
                source: self.source,
                definition: 0,
                destination,
                title,
            },
        })
    }

    /// 2. "full if defined, that is, if some definition has an equal label; if not, there is no
    /// tail at all." Otherwise the third rule is tried.
    fn reference(&self, text_from: usize, text_to: usize, after: Descent) -> Option<Tail<'t>> {
        if after.next() == Some('(') && self.misreads(Wrong::BadInlineNoTail) {
            return None;
        }
        let mut descent = after;
        let Some(label) = descent.bracketed_label() else {
            return self.by_text(text_from, text_to, after);
        };
        let label = if self.misreads(Wrong::FullByItsText) {
            self.text.part(text_from, text_to)
        } else {
            label
        };
        match self.look_up(label.of(self.source.text), Purpose::Full) {
            None if self.misreads(Wrong::UndefinedFallsBack) => {
                self.by_text(text_from, text_to, after)
            }
            found => Some(self.to_definition(kind::FULL, descent.at, found?)),
        }
    }

    /// 3. "The text between the brackets is a defined label: collapsed if `[]` follows (the tail),
    /// else shortcut, empty tail."
    fn by_text(&self, text_from: usize, text_to: usize, after: Descent) -> Option<Tail<'t>> {
        let reader = self.text.reader;
        let checked = !self.misreads(Wrong::TextUnchecked);
        if checked && text_to - text_from > reader.longest_label() {
            return None;
        }
        let own_text = self.text.part(text_from, text_to).of(self.source.text);
        if checked && !reader.is_label(own_text) {
            return None;
        }
        let definition = self.look_up(own_text, Purpose::ByText)?;
        let (kind, to) = match self.empty_brackets_end(after.at) {
            Some(end) => (kind::COLLAPSED, end),
            None => (kind::SHORTCUT, text_to + 1),
        };
        Some(self.to_definition(kind, to, definition))
    }

    /// Where the `[]` that stands at an index ends.
    fn empty_brackets_end(&self, at: usize) -> Option<usize> {
        let blank = self.misreads(Wrong::BlankCollapses) && self.text.get(at + 1) == Some(' ');
        let closing = at + 1 + usize::from(blank);
        let found = self.text.get(at) == Some('[') && self.text.get(closing) == Some(']');
        found.then_some(closing + 1)
    }

    fn look_up(&self, label: &str, purpose: Purpose) -> Option<usize> {
        let reader = self.text.reader;
        let seen = reader.definitions_seen(self.definitions, self.text.place(0));
        reader.comparing(purpose).look_up(seen, label)
    }

    /// The tail of a reference: "its destination and title are that definition's", and their "places lie in
    /// the text that its definition row names" (document 02, request 1).
    fn to_definition(&self, kind: u32, to: usize, definition: usize) -> Tail<'t> {
        let named = &self.definitions[definition - 1];
        let reader = self.text.reader;
        let target = Target {
            source: named.source,
            definition: reader.misread_definition_number(self.definitions, definition),
            destination: Some(named.destination),
            title: named.title,
        };
        Tail { kind, to, target }
    }
}
