//! The tail of a pair of brackets.

use super::bytes::after_space;
use super::labels::{label, Label};
use super::targets::{pointed, title, Part, Run};
use super::walk::Walk;
use crate::second::kind;

/// A tail: the kind of a link that has it, where it ends, and the numbers of a row that it gives.
pub struct Tail {
    pub kind: u32,
    pub end: usize,
    pub definition: u32,
    /// Destination and title.
    pub target: [u32; 4],
}

impl Tail {
    fn inline(destination: [u32; 2], title: [u32; 2], end: usize) -> Tail {
        Tail {
            kind: kind::INLINE,
            end,
            definition: 0,
            target: [destination[0], destination[1], title[0], title[1]],
        }
    }
}

/// An absent part.
const NONE: [u32; 2] = [0, 0];

impl Walk<'_> {
    /// The tail of the pair whose text starts here and whose closing bracket stands there.
    pub(super) fn tail(&mut self, text: &[u8], start: usize, close: usize) -> Option<Tail> {
        let after = close + 1;
        let next = text.get(after);
        if next == Some(&b'(') {
            let inline = self.inline(text, after);
            if inline.is_some() {
                return inline;
            }
        }
        if self.labels.definitions.rows.is_empty() {
            return None;
        }
        if next == Some(&b'[') {
            if let Some(label) = label(text, after + 1) {
                return self.reference(kind::FULL, label, label.end + 1);
            }
        }
        let own = label(text, start).filter(|own| own.end == close)?;
        if text[after..].starts_with(b"[]") {
            return self.reference(kind::COLLAPSED, own, after + 2);
        }
        self.reference(kind::SHORTCUT, own, after)
    }

    fn reference(&mut self, kind: u32, label: Label, end: usize) -> Option<Tail> {
        let place = self.labels.find(label)?;
        let [_, _, _, target @ .., _] = self.labels.definitions.rows[place];
        let definition = place as u32 + 1;
        Some(Tail {
            kind,
            end,
            definition,
            target,
        })
    }

    /// The inline tail whose opening parenthesis stands here.
    fn inline(&mut self, text: &[u8], open: usize) -> Option<Tail> {
        let start = after_space(text, open + 1);
        let (destination, after) = match *text.get(start)? {
            b')' => return Some(Tail::inline(NONE, NONE, start + 1)),
            b'<' => pointed(text, start + 1)?,
            _ => self.bare(text, open, start)?,
        };
        let destination = destination.numbers();
        let at = after_space(text, after);
        if text.get(at) == Some(&b')') {
            return Some(Tail::inline(destination, NONE, at + 1));
        }
        if at == after {
            return None;
        }
        let title = title(text, at)?;
        let end = after_space(text, title.end + 1);
        let closed = text.get(end) == Some(&b')');
        closed.then(|| Tail::inline(destination, title.numbers(), end + 1))
    }

    /// A bare destination, unless an earlier one told that its parentheses are left open.
    fn bare(&mut self, text: &[u8], open: usize, start: usize) -> Option<(Part, usize)> {
        let unclosed = &mut self.memory.unclosed;
        if start == open + 1 && unclosed.bars(open) {
            return None;
        }
        let run = Run::of(text, start);
        let end = run.end;
        if run.open > 0 {
            unclosed.list(&text[start..end], start);
            return None;
        }
        (end > start).then_some((Part { start, end }, end))
    }
}
