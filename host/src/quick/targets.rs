//! Destinations and titles.

use super::bytes::{after_backslash, classes, LIMIT};

/// A part of a text, without its delimiters.
#[derive(Clone, Copy)]
pub struct Part {
    pub start: usize,
    pub end: usize,
}

impl Part {
    pub fn numbers(self) -> [u32; 2] {
        [self.start as u32, self.end as u32]
    }
}

/// The destination that starts here, and what follows it.
pub fn destination(text: &[u8], start: usize) -> Option<(Part, usize)> {
    if text.get(start) == Some(&b'<') {
        return pointed(text, start + 1);
    }
    let Run { end, open } = Run::of(text, start);
    (end > start && open == 0).then_some((Part { start, end }, end))
}

/// One in angle brackets, from its first byte on.
pub fn pointed(text: &[u8], start: usize) -> Option<(Part, usize)> {
    let mut at = start;
    loop {
        match *text.get(at)? {
            b'>' => return Some((Part { start, end: at }, at + 1)),
            b'<' | b'\n' => return None,
            b'\\' => at = after_backslash(text, at),
            _ => at += 1,
        }
    }
}

/// The longest run that can be a bare destination.
pub struct Run {
    pub end: usize,
    /// Parentheses that it leaves open.
    pub open: usize,
}

impl Run {
    pub fn of(text: &[u8], start: usize) -> Run {
        let mut open = 0;
        let mut end = start;
        while let Some(&byte) = text.get(end) {
            if classes(byte) & LIMIT == 0 {
                end += 1;
                continue;
            }
            match byte {
                b'\\' => end = after_backslash(text, end) - 1,
                b'(' => open += 1,
                b')' if open > 0 => open -= 1,
                _ => break,
            }
            end += 1;
        }
        Run { end, open }
    }
}

/// The title whose opening delimiter stands here; the closing one stands at its end.
pub fn title(text: &[u8], at: usize) -> Option<Part> {
    let opening = *text.get(at)?;
    let closing = match opening {
        b'"' | b'\'' => opening,
        b'(' => b')',
        _ => return None,
    };
    let start = at + 1;
    let mut end = start;
    loop {
        match *text.get(end)? {
            b'\\' => end = after_backslash(text, end),
            byte if byte == closing => return Some(Part { start, end }),
            byte if byte == opening => return None,
            _ => end += 1,
        }
    }
}
