//! The walk through a paragraph, from mark to mark.

use super::bytes::{after_backslash, classes, next_mark, MARK};
use super::definitions::Paragraph;
use super::index::Labels;
use super::parentheses::Unclosed;
use super::tails::Tail;
use super::ticks::{run_end, Ticks};
use super::Refusal;
use crate::second::{kind, number, SpanRow, MOST_BRACKETS_OPEN};

/// A bracket that is open. An image's span starts before its bracket.
#[derive(Clone, Copy)]
struct Opening {
    start: u32,
    bracket: u32,
    line: u32,
}

/// Memory that is kept from call to call.
#[derive(Default)]
pub struct Memory {
    openings: Vec<Opening>,
    ticks: Ticks,
    pub(super) unclosed: Unclosed,
    pub spans: Vec<SpanRow>,
}

impl Memory {
    /// Forgets another call.
    pub fn clear(&mut self) {
        self.unclosed.clear();
        self.spans.clear();
    }
}

/// Where the walk is.
pub struct Walk<'r> {
    pub memory: &'r mut Memory,
    pub labels: Labels<'r>,
    /// Where the note's lines start.
    pub lines: &'r [u32],
    /// The line of the last mark that needed one.
    line: usize,
    /// How many of the open brackets hold a link, and can open none.
    barred: usize,
}

impl<'r> Walk<'r> {
    pub fn new(memory: &'r mut Memory, labels: Labels<'r>, lines: &'r [u32]) -> Walk<'r> {
        Walk {
            memory,
            labels,
            lines,
            line: 1,
            barred: 0,
        }
    }

    /// Lists the spans of a paragraph.
    pub fn through(&mut self, paragraph: Paragraph) -> Result<(), Refusal> {
        let text = &self.labels.texts[0][..paragraph.end];
        self.line = paragraph.line;
        self.barred = 0;
        self.memory.openings.clear();
        self.memory.ticks.clear();
        let mut from = paragraph.start;
        let mut at = from;
        while let Some(&byte) = text.get(at) {
            if classes(byte) & MARK == 0 {
                at = next_mark(text, at + 1);
                continue;
            }
            match byte {
                b'[' if self.memory.openings.len() == MOST_BRACKETS_OPEN => {
                    return Err(Refusal::of(number::BRACKETS_TOO_DEEP, at));
                }
                b'[' => at = self.open(at, at > from && text[at - 1] == b'!'),
                b']' => at = self.close(text, at),
                b'`' => at = self.backticks(text, at),
                _ => at = after_backslash(text, at),
            }
            from = at;
        }
        Ok(())
    }

    /// The line of a place that comes after those asked for before.
    fn line_of(&mut self, at: usize) -> u32 {
        while self.lines[self.line] as usize <= at {
            self.line += 1;
        }
        self.line as u32
    }

    /// A code span, or plain backticks. Answers what comes after.
    fn backticks(&mut self, text: &[u8], at: usize) -> usize {
        let text_start = run_end(text, at);
        let length = text_start - at;
        let Some(text_end) = self.memory.ticks.closing(text, text_start, length) else {
            return text_start;
        };
        let end = text_end + length;
        let line = self.line_of(at);
        let [at, end_number, text_start, text_end] =
            [at, end, text_start, text_end].map(|place| place as u32);
        let row = [
            kind::CODE_SPAN,
            at,
            end_number,
            text_start,
            text_end,
            0,
            0,
            0,
            0,
            0,
            line,
        ];
        self.memory.spans.push(row);
        end
    }

    /// An opening bracket. Answers what comes after.
    fn open(&mut self, at: usize, image: bool) -> usize {
        let line = self.line_of(at);
        self.memory.openings.push(Opening {
            start: at as u32 - u32::from(image),
            bracket: at as u32,
            line,
        });
        at + 1
    }

    /// A closing bracket: its pair, and what that is. Answers what comes after.
    fn close(&mut self, text: &[u8], at: usize) -> usize {
        let Some(opening) = self.memory.openings.pop() else {
            return at + 1;
        };
        let image = opening.start < opening.bracket;
        let depth = self.memory.openings.len();
        let barred = depth < self.barred;
        self.barred = self.barred.min(depth);
        if barred && !image {
            return at + 1;
        }
        let text_start = opening.bracket as usize + 1;
        let Some(tail) = self.tail(text, text_start, at) else {
            return at + 1;
        };
        if !image {
            self.barred = depth;
        }
        self.memory.spans.push(opening.row(at, &tail, image));
        tail.end
    }
}

impl Opening {
    fn row(self, close: usize, tail: &Tail, image: bool) -> SpanRow {
        let kind = if image {
            tail.kind + kind::INLINE_IMAGE - kind::INLINE
        } else {
            tail.kind
        };
        let [destination, destination_end, title, title_end] = tail.target;
        [
            kind,
            self.start,
            tail.end as u32,
            self.bracket + 1,
            close as u32,
            tail.definition,
            destination,
            destination_end,
            title,
            title_end,
            self.line,
        ]
    }
}
