//! The backtick runs of a paragraph.

use super::bytes::{equal_to, find, HIGH_BITS};
use crate::second::LONGEST_NOTE;

/// A maximal run, and the place in the list of the next one that is as long.
struct Run {
    start: u32,
    length: u32,
    next: u32,
}

/// The place of no run.
const NONE: u32 = u32::MAX;

/// The runs from the paragraph's first backticks on. They are listed once, where these are met.
pub struct Ticks {
    listed: bool,
    runs: Vec<Run>,
    /// By length: the place of the first run that was not passed.
    first: Vec<u32>,
}

impl Default for Ticks {
    fn default() -> Ticks {
        Ticks {
            listed: false,
            runs: Vec::new(),
            first: vec![NONE; LONGEST_NOTE + 1],
        }
    }
}

/// Where the backticks from a place on end.
pub fn run_end(text: &[u8], at: usize) -> usize {
    find(text, at, |word| !equal_to(word, b'`') & HIGH_BITS).min(text.len())
}

impl Ticks {
    /// Forgets another paragraph's runs.
    pub fn clear(&mut self) {
        for run in self.runs.drain(..) {
            self.first[run.length as usize] = NONE;
        }
        self.listed = false;
    }

    /// Where the first run from `at` on starts that has this length. What is asked for comes in the text's order.
    pub fn closing(&mut self, text: &[u8], at: usize, length: usize) -> Option<usize> {
        if !self.listed {
            self.list(text, at);
        }
        let first = &mut self.first[length];
        while let Some(run) = self.runs.get(*first as usize) {
            if run.start as usize >= at {
                return Some(run.start as usize);
            }
            *first = run.next;
        }
        None
    }

    fn list(&mut self, text: &[u8], mut at: usize) {
        self.listed = true;
        loop {
            let start = find(text, at, |word| equal_to(word, b'`'));
            if start >= text.len() {
                break;
            }
            at = run_end(text, start);
            self.runs.push(Run {
                start: start as u32,
                length: (at - start) as u32,
                next: NONE,
            });
        }
        for (place, run) in self.runs.iter_mut().enumerate().rev() {
            let first = &mut self.first[run.length as usize];
            run.next = std::mem::replace(first, place as u32);
        }
    }
}
