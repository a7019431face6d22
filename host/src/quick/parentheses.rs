//! Parentheses that nothing closes, so that they are not read to the end of their word again and again.

use super::bytes::after_backslash;

/// Those of the last word that was found to have some.
#[derive(Default)]
pub struct Unclosed {
    places: Vec<usize>,
    /// How many of them were passed.
    passed: usize,
}

impl Unclosed {
    pub fn clear(&mut self) {
        self.places.clear();
        self.passed = 0;
    }

    /// Whether no destination starts after this parenthesis: nothing closes it, nor a later one of its word. What is
    /// asked for comes in the text's order.
    pub fn bars(&mut self, parenthesis: usize) -> bool {
        let left = &self.places[self.passed..];
        self.passed += left
            .iter()
            .take_while(|place| **place < parenthesis)
            .count();
        let left = &self.places[self.passed..];
        left.len() > 1 && left[0] == parenthesis
    }

    /// Lists those of a run.
    pub fn list(&mut self, run: &[u8], start: usize) {
        self.clear();
        let mut at = 0;
        while let Some(byte) = run.get(at) {
            match byte {
                b'\\' => at = after_backslash(run, at) - 1,
                b'(' => self.places.push(start + at),
                b')' => drop(self.places.pop()),
                _ => {}
            }
            at += 1;
        }
    }
}
