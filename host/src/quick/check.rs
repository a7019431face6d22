//! Refusals 1 and 2 of a text, and its lines.

use super::bytes::{equal_to, first_of, word_at, BLOCK};
use super::Refusal;
use crate::second::{number, Origin, LONGEST_NOTE};

/// Checks a text and lists where its lines start, and where the last one ends.
pub fn check(text: &[u8], origin: Origin, lines: &mut Vec<u32>) -> Result<(), Refusal> {
    let refusal = |number, value| Refusal {
        number,
        value,
        text: origin.number(),
    };
    if text.len() > LONGEST_NOTE {
        return Err(refusal(number::TEXT_TOO_LONG, text.len()));
    }
    lines.clear();
    lines.push(0);
    let read = Scan::of(text, lines);
    if read.all >= 0x80 || read.good < text.len() {
        let good = &text[..read.good];
        let good = std::str::from_utf8(good).map_or_else(|error| error.valid_up_to(), str::len);
        if good < text.len() {
            return Err(refusal(number::TEXT_ILL_FORMED, good));
        }
    }
    if lines.last() != Some(&(text.len() as u32)) {
        lines.push(text.len() as u32);
    }
    Ok(())
}

/// What a pass over a text finds.
struct Scan {
    /// How far there is no byte 0 or 13.
    good: usize,
    /// All bytes, laid over each other.
    all: u8,
}

impl Scan {
    /// Most blocks have neither a line feed nor a bad byte: these are passed at once.
    fn of(text: &[u8], lines: &mut Vec<u32>) -> Scan {
        let mut all = 0;
        let mut good = text.len();
        for (number, block) in text.chunks(BLOCK).enumerate() {
            all |= block.iter().fold(0, |sum, byte| sum | byte);
            let control = block.iter().fold(false, |any, byte| any | (*byte <= 13));
            if control {
                if let Some(place) = note_line_feeds(block, number * BLOCK, lines) {
                    good = place;
                    break;
                }
            }
        }
        Scan { good, all }
    }
}

/// A line starts after each LF of a block. Answers where the first bad byte stands.
fn note_line_feeds(block: &[u8], start: usize, lines: &mut Vec<u32>) -> Option<usize> {
    for at in (0..block.len()).step_by(8) {
        let word = word_at(block, at);
        let bad = equal_to(word, 0) | equal_to(word, 13);
        if bad != 0 {
            return Some(start + at + first_of(bad));
        }
        let mut feeds = equal_to(word, b'\n');
        while feeds != 0 {
            lines.push((start + at + first_of(feeds) + 1) as u32);
            feeds &= feeds - 1;
        }
    }
    None
}
