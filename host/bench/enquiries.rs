//! The slowest enquiry: many definitions whose labels are much like the one that is asked for.

use std::time::Instant;

use host::entries;
use host::second::LONGEST_NOTE;

use crate::patterns::{self, Patterns};

/// What the labels of the definitions and the ends of the one that is asked for are made of.
const LABELS: &[u8] = b"aB \t";
const BLANKS: &[u8] = b" \t\n";
/// The asked label has so many blanks in one place; with its ends it keeps to the most that a label may have.
const COUNT: usize = 990;
const TRIES: usize = 3;

/// The time of the slowest, in nanoseconds a byte of both texts, and how many were tried; nothing where time
/// ran out before all were.
pub fn slowest(end: Instant) -> Option<(f64, usize)> {
    let mut worst: f64 = 0.0;
    let mut tried = 0;
    for own in Patterns::new(LABELS, 3) {
        let definition = [b"[", own.as_slice(), b"]:c\n"].concat();
        let half = definition.repeat(LONGEST_NOTE / 2 / definition.len());
        for (front, back) in patterns::pairs(LABELS, 2) {
            if Instant::now() > end {
                return None;
            }
            for blank in BLANKS {
                let label = [front.as_slice(), &vec![*blank; COUNT], &back].concat();
                worst = worst.max(time(&half, &label));
                tried += 1;
            }
        }
    }
    Some((worst, tried))
}

/// The best time of a few, with half of the definitions in the note and half in the sheet.
fn time(half: &[u8], label: &[u8]) -> f64 {
    let once = |_| {
        let start = Instant::now();
        entries::resolve(half, half, label);
        start.elapsed().as_nanos() as f64 / (2 * half.len()) as f64
    };
    (0..TRIES).map(once).fold(f64::INFINITY, f64::min)
}
