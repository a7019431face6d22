//! Labels: where they end, and what of them is compared.

use super::bytes::{after_backslash, classes, BRACKET, INK, ROUGH, SPACE};
use super::folding::Folding;
use crate::second::LONGEST_LABEL;

/// A label as read, from its first byte to the `]`.
#[derive(Clone, Copy)]
pub struct Label {
    pub start: usize,
    pub end: usize,
    /// Whether it has to be written anew to be compared.
    pub rough: bool,
}

/// The label that starts here.
pub fn label(text: &[u8], start: usize) -> Option<Label> {
    let mut at = start;
    let mut seen = 0;
    // A space at the start counts as one after another.
    let mut before = SPACE;
    loop {
        let byte = *text.get(at)?;
        let class = classes(byte);
        if class & BRACKET != 0 {
            if byte != b'\\' {
                break;
            }
            at = after_backslash(text, at);
            seen |= INK;
            before = INK;
            continue;
        }
        seen |= class | (class & before & SPACE) << 1;
        before = class;
        at += 1;
    }
    let good = text[at] == b']' && seen & INK != 0 && !is_too_long(&text[start..at]);
    let rough = (seen | before << 1) & ROUGH != 0;
    let end = at;
    good.then_some(Label { start, end, rough })
}

/// Characters are counted only where there could be too many: each has one byte that goes on no other.
fn is_too_long(label: &[u8]) -> bool {
    label.len() > LONGEST_LABEL
        && label.iter().filter(|byte| **byte & 0xc0 != 0x80).count() > LONGEST_LABEL
}

/// Appends the compared form of a rough label: folded, without blanks at its ends, one space for each run of them.
pub fn write_form(label: &[u8], folding: &Folding, form: &mut Vec<u8>) {
    let start = form.len();
    let mut after_blank = false;
    let mut at = 0;
    while let Some(&byte) = label.get(at) {
        at += 1;
        if classes(byte) & SPACE != 0 {
            after_blank = true;
            continue;
        }
        if after_blank && form.len() > start {
            form.push(b' ');
        }
        after_blank = false;
        if folding.starts_with(byte) {
            folding.write([byte, label[at]], form);
            at += 1;
        } else {
            form.push(byte.to_ascii_lowercase());
        }
    }
}
