//! Case folding of characters beyond ASCII, by a table of what to write for each.

use std::sync::OnceLock;

use crate::case_folding;

/// For each code point what it folds to: up to six bytes, the first one lowest, and their count in the highest.
pub struct Folding(Vec<u64>);

/// The first bytes of the characters beyond ASCII that are in the table, up to its last: each has two bytes.
const FIRST: u8 = 0xc2;
const LAST: u8 = 0xd4;
const LAST_CHARACTER: char = '\u{53f}';

impl Folding {
    /// The one table there is.
    pub fn table() -> &'static Folding {
        static TABLE: OnceLock<Folding> = OnceLock::new();
        TABLE.get_or_init(|| {
            let own = '\0'..=LAST_CHARACTER;
            let own = own.map(|own| entry(own.encode_utf8(&mut [0; 4])));
            let mut entries: Vec<u64> = own.collect();
            for row in case_folding::rows() {
                entries[row.character as usize] = entry(&row.folded);
            }
            Folding(entries)
        })
    }

    /// Whether a character of the table, beyond ASCII, starts with this byte.
    #[inline]
    pub fn starts_with(&self, byte: u8) -> bool {
        (FIRST..=LAST).contains(&byte)
    }

    /// Appends what the character of these two bytes folds to.
    #[inline]
    pub fn write(&self, [first, second]: [u8; 2], form: &mut Vec<u8>) {
        let code_point = usize::from(first & 0x1f) << 6 | usize::from(second & 0x3f);
        let bytes = self.0[code_point].to_le_bytes();
        let end = form.len() + usize::from(bytes[7]);
        form.extend_from_slice(&bytes);
        form.truncate(end);
    }
}

fn entry(folded: &str) -> u64 {
    let mut bytes = [0; 8];
    bytes[..folded.len()].copy_from_slice(folded.as_bytes());
    bytes[7] = folded.len() as u8;
    u64::from_le_bytes(bytes)
}
