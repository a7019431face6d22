//! Case folding: a character is looked for among the rows of Unicode's file.

use std::collections::BTreeMap;
use std::sync::OnceLock;

use crate::case_folding;

#[cfg(test)]
mod tests;

/// What a character folds to by "the C and F rows of the Unicode CaseFolding file" (document 02, request 3);
/// none where no row is about it: it folds to itself. "Later characters match themselves".
pub fn fold(character: char) -> Option<&'static str> {
    static ROWS: OnceLock<BTreeMap<char, String>> = OnceLock::new();
    let rows = ROWS.get_or_init(|| {
        let rows = case_folding::rows().into_iter();
        rows.map(|row| (row.character, row.folded)).collect()
    });
    rows.get(&character).map(String::as_str)
}

/// The bytes with each good character folded. "UTF-8 is that of the Unicode standard, table 3-7", which is also
/// the standard library's. A byte that stands in no good character stays.
pub(super) fn folded(bytes: &[u8]) -> Vec<u8> {
    each_character(bytes, |character| fold(character).map(str::to_string))
}

/// The bytes with each good character as `fold` writes it, or as it is where that gives none.
pub(super) fn each_character(bytes: &[u8], fold: impl Fn(char) -> Option<String>) -> Vec<u8> {
    let mut written = Vec::with_capacity(bytes.len());
    for chunk in bytes.utf8_chunks() {
        let characters = chunk.valid().chars();
        characters.for_each(|character| match fold(character) {
            Some(folded) => written.extend(folded.bytes()),
            None => written.extend(character.encode_utf8(&mut [0; 4]).bytes()),
        });
        written.extend(chunk.invalid());
    }
    written
}
