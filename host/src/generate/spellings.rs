//! Other spellings of a text that fold to the same: the rows of Unicode's file, read backwards.

use std::collections::BTreeMap;
use std::sync::OnceLock;

use super::chance::Chance;
use crate::case_folding;
use crate::second::fold;

/// The most characters that one folds to.
const MOST: usize = 3;

/// For all that some character folds to, that itself and the characters.
fn spellings() -> &'static BTreeMap<String, Vec<String>> {
    static SPELLINGS: OnceLock<BTreeMap<String, Vec<String>>> = OnceLock::new();
    SPELLINGS.get_or_init(|| {
        let mut all: BTreeMap<String, Vec<String>> = BTreeMap::new();
        for row in case_folding::rows() {
            let itself = vec![row.folded.clone()];
            let list = all.entry(row.folded).or_insert(itself);
            list.push(row.character.to_string());
        }
        all
    })
}

/// The text in another spelling by chance: what each of its characters folds to, or one that folds to it.
pub fn respelled(chance: &mut Chance, text: &str) -> String {
    let folded = |character: char| fold(character).map_or(character.to_string(), str::to_string);
    let folded: String = text.chars().map(folded).collect();
    let mut spelled = String::new();
    let mut rest = folded.as_str();
    while !rest.is_empty() {
        let start = start(chance, rest);
        match spellings().get(start) {
            Some(all) => spelled += &all[chance.below(all.len())],
            None => spelled += start,
        }
        rest = &rest[start.len()..];
    }
    spelled
}

/// The start of a text that is spelled as one: some characters to which one folds, once in two times, or a single
/// one.
fn start<'t>(chance: &mut Chance, text: &'t str) -> &'t str {
    let ends = text
        .char_indices()
        .map(|(place, own)| place + own.len_utf8());
    let starts: Vec<&str> = ends.take(MOST).map(|end| &text[..end]).collect();
    let several = |start: &&&str| spellings().contains_key(**start);
    match starts[1..].iter().rev().find(several) {
        Some(start) if chance.once_in(2) => start,
        _ => starts[0],
    }
}
