//! Short notes by chance, without a sheet and with one, for a release, and of images, the same in every run.

use super::Case;
use crate::generate::chance::Chance;
use crate::generate::{images, repeats};

const PARTS: [&str; 28] = [
    "[", "]", "(", ")", "<", ">", "`", "``", "\\", " ", "\n", "\n\n", ":", "\"", "'", "a", "b",
    "A", "!", "[a]", "[b]", "](", "][", "]:", "[a]: b\n", " \"t\"", "\t", "é",
];

const DEFINITIONS: &str = "[a]: /1 \"t\"\n[b]: <2>\n\n";

/// Definitions of a sheet, of which one has the label of the note's.
const SHARED: &str = "s\n\n[B]: /3 't'\n[A]:\n</4>\n\n";

pub fn cases() -> Vec<Case> {
    let chance = &mut Chance::from_seed(1);
    let alone = (0..300).map(|index| by_chance(text(index, DEFINITIONS, chance)));
    let mut cases: Vec<Case> = alone.collect();
    cases.extend((0..300).map(|index| {
        let note = text(index / 2, DEFINITIONS, chance);
        by_chance(note).beside(text(index, SHARED, chance))
    }));
    cases.extend((0..300).map(|_| {
        let (note, sheet) = repeats::texts(chance);
        by_chance(note).beside(sheet).for_release()
    }));
    cases.extend((0..300).map(|_| by_chance(images::note(chance))));
    cases
}

fn by_chance(note: impl AsRef<[u8]>) -> Case {
    Case::of("by chance", note)
}

/// A text, with the definitions before it where the index is odd.
fn text(index: usize, definitions: &str, chance: &mut Chance) -> String {
    let before = if index % 2 == 0 { "" } else { definitions };
    let parts = chance.between(4, 24);
    let text: String = (0..parts).map(|_| chance.one_of(&PARTS)).collect();
    before.to_string() + &text
}
