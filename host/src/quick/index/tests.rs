//! Labels that share a hash.

use super::{hash, mixed};
use crate::quick::bytes::{classes, BRACKET, INK, ROUGH};
use crate::quick::Reader;
use crate::second::{self, DEFINITION_ROW_WIDTH, SPAN_ROW_WIDTH};

const COUNT: usize = 40;
const LENGTH: usize = 24;

/// Labels of three words. The second word undoes what the first one makes of the hash; the third is the same.
fn labels() -> Vec<String> {
    let made_of = |word: u64| mixed(LENGTH as u64 ^ word);
    let first = u64::from_le_bytes(*b"label  0");
    let sum = made_of(first) ^ u64::from_le_bytes(*b"and more");
    let labels = (0..).filter_map(|number: u32| {
        // The digits that change stand in the low bytes of the word.
        let front: String = format!("{number:08}").chars().rev().collect();
        let word = front.as_bytes().try_into().map(u64::from_le_bytes).ok()?;
        let second = (made_of(word) ^ sum).to_le_bytes();
        let plain =
            |byte: &u8| !matches!(byte, 0 | 13) && classes(*byte) & (INK | ROUGH | BRACKET) == INK;
        let second = second.iter().all(plain).then_some(second)?;
        Some(front + &String::from_utf8_lossy(&second) + " the end")
    });
    labels.take(COUNT).collect()
}

#[test]
fn the_labels_share_a_hash() {
    let labels = labels();
    let hashes: Vec<u64> = labels.iter().map(|label| hash(label.as_bytes())).collect();
    assert_eq!(hashes, [hashes[0]; COUNT]);
    assert!(labels.iter().all(|label| label.len() == LENGTH));
}

/// A note that uses each label and defines a third of them, beside a sheet that defines them all, the last ones first.
fn texts() -> [String; 2] {
    let labels = labels();
    let definition = |label: &String| format!("[{label}]: /{}\n", &label[..8]);
    let own: String = labels.iter().step_by(3).map(definition).collect();
    let used: String = labels.iter().map(|label| format!("[{label}] ")).collect();
    let shared = labels.iter().rev().map(definition).collect();
    [own + "\n" + &used + "[label of none]", shared]
}

/// Each is found, the first where there are two, and two of one label are held against each other.
#[test]
fn labels_that_share_a_hash_are_told_apart() {
    let [note, mut sheet] = texts();
    let mut reader = Reader::default();
    for number in [0, 9] {
        let [note, sheet_bytes] = [&note, &sheet].map(|text| text.as_bytes());
        let wanted = second::read(note, sheet_bytes, true, usize::MAX, usize::MAX);
        assert_eq!(wanted.number, number);
        let before = [
            vec![0; 60 * DEFINITION_ROW_WIDTH],
            vec![0; COUNT * SPAN_ROW_WIDTH],
        ];
        let [mut definitions, mut spans] = before.clone();
        let given = reader.read(note, sheet_bytes, true, &mut definitions, &mut spans);
        assert_eq!((given.number, given.value as usize), (number, wanted.value));
        assert_eq!(given.spans as usize, wanted.span_count);
        assert_eq!(definitions, wanted.definition_table(&before[0]));
        assert_eq!(spans, wanted.span_table(&before[1]));
        sheet += &format!("[{}]: /other\n", labels()[COUNT / 2]);
    }
}
