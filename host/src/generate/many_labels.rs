//! Labels for notes of thousands of them: labels that start alike, and labels that share a key in the proved index.

use crate::second::LONGEST_NOTE;

/// What the labels that start alike have in common.
const FRONT: &str = "limit of the pump no ";
/// How many there are of each kind for the longest note: some more than fit in a sheet.
const LIKE: usize = 1_250;
const COLLIDING: usize = 2_800;

/// Both kinds with the names of their notes, for a limit of `most` bytes. The labels of a kind are all as long.
pub fn all(most: usize) -> [(&'static str, Vec<String>); 2] {
    let share = |count: usize| count * most / LONGEST_NOTE;
    let like = (0..share(LIKE)).map(|number| format!("{FRONT}{number:04}"));
    [
        ("like_labels", like.collect()),
        ("colliding_labels", colliding(share(COLLIDING))),
    ]
}

/// The proved index takes the bytes of a label's compared form in turn: each makes a number of 32 bits out of the number before,
/// the first one out of 0. The key is the number without its low 14 bits.
const FACTOR: u32 = 2_654_435_761;
const OF_ONE_KEY: u32 = 1 << 14;

/// What colliding labels are made of: these are their own compared forms.
const LETTERS: &[u8; 36] = b"0123456789abcdefghijklmnopqrstuvwxyz";
const FRONT_LETTERS: u32 = 5;
const END_LETTERS: u32 = 3;

fn number_of(label: &[u8]) -> u32 {
    label.iter().fold(0, |before: u32, byte| {
        let sum = before.wrapping_add(u32::from(*byte) + 1);
        sum.wrapping_mul(FACTOR)
    })
}

/// So many labels with the key 0. The number of a label is that of its front, multiplied once more for each letter of its end, and
/// the end's own: so the end is looked for among all ends by its number.
fn colliding(count: usize) -> Vec<String> {
    let mut ends: Vec<(u32, String)> = words(END_LETTERS)
        .map(|end| (number_of(end.as_bytes()), end))
        .collect();
    ends.sort();
    let labels = words(FRONT_LETTERS).filter_map(|front| {
        let moved = number_of(front.as_bytes()).wrapping_mul(FACTOR.wrapping_pow(END_LETTERS));
        let wanted = moved.wrapping_neg();
        let place = ends.partition_point(|(number, _)| *number < wanted);
        let (number, end) = ends.get(place)?;
        (number - wanted < OF_ONE_KEY).then(|| front + end)
    });
    labels.take(count).collect()
}

/// All words of so many letters.
fn words(letters: u32) -> impl Iterator<Item = String> {
    let base = LETTERS.len();
    (0..base.pow(letters)).map(move |number| {
        let places = (0..letters).rev();
        let digits = places.map(|place| LETTERS[number / base.pow(place) % base]);
        digits.map(char::from).collect()
    })
}

#[test]
fn colliding_labels_are_different_and_have_one_key() {
    let labels = colliding(COLLIDING);
    assert_eq!(labels.len(), COLLIDING);
    assert!(labels.windows(2).all(|two| two[0] < two[1]));
    let numbers = labels.iter().map(|label| number_of(label.as_bytes()));
    assert_eq!(
        numbers.filter(|number| *number < OF_ONE_KEY).count(),
        COLLIDING
    );
}
