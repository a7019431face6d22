//! Pairs of labels, compared by the library and by the second reader: all short ones over a few pieces,
//! every two bytes, and by chance any bytes and labels made of one another.

use crate::compare;
use crate::random;
use host::cases;
use host::generate::chance::Chance;
use host::generate::spellings::respelled;

/// Compares two labels, both ways; whether they are equal.
pub fn equal(a: &[u8], b: &[u8]) -> bool {
    let [one, other] = [compare::same_label(a, b), compare::same_label(b, a)];
    let numbers = one.and_then(|one| other.map(|other| [one, other]));
    let [one, other] = numbers.unwrap_or_else(|what| panic!("{what}"));
    assert_eq!(one, other, "the order of two labels does not count");
    one == 1
}

/// Every label of up to `most` of the pieces.
pub fn every_label(pieces: &[&[u8]], most: usize) -> Vec<Vec<u8>> {
    let mut all = vec![Vec::new()];
    let mut longest = all.clone();
    for _ in 0..most {
        let longer = |label: &Vec<u8>| {
            let longer = pieces.iter().map(|piece| [label, *piece].concat());
            longer.collect::<Vec<_>>()
        };
        longest = longest.iter().flat_map(longer).collect();
        all.extend(longest.clone());
    }
    all
}

/// Compares all pairs; how many of them are equal.
pub fn count_equal(labels: &[Vec<u8>]) -> usize {
    let pairs = labels
        .iter()
        .flat_map(|a| labels.iter().map(move |b| (a, b)));
    pairs.filter(|(a, b)| equal(a, b)).count()
}

#[test]
fn every_two_short_labels() {
    let labels = every_label(&[b"a", b"A", b" ", b"\t"], 4);
    assert_eq!(labels.len(), 341);
    assert!(count_equal(&labels) > 5_000);
    let labels = every_label(&[b"a", b"b", b"\n", b" "], 4);
    assert!(count_equal(&labels) > 3_000);
}

/// 256 labels of one byte: 26 letters equal another, the three blanks each other.
#[test]
fn every_two_bytes() {
    let labels: Vec<Vec<u8>> = (0..=255).map(|byte| vec![byte]).collect();
    assert_eq!(count_equal(&labels), 256 + 2 * 26 + 3 * 2);
    for byte in 0..=255 {
        for between in [&[][..], b" ", b"a"] {
            equal(&[b"x", between, &[byte]].concat(), b"x ");
            equal(&[&[byte], between, b"x"].concat(), b" X");
        }
    }
}

/// Bytes that the rules name and their neighbours, and parts of characters.
const BYTES: &[u8] =
    b"aAzZ@[`{ \t\n\x0b\x0c\x1f\x20\x21\\\0\r\x7f\x80\xc3\xa9\xe0\xff\xce\xd0\xcf\xc5";

/// Letters that fold, to one or to several, what they fold to, and some that do not fold.
const LETTERS: &[&str] = &[
    "ß", "ẞ", "ſ", "s", "\u{130}", "i\u{307}", "\u{131}", "\u{149}", "\u{1f0}", "\u{390}",
    "\u{3b0}", "\u{3b9}", "\u{345}", "ς", "Σ", "\u{b5}", "\u{3bc}", "Ж", "ж", "\u{420}", "\u{440}",
    "\u{400}", "\u{52e}", "\u{531}", "×", "÷", "É", "\u{23a}", "\u{2c65}", "\u{2126}", "\u{3a9}",
    "\u{a0}", "😀",
];

/// A label of any bytes, mostly of those and of such letters.
fn any_label(chance: &mut Chance) -> Vec<u8> {
    let length = chance.below(40);
    let piece = |_| match chance.below(16) {
        0 | 1 => vec![chance.below(256) as u8],
        2..=7 => chance.one_of(LETTERS).as_bytes().to_vec(),
        _ => vec![chance.one_of(BYTES)],
    };
    (0..length).flat_map(piece).collect()
}

/// The label in another spelling, with blanks put in where some stand, or at the ends, and now and then another
/// byte.
fn made_of(label: &[u8], chance: &mut Chance) -> Vec<u8> {
    let blanks = |chance: &mut Chance| -> Vec<u8> {
        let count = chance.below(40);
        (0..count).map(|_| chance.one_of(b" \t\n")).collect()
    };
    let mut made = blanks(chance);
    for byte in respelled_bytes(label, chance) {
        if b" \t\n".contains(&byte) {
            made.push(chance.one_of(b" \t\n"));
            made.extend(blanks(chance));
        } else {
            made.push(byte);
        }
    }
    if chance.once_in(3) && !made.is_empty() {
        let place = chance.below(made.len());
        made[place] = chance.one_of(b"aA \\@`\xce\x91\xd0\xb6");
    }
    made.extend(blanks(chance));
    made
}

/// The characters of the label in another spelling; bytes that stand in none stay.
fn respelled_bytes(label: &[u8], chance: &mut Chance) -> Vec<u8> {
    let mut spelled = Vec::new();
    for chunk in label.utf8_chunks() {
        spelled.extend(respelled(chance, chunk.valid()).bytes());
        spelled.extend(chunk.invalid());
    }
    spelled
}

#[test]
fn labels_by_chance() {
    let mut numbers = [0, 0];
    for index in 0..random::notes() {
        let chance = &mut random::chance(index);
        let one = any_label(chance);
        let other = if chance.once_in(4) {
            any_label(chance)
        } else {
            made_of(&one, chance)
        };
        numbers[usize::from(equal(&one, &other))] += 1;
    }
    assert!(numbers.iter().all(|count| *count > 1_000), "{numbers:?}");
}

/// Blanks in one of two labels, at the lengths where the library goes another way.
#[test]
fn runs_of_blanks() {
    for count in 0..70 {
        for blank in [" ", "\t", "\n", "\t \n"] {
            let run = blank.repeat(count);
            let label = format!("{run}A{run}b{run}");
            let others = [
                ("a b", count > 0),
                ("ab", count == 0),
                ("a \u{b} b", false),
                ("a b c", false),
                ("a", false),
            ];
            for (other, wanted) in others {
                assert_eq!(equal(label.as_bytes(), other.as_bytes()), wanted);
            }
            for byte in ["\u{8}", "\u{b}", "\u{c}", "\u{1f}", "!"] {
                let label = format!("a{run}{byte}{run}b");
                equal(label.as_bytes(), b"a b");
                equal(label.as_bytes(), format!("A {byte} B").as_bytes());
            }
        }
    }
}

/// The two texts of each stored case.
#[test]
fn cases_of_the_samples() {
    for case in cases::all() {
        equal(&case.note, &case.label);
        assert!(equal(&case.note, &case.note));
    }
}
