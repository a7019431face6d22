//! Labels that are compared: the note is one, the label is the other. Those that folding is about past ASCII are
//! those of `folding` and `folded_bytes`.

use super::Case;
use crate::second::LONGEST_LABEL;

pub fn cases() -> Vec<Case> {
    let equal = EQUAL.iter().map(|(a, b)| pair("equal labels", a, b));
    let unequal = UNEQUAL.iter().map(|(a, b)| pair("unequal labels", a, b));
    let mut cases: Vec<Case> = equal.chain(unequal).collect();
    cases.extend(bytes());
    cases.extend(long_labels());
    cases
}

/// A case that compares the two.
pub(super) fn pair(name: &str, a: &[u8], b: &[u8]) -> Case {
    let [one, other] = [a, b].map(<[u8]>::escape_ascii);
    Case::of(format!("{name}, \"{one}\" and \"{other}\""), a).asking(b)
}

/// Labels that are equal by document 01, as a person reads it.
pub const EQUAL: &[(&[u8], &[u8])] = &[
    (b"max rate", b"max rate"),
    (b"Max Rate", b"mAX rATE"),
    (b"ABCDEFGHIJKLMNOPQRSTUVWXYZ", b"abcdefghijklmnopqrstuvwxyz"),
    (b"max rate", b" max rate"),
    (b"max rate", b"max rate\n"),
    (b"max rate", b"\n\tmax \t\n rate "),
    (b"max\nrate", b"max\trate"),
    (b" ", b"\t\n"),
    (b"", b""),
    (b"", b" "),
    (b"max\\]", b"MAX\\]"),
    (b"@[\\]^_`{|}~", b"@[\\]^_`{|}~"),
    (b"\x01\x1f\x7f", b" \x01\x1f\x7f"),
    // No good text.
    (b"a\0\rb", b"A\0\rB"),
    (b"\xc3\n\xff", b"\xc3 \xff\n"),
];

/// Labels that are not.
pub const UNEQUAL: &[(&[u8], &[u8])] = &[
    (b"max", b"min"),
    (b"max", b"mix"),
    (b"max", b"may"),
    (b"max", b"max rate"),
    (b"max rate", b"max"),
    (b"max rate", b"maxrate"),
    (b"maxrate", b"max rate"),
    (b"max rate", b"rate max"),
    (b"max rates", b"max rate s"),
    (b"rate", b""),
    (b"", b"rate"),
    (b" ", b"rate"),
    (b"[", b"{"),
    (b"@", b"`"),
    (b"a\\!", b"a!"),
    (b"a!", b"a\\!"),
    (b"a\\ b", b"a b"),
    // No blanks: line tabulation, form feed, carriage return, byte 0, no-break space.
    (b"a\x0bb", b"a b"),
    (b"a \x0c b", b"a b"),
    (b"a\r", b"a"),
    (b"a\0", b"a"),
    (b"a\xc2\xa0b", b"a b"),
    (b"\xc3", b"\xc3\xa9"),
];

/// Each byte beside the one that folding would make of it, and each blank between two words.
fn bytes() -> Vec<Case> {
    let folded =
        (b'?'..=b'\\').map(|byte| pair("a byte and what it might fold to", &[byte], &[byte + 32]));
    let blank = |byte| pair("a blank or none", &[b'a', byte, b'b'], b"a b");
    folded
        .chain([9, 10, 11, 12, 13, 28, 31, 32].map(blank))
        .collect()
}

/// Labels of the most characters, and longer ones: the comparison has no limit.
fn long_labels() -> Vec<Case> {
    let lengths = [LONGEST_LABEL, LONGEST_LABEL + 1, 5_000].into_iter();
    let cases = lengths.flat_map(|count| {
        let [own, upper] = ["a", "A"].map(|letter| letter.repeat(count));
        let last = "a".repeat(count - 1);
        let blanks = " ".repeat(count - 2);
        [
            (own.clone(), upper),
            (own.clone(), last.clone()),
            (own, last.clone() + "b"),
            (format!("a{blanks}b"), "A B".to_string()),
            (format!("{last} "), last),
        ]
        .map(|(a, b)| Case::of(format!("labels of {count} characters"), a).asking(b))
    });
    cases.collect()
}
