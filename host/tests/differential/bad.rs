//! Bad input of every kind.

use crate::compare::{self, Lending, Named, Texts};
use crate::named::must;
use crate::settings;
use host::second::{DEFINITION_ROW_WIDTH, SPAN_ROW_WIDTH};

/// Lendings for texts that are refused whatever is lent: nothing, parts of a row, rows.
const LENDINGS: [Lending; 3] = [
    Lending {
        definition_numbers: 0,
        span_numbers: 0,
        page_bytes: 0,
    },
    Lending {
        definition_numbers: DEFINITION_ROW_WIDTH - 1,
        span_numbers: SPAN_ROW_WIDTH - 1,
        page_bytes: 1,
    },
    Lending {
        definition_numbers: 3 * DEFINITION_ROW_WIDTH + 2,
        span_numbers: 3 * SPAN_ROW_WIDTH + 3,
        page_bytes: 200,
    },
];

/// Ill-formed by table 3-7, and the bytes 0 and 13, in hexadecimal digits.
const BAD: [&str; 9] = [
    // No characters of a note.
    "00 0d",
    // Continuation bytes alone.
    "80 8f 90 9f a0 bf 8080 bfbfbf",
    // Overlong: two, three and four bytes.
    "c0 c1 c080 c0af c1bf e08080 e080af e09fbf f0808080 f08080af f08fbfbf",
    // Surrogates.
    "eda080 edadbf edae80 edbfbf eda080edb080",
    // Above U+10FFFF.
    "f4908080 f4bfbfbf",
    // Cut short after one byte, after two, after three.
    "c2 df e0 e1 ec ed ef f0 f1 f4",
    "e0a0 e180 ed9f efbf f090 f180 f48f f09080 f3bfbf f48fbf",
    // Cut short by another character.
    "c241 c2c280 e0a041 e18041 edc280 f0908041 f4e18080",
    // No first bytes.
    "f5 f6 f7 f8 f9 fa fb fc fd fe ff f5808080 f888808080 fc8480808080",
];

/// The bytes of `BAD`.
pub fn bad() -> Vec<Vec<u8>> {
    let digits = |text: &str| {
        let byte = |place| u8::from_str_radix(&text[place..place + 2], 16);
        let bytes = (0..text.len()).step_by(2).map(byte);
        bytes.map(|byte| byte.expect("digits")).collect()
    };
    BAD.iter()
        .flat_map(|line| line.split(' '))
        .map(digits)
        .collect()
}

/// Bytes on both sides of every bound in table 3-7.
const BOUNDS: &[u8] = &[
    0x00, 0x0d, 0x41, 0x7f, 0x80, 0x8f, 0x90, 0x9f, 0xa0, 0xbf, 0xc1, 0xc2, 0xdf, 0xe0, 0xe1, 0xec,
    0xed, 0xee, 0xef, 0xf0, 0xf1, 0xf3, 0xf4, 0xf5, 0xff,
];

/// Through all three entries, the reader for a release, the page writer for none; returns what the reader answers
/// with enough lent.
pub fn compare_texts(texts: Texts, label: &[u8]) -> Named {
    let mut named = must(texts, compare::resolve(texts, label));
    for lending in LENDINGS {
        named = must(texts, compare::read(texts, true, lending));
        must(texts, compare::render(texts, false, lending));
        must(texts, settings::compare(texts, lending));
    }
    named
}

/// The same of a note alone; returns the number.
fn compare_all(note: &[u8], label: &[u8]) -> u32 {
    compare_texts(Texts::alone(note), label).number
}

#[test]
fn lengths() {
    for byte in [
        b'a', b' ', b'\n', b'[', b'\\', b'<', b':', 0, 13, 0x80, 0xff,
    ] {
        let number = |length: usize| compare_all(&vec![byte; length], b"a");
        assert_eq!(number(0), 0);
        number(1);
        number(32_768);
        assert_eq!(number(32_769), 1);
        assert_eq!(number(1 << 20), 1);
    }
    // Each takes the second reader long, so once only.
    for byte in [b'`', b']'] {
        let note = vec![byte; 32_768];
        compare::render(Texts::alone(&note), true, LENDINGS[2]).unwrap();
    }
}

#[test]
fn labels_of_every_length() {
    let note = Texts::alone(b"[a]: b\n[\xc3\xa9 c]: d\n");
    for piece in ["a", "é", " ", "\\", "\\]", "]", "[", "€", "😀"] {
        for count in [0, 1, 2, 499, 500, 998, 999, 1_000, 1_001, 32_768, 1 << 20] {
            let label = piece.repeat(count);
            let compared = compare::resolve(note, label.as_bytes());
            compared.unwrap_or_else(|what| panic!("{count} times {piece:?}\n{what}"));
        }
    }
}

#[test]
fn bad_bytes_in_notes() {
    for bad in &bad() {
        let places: [&[&[u8]]; 6] = [
            &[bad],
            &[bad, b" [a](b) `c`"],
            &["é [a](b) ".as_bytes(), bad, b" `c`"],
            &[b"[a]: b\n\n[a] `c` ", bad],
            &[b"[", bad, b"]: b\n\n[a]"],
            &[b"[a]: b\n\n[a](<", bad, "é>)".as_bytes(), bad],
        ];
        for place in places {
            assert_eq!(compare_all(&place.concat(), b"a"), 2, "{bad:x?}");
        }
        let longest = [&vec![b'a'; 32_768 - bad.len()], bad.as_slice()].concat();
        assert_eq!(
            compare_all(&longest, b"a"),
            2,
            "{bad:x?} at the end of the longest note"
        );
        let too_long = [bad.as_slice(), &vec![b'a'; 32_768]].concat();
        assert_eq!(
            compare_all(&too_long, b"a"),
            1,
            "{bad:x?} in a note too long"
        );
    }
}

#[test]
fn bad_bytes_in_labels() {
    let note = b"[a]: b\n[a ]: c\n";
    let alone = Texts::alone(note);
    for bad in &bad() {
        let labels: [&[&[u8]]; 4] = [
            &[bad],
            &[bad, b"a"],
            &[b"a", bad, b"a"],
            &["é".as_bytes(), bad],
        ];
        for label in labels {
            let named = must(alone, compare::resolve(alone, &label.concat()));
            assert_eq!(named.number, 8, "{bad:x?}");
        }
        // The note's refusals come first.
        let spoilt = [note, bad.as_slice()].concat();
        let spoilt = Texts::alone(&spoilt);
        let named = must(spoilt, compare::resolve(spoilt, bad));
        assert_eq!(named.number, 2, "{bad:x?}");
    }
}

/// Every text of so many bytes of the list, as note, as sheet and as label.
fn every_text(bytes: &[u8], length: u32) {
    for index in 0..bytes.len().pow(length) {
        let mut rest = index;
        let mut text = Vec::new();
        for _ in 0..length {
            text.push(bytes[rest % bytes.len()]);
            rest /= bytes.len();
        }
        let beside = Texts {
            note: b"",
            sheet: &text,
        };
        let compared = compare::read(Texts::alone(&text), false, LENDINGS[0])
            .and_then(|_| compare::read(beside, true, LENDINGS[0]))
            .and_then(|_| compare::resolve(Texts::alone(b"[a]: b"), &text));
        compared.unwrap_or_else(|what| panic!("{text:x?}\n{what}"));
    }
}

#[test]
fn every_text_of_two_bytes() {
    let bytes: Vec<u8> = (0..=255).collect();
    every_text(&bytes, 1);
    every_text(&bytes, 2);
}

#[test]
fn texts_at_the_bounds_of_table_3_7() {
    every_text(BOUNDS, 3);
    every_text(BOUNDS, 4);
}
