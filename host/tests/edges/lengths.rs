//! Lengths.

use super::{check, definitions, found, read, refused, refused_enquiry, resolve, spans};
use host::second::{DefinitionRow, SpanRow};

#[test]
fn empty_note() {
    check("", &[], &[], "");
    for note in ["\n", " ", " \t\n\n\t", "\n\n\n"] {
        check(note, &[], &[], "");
    }
    assert_eq!(resolve(b"", b"a"), refused_enquiry(7, 0));
}

#[test]
fn longest_note() {
    let note = "a".repeat(32_768);
    check(&note, &[], &[], &format!("<p>{note}</p>\n"));
    assert_eq!(read("a".repeat(32_769).as_bytes()), refused(1, 32_769));
    assert_eq!(read(&vec![0; 100_000]), refused(1, 100_000));
}

#[test]
fn longest_notes_of_hard_bytes() {
    // All closing, all backticks, all code spans, and brackets before a long destination.
    assert_eq!(spans(&"]".repeat(32_768)), [] as [SpanRow; 0]);
    assert_eq!(spans(&"`".repeat(32_768)), [] as [SpanRow; 0]);
    assert_eq!(spans(&"`a` ".repeat(8_192)).len(), 8_192);
    assert_eq!(spans(&"[a](".repeat(8_192)), [] as [SpanRow; 0]);
    assert_eq!(spans(&"[a]()".repeat(6_553)).len(), 6_553);
    // "No depth limit on parentheses."
    let deep = "(".repeat(16_381) + &")".repeat(16_381);
    let note = format!("[a]({deep})");
    assert_eq!(spans(&note), [[2, 0, 32_767, 1, 2, 0, 4, 32_766, 0, 0, 1]]);
    // With one more opened, the last parenthesis belongs to the destination.
    let one_more = "(".repeat(16_382) + &")".repeat(16_381);
    assert_eq!(spans(&format!("[a]({one_more})")), [] as [SpanRow; 0]);
}

/// A definition of a label and a shortcut of it; the label's length in bytes.
fn defined_and_used(label: &str) -> (String, u32) {
    let length = u32::try_from(label.len()).unwrap();
    (format!("[{label}]: /u\n\n[{label}]"), length)
}

#[test]
fn labels_of_999_and_1000_characters() {
    // One to four bytes a character.
    for character in ["a", "é", "€", "😀"] {
        let (note, length) = defined_and_used(&character.repeat(999));
        assert_eq!(
            definitions(&note),
            [[0, 1, 1 + length, 4 + length, 6 + length, 0, 0, 1]]
        );
        assert_eq!(
            spans(&note),
            [[
                5,
                8 + length,
                10 + 2 * length,
                9 + length,
                9 + 2 * length,
                1,
                4 + length,
                6 + length,
                0,
                0,
                3
            ]]
        );
        let (note, _) = defined_and_used(&character.repeat(1_000));
        assert_eq!(definitions(&note), [] as [DefinitionRow; 0]);
        assert_eq!(spans(&note), [] as [SpanRow; 0]);
    }
}

#[test]
fn escapes_count_two_characters_of_a_label() {
    let (note, _) = defined_and_used(&("\\]".repeat(499) + "a"));
    assert_eq!((definitions(&note).len(), spans(&note).len()), (1, 1));
    let (note, _) = defined_and_used(&"\\]".repeat(500));
    assert_eq!((definitions(&note).len(), spans(&note).len()), (0, 0));
}

#[test]
fn spaces_count_in_a_label_though_they_compare_as_one() {
    let long = format!("a{}b", " ".repeat(997));
    let too_long = format!("a{}b", " ".repeat(998));
    let define = "[a b]: /u\n[foo]: /v\n\n";
    // Shortcut and collapsed.
    assert_eq!(spans(&format!("{define}[{long}]"))[0][0], 5);
    assert_eq!(spans(&format!("{define}[{long}][]"))[0][0], 4);
    assert!(spans(&format!("{define}[{too_long}]")).is_empty());
    assert!(spans(&format!("{define}[{too_long}][]")).is_empty());
    // Full; and where no label stands, the shortcut before it.
    let full = spans(&format!("{define}[foo][{long}]"));
    assert_eq!(full, [[3, 21, 1_027, 22, 25, 1, 7, 9, 0, 0, 4]]);
    let shortcut = spans(&format!("{define}[foo][{too_long}]"));
    assert_eq!(shortcut, [[5, 21, 26, 22, 25, 2, 17, 19, 0, 0, 4]]);
    // The enquiry.
    let note = define.as_bytes();
    assert_eq!(resolve(note, long.as_bytes()), found(7, 9));
    assert_eq!(resolve(note, too_long.as_bytes()), refused_enquiry(8, 0));
}

#[test]
fn enquiry_about_labels_of_999_and_1000_characters() {
    for character in ["a", "é", "€", "😀"] {
        let label = character.repeat(999);
        let note = format!("[{label}]: /u");
        let start = label.len() + 4;
        assert_eq!(
            resolve(note.as_bytes(), label.as_bytes()),
            found(start, start + 2)
        );
        let label = character.repeat(1_000);
        assert_eq!(
            resolve(note.as_bytes(), label.as_bytes()),
            refused_enquiry(8, 0)
        );
    }
}
