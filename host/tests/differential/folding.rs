//! Labels that folding is about (document 02, request 3), by the library and by the second reader: every two
//! characters of the rows, all short labels over a few pieces, compared and in texts, labels cut within a character,
//! and letters that fold at every place of longer labels.

use crate::compare::Texts;
use crate::labels::{count_equal, equal, every_label};
use crate::named::must;
use crate::trial::{self, Tally};
use host::case_folding::rows;
use host::entries;
use host::second;

/// Each character of the rows and some later ones beside each: those are equal that have one folding, and the blanks.
#[test]
fn every_two_characters() {
    let mut foldings: Vec<String> = ('\0'..'\u{580}').map(String::from).collect();
    let labels: Vec<Vec<u8>> = foldings.iter().map(|own| own.clone().into()).collect();
    for row in rows() {
        foldings[row.character as usize] = row.folded;
    }
    foldings.sort();
    let classes = foldings.chunk_by(|a, b| a == b).map(<[String]>::len);
    let blanks = 3 * 2;
    let wanted: usize = classes.map(|size| size * size).sum::<usize>() + blanks;
    assert_eq!(count_equal(&labels), wanted);
}

/// Each character beside what it folds to, between others, and with one more before it or after it.
#[test]
fn every_row_between_others() {
    let between = [
        ("", ""),
        ("a", "b"),
        ("Ж", "ß"),
        (" ", " s"),
        ("ſ\n", "\u{301}"),
    ];
    let more = ["s", "\u{301}", "\u{1e9e}", " ", "\u{a0}"];
    let rows = rows()
        .into_iter()
        .map(|row| (String::from(row.character), row.folded));
    let each = |(own, folded): (String, String)| {
        between
            .map(|(before, after)| [&own, &folded].map(|label| format!("{before}{label}{after}")))
    };
    for [a, b] in rows.flat_map(each) {
        assert!(equal(a.as_bytes(), b.as_bytes()), "{a:?} {b:?}");
        more.iter().for_each(|other| {
            equal(a.as_bytes(), format!("{b}{other}").as_bytes());
            equal(a.as_bytes(), format!("{other}{b}").as_bytes());
        });
    }
}

/// Pieces that fold to several, that several fold to, later ones that look like them, and parts of characters.
#[test]
fn every_two_short_labels_by_folding() {
    let letters = [
        ["s", "\u{df}", "\u{17f}", " ", "\u{1e9e}"],
        ["\u{390}", "\u{3b9}", "\u{308}", "\u{301}", "\u{345}"],
        ["\u{3c2}", "\u{3a3}", "\u{416}", "\u{436}", "\n"],
    ];
    let bytes: [[&[u8]; 5]; 2] = [
        [b"\xce", b"\x91", b"\xb1", b"\xe2", b" "],
        [b"\xc3", b"\x9f", b"s", b"\xc5", b"\xbf"],
    ];
    let letters = letters.map(|pieces| pieces.map(str::as_bytes));
    for pieces in letters.into_iter().chain(bytes) {
        let labels = every_label(&pieces, 4);
        assert_eq!(labels.len(), 781);
        assert!(count_equal(&labels) > labels.len(), "{pieces:?}");
    }
}

/// Such labels as definition and reference, in one text and in two, and as two definitions.
#[test]
fn every_two_short_labels_in_texts() {
    let pieces = [
        "s", "\u{df}", "\u{17f}", "\u{1e9e}", "\u{3c2}", "\u{3a3}", " ",
    ];
    let labels = every_label(&pieces.map(str::as_bytes), 2);
    let pairs = labels
        .iter()
        .flat_map(|a| labels.iter().map(move |b| (a, b)));
    for (variant, (a, b)) in pairs.enumerate() {
        let defined = |label: &[u8], said: &[u8]| [b"[", label, b"]: ", said, b"\n"].concat();
        let used = [b"[", b.as_slice(), b"][] [t][", b, b"]"].concat();
        let [one, other] = [defined(a, b"x"), defined(b, b"y")];
        let alone = [one.as_slice(), b"\n", &used].concat();
        let twice = [one.as_slice(), &other, b"\n", &used].concat();
        let texts: [[&[u8]; 2]; 3] = [[&alone, b""], [&used, &one], [&twice, &other]];
        texts.iter().for_each(|[note, sheet]| {
            let texts = Texts { note, sheet };
            let compared = trial::compare(texts, variant as u64, &mut Tally::default());
            must(texts, compared);
        });
    }
}

/// Labels that start or end within a character, with the rest of it beside them in memory.
#[test]
fn labels_cut_within_a_character() {
    let memory = "\u{391}\u{3b1} \u{df}S\u{2c65}\u{23a}\u{1f600}\u{130}i\u{307}".as_bytes();
    let places = 0..=memory.len();
    let parts = places.flat_map(|from| (from..=memory.len()).map(move |to| &memory[from..to]));
    let parts: Vec<&[u8]> = parts.collect();
    for (a, b) in parts.iter().flat_map(|a| parts.iter().map(move |b| (a, b))) {
        let wanted = u32::from(second::same_label(a, b));
        let [one, other] = [a, b].map(|label| label.escape_ascii());
        assert_eq!(entries::same_label(a, b), wanted, "{one} {other}");
    }
}

/// Two labels and whether they are equal.
const PAIRS: [(&str, &str, bool); 9] = [
    ("\u{df}", "SS", true),
    ("\u{df}", "s", false),
    ("\u{416}", "\u{436}", true),
    ("\u{416}", "\u{437}", false),
    ("\u{3c2}", "\u{3a3}", true),
    ("\u{23a}", "\u{2c65}", true),
    ("\u{390}", "\u{399}\u{308}\u{301}", true),
    ("\u{1e9e}", "\u{df}", false),
    ("\u{d7}", "\u{f7}", false),
];

/// A letter that folds after so many others, where the library goes another way.
#[test]
fn letters_at_every_place() {
    let others = [
        ("x", "X"),
        ("ж", "Ж"),
        (" ", "\t"),
        ("ſ", "S"),
        ("é ", "É\n"),
    ];
    let places = (0..70).flat_map(|count| others.map(|(small, capital)| (count, small, capital)));
    for (count, small, capital) in places {
        PAIRS.iter().for_each(|(a, b, wanted)| {
            let a = format!("{}{a}{}", small.repeat(count), capital.repeat(count % 5));
            let b = format!("{}{b}{}", capital.repeat(count), small.repeat(count % 5));
            assert_eq!(equal(a.as_bytes(), b.as_bytes()), *wanted, "{a:?} {b:?}");
        });
    }
}
