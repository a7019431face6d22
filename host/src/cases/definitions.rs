//! Definitions, labels, and the space in definitions and tails.

use super::Case;

pub fn cases() -> Vec<Case> {
    [
        indented(),
        Case::of_each(DEFINITIONS),
        Case::of_each(LABELS),
        gaps(),
    ]
    .into_iter()
    .flatten()
    .collect()
}

const DEFINITIONS: &[(&str, &str)] = &[
    ("a tab before a definition", "\t[foo]: /url\n\n[foo]"),
    (
        "a definition after a line of text",
        "text\n[foo]: /url\n\n[foo]",
    ),
    ("a title that fails", "[foo]: /url \"t\" x\n\n[foo]"),
    (
        "a title that fails on the next line",
        "[foo]: /url\n\"t\" x\n\n[foo]",
    ),
    ("a title on the next line", "[foo]:\n/url\n't' \t\n\n[foo]"),
    (
        "two line ends before a destination",
        "[foo]:\n\n/url\n\n[foo]",
    ),
    ("empty destination and title", "[foo]: <> \"\"\n\n[foo]"),
    (
        "destination and title with no space",
        "[foo]: <b>\"t\"\n\n[foo]",
    ),
    ("no destination", "[foo]:\n\n[foo]"),
    ("a space before the colon", "[foo] : /url\n\n[foo]"),
    ("no space after the colon", "[foo]:/url\n\n[foo]"),
    (
        "a block that ends at the end of the note",
        "[foo]: /url \"t\"",
    ),
    (
        "a line of other space",
        "[foo]: /url\n\u{a0}\n[bar]: /url\n\u{c}\n[foo] [bar]",
    ),
    (
        "a line of spaces and tabs between two blocks",
        "a\n \t \n[foo]: /url\n\t\n[foo]",
    ),
    (
        "spaces at both ends of a paragraph",
        "  [foo](bar)  \n  a  \n",
    ),
    (
        "bytes past 127 in every part",
        "ä [é]: /ü\n\n[é]: /ü \"ö\"\n\nä [é] [a](/ü \"ö\") `ß`",
    ),
    ("a label over two blocks", "[a\n\nb]: /u\n\n[a b]"),
    (
        "a title over two blocks",
        "[a]: /u \"t\n\nu\"\n\n[a] [b](c \"t\n\nu\")",
    ),
    (
        "definitions in every second block",
        "[a]: b\n\n[a]\n\n[c]: d\n\n[c] `e`",
    ),
];

const LABELS: &[(&str, &str)] = &[
    (
        "labels that are none",
        "[]: /u\n\n[ ]: /u\n\n[a[b]: /u\n\n[a\\]: /u\n\n[] [ ] [a[b] [a\\]",
    ),
    (
        "labels equal but for case and space",
        "[ A\tb\n c ]: /u\n\n[a b C] [A  B  c][] [t][a\nb\nc]",
    ),
    ("labels equal for letters past Z", "[É]: /u\n\n[é] [É]"),
    (
        "every letter",
        "[ABCDEFGHIJKLMNOPQRSTUVWXYZ]: /u\n\n[abcdefghijklmnopqrstuvwxyz]",
    ),
    (
        "the bytes beside A and Z",
        "[@]: /a\n[\\[]: /b\n\n[`] [\\{]",
    ),
    ("a tab in a label", "[a\tb]: /u\n\n[a b]"),
    ("a line end in a label", "[a\nb]: /u\n\n[a b] [a\nb]"),
    ("a tab and a space in a label", "[a \t b]: /u\n\n[a b] [ab]"),
    ("space around a label", "[ a\t]: /u\n\n[a] [\na]"),
    (
        "other space in labels",
        "[a\u{a0}b]: /u\n[\u{a0}]: /v\n\n[a b] [\u{a0}]",
    ),
    (
        "an escaped backslash ends a label",
        "[a\\\\]: /u\n\n[a\\\\] [b][a\\\\]",
    ),
    (
        "an escaped bracket in a label",
        "[a\\]b]: /u\n[c\\[d]: /v\n\n[a\\]b] [c\\[d]",
    ),
    (
        "labels with escapes",
        "[foo!]: /u\n\n[foo\\!] [foo!] [t][foo\\!]",
    ),
    (
        "first of two equal labels",
        "[a]: /1 '1'\n[b]: /2\n[A]: /3\n\n[a] [B] [x][A]",
    ),
];

fn indented() -> Vec<Case> {
    let mut cases = Vec::new();
    for count in 0..5 {
        let spaces = " ".repeat(count);
        let first = format!("{spaces}[foo]: /url\n\n[foo]");
        let second = format!("[a]: b\n{spaces}[foo]: /url\n\n[foo]");
        cases.extend([
            Case::of(format!("{count} spaces before a definition"), first),
            Case::of(
                format!("{count} spaces before the second definition"),
                second,
            ),
        ]);
    }
    cases
}

/// Each of the three kinds of space, where a definition and an inline tail have space.
fn gaps() -> Vec<Case> {
    let mut cases = Vec::new();
    for space in [" ", "\t", "\n", ""] {
        let notes = [
            format!("[a]:{space}/u \"t\"\n\n[a]"),
            format!("[a]: <u>{space}\"t\"\n\n[a]"),
            format!("[a]: /u{space}\n\n[a]"),
            format!("[a]: /u \"t\"{space}\n\n[a]"),
            format!("[a]({space}/u \"t\")"),
            format!("[a](<u>{space}\"t\")"),
            format!("[a](/u{space})"),
            format!("[a](/u \"t\"{space})"),
            format!("[a]({space})"),
        ];
        cases.extend(notes.map(|note| Case::of(format!("space in {note:?}"), note)));
    }
    cases
}
