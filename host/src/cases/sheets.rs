//! Sheets: definitions beside the note, which of two equal labels is first, and what of a sheet is not read.

use super::Case;

pub fn cases() -> Vec<Case> {
    [
        lookups(),
        of_each(DEFINITIONS),
        of_each(PAGES),
        of_each(PARAGRAPHS),
        of_each(SEAMS),
        labels(),
    ]
    .into_iter()
    .flatten()
    .collect()
}

/// A case for each name, note and sheet.
fn of_each(list: &[(&str, &str, &str)]) -> Vec<Case> {
    let case = |(name, note, sheet): &(&str, &str, &str)| Case::of(*name, note).beside(sheet);
    list.iter().map(case).collect()
}

/// Labels that the note defines, the sheet, both and neither.
fn lookups() -> Vec<Case> {
    let note =
        "[both]: /n \"of the note\"\n[own]: /o\n\n[both] [own]\n[shared] [neither] [x](/i 'in')\n";
    let sheet =
        "Limits\n\n[shared]: /s \"of the sheet\"\n\n[BOTH]: /b 'hidden'\n[shared]: /t\n[e]: <>\n";
    let asked = ["both", "own", "Shared", "e", "neither", "x", "", "]"];
    let case = |label: &str| {
        let name = format!("a note and a sheet, {label:?} asked for");
        Case::of(name, note).beside(sheet).asking(label)
    };
    asked.map(case).into()
}

const DEFINITIONS: &[(&str, &str, &str)] = &[
    (
        "all definitions in the sheet",
        "[a] [b][] [t][c]",
        "[a]: 1\n[b]: 2\n[c]: 3",
    ),
    (
        "a sheet that nothing in the note needs",
        "[a](b) `c`",
        "[a]: /s\n[d]: /t\n",
    ),
    ("a sheet beside an empty note", "", "[a]: /s 't'\n\n[b]: /t"),
    ("a sheet of blank lines", "[a]", " \n\t\n\n"),
    (
        "an equal label in both texts",
        "[a]: /n\n\n[a]",
        "[a]: /s\n[b]: /t",
    ),
    (
        "an equal label in both texts, the note's after its use",
        "[A]\n\n[a]: /n 'n'",
        "[ a ]: /s 's'",
    ),
    (
        "labels that the note repeats and the sheet repeats",
        "[a]: 1\n[A]: 2\n\n[a] [b]",
        "[b]: 3\n[a]: 4\n[B]: 5\n[a]: 6",
    ),
    (
        "every definition of the sheet is hidden",
        "[a]: 1\n[b]: 2 't'\n\n[a] [b] [x][A]",
        "[B]: 3\n\n[a]: 4 'u'",
    ),
    (
        "note and sheet of the same bytes",
        "[a]: /u 't'\n[b]: /v\n\n[b] [a]\n",
        "[a]: /u 't'\n[b]: /v\n\n[b] [a]\n",
    ),
    (
        "a full reference that only the sheet defines",
        "[foo]: /u\n\n[foo][bar] [foo][baz]",
        "[bar]: /s",
    ),
    (
        "a text that only the sheet defines, before an undefined label",
        "[foo][bar]",
        "[foo]: /s",
    ),
    (
        "a link in a link, both defined by the sheet",
        "[a [b]][c] [d `e`][b]",
        "[b]: /b\n[c]: /c",
    ),
    (
        "definitions of the sheet on later lines",
        "x\ny\n\n[a] [b] [c]",
        "\n\n[a]:\n/1\n'q\nr'\n   [b]: /2\n\n\n[c\n]: /3",
    ),
    (
        "lines of the note before and after a definition of the sheet",
        "\n\n\n\n\n\n\n\n[b] [n]\n\n[n]: /n",
        "[a]: 1\n\n[b]: 2",
    ),
    (
        "bytes past 127 in both texts",
        "é [ä] [ö]\n\n[ö]: /ü 'ß'",
        "ñ\n\n[ä]: <€ 😀> (ø)",
    ),
];

/// Destinations and titles that lie in one text or the other.
const PAGES: &[(&str, &str, &str)] = &[
    (
        "destinations and titles at the same places in both texts",
        "[a]: /note 'in n'\n\n[a] [b]",
        "[b]: /over 'in s'\n\n[a] [b]",
    ),
    (
        "a sheet longer than the note",
        "[b]",
        "Some lines of text before it, so that the place is past the note.\n\n[b]: /far 'away'",
    ),
    (
        "a note longer than the sheet",
        "Some text before it, so that the place is past the sheet: [a] [b]\n\n[a]: /far 'away'",
        "[b]: /s",
    ),
    (
        "an inline link beside a sheet",
        "[a](/note 'n') [b](<> '')",
        "0123456789abcdefghijklmnopqrstuvwxyz",
    ),
    (
        "no title in the sheet, one in the note",
        "[a]: /n 'n'\n\n[a] [b] [c]",
        "[b]: /s\n[c]: <> \"\"",
    ),
    (
        "escapes and quotes in the sheet's destination and title",
        "[a] [b]",
        "[a]: /\\*&\"é \"<\\\"&>\"\n[b]: <\\<x y\\>> 'p\nq'",
    ),
    (
        "a reference to each text, one after the other",
        "[s][] [n][] [t][s] [t][n] [s] [n]\n\n[n]: /n1 'n2'",
        "[s]: /s1 's2'",
    ),
];

/// What of a sheet is not read.
const PARAGRAPHS: &[(&str, &str, &str)] = &[
    (
        "paragraphs of the sheet",
        "[a] x\n",
        "A [a](b) `c`\n\n[a]: /s\n[a] <d>\n\n`e` [a]",
    ),
    (
        "a sheet without definitions",
        "[a](b)",
        "[c](d) `e` [a]\n\nf",
    ),
    (
        "a definition within a paragraph of the sheet",
        "[a] [b]",
        "x\n[a]: /s\n\n[b]: /t y",
    ),
    (
        "backticks and brackets left open in the sheet",
        "[a] `b` [c]",
        "`` [ [ `\n\n[a]: /s\n[ `",
    ),
    ("paragraphs of the sheet alone", "", "[a](b)\n\n`c`\n"),
];

/// A note that ends where the sheet could go on.
const SEAMS: &[(&str, &str, &str)] = &[
    ("a destination in the sheet", "[a]:", "/s"),
    (
        "a destination in the sheet, on its line",
        "[a]:\n",
        "/s\n\n[a]",
    ),
    ("a title in the sheet", "[a]: /n\n", "'t'\n\n[a]"),
    (
        "a title that the sheet closes",
        "[a]: /n 't",
        "u'\n\n[b]: /s",
    ),
    ("a label that the sheet closes", "[a", "b]: /s\n\n[a b]: /t"),
    ("a code span that the sheet closes", "`a", "b`\n\n[b]: /s"),
    ("a link that the sheet closes", "[a", "](b)\n\n[c]: /s"),
    ("a tail in the sheet", "[a]", "(b)\n\n[c]: /s"),
    ("a label in the sheet", "[a]", "[b]\n\n[b]: /s"),
    ("a colon in the sheet", "[a]", ": /s"),
    (
        "a paragraph before a definition of the sheet",
        "a\n",
        "[b]: /s",
    ),
    (
        "a definition before one of the sheet",
        "[a]: /n",
        "\n[b]: /s",
    ),
    ("a character in two halves", "[a](é)", "[b]: é"),
];

/// Labels of the sheet at their limits, and labels equal over the two texts.
fn labels() -> Vec<Case> {
    let mut cases = Vec::new();
    for count in [999, 1_000] {
        let [label, upper] = ["é", "A"].map(|character| character.repeat(count));
        let name = format!("label of {count} characters in the sheet");
        let note = format!("[{label}] [{}]", "a".repeat(count));
        let sheet = format!("[{label}]: /s\n[{upper}]: /t");
        cases.push(Case::of(name, note).beside(sheet).asking(upper));
    }
    let sheet = "[ Max\trate ]: /s\n[foo\\!]: /t\n[É]: /u";
    for label in ["max RATE", "maxrate", "foo!", "FOO\\!", "é", "É"] {
        let name = format!("{label:?} beside labels of the sheet");
        let note = format!("[{label}] [x][{label}]");
        cases.push(Case::of(name, note).beside(sheet).asking(label));
    }
    cases
}
