//! Lines: definitions and spans on later lines, over lines, and after everything that has LFs.

use super::Case;
use crate::second::{LONGEST_NOTE, MOST_BRACKETS_OPEN};

pub fn cases() -> Vec<Case> {
    [
        Case::of_each(DEFINITIONS),
        Case::of_each(SPANS),
        Case::of_each(BRACKETS),
        deep(),
        long(),
    ]
    .into_iter()
    .flatten()
    .collect()
}

const DEFINITIONS: &[(&str, &str)] = &[
    ("one definition to a line", "[a]: 1\n[b]: 2\n[c]: 3"),
    (
        "definitions in several blocks",
        "[a]: b\n[c]: d\n\n[e]: f\n\n\ntext\n\n[g]: h\n[a] [c]\n[e] [g]\n",
    ),
    (
        "label, destination and title over lines",
        "[a\nb\nc]:\n/u\n'd\ne'\n[f]: /v\n\n[f]\n[a b c]",
    ),
    (
        "labels that start and end with an LF",
        "[\na]: /u\n[\n b\n]: /v\n\n[a] [\nb\n]\n[\na][]",
    ),
    (
        "destinations on the next line",
        "[a]:\n/u\n[b]: \n /v\n[c]: /w\n\n[c]",
    ),
    (
        "titles over lines, one of them over a blank one",
        "[a]: /u\n't'\n[b]: /v\n\"t\n\nt\"\n\n[b]",
    ),
    (
        "a title that fails, then a shortcut on the next line",
        "[a]: /u\n\"t\" x\n[a]\n\n[b]: /v",
    ),
    (
        "a definition over lines that fails, then text",
        "[a\nb]: /u v\n[a\nb]\n\n[c]: d",
    ),
    (
        "leading blank lines before a definition",
        "\n \n\t\n   [a]: b\n\n  [a]",
    ),
    ("repeats on later lines", "[a]: 1\n\n[A]: 2\n[a]: 3\n\n[a]"),
    (
        "definitions after paragraphs",
        "[a]\n\n`b\nc`\n\n[a]: /u\n\n[d\ne](f\n'g\n')\n\n[h]: /v",
    ),
];

const SPANS: &[(&str, &str)] = &[
    ("spans on the first line", "[a](b) `c`"),
    ("two spans on each of two lines", "[a](b) `c`\n`d` [e](f)"),
    ("an LF at the start and none at the end", "\n[a](b)"),
    ("LFs at both ends", "\n\n[a](b)\n`c`\n\n\n"),
    ("a link over lines", "x\n[a\nb\nc](d)\ny [e](f)"),
    ("code spans over lines", "x\n`a\nb\nc` `d`\n``\ne\n`` `f`"),
    (
        "a link with code over lines in its text",
        "[a\n`b\nc`\n](d) `e`\n\nx\n[`f`\ng `h`\n](i)",
    ),
    (
        "tails over lines",
        "[a](\n/b\n\"t\nu\"\n) [c](d)\n[e](\n) `f`\n[g](h)",
    ),
    (
        "references over lines",
        "[a\nb]: /u\n\nx [t\nt][a\nb] [a\nb][] [a\nb]\n[a b] `c`",
    ),
    (
        "destinations of definitions on earlier and later lines",
        "[a]: /1\n\n[a] [b]\n[c][b]\n\n\n[b]: /2",
    ),
    (
        "blank lines between paragraphs",
        "[a](b)\n\n\n\n[c](d)\n \n\t\n \t \n`e`\n\n[f](g)",
    ),
    (
        "paragraphs of several lines",
        "a\nb [c](d)\n\ne\nf\n`g` h\n\ni\n[j](k)\n",
    ),
    (
        "backticks that close nothing, over lines",
        "``a\n`b\n[c](d)\n```e\n[f](g)`",
    ),
    (
        "escapes and backslashes before LFs",
        "a\\\n[b](c) \\\\\n`d\\\n` \\[\n[e](f)",
    ),
    (
        "characters that end no line",
        "a\u{b}b\u{c}c\u{85}d\u{2028}e\u{2029}[f](g) `h`\n\n[\u{c}\u{2028}x]: i\n[j]: k",
    ),
    (
        "characters of several bytes",
        "é\n€ [ö](ü)\n😀 `ß`\n\n[é]: €\n\n[é]",
    ),
];

/// Brackets that are open while lines go by.
const BRACKETS: &[(&str, &str)] = &[
    (
        "stray opening brackets over lines",
        "[ a\n[ b\n[c](d)\n[e]\n] [f](g)\n`h`\n] [i](j)",
    ),
    ("stray closing brackets over lines", "]\n[a](b)\n]]\n[c](d)"),
    (
        "a pair around a link, over lines",
        "[a\n[b\n](c)\n](d)\n[e](f) ]\n[g](h)",
    ),
    (
        "pairs inside a link, over lines",
        "[a\n[b]\n[c\n[d]]\ne](f)\n[g](h)",
    ),
    (
        "brackets closed, others opened on later lines",
        "[\n[\n[\n]]]\n\n[\n[\n]\n[a](b)\n[\n[c\n](d)",
    ),
    (
        "brackets that an earlier paragraph left open",
        "[\n[\n[a\n\n](b)\n\n[c\n](d)\n[e](f)",
    ),
    (
        "brackets in code and in escapes, over lines",
        "`[\n[`\n\\[\n[a\n`]`\n\\]\nb](c)",
    ),
];

/// An opening bracket on each line.
fn deep() -> Vec<Case> {
    let open = "[\n".repeat(MOST_BRACKETS_OPEN);
    let close = |count: usize| "]".repeat(count);
    let last = MOST_BRACKETS_OPEN - 1;
    let notes = [
        ("the last a link", format!("{open}](a){}", close(last))),
        ("the first a link", format!("{open}{}](a)", close(last))),
        (
            "one between a link, then others",
            format!("{open}{}](a)\n[b](c)\n[\n[d\n](e)", close(600)),
        ),
        (
            "one more on the next line",
            format!("[a]: b\n\n{open}[a](b)"),
        ),
    ];
    notes
        .map(|(name, note)| {
            let name = format!("1,024 brackets open on as many lines, {name}");
            Case::of(name, note).rows(1, 3)
        })
        .into()
}

/// Many lines, in one note as many as there is room for.
fn long() -> Vec<Case> {
    let end = "[a](b) [d]\n\n[d]: e";
    let most = "\n".repeat(LONGEST_NOTE - end.len()) + end;
    let one_paragraph = "a\n".repeat(2_000) + "[b](c)";
    let [definitions, spans] = ["[a]: b\n", "`c`\n\n"].map(|piece| piece.repeat(100));
    vec![
        Case::of("32,768 bytes, most of them line ends", most)
            .rows(1, 2)
            .page(100),
        Case::of("a link on line 2,001 of a paragraph", one_paragraph).rows(0, 1),
        Case::of(
            "100 definitions and 100 paragraphs, each on its line",
            format!("{definitions}\n{spans}"),
        )
        .rows(100, 100)
        .page(3_000),
    ]
}
