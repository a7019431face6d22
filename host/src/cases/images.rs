//! Images: what opens one, what it holds, its tails and targets, its A.

use super::links::{TAILS, TARGETS};
use super::release::released;
use super::Case;

pub fn cases() -> Vec<Case> {
    let notes = [OPENINGS, PAIRS, ALT, LINES].concat();
    let mut cases: Vec<Case> = notes.iter().map(of_note).collect();
    cases.extend(REFERENCES.iter().map(defined));
    cases.extend(TARGETS.iter().map(target));
    cases.extend(TAILS.iter().map(tail));
    cases.extend(TEXTS.iter().flat_map(with_each_setting));
    cases
}

/// Near what opens an image.
const OPENINGS: &[&str] = &[
    "![a](b)",
    "![a](b 't')",
    "![](b)",
    "![]()",
    "\\![a](b)",
    "\\\\![a](b)",
    "!![a](b)",
    "!!![a](b)",
    "!\\[a](b)",
    "\\!\\[a](b)",
    "! [a](b)",
    "!\n[a](b)",
    "!\n\n[a](b)",
    "!",
    "![",
    "!]",
    "![]",
    "!![",
    "a![b](c)d",
    "é![ü](ß)é",
    "[a]![b](c)",
    "[a](b)![c](d)",
    "![a](b)[c](d)",
    "![a](b)![c](d)",
    "`!`[a](b)",
    "`![a](b)`",
    "`![`a](b)",
    "![a`](b)`",
    "[a](![b](c))",
    "![a](![b](c))",
    "![a](<![b](c)>)",
    "[a](b '![c](d)')",
    "![a]: /u",
    "x\n\n![a]: /u\n\n![b](c)",
];

/// Pairs of both sorts, inside each other and beside each other.
const PAIRS: &[&str] = &[
    "![a] b](c)",
    "![a](b",
    "![a](b c)",
    "![a] (b)",
    "![a](b)]",
    "![a[b](c)",
    "[a![b](c)",
    "![[](b)",
    "[![](b)",
    "![a [b] c](d)",
    "[a ![b] c](d)",
    "![a ![b] c](d)",
    "![a [b](c) d](e)",
    "![a ![b](c) d](e)",
    "[a ![b](c) d](e)",
    "[![a](b)](c)",
    "[![[a](b)](c)](d)",
    "![![[a](b)](c)](d)",
    "[![![a](b)](c)](d)",
    "![[![a](b)](c)](d)",
    "[[![a](b)](c)](d)",
    "![[[a](b)](c)](d)",
    "[[[a](b)](c)](d)",
    "[![a](b) [c](d)](e)",
    "[[a](b) ![c](d)](e)",
    "[![a](b) ![c](d)](e)",
    "[a ![b [c [d](e)] f](g) h](i)",
    "![![a](b)](c) [![d](e)](f)",
    "![a [b](c) ![d](e) `f` g](h 't')",
    "![a](b) `c` [d](e) ![f](g)",
    "![`a`](b) [`c`](d) [![`e`](f)](g)",
];

/// What stands in A, and in the other attributes.
const ALT: &[&str] = &[
    "![a & b < c > d \" e ' f](u)",
    "![\\& \\< \\> \\\" \\] \\a \\*](u)",
    "![a\nb\n c](u)",
    "![  a ](u)",
    "![`a`](u)",
    "![` a ` `  `](u)",
    "![`a\nb`](u)",
    "![`<&>\"`](u)",
    "![`` ` ``](u)",
    "![a <b> c](u)",
    "![[a](b 't')](u)",
    "![![&\"](b 't')](u)",
    "![![![<](a)](b)](c)",
    "![[`a` \\& &](b)](u)",
    "![[](b)![](c)](u)",
    "![Жук ß](u) ЖУК",
    "![é 😀](u)",
    "![!](u)",
    "![a](<b c>)",
    "![a](b&c\\&é)",
    "![a](b \"\")",
    "![a](b '<&>\"')",
    "![a](b 'c\nd')",
    "![a](b 't')!",
];

/// Images over lines.
const LINES: &[&str] = &[
    "x\n![a\nb](c)\ny ![d](e)",
    "![a\n![b\n](c)\n](d)\n![e](f)",
    "[a\n![b](c)\n](d) ![\ne](f)",
    "![\n`a\nb`\n](c\n't\nu') ![d](e)",
    "`a\nb`![c](d\n)![e](f)",
    "![a](b)\n\n\n!\n![c](d)\n",
];

/// References, with a definition of `a` after them.
const REFERENCES: &[&str] = &[
    "![a] ![a][] ![x][a]",
    "![A] ![ a ][] ![x][\nA]",
    "![a][ ]",
    "![a] []",
    "![a]\n[]",
    "![x][y]",
    "![a][y]",
    "![a](b c)",
    "![[a]]",
    "![[a]][a]",
    "![![a]]",
    "![![a]][a]",
    "[![a]]",
    "[![a]][a]",
    "[![a][]][a] ![[a]][a]",
    "![a][b][a]",
    "[a]![a]",
    "![a]![a]",
    "![\\a]",
    "![a\\]",
    "![!a] [!a] [x][!a]",
    "[x][![a]]",
    "\\![a] !\\[a] !![a]",
    "![`a`][a] ![\\&][a]",
    "![a \\! ![a]][a]",
];

/// A name, a note and a sheet.
const TEXTS: &[(&str, &str, &str)] = &[
    (
        "images that the sheet defines",
        "![s] ![s][] ![x][s] [![s]][s]",
        "Screens\n\n[s]: /s.png 'of the sheet'",
    ),
    (
        "images that the note and the sheet define",
        "[n]: /n.png 'in n'\n\n![n] ![s] [n] [s]",
        "[s]: /s.svg 'in s'\n[N]: /t.png",
    ),
    (
        "an image past the note's end",
        "![s]",
        "Some lines of text before it, so that the place is past the note.\n\n[s]: /far.png 'away'",
    ),
    (
        "images in the sheet's paragraphs",
        "![s](a)",
        "![s](b)\n\n![s]\n",
    ),
    (
        "an image of a label with two destinations",
        "![foo]\n\n[foo]: first\n[foo]: second",
        "",
    ),
    (
        "an image of a label with equal repeats",
        "![foo] [foo]\n\n[foo]: first 't'\n[FOO]: <first> (t)",
        "[Foo]: first \"t\"",
    ),
];

fn of_note(note: &&str) -> Case {
    Case::of(format!("{note:?}"), note)
}

fn defined(note: &&str) -> Case {
    let name = format!("{note:?} with [a]");
    Case::of(name, format!("{note}\n\n[a]: /u.png 't'\n")).asking("a")
}

/// An inline image and a definition with this destination and title.
fn target(target: &&str) -> Case {
    let note = format!("![t]({target})\n\n[d]: {target}\n\n![d]");
    Case::of(format!("image with target {target:?}"), note).asking("d")
}

fn tail(tail: &&str) -> Case {
    let note = format!("![foo]{tail}\n\n[foo]: /url \"title\"");
    Case::of(format!("![foo]{tail:?}"), note)
}

/// For no release, and for one.
fn with_each_setting((name, note, sheet): &(&str, &str, &str)) -> [Case; 2] {
    let case = Case::of(*name, note).beside(sheet);
    [released(case.clone()), case]
}
