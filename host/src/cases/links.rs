//! Destinations and titles, tails, links and code spans.

use super::Case;

pub fn cases() -> Vec<Case> {
    [targets(), tails(), notes()]
        .into_iter()
        .flatten()
        .collect()
}

/// Destinations and titles.
pub(super) const TARGETS: &[&str] = &[
    "<b<c>",
    "<b\\<c>",
    "<b\\>",
    "<b\\>c>",
    "<b\\\\>",
    "<b\nc>",
    "<b c>",
    "<b>c",
    "<b",
    "<>",
    "b<c>",
    "a\u{7f}b",
    "a\u{1}b",
    "a\u{1f}b",
    "\u{7f}",
    "a\u{80}b",
    "a\u{a0}b",
    "a\u{2003}b",
    "a(b",
    "a)b",
    "a(b)c",
    "(a)(b)",
    "((a)",
    "a\\(b",
    "a\\)b",
    "a(\\)b)",
    "a\\\\)",
    "(a\\\\)",
    "u (t\\)u)",
    "u (t(u)",
    "u (t(u))",
    "u (t\\(u)",
    "u (t",
    "u (t\\\\)",
    "u 't\\'u'",
    "u 't'u'",
    "u 't\\\\'",
    "u \"t\\\"u\"",
    "u \"t\"u\"",
    "u \"t\\\\\"",
    "u \"t\nu\"",
    "u 't\"u'",
    "u ()",
    "u ''",
    "<> \"\"",
    "u\"t\"",
    "<u>\"t\"",
    "u \"t\" v",
    "u \"t\" \"u\"",
];

/// What follows `[foo]`.
pub(super) const TAILS: &[&str] = &[
    "[ ]",
    "[]",
    " []",
    "\n[]",
    "[\n]",
    "[bar]",
    "[foo][]",
    "(",
    "()",
    "( )",
    "(\n)",
    "(a",
    "(a b)",
    "(a \"t\")",
    "(a\"t\")",
    "(<b>\"t\")",
    "(<b> \"t\")",
    "(<b >)",
    "(\"t\")",
    "(a 't' )",
    "(a\n\"t\"\n)",
    "(a\n\n\"t\")",
    "(<a\nb>)",
    "(<>)",
    "(\\))",
    "[b[]",
    "[foo",
    "[FOO]",
    "[ foo ]",
    "[f\\oo]",
    " (a)",
    " [bar]",
    "[b\\]",
];

/// Links, references and code spans; among them the readings that look right.
const NOTES: &[&str] = &[
    "[foo][bar]\n\n[foo]: /url",
    "[a [b](c) d](e)",
    "[a`](b)`",
    "[foo\\!] [foo!]\n\n[foo!]: /url",
    "`a``b`",
    "``a`b``",
    "`` ` ``",
    "\\`a`b`",
    "`a\\`b`",
    "```a``b```",
    "`a\n\nb`",
    "[a][b]\n\n[b]: /1\n[B]: /2",
    "![a](b)",
    "[a]\n(b)",
    "[a\n\nb](c)",
    "\\[a](b)",
    "[a\\](b)",
    "[a](b)[c](d)`e`",
    "[[a]](b)\n\n[a]: /u",
    "[a][[b]](c)",
    "[a `b` c](/u)",
    "`a` [b](c) `d`",
    "\\``a`",
    "\\\\`a`",
    "`a``",
    "```a``",
    "``a```b``",
    "`a\nb`",
    "`a]` [`b](c)`",
    "[a] b](c)",
    "[a [b] c](d)",
    "[a [b](c) [d](e) f](g)",
    "\\\\[a](b)",
    "[a\\\\](b)",
    "[a\\]](b)",
    "[a](b) [c][d] [d][] [d]\n\n[d]: /u 't'",
    "[a]: /u\n\n[a][] [a] [b][a]",
    "x\n\n[ä] `ö` [ü](u)\n\n[ä]: /u",
];

/// Each in a definition and in an inline tail.
fn targets() -> Vec<Case> {
    let deep = "(".repeat(100) + "a" + &")".repeat(100);
    let mut cases = vec![Case::of(
        "parentheses nested 100 deep",
        format!("[foo]({deep})"),
    )];
    for target in TARGETS {
        let note = format!("[t]({target})\n\n[d]: {target}\n\n[d]");
        cases.push(Case::of(format!("target {target:?}"), note).asking("d"));
    }
    cases
}

fn tails() -> Vec<Case> {
    let case = |tail: &&str| {
        let note = format!("[foo]{tail}\n\n[foo]: /url \"title\"");
        Case::of(format!("[foo]{tail:?}"), note)
    };
    TAILS.iter().map(case).collect()
}

fn notes() -> Vec<Case> {
    let case = |note: &&str| Case::of(format!("{note:?}"), note);
    NOTES.iter().map(case).collect()
}
