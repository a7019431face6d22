//! Releases: definitions that say the same or not, and which of several is the first that differs.

use super::named;
use super::Case;

pub fn cases() -> Vec<Case> {
    let same = SAME.iter().flat_map(|said| pairs("the same", *said));
    let different = DIFFERENT.iter().flat_map(|said| pairs("different", *said));
    let lists = LISTS.iter().map(|(list, _)| {
        let [note, sheet] = written(list);
        let note = note + "\n[a] [x][B]";
        Case::of(format!("definitions {list}"), note).beside(sheet)
    });
    let texts = TEXTS
        .iter()
        .map(|(name, note, sheet)| Case::of(*name, note).beside(sheet));
    let with_each_setting = |case: Case| [released(case.clone()), case];
    let cases = same.chain(different).chain(lists).chain(texts);
    let samples = named::samples().map(released);
    cases.flat_map(with_each_setting).chain(samples).collect()
}

/// The case, named so, for a release.
pub(super) fn released(case: Case) -> Case {
    let name = format!("{}, for a release", case.name);
    Case { name, ..case }.for_release()
}

/// Two definitions that say this, in either order in a note, and one in each text.
fn pairs(name: &str, [one, other]: [&str; 2]) -> [Case; 3] {
    let name = format!("{name}, {one:?} and {other:?}");
    let case = |note: String| Case::of(&name, note + "\n[a]");
    let line = |said: &str| format!("[a]: {said}\n");
    [
        case(line(one) + &line(other)),
        case(line(other) + &line(one)),
        case(line(one)).beside(line(other)),
    ]
}

/// What two definitions say that agree in destination and title.
pub const SAME: &[[&str; 2]] = &[
    ["/1", "/1"],
    ["/1", "</1>"],
    ["/1 't'", "/1 't'"],
    ["/1 \"t\"", "</1> 't'"],
    ["/1 't'", "\n/1\n(t) \t"],
    ["/1 \"\"", "/1 ''"],
    ["/1 ''", "/1 ()"],
    ["<>", "<>"],
    ["<> ()", "\t<>\t\"\""],
    ["<p q> 'p\nq'", "<p q> \"p\nq\""],
    ["/\\* 'it\\'s'", "</\\*> \"it\\'s\""],
];

/// What two definitions say that "differ in destination bytes, title bytes or the presence of a title"
/// (document 02, request 8), one of them more or less than the other, in case, in space, in an escape.
pub const DIFFERENT: &[[&str; 2]] = &[
    ["/1", "/2"],
    ["1/a", "2/a"],
    ["/1/a", "/2/a"],
    ["/1", "/12"],
    ["/1", "/1/1"],
    ["/1", "<>"],
    ["/q2", "/Q2"],
    ["<p q>", "<p  q>"],
    ["<p q>", "p%20q"],
    ["<p>", "<p >"],
    ["<p\\)>", "<p)>"],
    ["p\\q", "pq"],
    ["/é", "/è"],
    ["/1 't'", "/2 't'"],
    ["/1 't'", "/1 'u'"],
    ["/1 't'", "/1 'tu'"],
    ["/1 't'", "/1"],
    ["/1 \"\"", "/1"],
    ["/1 ''", "/1 't'"],
    ["/1 'June'", "/1 'june'"],
    ["/1 'p q'", "/1 'p\nq'"],
    ["/1 'p'", "/1 ' p'"],
    ["/1 'p\\)'", "/1 'p)'"],
    ["/1 '\\''", "/1 \"'\""],
    ["p 'q'", "q 'p'"],
    ["p 'qr'", "pq 'r'"],
];

/// Definitions, of which a letter is the label and a digit the destination; after the bar they are the sheet's.
/// With each list the row number of "the first definition that so differs from an earlier one of equal label",
/// 0 where none does.
pub const LISTS: &[(&str, usize)] = &[
    ("a1", 0),
    ("a1b2", 0),
    ("a1b2a1", 0),
    ("a1A1a1", 0),
    ("a1|b2", 0),
    ("a1|b2A1", 0),
    ("a1b2|a1b2", 0),
    ("|a1b2a1", 0),
    ("a1a2", 2),
    ("a1A2", 2),
    ("a1a1a2", 3),
    ("a1a2a1", 2),
    ("a1a2a2", 2),
    ("a1a2a3", 2),
    ("a1b1a2", 3),
    ("a1b1b2a2", 3),
    ("a1b1a2b2", 3),
    ("b1a1B1A1a2b2", 5),
    ("c1c2a1", 2),
    ("a1|a2", 2),
    ("a1|b1A2", 3),
    ("a1|a1a2", 3),
    ("a1|a2a1", 2),
    ("a1a1|b1a1a2", 5),
    ("a1a2|a1b3", 2),
    ("c1|a1b2a3", 4),
    ("|a1b1a2", 3),
    ("a1b1|c1c2a2", 4),
    ("a1b1|c1b2c2", 4),
];

/// The note and the sheet of a list.
pub fn written(list: &str) -> [String; 2] {
    let (note, sheet) = list.split_once('|').unwrap_or((list, ""));
    [note, sheet].map(|part| {
        let definitions = part.as_bytes().chunks(2);
        let line = |two: &[u8]| format!("[{}]: {}\n", char::from(two[0]), char::from(two[1]));
        definitions.map(line).collect()
    })
}

/// A name, a note and a sheet.
const TEXTS: &[(&str, &str, &str)] = &[
    (
        "a repeat with its label in other case and space",
        "[Max rate]: /1 't'\n[ MAX\n rate ]: /1 't'\n\n[max rate]",
        "[max\nRATE]: </1>\n\"t\"",
    ),
    (
        "a conflict with its label in other case and space",
        "[Max rate]: /1\n[ MAX\n\trate ]: /2\n\n[max rate]",
        "",
    ),
    (
        "a conflict with the sheet, its label in other case and space",
        "[ MAX\nrate ]: /n\n\n[max rate]",
        "[b]: /s\n[Max rate]: /s",
    ),
    (
        "labels that are not equal",
        "[p!]: /1\n[p\\!]: /2\n[É]: /3\n[e]: /4\n[pp]: /5\n[p p]: /6\n\n[p!] [é]",
        "[p]: /7",
    ),
    (
        "what is no definition conflicts with nothing",
        "[a]: /1\n\nx\n[a]: /2\n\n    [a]: /3\n\n[a]: /4 y\n\n`[a]: /5`",
        "x\n[a]: /6\n\n[a](/7)",
    ),
    (
        "a conflict over blocks and paragraphs",
        "x\n\n[a]: /1\n\n[a] `y`\n\n\n[b]: /2\n[A]: /3\nz [a]",
        "",
    ),
    ("definitions alone", "[a]: /1\n[a]: /2", ""),
    (
        "note and sheet alike",
        "[a]: /1 't'\n[b]: <>\n\n[a]",
        "[a]: /1 't'\n[b]: <>\n\n[a]",
    ),
    (
        "a conflict in the sheet, its paragraphs between",
        "[a] [b]",
        "\n\n[a]: /1 't'\n\ny\n\n[a]: /1 'u'",
    ),
    (
        "the same bytes at other places, other bytes at the same",
        "x y\n\n[a]: /1 't'\n\n[a]",
        "[b]: /2 'u' \n[a]: /1 't'\n",
    ),
    (
        "a repeat at the same place, between others",
        "[a]: /1 'n'\n[b]: /2\n\n[a]",
        "[c]: /3 's'\n[b]: /2\n\n[c]",
    ),
];
