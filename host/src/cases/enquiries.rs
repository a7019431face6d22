//! Enquiries: equal and unequal labels, bytes that are no label, each kind of destination, and the
//! order of refusals 1, 2, 8, 7.

use super::Case;
use crate::second::LONGEST_NOTE;

pub fn cases() -> Vec<Case> {
    [
        labels(),
        long_labels(),
        equal_labels(),
        destinations(),
        blocks(),
        refusals(),
    ]
    .into_iter()
    .flatten()
    .collect()
}

fn labels() -> Vec<Case> {
    let note = "[max]: /a\\*b \"June\"\n[MAX]: /c\n\n [x\ny]: <>\n\n[p]\n[q]: /r\n";
    let labels: [&[u8]; 22] = [
        b"max",
        b"Max",
        b"\tMAX\n",
        b" x  y\n\n",
        b"x\\ y",
        b"p",
        b"q",
        b"/c",
        b"",
        b" ",
        b"\n\t",
        b"[",
        b"]",
        b"a]",
        b"a[b",
        b"[max]",
        b"max\\",
        b"max\\]",
        b"max\r",
        b"\0max",
        b"max\xc3",
        b"\xed\xa0\x80",
    ];
    let case = |label: &[u8]| {
        Case::of(
            format!("enquiry for {:?}", label.escape_ascii().to_string()),
            note,
        )
        .asking(label)
    };
    labels.map(case).into()
}

fn long_labels() -> Vec<Case> {
    let mut cases = Vec::new();
    for count in [999, 1_000] {
        let spaced = format!("a{}b", " ".repeat(count - 2));
        let wide = "é".repeat(count);
        let defined = format!("[{}]: /u", "é".repeat(999));
        cases.extend([
            Case::of(
                format!("enquiry for {count} characters, most of them spaces"),
                "[a b]: /u",
            )
            .asking(spaced),
            Case::of(
                format!("enquiry for {count} characters of two bytes"),
                defined,
            )
            .asking(wide),
        ]);
    }
    cases
}

fn equal_labels() -> Vec<Case> {
    let pairs = [
        ("foo\\!", "foo!"),
        ("foo!", "foo\\!"),
        ("foo\\!", "FOO\\!"),
        ("É", "é"),
        ("É", "É"),
        ("a", "ab"),
        ("ab", "a"),
        ("a b", "ab"),
        ("@", "`"),
        ("\\[", "\\{"),
    ];
    let case = |(defined, label): (&str, &str)| {
        let name = format!("enquiry for {label:?}, {defined:?} is defined");
        Case::of(name, format!("[{defined}]: /u")).asking(label)
    };
    pairs.map(case).into()
}

fn destinations() -> Vec<Case> {
    let targets = [
        "<>",
        "<a b>",
        "<a\\>b>",
        "/a\\)b",
        "/ä(b(c))",
        "a\"b\"",
        "\n/u\n\"t\"",
        "/u\n\"t\" x",
        "<a>b",
    ];
    let case = |target: &str| {
        let name = format!("enquiry for the destination of {target:?}");
        Case::of(name, format!("[a]: {target}")).asking("a")
    };
    targets.map(case).into()
}

fn blocks() -> Vec<Case> {
    let last = "a ".repeat(16_378) + "\n\n[b]: /cdef";
    let many: String = (0..2_000).map(|k| format!("[l{k}]: /{k}\n")).collect();
    vec![
        Case::of(
            "enquiry, the second of two blocks",
            "text\n\n[b]: /1\n\n[a]: /2",
        )
        .asking("A"),
        Case::of(
            "enquiry, defined within a paragraph",
            "text\n[a]: /1\n\n[b]: /2",
        )
        .asking("a"),
        Case::of("enquiry, an empty note", "").asking("a"),
        Case::of("enquiry, at the end of 32,768 bytes", last)
            .rows(1, 0)
            .asking("B"),
        Case::of("enquiry, the last of 2,000 definitions", many)
            .rows(1, 0)
            .page(0)
            .asking("L1999"),
    ]
}

/// Enquiries for which more than one refusal applies, or one that the enquiry does not give.
fn refusals() -> Vec<Case> {
    let deep = "[".repeat(1_025) + "\n\n[a]: /u";
    let long = "\r".repeat(LONGEST_NOTE + 1);
    vec![
        Case::of("enquiry, a note too deep to be marked", deep)
            .rows(1, 0)
            .page(0)
            .asking("a"),
        Case::of(
            "enquiry, a bad byte in the note and in the label",
            "[a]: /u \r",
        )
        .asking("\0"),
        Case::of("enquiry, a bad byte in the note and no label", "[a]: /u \r").asking("]"),
        Case::of("enquiry, a note too long and no label", long)
            .rows(0, 0)
            .page(0)
            .asking(""),
    ]
}
