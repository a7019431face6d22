//! Refusals: number, place, words, and on which output they stand.

use std::ffi::OsStr;
use std::os::unix::ffi::OsStrExt;

use crate::run::{self, notice, notice_in, Folder};

/// The line of a refusal of the note.
fn refused(note: &[u8], status: i32) -> String {
    run::refused(|words| notice(&[words, &["-"]].concat(), note), status)
}

/// What the enquiry says of a note and a label that it refuses.
fn enquiry_refused(label: &[u8], note: &[u8], status: i32) -> String {
    let words = [
        OsStr::new("where"),
        OsStr::from_bytes(label),
        OsStr::new("-"),
    ];
    notice(&words, note).bad(status)
}

#[test]
fn too_long() {
    let longest = vec![b'a'; 32_768];
    assert_eq!(notice(&["check", "-"], &longest).good(), "");
    assert_eq!(notice(&["page", "-"], &longest).good().len(), 32_768 + 8);
    for length in [32_769, 70_000, 3_000_000] {
        let note = vec![b'\0'; length];
        let line = refused(&note, 1);
        let wanted = format!(
            "-:1:1: refusal 1: the note has {length} bytes and may have 32768; \
             split it into shorter notices\n"
        );
        assert_eq!(line, wanted);
        assert_eq!(enquiry_refused(b"", &note, 1), wanted);
    }
}

#[test]
fn no_good_character() {
    let carriage_return = "a carriage return (byte 13) stands here; \
                           save the file with LF line ends, not CR LF";
    let zero = "byte 0 stands here; save the file as plain text in UTF-8";
    let ill_formed =
        |byte| format!("the bytes from 0x{byte} on are no UTF-8 character; save the file in UTF-8");
    let cases: [(&[u8], &str, String); 9] = [
        (b"\0", "1:1", zero.to_string()),
        (b"a\r\n", "1:2", carriage_return.to_string()),
        (
            "µg\n[é]: 😀\r".as_bytes(),
            "2:7",
            carriage_return.to_string(),
        ),
        (b"ab\n\ncaf\xe9 x", "3:4", ill_formed("E9")),
        (b"\xff\xfea\0", "1:1", ill_formed("FF")),
        (b"a\n\xe2\x82", "2:1", ill_formed("E2")),
        (b"\xc3\xa9\xc3\xa9\x80", "1:3", ill_formed("80")),
        (b"x\xed\xa0\x80", "1:2", ill_formed("ED")),
        (b"\t\t\xf8\xff\r", "1:3", ill_formed("F8")),
    ];
    for (note, place, words) in cases {
        let wanted = format!("-:{place}: refusal 2: {words}\n");
        assert_eq!(refused(note, 2), wanted);
        assert_eq!(enquiry_refused(b"", note, 2), wanted);
    }
}

#[test]
fn too_many_brackets() {
    let words = "this bracket opens while 1024 are open, the most there may be; \
                 close some, or write \\[ where a bracket is only text";
    let deep = |count| "[".repeat(count);
    for (note, place) in [
        (deep(1_025), "1:1025"),
        (format!("[é]: é\n\nµg\né {}]", deep(1_030)), "4:1027"),
        (format!("{}\n\n[]{}", deep(1_024), deep(1_025)), "3:1027"),
        (format!("`[`\\[{}", deep(1_025)), "1:1030"),
    ] {
        let line = refused(note.as_bytes(), 4);
        assert_eq!(line, format!("-:{place}: refusal 4: {words}\n"));
    }
    let good = format!("{}\n\n{}", deep(1_024), deep(1_024));
    assert_eq!(notice(&["check", "-"], good.as_bytes()).good(), "");
    // The enquiry reads no paragraph.
    let note = format!("[a]: b\n\n{}", deep(1_025));
    let answer = notice(&["where", "a", "-"], note.as_bytes()).good();
    assert_eq!(answer, "b, line 1 (column 6)\n");
}

#[test]
fn no_definition() {
    let line = "-:1:1: refusal 7: no definition in the note has this label; \
                'notice links' lists the labels that it has\n";
    for (label, note) in [
        ("a", ""),
        ("a", "[b]: c"),
        ("a!", "[a\\!]: c"),
        ("e", "[É]: c"),
        ("\u{1e9e}", "[ß]: c"),
        (&"x".repeat(999), "[x]: c"),
    ] {
        assert_eq!(enquiry_refused(label.as_bytes(), note.as_bytes(), 7), line);
    }
}

#[test]
fn not_one_label() {
    let line = "-:1:1: refusal 8: this is not one label; give it without its brackets, \
                not blank, in at most 999 characters, with \\[ and \\] for brackets inside it\n";
    let long = "é".repeat(1_000);
    let labels: [&[u8]; 10] = [
        b"",
        b" \t\n",
        b"[max]",
        b"max]",
        b"a[b",
        b"max\\",
        b"a\rb",
        b"\xff",
        b"max\xe2\x82",
        long.as_bytes(),
    ];
    for label in labels {
        let said = enquiry_refused(label, b"[max]: /q2/max\n", 8);
        assert_eq!(said, line, "{label:?}");
    }
}

#[test]
fn destinations_that_are_empty_or_odd() {
    let note = "[empty]: <>\n[space]: <my uri>\n[é\\]]:\n  /é\u{200b}\n[tab]: <a\tb\u{1b}>\n";
    let long = "x".repeat(999);
    let answers = [
        ("empty", "<>, line 1 (column 11)\n"),
        ("space", "<my uri>, line 2 (column 11)\n"),
        ("é\\]", "/é⟨U+200B⟩, line 4 (column 3)\n"),
        ("tab", "a␉b␛, line 5 (column 9)\n"),
        (&long, "long, line 6 (column 1004)\n"),
    ];
    let note = format!("{note}[{long}]: long\n");
    for (label, wanted) in answers {
        let answer = notice(&["where", label, "-"], note.as_bytes()).good();
        assert_eq!(answer, wanted, "{label:?}");
    }
}

/// Refusals 1 and 2 of either text come before 9, and 9 before 4.
#[test]
fn a_release_among_other_refusals() {
    let run = |note: &[u8], sheet: &[u8], words: &[&str]| {
        let folder = Folder::new();
        folder.write("n", note);
        folder.write("s", sheet);
        let ran = notice_in(folder.path(), &[words, &["--sheet", "s", "n"]].concat());
        (ran.status, ran.out)
    };
    let conflict = b"[a]: x\n[a]: y\n\n";
    let long = [&conflict[..], &vec![b'a'; 32_768]].concat();
    let bad = [&conflict[..], b"\xff"].concat();
    let deep = [&conflict[..], &vec![b'['; 1_025]].concat();
    for (note, sheet, status, start) in [
        (&long[..], &conflict[..], 1, "n:1:1: refusal 1: "),
        (&bad, conflict, 2, "n:4:1: refusal 2: "),
        (conflict, &long, 1, "s:1:1: refusal 1: "),
        (conflict, &bad, 2, "s:4:1: refusal 2: "),
        (&deep, &bad, 2, "s:4:1: refusal 2: "),
    ] {
        let released = run(note, sheet, &["check", "--release"]);
        assert_eq!(released, run(note, sheet, &["check"]));
        assert_eq!(released.0, Some(status));
        assert!(released.1.starts_with(start), "{}", released.1);
    }
    let (status, line) = run(&deep, b"", &["check"]);
    assert_eq!(status, Some(4));
    assert!(line.starts_with("n:4:1025: refusal 4: "), "{line}");
    let (status, line) = run(&deep, b"", &["check", "--release"]);
    assert_eq!(status, Some(9));
    assert!(line.starts_with("n:2:1: refusal 9: "), "{line}");
    let alone = [&b"[a]: x\n\n"[..], &vec![b'['; 1_025]].concat();
    let (status, _) = run(&alone, b"[a]: x", &["check", "--release"]);
    assert_eq!(status, Some(4), "no conflict");
}
