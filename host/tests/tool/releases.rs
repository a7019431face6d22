//! Releases: conflicting definitions stop them, in one line that names both places.

use std::ffi::OsStr;
use std::os::unix::ffi::OsStrExt;

use crate::run::{notice, notice_in, said_alike, Folder, Ran};

/// The commands that take the setting, after `check`.
const PAGES: [&[&str]; 2] = [
    &["page", "--release"],
    &["page", "--release", "--standalone"],
];

/// The line that stops a release, after every command that can said it alike; without the setting the note
/// passes.
fn stopped_by(run: impl Fn(&[&str]) -> Ran) -> String {
    assert_eq!(run(&["check"]).good(), "");
    run(&["page"]).good();
    run(&["links"]).good();
    said_alike(run, &["check", "--release"], &PAGES, 9)
}

/// The same of a note on standard input.
fn stopped(note: &str) -> String {
    stopped_by(|words| notice(&[words, &["-"]].concat(), note.as_bytes()))
}

/// The words after the place and the number.
fn words(note: &str) -> String {
    let line = stopped(note);
    let (_, words) = line
        .split_once(": refusal 9: ")
        .expect("a line of refusal 9");
    words.trim_end_matches('\n').to_string()
}

/// A folder with the note `n` and the sheet `s`.
fn folder(note: &str, sheet: &str) -> Folder {
    let folder = Folder::new();
    folder.write("n", note.as_bytes());
    folder.write("s", sheet.as_bytes());
    folder
}

/// The line that stops the note beside the sheet.
fn stopped_beside(note: &str, sheet: &str) -> String {
    let folder = folder(note, sheet);
    stopped_by(|words| notice_in(folder.path(), &[words, &["--sheet", "s", "n"]].concat()))
}

/// A release is not stopped, and its page is the one without the setting.
fn passes(note: &str, sheet: &str) {
    let folder = folder(note, sheet);
    let run = |words: &[&str]| {
        let words = [words, &["--sheet", "s", "n"]].concat();
        notice_in(folder.path(), &words).good()
    };
    assert_eq!(run(&["check", "--release"]), "", "{note:?} {sheet:?}");
    assert_eq!(run(&["page", "--release"]), run(&["page"]));
    let whole = run(&["page", "--standalone"]);
    assert_eq!(run(&["page", "--standalone", "--release"]), whole);
}

#[test]
fn destinations_that_differ() {
    let note = "Use [max rate].\n\n\n[max rate]: /q1/max\n\nText.\n\n  [max rate]: /q2/max\n";
    let line = "-:8:3: refusal 9: \"[max rate]\" opens /q2/max here and /q1/max at line 4; \
                keep one\n";
    assert_eq!(stopped(note), line);
}

/// P12 of document 01.
#[test]
fn the_example_of_document_01() {
    let line = "-:4:1: refusal 9: \"[foo]\" opens second here and first at line 3; keep one\n";
    assert_eq!(stopped("[foo]\n\n[foo]: first\n[foo]: second"), line);
}

#[test]
fn titles_that_differ() {
    let cases = [
        (
            " 'A'",
            " 'B'",
            "with the title \"B\" and with the title \"A\"",
        ),
        (" 'A'", "", "with no title and with the title \"A\""),
        ("", " \"B\"", "with the title \"B\" and with no title"),
        ("", " ''", "with an empty title and with no title"),
        (" ()", "", "with no title and with an empty title"),
        (
            " (A)",
            " \"\"",
            "with an empty title and with the title \"A\"",
        ),
        (
            " ' '",
            " 'A\nB'",
            "with the title \"A␊B\" and with the title \"␠\"",
        ),
        (
            " 'A'",
            " 'a'",
            "with the title \"a\" and with the title \"A\"",
        ),
        (
            " '!'",
            " '\\!'",
            "with the title \"\\!\" and with the title \"!\"",
        ),
    ];
    for (first, second, said) in cases {
        let note = format!("[a]: /x{first}\n[b]: /y\n[a]: </x>{second}\n");
        let wanted = format!("\"[a]\" opens /x here {said} at line 1; keep one");
        assert_eq!(words(&note), wanted, "{note:?}");
    }
}

/// The destinations are enough to tell the two apart.
#[test]
fn destinations_and_titles_that_differ() {
    let wanted = "\"[a]\" opens y here and x at line 1; keep one";
    for titles in [(" 'A'", " 'B'"), ("", " 'B'"), (" 'A'", ""), ("", " ''")] {
        let note = format!("[a]: x{}\n[a]: y{}", titles.0, titles.1);
        assert_eq!(words(&note), wanted, "{note:?}");
    }
}

#[test]
fn odd_destinations() {
    let cases = [
        ("<>", "<no x>", "<no x>", "<>"),
        ("x", "<>", "<>", "x"),
        ("<my uri>", "<a\tb\u{1b}>", "a␉b␛", "<my uri>"),
        ("5\u{a0}mg", "5\u{202e}mg", "5⟨U+202E⟩mg", "5⟨U+00A0⟩mg"),
        ("/a_b", "/a\\_b", "/a\\_b", "/a_b"),
        ("X", "x", "x", "X"),
        ("/é", "/e\u{301}", "/e\u{301}", "/é"),
    ];
    for (first, second, here, there) in cases {
        let note = format!("[a]: {first}\n[a]: {second}\n");
        let wanted = format!("\"[a]\" opens {here} here and {there} at line 1; keep one");
        assert_eq!(words(&note), wanted, "{note:?}");
    }
    let wanted = "\"[a]\" opens <> here with the title \"t\" and with no title at line 1; keep one";
    assert_eq!(words("[a]: <>\n[a]: <> 't'"), wanted);
}

/// The label is the later one's, as it is written there.
#[test]
fn odd_labels() {
    let cases = [
        ("max rate", "MAX\nrate", "MAX␊rate"),
        ("a b", " A\t b ", "␠A␉ b␠"),
        ("a\u{1b}\\[2J", "A\u{1b}\\[2J", "A␛\\[2J"),
        ("5\u{a0}mg\u{7f}", "5\u{a0}MG\u{7f}", "5⟨U+00A0⟩MG␡"),
        ("a\\]", "A\\]", "A\\]"),
        ("\"", "\"", "\""),
        ("é😀 µ", "é😀  µ", "é😀  µ"),
    ];
    for (first, second, shown) in cases {
        let note = format!("[{first}]: x\n\n[{second}]: y\n");
        let said = format!("\"[{shown}]\" opens y here and x at line 1; keep one");
        assert_eq!(stopped(&note), format!("-:3:1: refusal 9: {said}\n"));
    }
    let long = "x".repeat(999);
    let note = format!("[{long}]: a\n[{long}]: b");
    assert!(words(&note).starts_with(&format!("\"[{long}]\" opens b here ")));
}

/// The first definition that differs from an earlier one is named, and of those the first.
#[test]
fn the_first_of_several() {
    let note = "[a]: x\n[b]: y\n[A]: x\n[B]: y 't'\n[a]: z\n[b]: z\n";
    let line = "-:4:1: refusal 9: \"[B]\" opens y here with the title \"t\" \
                and with no title at line 2; keep one\n";
    assert_eq!(stopped(note), line);
    let note = "[a]: x\n[A]: x\n[c]: z\n[a]: <x>\n[ a ]: y\n[a]: x\n";
    let line = "-:5:1: refusal 9: \"[␠a␠]\" opens y here and x at line 1; keep one\n";
    assert_eq!(stopped(note), line);
}

#[test]
fn beside_a_sheet() {
    let (note, sheet) = ("\n[a]: x\n[b]: y\n", "[c]: z\n\n [A]: x 't'\n");
    let in_each = "s:3:2: refusal 9: \"[A]\" opens x here with the title \"t\" \
                   and with no title at line 2 of n; keep one\n";
    assert_eq!(stopped_beside(note, sheet), in_each);
    let in_sheet = "s:3:1: refusal 9: \"[b]\" opens z here and x at line 1; keep one\n";
    assert_eq!(
        stopped_beside("[a]: x", "[b]: x\n\n[b]: z\n[a]: z"),
        in_sheet
    );
    let in_note = "n:2:1: refusal 9: \"[b]\" opens z here and x at line 1; keep one\n";
    assert_eq!(stopped_beside("[b]: x\n[b]: z", "[b]: y\n[c]: x"), in_note);
    let both = "s:1:1: refusal 9: \"[b]\" opens y here and x at line 1 of n; keep one\n";
    assert_eq!(stopped_beside("[b]: x", "[b]: y\n[b]: z"), both);
}

#[test]
fn either_text_from_standard_input() {
    let folder = folder("[a]: x", "[a]: y");
    let path = |name| folder.path().join(name).into_os_string();
    let said = |words: &[&OsStr], text: &[u8]| notice(words, text).bad(9);
    let [page, release, sheet, dash] = ["page", "--release", "--sheet", "-"].map(OsStr::new);
    let (n, s) = (path("n"), path("s"));
    let words = "refusal 9: \"[a]\" opens y here and x at line 1 of";
    let line = said(&[page, release, sheet, dash, &n], b"[a]: y");
    assert_eq!(line, format!("-:1:1: {words} {}; keep one\n", n.display()));
    let line = said(&[page, release, sheet, &s, dash], b"[a]: x");
    assert_eq!(line, format!("{}:1:1: {words} -; keep one\n", s.display()));
}

#[test]
fn odd_names() {
    let folder = Folder::new();
    let names: [(&[u8], &str); 3] = [
        (b"new\nline", "new␊line"),
        (b"esc\x1b[2J", "esc␛[2J"),
        (b"not-\xff", "not-\u{fffd}"),
    ];
    folder.write("s", b"[a]: y");
    for (name, shown) in names {
        let name = OsStr::from_bytes(name);
        folder.write(name, b"[a]: x");
        let [check, release, sheet, s] = ["check", "--release", "--sheet", "s"].map(OsStr::new);
        let ran = notice_in(folder.path(), &[check, release, sheet, s, name]);
        let words = "refusal 9: \"[a]\" opens y here and x at line 1 of";
        assert_eq!(ran.out, format!("s:1:1: {words} {shown}; keep one\n"));
        let ran = notice_in(folder.path(), &[check, release, sheet, name, s]);
        let words = "refusal 9: \"[a]\" opens x here and y at line 1 of s";
        assert_eq!(ran.out, format!("{shown}:1:1: {words}; keep one\n"));
    }
}

#[test]
fn repeats_that_are_the_same_pass() {
    let repeats = "[a]: <b> \"t\"\n[A]: b 't'\n[\ta ]:\nb\n(t)\n[c]: <>\n[c]:\n  <>\n\n[a] [c]";
    passes(repeats, "");
    passes("[a] [c]", repeats);
    passes(repeats, repeats);
    passes("[a]: x ''\n[a]: x \"\"", "[a]: x ()");
    // Labels that are not equal, and what is no definition.
    passes(
        "[a!]: x\n[a\\!]: y\n[k]: x\n[\u{212a}]: y",
        "[ab]: x\n[a b]: y",
    );
    passes(
        "[a]: x\ntext\n[a]: y\n\n[a](y) [a][a]",
        "[b]: x\n\ntext\n[a]: z",
    );
    passes("", "");
}
