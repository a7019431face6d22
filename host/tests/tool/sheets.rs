//! A sheet beside the note: where it may stand, how it is refused, what hides what, odd names.

use std::ffi::OsStr;
use std::os::unix::ffi::OsStrExt;

use crate::run::{self, notice, notice_in, Folder, Ran};

const NOTE: &[u8] = b"[max]: /n/max\n\n[max] [min]\n";
const SHEET: &[u8] = b"Ignored: [max]\n\n[Min]: /s/min 'S'\n[MAX]: /s/max\n";
const PAGE: &str = "<p><a href=\"/n/max\">max</a> <a href=\"/s/min\" title=\"S\">min</a></p>\n";

/// A folder with the note `n` and the sheet `s`.
fn folder(note: &[u8], sheet: &[u8]) -> Folder {
    let folder = Folder::new();
    folder.write("n", note);
    folder.write("s", sheet);
    folder
}

/// The line of a refusal of either text; the enquiry says it too, whatever its label.
fn refused(note: &[u8], sheet: &[u8], status: i32) -> String {
    let folder = folder(note, sheet);
    let run = |words: &[&str]| {
        let words = [words, &["--sheet", "s", "n"]].concat();
        notice_in(folder.path(), &words)
    };
    let line = run::refused(run, status);
    for label in ["a", ""] {
        assert_eq!(run(&["where", label]).bad(status), line, "{label:?}");
    }
    line
}

#[test]
fn before_or_after_the_note_and_from_standard_input() {
    let folder = folder(NOTE, SHEET);
    for words in [
        &["page", "--sheet", "s", "n"][..],
        &["page", "n", "--sheet", "s"],
        &["--sheet", "s", "page", "--", "n"],
    ] {
        let page = notice_in(folder.path(), words).good();
        assert_eq!(page, PAGE, "{words:?}");
    }
    let path = |name| {
        folder
            .path()
            .join(name)
            .to_str()
            .expect("a name")
            .to_string()
    };
    let page = notice(&["page", "--sheet", "-", &path("n")], SHEET).good();
    assert_eq!(page, PAGE, "the sheet from standard input");
    let page = notice(&["page", "--sheet", &path("s"), "-"], NOTE).good();
    assert_eq!(page, PAGE, "the note from standard input");
}

#[test]
fn an_empty_sheet_changes_no_page() {
    let folder = folder(NOTE, b"");
    let run = |words: &[&str]| notice_in(folder.path(), words).good();
    let alone = run(&["page", "n"]);
    assert_eq!(run(&["page", "--sheet", "s", "n"]), alone);
    let alone = run(&["page", "--standalone", "n"]);
    assert_eq!(run(&["page", "--standalone", "--sheet", "s", "n"]), alone);
}

#[test]
fn the_notes_definition_hides_the_sheets() {
    let folder = folder(NOTE, SHEET);
    let run = |words: &[&str]| {
        let words = [words, &["--sheet", "s", "n"]].concat();
        notice_in(folder.path(), &words).good()
    };
    let table = "\
Definitions: 3, hidden: 1, of these different: 1
  FILE  LINE:COLUMN  LABEL  DESTINATION  TITLE     STATE
  n     1:1          max    /n/max       no title  first
  s     3:1          Min    /s/min       \"S\"       first
  s     4:1          MAX    /s/max       no title  HIDDEN by n line 1, DESTINATION DIFFERS

Links: 2
  LINE:COLUMN  KIND      TEXT  DESTINATION  TITLE     DEFINITION
  3:1          shortcut  max   /n/max       no title  n line 1
  3:7          shortcut  min   /s/min       \"S\"       s line 3

Images: none

Code spans: none
";
    assert_eq!(run(&["links"]), table);
    let answer = run(&["where", "max"]);
    assert_eq!(answer, "/n/max, n line 1 (column 8)\n");
    let answer = run(&["where", "min"]);
    assert_eq!(answer, "/s/min, s line 3 (column 8)\n");
}

/// Both texts are one file: each of its definitions hides its own copy.
#[test]
fn the_note_as_its_own_sheet() {
    let folder = folder(NOTE, SHEET);
    let run = |words: &[&str]| notice_in(folder.path(), words).good();
    let alone = run(&["page", "n"]);
    assert_eq!(run(&["page", "--sheet", "n", "n"]), alone);
    let table = run(&["links", "--sheet", "n", "n"]);
    let line = "  n     1:1          max    /n/max       no title  \
                hidden by n line 1, same destination and title\n";
    assert!(table.contains(line), "{table}");
}

#[test]
fn a_sheet_too_long() {
    let longest = [&b"[min]: /s/min\n\n"[..], &vec![b'['; 32_768 - 15]].concat();
    assert_eq!(longest.len(), 32_768);
    let good = folder(b"[min]", &longest);
    let page = notice_in(good.path(), &["page", "--sheet", "s", "n"]).good();
    assert_eq!(page, "<p><a href=\"/s/min\">min</a></p>\n");
    for length in [32_769, 3_000_000] {
        let line = refused(NOTE, &vec![0; length], 1);
        let wanted = format!(
            "s:1:1: refusal 1: the sheet has {length} bytes and may have 32768; \
             take out what no notice cites\n"
        );
        assert_eq!(line, wanted);
    }
}

#[test]
fn no_good_character_in_the_sheet() {
    let zero = "byte 0 stands here; save the file as plain text in UTF-8";
    let carriage_return = "a carriage return (byte 13) stands here; \
                           save the file with LF line ends, not CR LF";
    let ill_formed = "the bytes from 0xE9 on are no UTF-8 character; save the file in UTF-8";
    let cases: [(&[u8], &str, &str); 4] = [
        (b"\0", "1:1", zero),
        (b"[a]: b\r\n", "1:7", carriage_return),
        ("[µg]: x\n[é]: 😀\r".as_bytes(), "2:7", carriage_return),
        (b"ab\n\ncaf\xe9 x", "3:4", ill_formed),
    ];
    for (sheet, place, words) in cases {
        let line = refused(NOTE, sheet, 2);
        assert_eq!(line, format!("s:{place}: refusal 2: {words}\n"));
    }
}

#[test]
fn both_refused() {
    let long = vec![b'a'; 32_769];
    let texts: [&[u8]; 3] = [&long, b"a\r", b"\xff"];
    for note in texts {
        let status = if note.len() > 32_768 { 1 } else { 2 };
        let alone = refused(note, b"", status);
        assert!(alone.starts_with("n:"), "{alone}");
        for sheet in texts {
            assert_eq!(refused(note, sheet, status), alone);
        }
    }
}

/// Refusal 4 is about the note alone, and the refused sheet comes before it.
#[test]
fn too_many_brackets() {
    let deep = vec![b'['; 1_025];
    let [good, bad] = [&b"[a]: b"[..], b"\0"].map(|sheet| folder(&deep, sheet));
    let check = &["check", "--sheet", "s", "n"];
    let ran = notice_in(good.path(), check);
    assert_eq!(ran.status, Some(4));
    assert!(ran.out.starts_with("n:1:1025: refusal 4: "), "{}", ran.out);
    let ran = notice_in(bad.path(), check);
    assert_eq!(ran.status, Some(2));
    assert!(ran.out.starts_with("s:1:1: refusal 2: "), "{}", ran.out);
    let answer = notice_in(good.path(), &["where", "a", "--sheet", "s", "n"]);
    assert_eq!(answer.good(), "b, s line 1 (column 6)\n");
}

#[test]
fn no_definition_in_either() {
    let folder = folder(NOTE, SHEET);
    let run = |label| notice_in(folder.path(), &["where", label, "--sheet", "s", "n"]);
    let line = "n:1:1: refusal 7: no definition in the note or the sheet has this label; \
                'notice links' lists the labels that they have\n";
    assert_eq!(run("mean").bad(7), line);
    assert!(run("[max]").bad(8).starts_with("n:1:1: refusal 8: "));
}

/// Names, what is shown of them, on one line that moves no terminal, and what JSON has.
const ODD_NAMES: [(&[u8], &str, &str); 4] = [
    (b"a b.md", "a b.md", "a b.md"),
    (b"new\nline.md", "new␊line.md", "new\\nline.md"),
    (b"esc\x1b[2J.md", "esc␛[2J.md", "esc\\u001b[2J.md"),
    (
        b"not-\xff-utf8.md",
        "not-\u{fffd}-utf8.md",
        "not-\u{fffd}-utf8.md",
    ),
];

/// Runs the tool on the note `n` beside a sheet of this name.
fn beside(folder: &Folder, name: &[u8], words: &[&str]) -> Ran {
    let words = words.iter().chain(&["n", "--sheet"]);
    let mut words: Vec<&OsStr> = words.map(OsStr::new).collect();
    words.push(OsStr::from_bytes(name));
    notice_in(folder.path(), &words)
}

#[test]
fn odd_names() {
    let folder = folder(b"[a] [b]\n\n[b]: c\n", b"");
    for (name, shown, in_json) in ODD_NAMES {
        folder.write(OsStr::from_bytes(name), b"[A]: x\n[B]: y\n");
        let run = |words: &[&str]| beside(&folder, name, words).good();
        let table = run(&["links"]);
        for part in [
            format!("\n  {shown}  2:1 "),
            format!("  {shown} line 1\n"),
            "  HIDDEN by n line 3, DESTINATION DIFFERS\n".to_string(),
        ] {
            assert!(table.contains(&part), "{part}: {table}");
        }
        let json = run(&["links", "--json"]);
        for part in [
            format!("\"number\": 2, \"file\": \"{in_json}\", "),
            format!("\"definition_file\": \"{in_json}\""),
        ] {
            assert!(json.contains(&part), "{part}: {json}");
        }
        let answer = run(&["where", "a"]);
        assert_eq!(answer, format!("x, {shown} line 1 (column 6)\n"));
    }
}

#[test]
fn refused_by_an_odd_name() {
    let folder = folder(NOTE, b"");
    for (name, shown, _) in ODD_NAMES {
        folder.write(OsStr::from_bytes(name), b"a\r");
        let line = beside(&folder, name, &["page"]).bad(2);
        let start = format!("{shown}:1:2: refusal 2: ");
        assert!(line.starts_with(&start), "{line}");
    }
}
