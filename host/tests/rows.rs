//! The check program `rows`.

use std::io::Write;
use std::process::{Command, Stdio};

/// The program's standard output and exit code for a note on standard input.
fn rows(arguments: &[&str], note: &[u8]) -> (String, Option<i32>) {
    let mut program = Command::new(env!("CARGO_BIN_EXE_rows"))
        .args(arguments)
        .stdin(Stdio::piped())
        .stdout(Stdio::piped())
        .spawn()
        .expect("the program starts");
    let mut input = program.stdin.take().expect("a standard input");
    input.write_all(note).expect("the program reads the note");
    drop(input);
    let output = program.wait_with_output().expect("the program ends");
    let printed = String::from_utf8(output.stdout).expect("output in UTF-8");
    (printed, output.status.code())
}

const NOTE: &[u8] = b"[max]: /q2/max \"June\"\n\nUse [max].\n";

#[test]
fn one_item_a_line() {
    let wanted = "definition 0 1 4 7 14 16 20 1\n\
                  span 5 27 32 28 31 1 7 14 16 20 3\n\
                  page \"<p>Use <a href=\\\"/q2/max\\\" title=\\\"June\\\">max</a>.</p>\\n\"\n";
    assert_eq!(rows(&[], NOTE), (wanted.to_string(), Some(0)));
}

#[test]
fn the_page_alone() {
    let wanted = "<p>Use <a href=\"/q2/max\" title=\"June\">max</a>.</p>\n";
    assert_eq!(rows(&["--page"], NOTE), (wanted.to_string(), Some(0)));
}

#[test]
fn refusals() {
    assert_eq!(rows(&[], b"ab\r"), ("refusal 2 2 0\n".to_string(), Some(1)));
    let deep = format!("[a]: b\n\n{}", "[".repeat(1_025));
    assert_eq!(
        rows(&[], deep.as_bytes()),
        (
            "definition 0 1 2 5 6 0 0 1\nrefusal 4 1032 0\n".to_string(),
            Some(1)
        )
    );
}

#[test]
fn for_a_release() {
    let note = b"[a]: b\n[a]: c\n";
    let rows_of_both = "definition 0 1 2 5 6 0 0 1\ndefinition 0 8 9 12 13 0 0 2\n";
    let refused = (format!("{rows_of_both}refusal 9 2 0\n"), Some(1));
    assert_eq!(rows(&["--release"], note), refused);
    assert_eq!(rows(&["--page", "--release"], note), refused);
    let read = (format!("{rows_of_both}page \"\"\n"), Some(0));
    assert_eq!(rows(&[], note), read);
    assert_eq!(rows(&["--release"], NOTE), rows(&[], NOTE));
}

/// The whole example in a file.
const FILE: &str = concat!(env!("CARGO_MANIFEST_DIR"), "/tests/data/max.md");

#[test]
fn note_in_a_file() {
    assert_eq!(rows(&[FILE], b""), rows(&[], NOTE));
}

/// The whole example as note and as sheet.
#[test]
fn sheet_in_a_file() {
    let (printed, code) = rows(&[FILE, FILE], b"");
    let wanted = [
        "definition 0 1 4 7 14 16 20 1",
        "definition 1 1 4 7 14 16 20 1",
        "span 5 27 32 28 31 1 7 14 16 20 3",
    ];
    let lines: Vec<&str> = printed.lines().take(3).collect();
    assert_eq!((lines.as_slice(), code), (wanted.as_slice(), Some(0)));
}
