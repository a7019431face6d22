//! Output that can't be written, and large pages.

use std::fs::File;
use std::io::Write;
use std::process::{Command, Stdio};

use crate::run::{notice, Ran, TOOL};

const COMMANDS: [&[&str]; 5] = [
    &["page", "-"],
    &["page", "--standalone", "-"],
    &["links", "-"],
    &["links", "--json", "-"],
    &["where", "a", "-"],
];

/// Runs the tool with this standard output.
fn with_output(words: &[&str], note: &[u8], out: Stdio) -> Ran {
    let mut tool = Command::new(TOOL)
        .args(words)
        .stdin(Stdio::piped())
        .stdout(out)
        .stderr(Stdio::piped())
        .spawn()
        .expect("the tool starts");
    // The reader of a pipe goes before the tool has anything to write.
    drop(tool.stdout.take());
    let mut input = tool.stdin.take().expect("a standard input");
    // Help comes without reading the note.
    let _ = input.write_all(note);
    drop(input);
    Ran::of(tool.wait_with_output().expect("the tool ends"))
}

#[test]
fn a_closed_pipe_ends_it_quietly() {
    let note = b"[a]: b\n\n`x` [a]\n";
    for words in COMMANDS {
        let err = with_output(words, note, Stdio::piped()).bad(74);
        assert_eq!(err, "", "{words:?}");
    }
    let err = with_output(&["check", "-"], b"\0", Stdio::piped()).bad(74);
    assert_eq!(err, "");
}

#[test]
fn a_full_disk_is_said() {
    let note = b"[a]: b\n\n`x` [a]\n";
    let full = || File::create("/dev/full").expect("a device that is full");
    for words in COMMANDS.iter().copied().chain([&["--help"][..]]) {
        let err = with_output(words, note, full().into()).bad(74);
        assert!(err.starts_with("notice: can't write the output: "), "{err}");
    }
}

#[test]
fn a_page_much_longer_than_its_note() {
    let bars = 5_000;
    let references = 1_000;
    let note = format!("[a]: {}\n\n{}", "|".repeat(bars), "[a] ".repeat(references));
    let link = format!("<a href=\"{}\">a</a> ", "%7C".repeat(bars));
    let wanted = format!("<p>{}</p>\n", link.repeat(references));
    let page = notice(&["page", "-"], note.as_bytes()).good();
    assert!(page == wanted, "{} bytes, not {}", page.len(), wanted.len());
}

#[test]
fn nothing_to_show() {
    for note in ["", "\n", " \t\n\n", "[a]: b", "text"] {
        let ran = notice(&["links", "-"], note.as_bytes()).good();
        assert!(
            ran.ends_with("\nLinks: none\n\nImages: none\n\nCode spans: none\n"),
            "{note:?}"
        );
        notice(&["links", "--json", "-"], note.as_bytes()).good();
        assert_eq!(notice(&["check", "-"], note.as_bytes()).good(), "");
    }
    assert_eq!(notice(&["page", "-"], b"").good(), "");
    assert_eq!(
        notice(&["links", "--json", "-"], b"").good(),
        "{\n\"definitions\": [],\n\"links\": [],\n\"images\": [],\n\"code_spans\": []\n}\n"
    );
}
