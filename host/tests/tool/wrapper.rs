//! The wrapper at the repository's root, with a stand-in for the kit and for cargo.

use std::os::unix::fs::symlink;
use std::process::{Command, Stdio};

use crate::run::{Folder, Ran, TOOL};

const WRAPPER: &str = concat!(env!("CARGO_MANIFEST_DIR"), "/../notice");
const NOTE: &[u8] = b"Take `4 mg`.\n";
const PAGE: &str = "<p>Take <code>4 mg</code>.</p>\n";
const LIBRARY: &str = "repository/crates/notice_c/out/libnotice_c.a";
const BUILT: &str = "repository/host/target/release/notice";

/// A repository whose `rt` and `cargo` note each call in the file `calls`.
fn repository() -> Folder {
    let folder = Folder::new();
    folder.write("repository/crates/notice_c/src/lib.rt", b"");
    folder.write("repository/crates.txt", b"");
    folder.write("repository/host/src/lib.rs", b"");
    folder.write("repository/host/build.rs", b"");
    folder.write("repository/host/Cargo.toml", b"");
    folder.write("ward/note.md", NOTE);
    let wrapper = folder.path().join("repository/notice");
    system(Command::new("cp").arg(WRAPPER).arg(wrapper));
    program(&folder, "rt", "mkdir -p out && echo x >out/libnotice_c.a");
    program(
        &folder,
        "cargo",
        &format!("mkdir -p host/target/release && cp '{TOOL}' host/target/release/notice"),
    );
    folder
}

/// Runs a program of the system. What is run later is written by such a one: a file that this process has open
/// for writing can't be run, nor one that another test's child has got from it.
fn system(command: &mut Command) {
    let status = command.status();
    assert!(status.is_ok_and(|status| status.success()), "{command:?}");
}

/// A program that stands in for another: it reads its input, notes the call and does `work`.
fn program(folder: &Folder, name: &str, work: &str) {
    let calls = folder.path().join("calls");
    let script = format!(
        "#!/bin/sh\ncat\necho \"{name} $*\" >>'{}'\necho chatter\necho chatter >&2\n{work}\n",
        calls.display()
    );
    let path = folder.path().join("bin").join(name);
    let write = "mkdir -p \"${2%/*}\" && printf %s \"$1\" >\"$2\" && chmod 755 \"$2\"";
    let words = ["-c", write, "sh", &script];
    system(Command::new("sh").args(words).arg(path));
}

/// Sets the time of a file to so many seconds from now.
fn touch(folder: &Folder, name: &str, seconds: i32) {
    let time = format!("{seconds} seconds");
    let path = folder.path().join(name);
    system(Command::new("touch").args(["-d", &time]).arg(path));
}

/// Runs the wrapper in the folder `ward` with the note on standard input.
fn run(folder: &Folder, wrapper: &str, words: &[&str]) -> Ran {
    let path = std::env::var("PATH").expect("a search path");
    let bin = folder.path().join("bin");
    let output = Command::new(wrapper)
        .args(words)
        .env("PATH", format!("{}:{path}", bin.display()))
        .current_dir(folder.path().join("ward"))
        .stdin(Stdio::from(
            std::fs::File::open(folder.path().join("ward/note.md")).expect("the note"),
        ))
        .output();
    Ran::of(output.expect("the wrapper runs"))
}

/// The programs called since the last question.
fn calls(folder: &Folder) -> Vec<String> {
    let path = folder.path().join("calls");
    let calls = std::fs::read_to_string(&path).unwrap_or_default();
    let _ = std::fs::remove_file(path);
    calls.lines().map(str::to_string).collect()
}

const RT: &str = "rt lib";
const CARGO: &str = "cargo build --release --offline --bin notice \
                     --manifest-path host/Cargo.toml --target-dir host/target";

#[test]
fn builds_what_is_missing_and_runs_the_tool() {
    let folder = repository();
    let first = run(&folder, "../repository/notice", &["page", "note.md"]);
    assert_eq!((first.status, first.out.as_str()), (Some(0), PAGE));
    assert_eq!(first.err.lines().count(), 2, "{}", first.err);
    assert!(first
        .err
        .lines()
        .all(|line| line.starts_with("notice: building ")));
    assert_eq!(calls(&folder), [RT, CARGO]);
    assert_eq!(
        run(&folder, "../repository/notice", &["page", "note.md"]).good(),
        PAGE
    );
    assert_eq!(calls(&folder), [""; 0]);
}

#[test]
fn leaves_standard_input_to_the_tool() {
    let folder = repository();
    let ran = run(&folder, "../repository/notice", &["page", "-"]);
    assert_eq!((ran.status, ran.out.as_str()), (Some(0), PAGE));
}

#[test]
fn passes_arguments_and_the_exit_status_on() {
    let folder = repository();
    run(&folder, "../repository/notice", &["--version"]);
    let ran = run(
        &folder,
        "../repository/notice",
        &["where", "a  \"*'$x", "note.md"],
    );
    assert!(ran.bad(7).starts_with("note.md:1:1: refusal 7: "));
    assert!(run(&folder, "../repository/notice", &[])
        .bad(64)
        .contains("no command"));
    symlink("../repository/notice", folder.path().join("bin/notice")).expect("a link");
    assert_eq!(
        run(&folder, "../bin/notice", &["page", "note.md"]).good(),
        PAGE
    );
}

#[test]
fn builds_again_what_is_older_than_its_sources() {
    let folder = repository();
    run(&folder, "../repository/notice", &["--version"]);
    calls(&folder);
    touch(&folder, LIBRARY, -60);
    run(&folder, "../repository/notice", &["--version"]);
    assert_eq!(calls(&folder), [RT, CARGO]);
    touch(&folder, BUILT, -60);
    run(&folder, "../repository/notice", &["--version"]);
    assert_eq!(calls(&folder), [CARGO]);
    touch(&folder, "repository/host/src/lib.rs", 60);
    run(&folder, "../repository/notice", &["--version"]);
    assert_eq!(calls(&folder), [CARGO]);
}

#[test]
fn says_what_could_not_be_built() {
    let folder = repository();
    program(&folder, "rt", "echo not proved >&2; exit 1");
    let err = run(&folder, "../repository/notice", &["page", "note.md"]).bad(69);
    assert!(err.contains("\nnot proved\n"), "{err}");
    assert!(
        err.ends_with("notice: can't build the proved library: rt failed\n"),
        "{err}"
    );
    assert_eq!(calls(&folder), [RT]);
    program(&folder, "rt", "true");
    let err = run(&folder, "../repository/notice", &["page", "note.md"]).bad(69);
    assert!(
        err.ends_with("notice: can't build the proved library: rt failed\n"),
        "{err}"
    );
}
