//! Files that can't be read, and names with odd characters.

use std::ffi::OsStr;
use std::os::unix::ffi::OsStrExt;
use std::os::unix::fs::symlink;
use std::path::Path;

use crate::run::{notice_in, Folder};

const NOTE: &[u8] = b"Take `4 mg`.\n";
const PAGE: &str = "<p>Take <code>4 mg</code>.</p>\n";

/// What every command says of a file that can't be read, be it the note's or the sheet's.
fn unreadable(folder: &Path, name: &str) -> String {
    let page = notice_in(folder, &["page", name]).bad(74);
    for words in [
        &["page", "--standalone"][..],
        &["links"],
        &["links", "--json"],
        &["where", "a"],
        &["check"],
    ] {
        for files in [
            &[name][..],
            &["--sheet", name, "-"],
            &["--sheet", "no-sheet", name],
        ] {
            let words = [words, files].concat();
            assert_eq!(notice_in(folder, &words).bad(74), page, "{words:?}");
        }
    }
    page
}

#[test]
fn files_that_can_not_be_read() {
    let folder = Folder::new();
    symlink("loop", folder.path().join("loop")).expect("a link to itself");
    std::fs::create_dir(folder.path().join("wards")).expect("a folder");
    let names = [
        "missing.md",
        "wards",
        "loop",
        "",
        "/proc/self/mem",
        "no/such/folder",
    ];
    for name in names {
        let err = unreadable(folder.path(), name);
        assert!(err.starts_with(&format!("notice: {name}: ")), "{err}");
        assert_eq!(err.lines().count(), 1, "{err}");
    }
    let long = "x".repeat(5_000);
    assert!(unreadable(folder.path(), &long).ends_with("(os error 36)\n"));
}

#[test]
fn odd_names() {
    let folder = Folder::new();
    let names: [&[u8]; 7] = [
        b"a b.md",
        b"new\nline.md",
        b"esc\x1b[2J.md",
        "µg \u{202e}.md".as_bytes(),
        b"not-\xff-utf8.md",
        b"quote'\"<&>.md",
        b"dir/*?.md",
    ];
    for name in names.map(OsStr::from_bytes) {
        folder.write(name, NOTE);
        let page = notice_in(folder.path(), &[OsStr::new("page"), name]).good();
        assert_eq!(page, PAGE, "{name:?}");
        folder.write(name, b"ab\r\n");
        let ran = notice_in(folder.path(), &[OsStr::new("check"), name]);
        assert_eq!(
            (ran.status, ran.out.lines().count()),
            (Some(2), 1),
            "{name:?}"
        );
        assert!(
            ran.out.contains(".md:1:3: refusal 2: a carriage return"),
            "{}",
            ran.out
        );
        assert!(!ran.out.contains(['\u{1b}', '\u{202e}']), "{}", ran.out);
    }
}

#[test]
fn names_that_start_with_a_dash() {
    let folder = Folder::new();
    folder.write("-x.md", NOTE);
    folder.write("-", NOTE);
    let run = |words: &[&str]| notice_in(folder.path(), words);
    assert_eq!(run(&["page", "--", "-x.md"]).good(), PAGE);
    assert_eq!(run(&["page", "./-x.md"]).good(), PAGE);
    assert_eq!(run(&["page", "./-"]).good(), PAGE);
    assert_eq!(run(&["page", "-"]).good(), "", "standard input is empty");
    assert!(run(&["page", "-x.md"])
        .bad(64)
        .contains("unknown option '-x.md'"));
    let beside = run(&["page", "--sheet", "./-x.md", "--", "-x.md"]);
    assert_eq!(beside.good(), PAGE);
}

#[test]
fn the_title_of_a_standalone_page() {
    let folder = Folder::new();
    let titles = [
        ("</title><script>.md", "title&gt;&lt;script&gt;.md"),
        ("a&b\".md", "a&amp;b&quot;.md"),
        ("dir/two\nlines", "two␊lines"),
    ];
    for (name, title) in titles {
        folder.write(name, NOTE);
        let page = notice_in(folder.path(), &["page", "--standalone", name]).good();
        assert!(
            page.contains(&format!("\n<title>{title}</title>\n")),
            "{page}"
        );
        assert!(page.starts_with("<!DOCTYPE html>\n<html>\n<head>\n<meta charset=\"utf-8\">\n"));
        assert!(page.ends_with(&format!("<body>\n{PAGE}</body>\n</html>\n")));
    }
}
