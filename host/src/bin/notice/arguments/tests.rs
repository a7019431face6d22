//! Command lines and what they ask for.

use super::{parse, Command};
use crate::fault::Fault;
use crate::texts::Files;
use std::ffi::OsString;

fn parsed(line: &str) -> Result<Command, Fault> {
    parse(line.split_whitespace().map(OsString::from))
}

fn files(note: &str, sheet: Option<&str>) -> Files {
    Files {
        note: note.into(),
        sheet: sheet.map(OsString::from),
    }
}

#[test]
fn options_stand_anywhere_before_the_dashes() {
    let page = |standalone| Command::Page {
        standalone,
        release: false,
        files: files("a", None),
    };
    assert_eq!(parsed("page a").unwrap(), page(false));
    assert_eq!(parsed("page a --standalone").unwrap(), page(true));
    assert_eq!(parsed("--standalone page a").unwrap(), page(true));
    let named = Command::Check {
        release: false,
        files: files("--help", None),
    };
    assert_eq!(parsed("check -- --help").unwrap(), named);
    assert_eq!(parsed("check a --help").unwrap(), Command::Help);
}

#[test]
fn a_release_is_asked_of_page_and_check() {
    let page = |standalone, release| Command::Page {
        standalone,
        release,
        files: files("a", None),
    };
    assert_eq!(parsed("page --release a").unwrap(), page(false, true));
    for line in [
        "page --release --standalone a",
        "--standalone page a --release",
        "page --release --standalone --release a",
    ] {
        assert_eq!(parsed(line).unwrap(), page(true, true), "{line}");
    }
    let check = |note| Command::Check {
        release: true,
        files: files(note, Some("b")),
    };
    assert_eq!(parsed("check --release a --sheet b").unwrap(), check("a"));
    let named = parsed("check --sheet b --release -- --release");
    assert_eq!(named.unwrap(), check("--release"));
}

#[test]
fn a_sheet_stands_before_or_after_the_note() {
    let check = || Command::Check {
        release: false,
        files: files("a", Some("b")),
    };
    assert_eq!(parsed("check a --sheet b").unwrap(), check());
    assert_eq!(parsed("check --sheet b a").unwrap(), check());
    assert_eq!(parsed("--sheet b check -- a").unwrap(), check());
    let enquiry = Command::Where {
        label: "--sheet".into(),
        files: files("a", Some("-")),
    };
    assert_eq!(
        parsed("where --sheet - -- --sheet a").unwrap(),
        enquiry,
        "after the dashes it is a name"
    );
    assert_eq!(parsed("check --sheet --help").unwrap(), Command::Help);
    assert_eq!(
        parsed("check --sheet a --sheet b --help").unwrap(),
        Command::Help
    );
}

#[test]
fn a_lone_dash_is_a_name() {
    let enquiry = || Command::Where {
        label: "-".into(),
        files: files("-", None),
    };
    assert_eq!(parsed("where - -").unwrap(), enquiry());
    assert_eq!(parsed("-- where - -").unwrap(), enquiry());
}

#[test]
fn wrong_usage() {
    let lines = [
        "",
        "--",
        "-",
        "pages a",
        "page",
        "page a b",
        "page --json a",
        "links --standalone a",
        "check --json a",
        "where a",
        "where a b c",
        "where -x a",
        "check -v a",
        "links --release a",
        "links --json --release a",
        "where --release a b",
        "check --standalone --release a",
        "page --release --json a",
        "check --released a",
        "--release",
        "check --release",
        "check --sheet --release a",
        "--json",
        "check a --sheet",
        "check --sheet -- a",
        "links a --sheet --json",
        "check --sheet a",
        "check a --sheet b --sheet b",
        "check --sheet - -",
        "where a - --sheet -",
    ];
    for line in lines {
        assert!(matches!(parsed(line), Err(Fault::Usage(_))), "{line:?}");
    }
}
