//! The command line.

use crate::run::notice;

const NOTE: &[u8] = b"[max]: /q2/max \"June\"\n\nUse [max].\n";
const PAGE: &str = "<p>Use <a href=\"/q2/max\" title=\"June\">max</a>.</p>\n";

#[test]
fn help_and_version() {
    let help = notice(&["--help"], b"").good();
    assert!(help.starts_with("notice: ") && help.ends_with('\n'));
    for line in help.lines() {
        assert!(line.chars().count() <= 80, "{line:?}");
    }
    for words in [
        &["-h"][..],
        &["page", "--help"],
        &["links", "x", "--help"],
        &["where", "--help"],
        &["check", "--help", "a", "b", "c"],
        &["--unknown", "--help"],
    ] {
        assert_eq!(notice(words, b"").good(), help, "{words:?}");
    }
    let version = format!("notice {}\n", env!("CARGO_PKG_VERSION"));
    assert_eq!(notice(&["--version"], b"").good(), version);
    assert_eq!(notice(&["page", "-V"], b"").good(), version);
}

#[test]
fn help_names_every_command_option_and_status() {
    let help = notice(&["--help"], b"").good();
    for word in [
        "page",
        "links",
        "where",
        "check",
        "--standalone",
        "--json",
        "--sheet FILE",
        "--release",
        "--",
    ] {
        assert!(help.contains(word), "{word}");
    }
    for status in [
        "0", "1", "2", "4", "7", "8", "9", "64", "69", "70", "71", "74",
    ] {
        assert!(help.contains(&format!("\n{status:>4}  ")), "{status}");
    }
}

/// Says what is wrong, and where to read on.
fn assert_wrong(words: &[&str], wanted: &str) {
    let err = notice(words, NOTE).bad(64);
    assert!(
        err.starts_with(&format!("notice: {wanted}")),
        "{words:?}: {err}"
    );
    assert!(
        err.ends_with("See notice --help for how it is used.\n"),
        "{words:?}"
    );
}

#[test]
fn wrong_usage() {
    let lines: [(&[&str], &str); 14] = [
        (&[], "no command given"),
        (&["--"], "no command given"),
        (&["--json"], "unknown option '--json'"),
        (&["-"], "unknown command '-'"),
        (&[""], "unknown command ''"),
        (&["show", "-"], "unknown command 'show'"),
        (&["sh\now", "-"], "unknown command 'sh␊ow'"),
        (&["page"], "exactly one FILE is needed"),
        (&["page", "a", "b"], "exactly one FILE is needed"),
        (&["check", "--json", "-"], "unknown option '--json'"),
        (&["page", "--json", "-"], "unknown option '--json'"),
        (&["links", "-j", "-"], "unknown option '-j'"),
        (&["where", "max"], "where needs a LABEL and one FILE"),
        (&["where", "-max", "-"], "unknown option '-max'"),
    ];
    for (words, wanted) in lines {
        assert_wrong(words, wanted);
    }
}

#[test]
fn a_release_of_commands_that_have_none() {
    let unknown = "unknown option '--release'";
    let lines: [(&[&str], &str); 6] = [
        (&["links", "--release", "-"], unknown),
        (&["links", "--json", "-", "--release"], unknown),
        (&["where", "--release", "max", "-"], unknown),
        (&["--release"], unknown),
        (
            &["check", "--release=yes", "-"],
            "unknown option '--release=yes'",
        ),
        (&["page", "--release"], "exactly one FILE is needed"),
    ];
    for (words, wanted) in lines {
        assert_wrong(words, wanted);
    }
}

#[test]
fn wrong_sheets() {
    let no_file = "--sheet needs a FILE after it";
    let one = "only one --sheet may be given";
    let both = "standard input (-) can't be both the notice and the sheet";
    let lines: [(&[&str], &str); 10] = [
        (&["--sheet"], no_file),
        (&["check", "--sheet", "--release", "-"], no_file),
        (&["page", "-", "--sheet"], no_file),
        (&["links", "--sheet", "--json", "-"], no_file),
        (&["check", "--sheet", "--", "-"], no_file),
        (&["page", "--sheet", "a", "--sheet", "a", "-"], one),
        (&["page", "--sheet", "a"], "exactly one FILE is needed"),
        (&["page", "--sheet=a", "-"], "unknown option '--sheet=a'"),
        (&["check", "--sheet", "-", "-"], both),
        (&["where", "max", "-", "--sheet", "-"], both),
    ];
    for (words, wanted) in lines {
        assert_wrong(words, wanted);
    }
}

#[test]
fn dashes() {
    for words in [
        &["page", "-"][..],
        &["page", "--", "-"],
        &["--", "page", "-"],
    ] {
        assert_eq!(notice(words, NOTE).good(), PAGE, "{words:?}");
    }
    let note = b"[-]: dash\n[--help]: help\n";
    let answer = notice(&["where", "-", "-"], note).good();
    assert_eq!(answer, "dash, line 1 (column 6)\n");
    let answer = notice(&["where", "--", "--help", "-"], note).good();
    assert_eq!(answer, "help, line 2 (column 11)\n");
}

#[test]
fn options_before_and_after_names() {
    let wanted = notice(&["links", "--json", "-"], NOTE).good();
    for words in [
        &["links", "-", "--json"][..],
        &["--json", "links", "-"],
        &["links", "--json", "--json", "--", "-"],
    ] {
        assert_eq!(notice(words, NOTE).good(), wanted, "{words:?}");
    }
    for words in [
        &["page", "--release", "-"][..],
        &["--release", "page", "-"],
        &["page", "-", "--release", "--release"],
    ] {
        assert_eq!(notice(words, NOTE).good(), PAGE, "{words:?}");
    }
}
