//! Images (document 02, request 5).

use crate::compared::{compare, compare_beside};
use crate::run::{self, notice};

const NOTE: &str = "[s]: /s.png 'S'\n\n![a ![b](c) `d`](<e f>) [![s]](g)\n\\![s] ![x][s]!\n";

fn run(words: &[&str], note: &str) -> String {
    notice(&[words, &["-"]].concat(), note.as_bytes()).good()
}

#[test]
fn images_are_listed_by_themselves() {
    let table = "\
Definitions: 1, hidden: 0
  LINE:COLUMN  LABEL  DESTINATION  TITLE  STATE
  1:1          s      /s.png       \"S\"    first

Links: 2
  LINE:COLUMN  KIND      TEXT  DESTINATION  TITLE     DEFINITION
  3:25         inline    ![s]  g            no title  none needed
  4:3          shortcut  s     /s.png       \"S\"       line 1

Images: 4
  LINE:COLUMN  KIND      DESCRIPTION    DESTINATION  TITLE     DEFINITION
  3:5          inline    b              c            no title  none needed
  3:1          inline    a ![b](c) `d`  <e f>        no title  none needed
  3:26         shortcut  s              /s.png       \"S\"       line 1
  4:7          full      x              /s.png       \"S\"       line 1

Code spans: 1
  LINE:COLUMN  CODE
  3:13         d
";
    assert_eq!(run(&["links"], NOTE), table);
    let page = "<p><img src=\"e%20f\" alt=\"a b d\" /> <a href=\"g\"><img src=\"/s.png\" alt=\"s\" \
                title=\"S\" /></a>\n!<a href=\"/s.png\" title=\"S\">s</a> <img src=\"/s.png\" alt=\"x\" \
                title=\"S\" />!</p>\n";
    assert_eq!(run(&["page"], NOTE), page);
    assert_eq!(run(&["where", "S"], NOTE), "/s.png, line 1 (column 6)\n");
    assert_eq!(run(&["check"], NOTE), "");
}

/// A picture is let in and is no wider than the page.
#[test]
fn pictures_of_a_whole_document() {
    let document = run(&["page", "--standalone"], NOTE);
    assert!(document.contains(&run(&["page"], NOTE)));
    assert!(document.contains("img-src * data: file:;"), "{document}");
    let style = document.lines().find(|line| line.starts_with("img { "));
    assert!(style.is_some_and(|style| style.contains(" max-width: 100%;")));
}

/// The place of refusal 4 is the `[`.
#[test]
fn too_many_brackets() {
    let refused = |note: String| {
        run::refused(
            |words| notice(&[words, &["-"]].concat(), note.as_bytes()),
            4,
        )
    };
    for (note, place) in [
        ("![".repeat(1_025), "1:2050"),
        (format!("é\n\n{}![", "[![".repeat(512)), "3:1538"),
        (format!("![a](b)\n{}", "![".repeat(1_025)), "2:2050"),
    ] {
        let line = refused(note);
        assert!(
            line.starts_with(&format!("-:{place}: refusal 4: ")),
            "{line}"
        );
    }
    assert_eq!(run(&["check"], &"![".repeat(1_024)), "");
    // What the line advises helps.
    assert_eq!(run(&["check"], &"!\\[".repeat(1_025)), "");
}

#[test]
fn against_the_second_reader() {
    let notes = [
        NOTE,
        "![",
        "![a",
        "![a]",
        "!![a](b)",
        "![](<> \"\")",
        "![\n](a\n'b\n')",
        "[![[a](b)](c)](d)",
        "![[![a](b)](c)](d \"&\")",
        "![s][] ![S] ![t][ s ] ![s][t] ![é][s]",
        "![\u{1b}[2J](\u{7f}) ![\u{202e}a](b '\u{a0}')",
    ];
    for note in notes {
        compare(note);
        compare_beside(note, "x\n\n[s]: /s.png\n[S]: /t.png 'T'\n");
        compare_beside(note, NOTE);
    }
}
