//! Images on the page (document 02, request 5): `<img src="D" alt="A" title="T" />`.

use super::{html_of, page};
use host::second::{self, SPAN_ROW_WIDTH};

/// The page of an image with this A, and what follows it in its tag.
fn image(alt: &str, after: &str) -> String {
    format!("<p><img src=\"u\" alt=\"{alt}\"{after} /></p>\n")
}

/// The A of a description.
fn check_alt(description: &str, alt: &str) {
    let note = format!("![{description}](u)");
    assert_eq!(page(&note), image(alt, ""), "{description:?}");
}

#[test]
fn text_in_alt() {
    check_alt("", "");
    check_alt("pump screen", "pump screen");
    check_alt(
        "a & b < c > d \" e ' f",
        "a &amp; b &lt; c &gt; d &quot; e ' f",
    );
    check_alt("\\& \\< \\\" \\] \\a", "&amp; &lt; &quot; ] \\a");
    check_alt("a\nb  \n c", "a\nb  \n c");
    check_alt("  a ", "  a ");
    check_alt("é😀 <b>!</b>", "é😀 &lt;b&gt;!&lt;/b&gt;");
    // What is no link and no image stands there as it is.
    check_alt("[a] ![b] ![] \\[", "[a] ![b] ![] [");
}

#[test]
fn code_in_alt() {
    check_alt("`x`", "x");
    check_alt("a `` ` `` b", "a ` b");
    check_alt("` x ` `  ` `\ny\nz\n`", "x    y z");
    check_alt("`<&>\"\\]`", "&lt;&amp;&gt;&quot;\\]");
}

#[test]
fn links_and_images_in_alt() {
    check_alt("[a](b \"t\")", "a");
    check_alt("x [a `b` \\*](c) y", "x a b * y");
    check_alt("![a](b \"t\")", "a");
    check_alt("![](b)", "");
    check_alt("1 ![2 ![3](a) 4](b) 5", "1 2 3 4 5");
    check_alt("![a [b](c) `d`](e)", "a b d");
    check_alt("[![&](b)](c)", "&amp;");
    check_alt("![![\"](b)](c)", "&quot;");
}

/// Every escape, and every other backslash.
#[test]
fn every_character_in_alt() {
    for byte in (1..128_u8).filter(|byte| !matches!(*byte, 13 | b'[' | b']' | b'`' | b'\\')) {
        let character = char::from(byte);
        let html = html_of(character);
        check_alt(&format!("{character}."), &format!("{html}."));
        let backslash = if character.is_ascii_punctuation() {
            ""
        } else {
            "\\"
        };
        check_alt(&format!("\\{character}."), &format!("{backslash}{html}."));
    }
}

#[test]
fn titles_of_images() {
    assert_eq!(page("![a](u \"t\")"), image("a", " title=\"t\""));
    assert_eq!(page("![a](u \"\")"), image("a", ""));
    assert_eq!(page("![a](u ())"), image("a", ""));
    assert_eq!(
        page("![a](u '\\'<&>\"\\b\n')"),
        image("a", " title=\"'&lt;&amp;&gt;&quot;\\b\n\"")
    );
    assert_eq!(
        page("![a](<b c\\>&é> (t))"),
        "<p><img src=\"b%20c%3E&amp;%C3%A9\" alt=\"a\" title=\"t\" /></p>\n"
    );
}

/// Where `![` opens no image it stays on the page; nothing else of an image does.
#[test]
fn marks_of_images() {
    assert_eq!(page("![a"), "<p>![a</p>\n");
    assert_eq!(page("![a](b"), "<p>![a](b</p>\n");
    assert_eq!(page("![a]![b]"), "<p>![a]![b]</p>\n");
    assert_eq!(
        page("a ![b](u)!"),
        "<p>a <img src=\"u\" alt=\"b\" />!</p>\n"
    );
    assert_eq!(page("!![a](u)]"), "<p>!<img src=\"u\" alt=\"a\" />]</p>\n");
}

/// A row too few, and a byte too few.
#[test]
fn too_little_lent_for_images() {
    let note = b"![a ![b](c)](d 't')";
    let html = "<p><img src=\"d\" alt=\"a b\" title=\"t\" /></p>\n";
    let lend = |rows: usize, bytes: usize| {
        let answer = second::render(note, b"", false, 0, rows * SPAN_ROW_WIDTH, bytes);
        (answer.number, answer.value, answer.span_count, answer.page)
    };
    let length = html.len();
    assert_eq!(length, 43);
    assert_eq!(lend(1, 0), (5, 2, 0, None));
    assert_eq!(lend(2, length - 1), (6, length, 0, None));
    assert_eq!(lend(2, length), (0, 0, 2, Some(html.as_bytes().to_vec())));
}
