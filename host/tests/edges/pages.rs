//! The page.

use super::{html_of, page};

#[test]
fn text_of_the_page() {
    assert_eq!(
        page("a & b < c > d \" e ' f"),
        "<p>a &amp; b &lt; c &gt; d &quot; e ' f</p>\n"
    );
    assert_eq!(
        page("\\& \\< \\\" \\a \\"),
        "<p>&amp; &lt; &quot; \\a \\</p>\n"
    );
    assert_eq!(page("a  \nb\\\nc"), "<p>a  \nb\\\nc</p>\n");
    // Marks that are not read yet.
    assert_eq!(page("&amp; *a* <d>"), "<p>&amp;amp; *a* &lt;d&gt;</p>\n");
    // Every escape, and every other backslash.
    for byte in (1..128_u8).filter(|byte| *byte != 13) {
        let character = char::from(byte);
        let html = html_of(character);
        let escaped = matches!(byte, 33..=47 | 58..=64 | 91..=96 | 123..=126);
        let backslash = if escaped { "" } else { "\\" };
        assert_eq!(
            page(&format!("\\{character}.")),
            format!("<p>{backslash}{html}.</p>\n")
        );
    }
}

#[test]
fn destinations_of_the_page() {
    let link = |href: &str| format!("<p><a href=\"{href}\">a</a></p>\n");
    assert_eq!(
        page("[a](-_.~!*'();:@=+$,/?%#azAZ09)"),
        link("-_.~!*'();:@=+$,/?%#azAZ09")
    );
    assert_eq!(page("[a](b&c)"), link("b&amp;c"));
    assert_eq!(page("[a](<b c\t>)"), link("b%20c%09"));
    assert_eq!(
        page("[a](\"\\\\^`{|}[]\\<\\>)"),
        link("%22%5C%5E%60%7B%7C%7D%5B%5D%3C%3E")
    );
    assert_eq!(page("[a](b\\c\\&)"), link("b%5Cc&amp;"));
    assert_eq!(page("[a](é€😀)"), link("%C3%A9%E2%82%AC%F0%9F%98%80"));
    assert_eq!(page("[a](<\u{7f}\u{1}>)"), link("%7F%01"));
    assert_eq!(
        page("[a](b '\\'<&>\"\\b\n')"),
        "<p><a href=\"b\" title=\"'&lt;&amp;&gt;&quot;\\b\n\">a</a></p>\n"
    );
}
