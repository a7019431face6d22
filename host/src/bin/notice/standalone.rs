//! What stands around a page so that it is a whole HTML document.

use std::ffi::OsStr;

use crate::files;

/// What comes before the title. Scripts and frames are shut out: a notice has none.
const BEFORE_TITLE: &str = r#"<!DOCTYPE html>
<html>
<head>
<meta charset="utf-8">
<meta name="viewport" content="width=device-width, initial-scale=1">
<meta http-equiv="Content-Security-Policy" content="default-src 'none'; img-src * data: file:; style-src 'unsafe-inline'">
<title>"#;

/// A picture is no wider than the page; where it can't be shown, its description stands in a frame.
const AFTER_TITLE: &str = "</title>
<style>
body { max-width: 40rem; margin: 0 auto; padding: 1rem; font: 1.1rem/1.5 sans-serif; color: #222; background: #fff; overflow-wrap: anywhere; }
code { padding: 0 0.2em; background: #eee; font-family: monospace; white-space: pre-wrap; }
a { color: #0645ad; }
img { max-width: 100%; height: auto; outline: 1px solid #ccc; font-style: italic; white-space: pre-line; }
</style>
</head>
<body>
";

/// What comes after the page.
pub const FOOT: &str = "</body>\n</html>\n";

/// What comes before the page of a file.
pub fn head(file: &OsStr) -> String {
    let title = escaped(&files::title(file));
    [BEFORE_TITLE, &title, AFTER_TITLE].concat()
}

fn escaped(text: &str) -> String {
    text.replace('&', "&amp;")
        .replace('<', "&lt;")
        .replace('>', "&gt;")
        .replace('"', "&quot;")
}

#[cfg(test)]
mod tests {
    use super::{escaped, head};
    use std::ffi::OsStr;

    #[test]
    fn the_title_is_the_last_part_of_the_name_escaped() {
        assert_eq!(
            escaped("a<b>&\"c\"&lt;"),
            "a&lt;b&gt;&amp;&quot;c&quot;&amp;lt;"
        );
        assert!(head(OsStr::new("x/</title>&.md")).contains("<title>title&gt;&amp;.md</title>"));
        assert!(head(OsStr::new("x/..")).contains("<title>x/..</title>"));
        assert!(head(OsStr::new("-")).contains("<title>Notice</title>"));
    }
}
