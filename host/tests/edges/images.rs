//! Images (document 02, request 5): what opens one, what it may hold, its row.

use super::{check, check_beside, spans};
use host::second::SpanRow;

#[test]
fn images_of_each_kind() {
    check(
        "![a](b \"t\")",
        &[],
        &[[6, 0, 11, 2, 3, 0, 5, 6, 8, 9, 1]],
        "<p><img src=\"b\" alt=\"a\" title=\"t\" /></p>\n",
    );
    check(
        "![foo][bar] ![bar][] ![Bar]\n\n[bar]: /u 't'",
        &[[0, 30, 33, 36, 38, 40, 41, 3]],
        &[
            [7, 0, 11, 2, 5, 1, 36, 38, 40, 41, 1],
            [8, 12, 20, 14, 17, 1, 36, 38, 40, 41, 1],
            [9, 21, 27, 23, 26, 1, 36, 38, 40, 41, 1],
        ],
        "<p><img src=\"/u\" alt=\"foo\" title=\"t\" /> <img src=\"/u\" alt=\"bar\" title=\"t\" /> \
         <img src=\"/u\" alt=\"Bar\" title=\"t\" /></p>\n",
    );
    // Nothing between the brackets, nothing in the tail.
    check(
        "![]()",
        &[],
        &[[6, 0, 5, 2, 2, 0, 0, 0, 0, 0, 1]],
        "<p><img src=\"\" alt=\"\" /></p>\n",
    );
}

#[test]
fn images_defined_in_the_sheet() {
    check_beside(
        "[s]: /s 't'",
        "![x][s] ![s]",
        &[[1, 1, 2, 5, 7, 9, 10, 1]],
        &[
            [7, 0, 7, 2, 3, 1, 5, 7, 9, 10, 1],
            [9, 8, 12, 10, 11, 1, 5, 7, 9, 10, 1],
        ],
        "<p><img src=\"/s\" alt=\"x\" title=\"t\" /> <img src=\"/s\" alt=\"s\" title=\"t\" /></p>\n",
    );
}

#[test]
fn what_opens_an_image() {
    // "`\![` is an escape and an ordinary opening"; two backslashes are an escape themselves.
    check(
        "\\![a](b)",
        &[],
        &[[2, 2, 8, 3, 4, 0, 6, 7, 0, 0, 1]],
        "<p>!<a href=\"b\">a</a></p>\n",
    );
    check(
        "\\\\![a](b)",
        &[],
        &[[6, 2, 9, 4, 5, 0, 7, 8, 0, 0, 1]],
        "<p>\\<img src=\"b\" alt=\"a\" /></p>\n",
    );
    // Of two marks the second opens.
    check(
        "!![a](b)",
        &[],
        &[[6, 1, 8, 3, 4, 0, 6, 7, 0, 0, 1]],
        "<p>!<img src=\"b\" alt=\"a\" /></p>\n",
    );
    check("!\\[a](b)", &[], &[], "<p>![a](b)</p>\n");
}

/// By a space, by an LF, by a paragraph's end.
#[test]
fn a_mark_apart_from_its_bracket() {
    check(
        "! [a](b)",
        &[],
        &[[2, 2, 8, 3, 4, 0, 6, 7, 0, 0, 1]],
        "<p>! <a href=\"b\">a</a></p>\n",
    );
    check(
        "!\n[a](b)",
        &[],
        &[[2, 2, 8, 3, 4, 0, 6, 7, 0, 0, 2]],
        "<p>!\n<a href=\"b\">a</a></p>\n",
    );
    check(
        "a!\n\n[b](c)",
        &[],
        &[[2, 4, 10, 5, 6, 0, 8, 9, 0, 0, 3]],
        "<p>a!</p>\n<p><a href=\"c\">b</a></p>\n",
    );
}

#[test]
fn what_opens_no_image() {
    // In code and in tails nothing opens.
    check(
        "`![`a](b)",
        &[],
        &[[1, 0, 4, 1, 3, 0, 0, 0, 0, 0, 1]],
        "<p><code>![</code>a](b)</p>\n",
    );
    check(
        "![x](<![a](b)>)",
        &[],
        &[[6, 0, 15, 2, 3, 0, 6, 13, 0, 0, 1]],
        "<p><img src=\"!%5Ba%5D(b)\" alt=\"x\" /></p>\n",
    );
    // Without a tail the pair is nothing, and the second `]` has none to pair with.
    check("![a] b](c)", &[], &[], "<p>![a] b](c)</p>\n");
    check("![", &[], &[], "<p>![</p>\n");
    check("!]", &[], &[], "<p>!]</p>\n");
    // No definition starts with `!`.
    check("![a]: /u", &[], &[], "<p>![a]: /u</p>\n");
}

#[test]
fn links_and_images_in_each_other() {
    check(
        "[![moon](moon.jpg)](/uri)",
        &[],
        &[
            [6, 1, 18, 3, 7, 0, 9, 17, 0, 0, 1],
            [2, 0, 25, 1, 18, 0, 20, 24, 0, 0, 1],
        ],
        "<p><a href=\"/uri\"><img src=\"moon.jpg\" alt=\"moon\" /></a></p>\n",
    );
    check(
        "![foo [bar](/url)](/url2)",
        &[],
        &[
            [2, 6, 17, 7, 10, 0, 12, 16, 0, 0, 1],
            [6, 0, 25, 2, 17, 0, 19, 24, 0, 0, 1],
        ],
        "<p><img src=\"/url2\" alt=\"foo bar\" /></p>\n",
    );
    check(
        "![foo ![bar](/url)](/url2)",
        &[],
        &[
            [6, 6, 18, 8, 11, 0, 13, 17, 0, 0, 1],
            [6, 0, 26, 2, 18, 0, 20, 25, 0, 0, 1],
        ],
        "<p><img src=\"/url2\" alt=\"foo bar\" /></p>\n",
    );
    check(
        "[![![a](b)](c)](d)",
        &[],
        &[
            [6, 3, 10, 5, 6, 0, 8, 9, 0, 0, 1],
            [6, 1, 14, 3, 10, 0, 12, 13, 0, 0, 1],
            [2, 0, 18, 1, 14, 0, 16, 17, 0, 0, 1],
        ],
        "<p><a href=\"d\"><img src=\"c\" alt=\"a\" /></a></p>\n",
    );
}

/// "A link may hold an image, but no link at any depth, through images too".
#[test]
fn no_link_around_a_link() {
    check(
        "![[[foo](uri1)](uri2)](uri3)",
        &[],
        &[
            [2, 3, 14, 4, 7, 0, 9, 13, 0, 0, 1],
            [6, 0, 28, 2, 21, 0, 23, 27, 0, 0, 1],
        ],
        "<p><img src=\"uri3\" alt=\"[foo](uri2)\" /></p>\n",
    );
    check(
        "[![[a](b)](c)](d)",
        &[],
        &[
            [2, 3, 9, 4, 5, 0, 7, 8, 0, 0, 1],
            [6, 1, 13, 3, 9, 0, 11, 12, 0, 0, 1],
        ],
        "<p>[<img src=\"c\" alt=\"a\" />](d)</p>\n",
    );
    check(
        "[a ![b [c [d](e)] f](g) h](i)",
        &[],
        &[
            [2, 10, 16, 11, 12, 0, 14, 15, 0, 0, 1],
            [6, 3, 23, 5, 19, 0, 21, 22, 0, 0, 1],
        ],
        "<p>[a <img src=\"g\" alt=\"b [c d] f\" /> h](i)</p>\n",
    );
    // A link beside an image bars too.
    check(
        "[![a](b) [c](d)](e)",
        &[],
        &[
            [6, 1, 8, 3, 4, 0, 6, 7, 0, 0, 1],
            [2, 9, 15, 10, 11, 0, 13, 14, 0, 0, 1],
        ],
        "<p>[<img src=\"b\" alt=\"a\" /> <a href=\"d\">c</a>](e)</p>\n",
    );
}

#[test]
fn pairs_that_are_nothing_bar_nothing() {
    check(
        "[a ![b] c](d)",
        &[],
        &[[2, 0, 13, 1, 9, 0, 11, 12, 0, 0, 1]],
        "<p><a href=\"d\">a ![b] c</a></p>\n",
    );
    check(
        "![a [b] c](d)",
        &[],
        &[[6, 0, 13, 2, 9, 0, 11, 12, 0, 0, 1]],
        "<p><img src=\"d\" alt=\"a [b] c\" /></p>\n",
    );
    // The `]` pairs with the last opening of either sort.
    check(
        "![a[b](c)",
        &[],
        &[[2, 3, 9, 4, 5, 0, 7, 8, 0, 0, 1]],
        "<p>![a<a href=\"c\">b</a></p>\n",
    );
    check(
        "[a![b](c)",
        &[],
        &[[6, 2, 9, 4, 5, 0, 7, 8, 0, 0, 1]],
        "<p>[a<img src=\"c\" alt=\"b\" /></p>\n",
    );
}

#[test]
fn texts_of_images_as_labels() {
    let none: [SpanRow; 0] = [];
    // The text starts after the `[`; a text with brackets is no label.
    let labelled = spans("![!a]\n\n[!a]: /u");
    assert_eq!(labelled, [[9, 0, 5, 2, 4, 1, 13, 15, 0, 0, 1]]);
    assert_eq!(spans("![a]\n\n[!a]: /u"), none);
    assert_eq!(spans("![a ![b]]\n\n[a]: /u"), none);
    assert_eq!(spans("![a][b]\n\n[a]: /u"), none);
    let shortcut = spans("![a] []\n\n[a]: /u");
    assert_eq!(shortcut, [[9, 0, 4, 2, 3, 1, 14, 16, 0, 0, 1]]);
    // A label with `!` after a link's text.
    let full = spans("[x][!a]\n\n[!a]: /u");
    assert_eq!(full, [[3, 0, 7, 1, 2, 1, 15, 17, 0, 0, 1]]);
}

#[test]
fn lines_of_images() {
    check(
        "x\n![a\nb](c)",
        &[],
        &[[6, 2, 11, 4, 7, 0, 9, 10, 0, 0, 2]],
        "<p>x\n<img src=\"c\" alt=\"a\nb\" /></p>\n",
    );
    check(
        "![a\n![b](c)\n](d)",
        &[],
        &[
            [6, 4, 11, 6, 7, 0, 9, 10, 0, 0, 2],
            [6, 0, 16, 2, 12, 0, 14, 15, 0, 0, 1],
        ],
        "<p><img src=\"d\" alt=\"a\nb\n\" /></p>\n",
    );
    check(
        "`a\nb` !\n![c](d)",
        &[],
        &[
            [1, 0, 5, 1, 4, 0, 0, 0, 0, 0, 1],
            [6, 8, 15, 10, 11, 0, 13, 14, 0, 0, 3],
        ],
        "<p><code>a b</code> !\n<img src=\"d\" alt=\"c\" /></p>\n",
    );
}
