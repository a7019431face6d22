//! The whole example and the samples on the bench.

use super::{check, found, resolve};

#[test]
fn whole_example() {
    let note = "[max]: /q2/max \"June\"\n\nUse [max].\n";
    assert_eq!(note.len(), 34);
    check(
        note,
        &[[0, 1, 4, 7, 14, 16, 20, 1]],
        &[[5, 27, 32, 28, 31, 1, 7, 14, 16, 20, 3]],
        "<p>Use <a href=\"/q2/max\" title=\"June\">max</a>.</p>\n",
    );
    assert_eq!(resolve(note.as_bytes(), b"max"), found(7, 14));
}

#[test]
fn samples_from_000() {
    // P1
    check(
        "[link]()",
        &[],
        &[[2, 0, 8, 1, 5, 0, 0, 0, 0, 0, 1]],
        "<p><a href=\"\">link</a></p>\n",
    );
    // P2
    check(
        "[a](<b)c>)",
        &[],
        &[[2, 0, 10, 1, 2, 0, 5, 8, 0, 0, 1]],
        "<p><a href=\"b)c\">a</a></p>\n",
    );
    // P3
    check(
        "[link](foo\\)\\:)",
        &[],
        &[[2, 0, 15, 1, 5, 0, 7, 14, 0, 0, 1]],
        "<p><a href=\"foo):\">link</a></p>\n",
    );
    // P4
    check("[link](/my uri)", &[], &[], "<p>[link](/my uri)</p>\n");
    // P5
    check(
        "[foo][ref\\[]\n\n[ref\\[]: /uri",
        &[[0, 15, 20, 23, 27, 0, 0, 3]],
        &[[3, 0, 12, 1, 4, 1, 23, 27, 0, 0, 1]],
        "<p><a href=\"/uri\">foo</a></p>\n",
    );
}

#[test]
fn samples_from_003() {
    // P6
    check(
        "[foo [bar](/uri)][ref]\n\n[ref]: /uri",
        &[[0, 25, 28, 31, 35, 0, 0, 3]],
        &[
            [2, 5, 16, 6, 9, 0, 11, 15, 0, 0, 1],
            [5, 17, 22, 18, 21, 1, 31, 35, 0, 0, 1],
        ],
        "<p>[foo <a href=\"/uri\">bar</a>]<a href=\"/uri\">ref</a></p>\n",
    );
    // P7
    check(
        "[foo][bar][baz]\n\n[baz]: /url",
        &[[0, 18, 21, 24, 28, 0, 0, 3]],
        &[[3, 5, 15, 6, 9, 1, 24, 28, 0, 0, 1]],
        "<p>[foo]<a href=\"/url\">bar</a></p>\n",
    );
    // P8
    check(
        "[foo][bar][baz]\n\n[baz]: /url1\n[bar]: /url2",
        &[[0, 18, 21, 24, 29, 0, 0, 3], [0, 31, 34, 37, 42, 0, 0, 4]],
        &[
            [3, 0, 10, 1, 4, 2, 37, 42, 0, 0, 1],
            [5, 10, 15, 11, 14, 1, 24, 29, 0, 0, 1],
        ],
        "<p><a href=\"/url2\">foo</a><a href=\"/url1\">baz</a></p>\n",
    );
    // P9
    check(
        "[foo][bar][baz]\n\n[baz]: /url1\n[foo]: /url2",
        &[[0, 18, 21, 24, 29, 0, 0, 3], [0, 31, 34, 37, 42, 0, 0, 4]],
        &[[3, 5, 15, 6, 9, 1, 24, 29, 0, 0, 1]],
        "<p>[foo]<a href=\"/url1\">bar</a></p>\n",
    );
    // P10
    check(
        "[foo`][ref]`\n\n[ref]: /uri",
        &[[0, 15, 18, 21, 25, 0, 0, 3]],
        &[[1, 4, 12, 5, 11, 0, 0, 0, 0, 0, 1]],
        "<p>[foo<code>][ref]</code></p>\n",
    );
    // P11
    check(
        "[foo](not a link)\n\n[foo]: /url1",
        &[[0, 20, 23, 26, 31, 0, 0, 3]],
        &[[5, 0, 5, 1, 4, 1, 26, 31, 0, 0, 1]],
        "<p><a href=\"/url1\">foo</a>(not a link)</p>\n",
    );
}

#[test]
fn samples_from_002() {
    // P12, example 173
    check(
        "[foo]\n\n[foo]: first\n[foo]: second",
        &[[0, 8, 11, 14, 19, 0, 0, 3], [0, 21, 24, 27, 33, 0, 0, 4]],
        &[[5, 0, 5, 1, 4, 1, 14, 19, 0, 0, 1]],
        "<p><a href=\"first\">foo</a></p>\n",
    );
    // P13, example 179
    check(
        "[foo]: /url\n\"title\" ok",
        &[[0, 1, 4, 7, 11, 0, 0, 1]],
        &[],
        "<p>&quot;title&quot; ok</p>\n",
    );
}
