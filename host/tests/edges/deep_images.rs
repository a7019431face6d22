//! Images inside each other and images of the longest size, and both sorts of opening for refusal 4.

use super::brackets::too_deep;
use super::{check, page, read, spans};
use host::second::SpanRow;

/// The row of an image without a title, by the places of its `!`, its `]` and its destination.
fn row(bang: u32, closing: u32, destination: [u32; 2]) -> SpanRow {
    let [from, to] = destination;
    [6, bang, to + 1, bang + 2, closing, 0, from, to, 0, 0, 1]
}

#[test]
fn images_nested_1000_deep() {
    let note = "![".repeat(1_000) + "a" + &"](b)".repeat(1_000);
    let rows: Vec<SpanRow> = (0..1_000)
        .map(|around| {
            let closing = 2_001 + 4 * around;
            row(2 * (999 - around), closing, [closing + 2, closing + 3])
        })
        .collect();
    check(&note, &[], &rows, "<p><img src=\"b\" alt=\"a\" /></p>\n");
}

#[test]
fn descriptions_nested_1000_deep() {
    let [open, close] = ["![", "]"].map(|mark| mark.repeat(999));
    check(
        &format!("![{open}a{close}](b)"),
        &[],
        &[row(0, 3_000, [3_002, 3_003])],
        &format!("<p><img src=\"b\" alt=\"{open}a{close}\" /></p>\n"),
    );
}

/// Images and links in turns, 1,000 deep: of the pairs that `[` opens one is a link, and bars the others.
#[test]
fn links_and_images_in_turns() {
    // The inmost is a link.
    let note = "![[".repeat(500) + "a" + &"](b)](c)".repeat(500);
    let kinds: Vec<u32> = spans(&note).iter().map(|row| row[0]).collect();
    assert_eq!(kinds, [vec![2], vec![6; 500]].concat());
    let alt = "[".repeat(499) + "a" + &"](b)".repeat(499);
    assert_eq!(
        page(&note),
        format!("<p><img src=\"c\" alt=\"{alt}\" /></p>\n")
    );
    // The inmost is an image.
    let note = "[![".repeat(500) + "a" + &"](b)](c)".repeat(500);
    let kinds: Vec<u32> = spans(&note).iter().map(|row| row[0]).collect();
    assert_eq!(kinds, [vec![6, 2], vec![6; 499]].concat());
    let alt = "[".repeat(498) + "a" + &"](c)".repeat(498);
    let image = format!("<img src=\"b\" alt=\"{alt}\" />");
    assert_eq!(page(&note), format!("<p>[{image}](c)</p>\n"));
}

#[test]
fn image_openings_1024_and_1025() {
    let open = |count: usize| "![".repeat(count);
    check(&open(1_024), &[], &[], &format!("<p>{}</p>\n", open(1_024)));
    // The place is the `[`.
    assert_eq!(read(open(1_025).as_bytes()), too_deep(2_049));
    assert_eq!(read(open(1_100).as_bytes()), too_deep(2_049));
    let closed = open(1_025) + &"](a)".repeat(1_025);
    assert_eq!(read(closed.as_bytes()), too_deep(2_049));
    let closed = open(1_024) + &"](a)".repeat(1_024);
    assert_eq!(spans(&closed).len(), 1_024);
    // An image is open no more, nor is a pair that is none.
    let number = |note: String| read(note.as_bytes()).number;
    assert_eq!(number("![](a)".to_string() + &open(1_024)), 0);
    assert_eq!(number("![]".to_string() + &open(1_024)), 0);
    let after_image = "![](a)".to_string() + &open(1_025);
    assert_eq!(read(after_image.as_bytes()), too_deep(6 + 2_049));
    assert_eq!(number(open(1_024) + "](a)!["), 0);
    let one_more = open(1_024) + "](a)![![";
    assert_eq!(read(one_more.as_bytes()), too_deep(2_048 + 4 + 3));
}

#[test]
fn both_sorts_of_opening_count() {
    let place = |note: String, place: usize| {
        assert_eq!(read(note.as_bytes()), too_deep(place), "{place}");
    };
    let turns = "[![".repeat(512);
    assert_eq!(read(turns.as_bytes()).number, 0);
    place(format!("{turns}["), 1_536);
    place(format!("{turns}!["), 1_537);
    place(format!("{}![", "[".repeat(1_024)), 1_025);
    place(format!("{}[", "![".repeat(1_024)), 2_048);
    place(format!("é\n\n{turns}]![!["), 4 + 1_536 + 4);
    // An escaped `!` leaves an opening, an escaped `[` leaves none.
    place("\\![".repeat(1_025), 3 * 1_024 + 2);
    assert_eq!(read("!\\[".repeat(1_100).as_bytes()).number, 0);
    let code = format!("`{}`", "![".repeat(1_100));
    assert_eq!(read(code.as_bytes()).number, 0);
    let tail = format!("![a](<{}>)", "![".repeat(1_100));
    assert_eq!(read(tail.as_bytes()).number, 0);
}

#[test]
fn longest_images() {
    let long = "a".repeat(32_762);
    check(
        &format!("![{long}](b)"),
        &[],
        &[row(0, 32_764, [32_766, 32_767])],
        &format!("<p><img src=\"b\" alt=\"{long}\" /></p>\n"),
    );
    check(
        &format!("![b]({long})"),
        &[],
        &[row(0, 3, [5, 32_767])],
        &format!("<p><img src=\"{long}\" alt=\"b\" /></p>\n"),
    );
    let before = "a".repeat(32_761);
    check(
        &format!("{before}![b](c)"),
        &[],
        &[row(32_761, 32_764, [32_766, 32_767])],
        &format!("<p>{before}<img src=\"c\" alt=\"b\" /></p>\n"),
    );
    assert_eq!(spans(&"![]()".repeat(6_553)).len(), 6_553);
    // Each `&` becomes five bytes.
    let and = "&".repeat(32_762);
    let html = page(&format!("![{and}](b)"));
    assert_eq!(html.len(), 5 * 32_762 + 30);
}
