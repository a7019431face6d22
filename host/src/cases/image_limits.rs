//! Limits of images: brackets of both sorts open at once, images inside each other, the longest, and what is lent.

use super::lending::near_three_rows;
use super::{Case, SPAN_ROOM};
use crate::second::{LONGEST_NOTE, SPAN_ROW_WIDTH};

pub fn cases() -> Vec<Case> {
    [openings(), closed(), nested(), long(), lent()]
        .into_iter()
        .flatten()
        .collect()
}

/// Openings of both sorts that stay open.
fn openings() -> Vec<Case> {
    let images = |count: usize| "![".repeat(count);
    let turns = "[![".repeat(512);
    [
        ("1,024 image openings", images(1_024)),
        ("1,025 image openings", images(1_025)),
        ("1,026 image openings", images(1_026)),
        ("600 image openings", images(600)),
        ("both sorts in turns, 1,024", turns.clone()),
        ("both sorts in turns, 1,024, and `[`", format!("{turns}[")),
        ("both sorts in turns, 1,024, and `![`", format!("{turns}![")),
        ("1,024 brackets and `![`", "[".repeat(1_024) + "!["),
        ("1,024 image openings and `[`", images(1_024) + "["),
        ("1,025 escaped `!`", "\\![".repeat(1_025)),
        ("1,100 escaped brackets after `!`", "!\\[".repeat(1_100)),
        ("1,025 openings after `!!`", "!![".repeat(1_025)),
        (
            "1,025 image openings after letters of two bytes",
            format!("éé\n\nüü {}", images(1_025)),
        ),
        (
            "1,024 image openings in each of two paragraphs",
            format!("{}\n\n{}", images(1_024), images(1_024)),
        ),
        (
            "1,025 image openings in the second paragraph",
            format!("![a](b)\n\n{}", images(1_025)),
        ),
        (
            "1,100 image openings in code and in tails",
            format!("`{0}` ![a](<{0}>)", images(1_100)),
        ),
    ]
    .map(|(name, note)| Case::of(name, note).rows(0, 2))
    .into()
}

/// Openings that are paired by then.
fn closed() -> Vec<Case> {
    let images = |count: usize| "![".repeat(count);
    [
        (
            "an image, 1,024 image openings",
            "![a](b)".to_string() + &images(1_024),
        ),
        (
            "an image, 1,025 image openings",
            "![a](b)".to_string() + &images(1_025),
        ),
        (
            "a pair, 1,024 image openings",
            "![a]".to_string() + &images(1_024),
        ),
        (
            "1,024 image openings, an image, one opened",
            images(1_024) + "](a)![",
        ),
        (
            "1,024 image openings, an image, two opened",
            images(1_024) + "](a)![![",
        ),
        (
            "1,024 image openings, all closed",
            images(1_024) + &"]".repeat(1_024),
        ),
        (
            "1,025 image openings, all closed",
            images(1_025) + &"]".repeat(1_025),
        ),
        (
            "1,024 brackets in turns, the outmost an image",
            "![".to_string() + &"[![".repeat(511) + "[" + &"]".repeat(1_023) + "](a)",
        ),
    ]
    .map(|(name, note)| Case::of(name, note).rows(0, 2))
    .into()
}

/// Images inside each other.
fn nested() -> Vec<Case> {
    let rows = SPAN_ROOM / SPAN_ROW_WIDTH;
    let deep =
        |open: &str, close: &str, count: usize| open.repeat(count) + "a" + &close.repeat(count);
    let in_turns = deep("![[", "](b)](c)", 250);
    let in_other_turns = deep("[![", "](b)](c)", 250);
    vec![
        Case::of("images nested 270 deep", deep("![", "](b)", 270)).rows(0, rows),
        Case::of(
            "images nested 1,000 deep, 272 rows lent",
            deep("![", "](b)", 1_000),
        )
        .rows(0, rows),
        Case::of(
            "a description nested 1,000 deep",
            format!("![{}](b)", deep("![", "]", 999)),
        )
        .rows(0, 1),
        Case::of("images and links in turns, a link inmost", in_turns).rows(0, rows),
        Case::of("links and images in turns, an image inmost", in_other_turns).rows(0, rows),
        Case::of(
            "references to images nested 200 deep",
            format!("[a]: b\n\n{}", deep("![", "][a]", 200)),
        )
        .rows(1, rows),
    ]
}

/// Images of the longest size, and as many as there is room for.
fn long() -> Vec<Case> {
    let text = "a".repeat(LONGEST_NOTE - 6);
    let last = "a".repeat(LONGEST_NOTE - 7) + "![b](c)";
    let rows = SPAN_ROOM / SPAN_ROW_WIDTH;
    let many = |count: usize| {
        let name = format!("{count} images, {rows} rows lent");
        let case = Case::of(name, "![a](b)".repeat(count)).rows(0, rows);
        // `<img src="b" alt="a" />` for each.
        case.page(23 * count + 100)
    };
    vec![
        Case::of(
            "an image of 32,768 bytes, a long description",
            format!("![{text}](b)"),
        )
        .rows(0, 1),
        Case::of(
            "an image of 32,768 bytes, a long destination",
            format!("![b]({text})"),
        )
        .rows(0, 1),
        Case::of("32,768 bytes, an image at the end", last).rows(0, 1),
        many(rows),
        many(rows + 1),
    ]
}

/// Tables and pages of every size near the need.
fn lent() -> Vec<Case> {
    let note = "![a ![b](c)](d 't') [![e](f)]";
    // `<p><img src="d" alt="a b" title="t" /> [<img src="f" alt="e" />]</p>` and LF.
    let length = 69;
    let spans = near_three_rows(SPAN_ROW_WIDTH)
        .map(|lent| Case::of(format!("three images, {lent} numbers lent"), note).tables(0, lent));
    let pages = [0, 1, length - 1, length, length + 1, length + 40]
        .map(|lent| Case::of(format!("three images, {lent} bytes lent"), note).page(lent));
    spans.into_iter().chain(pages).collect()
}
