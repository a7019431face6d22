//! The whole example, P1 to P13, and the sources' examples that are met.

use super::Case;
use crate::sources::examples;

/// Document 01's "Whole example, 34 bytes".
pub const WHOLE_EXAMPLE: &str = "[max]: /q2/max \"June\"\n\nUse [max].\n";

/// The notes of P1 to P13.
const SAMPLES: [&str; 13] = [
    "[link]()",
    "[a](<b)c>)",
    "[link](foo\\)\\:)",
    "[link](/my uri)",
    "[foo][ref\\[]\n\n[ref\\[]: /uri",
    "[foo [bar](/uri)][ref]\n\n[ref]: /uri",
    "[foo][bar][baz]\n\n[baz]: /url",
    "[foo][bar][baz]\n\n[baz]: /url1\n[bar]: /url2",
    "[foo][bar][baz]\n\n[baz]: /url1\n[foo]: /url2",
    "[foo`][ref]`\n\n[ref]: /uri",
    "[foo](not a link)\n\n[foo]: /url1",
    "[foo]\n\n[foo]: first\n[foo]: second",
    "[foo]: /url\n\"title\" ok",
];

/// P1 to P13.
pub fn samples() -> impl Iterator<Item = Case> {
    let numbered = SAMPLES.iter().zip(1..);
    numbered.map(|(note, number)| Case::of(format!("P{number}"), note))
}

pub fn cases() -> Vec<Case> {
    let mut cases = vec![Case::of("the whole example", WHOLE_EXAMPLE)];
    cases.extend(samples());
    for example in examples().iter().filter(|example| example.is_met()) {
        cases.push(Case::of(&example.name, &example.note));
    }
    cases
}
