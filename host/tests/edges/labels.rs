//! Equal and unequal labels.

use host::cases::labels::{EQUAL, UNEQUAL};
use host::second;

/// Whether all of the pairs are equal, or all unequal, in both orders.
fn check(pairs: &[(&[u8], &[u8])], equal: bool) {
    for (a, b) in pairs {
        let [one, other] = [a, b].map(|label| label.escape_ascii());
        assert_eq!(second::same_label(a, b), equal, "{one}, {other}");
        assert_eq!(second::same_label(b, a), equal, "{other}, {one}");
    }
}

#[test]
fn equal_labels() {
    check(EQUAL, true);
}

#[test]
fn unequal_labels() {
    check(UNEQUAL, false);
}
