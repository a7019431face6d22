//! Brackets open at once.

use super::{check, read, refused};
use host::second::ReadAnswer;

/// What refusal 4 answers for a note without definitions.
pub(super) fn too_deep(place: usize) -> ReadAnswer {
    ReadAnswer {
        definition_rows: Some(Vec::new()),
        ..refused(4, place)
    }
}

#[test]
fn brackets_1024_and_1025() {
    let open = |count: usize| "[".repeat(count);
    let close = |count: usize| "]".repeat(count);
    check(&open(1_024), &[], &[], &format!("<p>{}</p>\n", open(1_024)));
    assert_eq!(read(open(1_025).as_bytes()), too_deep(1_024));
    assert_eq!(read(open(1_100).as_bytes()), too_deep(1_024));
    // Closed later all the same.
    assert_eq!(read((open(1_024) + &close(1_024)).as_bytes()).number, 0);
    assert_eq!(
        read((open(1_025) + &close(1_025)).as_bytes()),
        too_deep(1_024)
    );
    // A pair is open no more; an unpaired closing bracket changes nothing.
    assert_eq!(read(("[]".to_string() + &open(1_024)).as_bytes()).number, 0);
    assert_eq!(
        read(("[]".to_string() + &open(1_025)).as_bytes()),
        too_deep(1_026)
    );
    assert_eq!(
        read(("]]]".to_string() + &open(1_025)).as_bytes()),
        too_deep(1_027)
    );
    assert_eq!(read((open(1_024) + "][").as_bytes()).number, 0);
    assert_eq!(read((open(1_024) + "][[").as_bytes()), too_deep(1_026));
}

#[test]
fn brackets_that_do_not_open() {
    let open = "[".repeat(1_024);
    // Escaped, in code, in a tail.
    assert_eq!(read(("\\[".to_string() + &open).as_bytes()).number, 0);
    assert_eq!(read(("`[`".to_string() + &open).as_bytes()).number, 0);
    assert_eq!(read(("[a]([)".to_string() + &open).as_bytes()).number, 0);
    assert_eq!(read((open + "a](<[[[>)").as_bytes()).number, 0);
}

#[test]
fn brackets_of_each_paragraph_start_afresh() {
    let open = "[".repeat(1_024);
    assert_eq!(read(format!("{open}\n\n{open}").as_bytes()).number, 0);
    assert_eq!(
        read(format!("{open}\n\n{open}[").as_bytes()),
        too_deep(1_026 + 1_024)
    );
    assert_eq!(read(format!("{open}\n{open}").as_bytes()), too_deep(1_025));
    assert_eq!(
        read(format!("{open}[[[\n\n{open}[").as_bytes()),
        too_deep(1_024)
    );
}
