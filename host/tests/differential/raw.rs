//! The entries as C sees them: every number of the answer is stored, none beside it, and an empty
//! buffer may be a null pointer. Here the enquiry and the comparison; `raw_tables` has the other two.

#![allow(unsafe_code)]

use host::entries::raw::{notice_resolve, notice_same_label};
use host::second;
use std::ptr::{null, null_mut};

/// No number of any answer.
const GUARD: u64 = u64::MAX;
pub const NOTE: &[u8] = b"[a]: /x\n[b]: <>\n\n`c` [a]\n";
pub const SHEET: &[u8] = b"text\n\n[d]: /s 't'\n";

/// Calls with an answer between guards; returns the number and what is stored.
pub fn guarded<const COUNT: usize>(
    call: impl FnOnce(*mut [u64; COUNT]) -> u32,
) -> (u32, [u64; COUNT]) {
    let mut room = [[GUARD; COUNT]; 3];
    let number = call(&mut room[1]);
    assert_eq!((room[0], room[2]), ([GUARD; COUNT], [GUARD; COUNT]));
    (number, room[1])
}

/// The pointer that lends a part to be written: null where nothing is lent.
pub fn lent<T>(part: &mut [T]) -> *mut T {
    if part.is_empty() {
        null_mut()
    } else {
        part.as_mut_ptr()
    }
}

/// The pointer that lends bytes to be read, likewise.
pub fn read_only(bytes: &[u8]) -> *const u8 {
    if bytes.is_empty() {
        null()
    } else {
        bytes.as_ptr()
    }
}

/// The enquiry's answer through the entry as C sees it.
fn resolve(note: &[u8], sheet: &[u8], label: &[u8]) -> (u32, [u64; 4]) {
    // SAFETY: each pointer and length is a slice's own, or null and 0, and all three are only read.
    guarded(|answer| unsafe {
        notice_resolve(
            read_only(note),
            note.len(),
            read_only(sheet),
            sheet.len(),
            read_only(label),
            label.len(),
            answer,
        )
    })
}

#[test]
fn answers_of_the_enquiry() {
    let mut came_up = Vec::new();
    let long = [b'a'; 32_769];
    let asked: [(&[u8], &[u8], &[u8]); 11] = [
        (NOTE, SHEET, b"a"),
        (NOTE, SHEET, b"b"),
        (NOTE, SHEET, b"D"),
        (NOTE, b"", b"a"),
        (&long, b"\r", b""),
        (b"\r", &long, b""),
        (NOTE, &long, b""),
        (NOTE, b"ab\0", b""),
        (NOTE, SHEET, b"c"),
        (NOTE, SHEET, b""),
        (b"", b"", b""),
    ];
    for (note, sheet, label) in asked {
        let wanted = second::resolve(note, sheet, label);
        let part = wanted.destination;
        let numbers = [wanted.value, part.start, part.end, wanted.text];
        let given = resolve(note, sheet, label);
        assert_eq!(given, (wanted.number, numbers.map(|number| number as u64)));
        came_up.push((wanted.number, wanted.text));
    }
    let found = [(0, 0), (0, 0), (0, 1), (0, 0)];
    let refused = [(1, 0), (2, 0), (1, 1), (2, 1), (7, 0), (8, 0), (8, 0)];
    assert_eq!(came_up, [found.as_slice(), &refused].concat());
}

/// All three are only read, so the label may be a part of the note, and the sheet the note itself or a part of
/// it.
#[test]
fn texts_inside_each_other() {
    let label = &NOTE[9..10];
    assert_eq!(resolve(NOTE, b"", label), (0, [14, 14, 14, 0]));
    assert_eq!(resolve(NOTE, NOTE, label), (0, [14, 14, 14, 0]));
    assert_eq!(resolve(&NOTE[..8], NOTE, label), (0, [14, 14, 14, 1]));
    assert_eq!(resolve(b"", &NOTE[8..], label), (0, [6, 6, 6, 1]));
}

/// Labels that are not there are lent as a null pointer; two that are may be parts of each other.
#[test]
fn answers_of_the_comparison() {
    let whole: &[u8] = b" A\tb a B";
    let labels = [
        b"",
        &whole[..0],
        b" \n",
        b"a",
        whole,
        &whole[..4],
        &whole[5..],
    ];
    let mut equal = 0;
    for a in labels {
        for b in labels {
            // SAFETY: each pointer and length is a slice's own, or null and 0.
            let given = unsafe { notice_same_label(read_only(a), a.len(), read_only(b), b.len()) };
            assert_eq!(given, u32::from(second::same_label(a, b)));
            equal += given;
        }
    }
    assert_eq!(equal, 9 + 1 + 1 + 4);
}
