//! Cutting a note down.

/// How many shorter notes are tried at most.
const TRIES: usize = 20_000;

/// The note with bytes dropped while it still differs: halves, quarters, down to single bytes.
pub fn shrunk(note: &[u8], differs: impl Fn(&[u8]) -> bool) -> Vec<u8> {
    let mut small = note.to_vec();
    let mut tries = 0;
    let mut size = small.len().div_ceil(2);
    while size > 0 && tries < TRIES {
        let before = small.len();
        let mut from = 0;
        while from < small.len() && tries < TRIES {
            let to = (from + size).min(small.len());
            let shorter = [&small[..from], &small[to..]].concat();
            tries += 1;
            if differs(&shorter) {
                small = shorter;
            } else {
                from = to;
            }
        }
        // Single bytes are tried again until none can go.
        if size > 1 || small.len() == before {
            size /= 2;
        }
    }
    small
}

#[test]
fn a_note_is_cut_down_to_what_differs() {
    let note = [
        b"ab ".repeat(100),
        b"[x".to_vec(),
        b" cd".repeat(99),
        b"]".to_vec(),
    ]
    .concat();
    let differs = |note: &[u8]| {
        let open = note.iter().position(|byte| *byte == b'[');
        let close = note.iter().position(|byte| *byte == b']');
        open.zip(close).is_some_and(|(open, close)| open < close)
    };
    assert_eq!(shrunk(&note, differs), b"[]");
}
