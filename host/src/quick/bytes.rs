//! Bytes by what they can do, and eight of them at a time.

/// A space.
pub const SPACE: u8 = 1;
/// A label that has one of these is not its own compared form: tabs, LFs, capital letters, bytes beyond ASCII. It is
/// the bit after that of a space, for two spaces in a row.
pub const ROUGH: u8 = 2;
/// No space, tab or LF.
pub const INK: u8 = 4;
/// A bracket or a backslash: where the reading of a label stops.
pub const BRACKET: u8 = 8;
/// What ends a bare destination, a parenthesis or a backslash.
pub const LIMIT: u8 = 16;
/// What a backslash escapes.
pub const PUNCTUATION: u8 = 32;
/// A bracket, a backslash or a backtick: where the walk through a paragraph stops.
pub const MARK: u8 = 64;

static CLASSES: [u8; 256] = {
    let mut classes = [0; 256];
    let mut byte = 0;
    while byte < 256 {
        classes[byte] = classes_of(byte as u8);
        byte += 1;
    }
    classes
};

const fn classes_of(byte: u8) -> u8 {
    let ink = match byte {
        b' ' => SPACE,
        b'\t' | b'\n' => SPACE | ROUGH,
        b'A'..=b'Z' | 0x80.. => INK | ROUGH,
        _ => INK,
    };
    let mark = match byte {
        b'[' | b']' | b'\\' => MARK | BRACKET,
        b'`' => MARK,
        _ => 0,
    };
    let limit = match byte {
        0..=b' ' | b'(' | b')' | b'\\' | 127 => LIMIT,
        _ => 0,
    };
    let punctuation = if byte.is_ascii_punctuation() {
        PUNCTUATION
    } else {
        0
    };
    ink | mark | limit | punctuation
}

/// All classes of a byte.
#[inline]
pub fn classes(byte: u8) -> u8 {
    CLASSES[usize::from(byte)]
}

/// Where a backslash leads: past what it escapes, or just past itself.
#[inline]
pub fn after_backslash(text: &[u8], at: usize) -> usize {
    let escaped = text.get(at + 1).copied().unwrap_or_default();
    at + 1 + usize::from(classes(escaped) & PUNCTUATION != 0)
}

/// Where the spaces, tabs and LFs from a place on end. A block has no blank line, so that there is at most one LF among
/// them.
#[inline]
pub fn after_space(text: &[u8], mut at: usize) -> usize {
    while let Some(b' ' | b'\t' | b'\n') = text.get(at) {
        at += 1;
    }
    at
}

/// Eight bytes, the first one lowest.
pub type Word = u64;

const ONES: Word = 0x0101_0101_0101_0101;
const LOW_BITS: Word = 0x7f * ONES;
/// One in each byte: a set of bytes of a word is told by these.
pub const HIGH_BITS: Word = 0x80 * ONES;

/// The eight bytes from a place on, with spaces after the text's end.
#[inline]
pub fn word_at(text: &[u8], at: usize) -> Word {
    match text.get(at..at + 8) {
        Some(bytes) => Word::from_le_bytes(bytes.try_into().unwrap_or_default()),
        None => last_word(text, at),
    }
}

fn last_word(text: &[u8], at: usize) -> Word {
    let bytes = text[at..].iter().rev();
    let word = bytes.fold(0, |word, byte| word << 8 | Word::from(*byte));
    let spaces = Word::from(b' ') * ONES;
    word | spaces << (8 * (text.len() - at))
}

/// The bytes of a word that are this one.
#[inline]
pub fn equal_to(word: Word, byte: u8) -> Word {
    let other = word ^ (Word::from(byte) * ONES);
    !(((other & LOW_BITS) + LOW_BITS) | other) & HIGH_BITS
}

/// Those from one byte to another, both ASCII.
#[inline]
pub fn from_to(word: Word, first: u8, last: u8) -> Word {
    let low = word & LOW_BITS;
    let reach = low + Word::from(128 - first) * ONES;
    let pass = low + Word::from(127 - last) * ONES;
    reach & !pass & !word & HIGH_BITS
}

/// Where the first of a set of bytes stands in its word.
#[inline]
pub fn first_of(set: Word) -> usize {
    set.trailing_zeros() as usize / 8
}

/// The place of the first byte that is in its word's set, or one from the text's end on.
#[inline]
pub fn find(text: &[u8], mut at: usize, set: impl Fn(Word) -> Word) -> usize {
    while at < text.len() {
        let found = set(word_at(text, at));
        if found != 0 {
            return at + first_of(found);
        }
        at += 8;
    }
    at
}

/// So many bytes are looked at together where marks are few.
pub const BLOCK: usize = 32;

/// The place of the first mark, or one from the text's end on.
#[inline]
pub fn next_mark(text: &[u8], at: usize) -> usize {
    let marks = |word| from_to(word, b'[', b']') | equal_to(word, b'`');
    let near = at + 16;
    if near >= text.len() {
        return find(text, at, marks);
    }
    let place = find(&text[..near], at, marks);
    if place < near {
        return place;
    }
    find(text, near + plain_blocks(&text[near..]), marks)
}

/// How many bytes the blocks at the start take that have no mark.
fn plain_blocks(text: &[u8]) -> usize {
    let is_mark = |byte: &u8| matches!(byte, b'['..=b']' | b'`');
    let is_plain = |block: &&[u8; BLOCK]| {
        let marked = block.iter().fold(false, |any, byte| any | is_mark(byte));
        !marked
    };
    let (blocks, _) = text.as_chunks();
    blocks.iter().take_while(is_plain).count() * BLOCK
}
