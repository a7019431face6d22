//! Misreadings of the bytes of a text.

use std::borrow::Cow;
use std::str::Utf8Error;

use super::{IllFormed, Reader, Wrong};

impl Reader {
    /// The length of a text in bytes.
    pub(in super::super) fn counted_length(self, text: &[u8]) -> usize {
        match self.wrong {
            Some(Wrong::NoteInCharacters) => String::from_utf8_lossy(text).chars().count(),
            _ => text.len(),
        }
    }

    /// The bytes as they are; a wrong reading puts `?` where it takes an ill-formed sequence for a
    /// character.
    pub(super) fn forgiven(self, bytes: &[u8]) -> Cow<'_, [u8]> {
        let Some(Wrong::Forgives(form)) = self.wrong else {
            return Cow::Borrowed(bytes);
        };
        let mut bytes = bytes.to_vec();
        while let Err(error) = std::str::from_utf8(&bytes) {
            let place = error.valid_up_to();
            let taken = form.taken(&bytes[place..]);
            if taken == 0 {
                break;
            }
            bytes[place..place + taken].fill(b'?');
        }
        Cow::Owned(bytes)
    }

    /// Bytes 0 and 13.
    pub(in super::super) fn is_bad(self, byte: u8) -> bool {
        match byte {
            0 => !self.misreads(Wrong::NulGood),
            13 => !self.misreads(Wrong::ReturnGood),
            1..=8 | 11 | 12 | 14..=31 | 127 => self.misreads(Wrong::ControlsBad),
            _ => false,
        }
    }

    /// The first byte of the ill-formed sequence.
    pub(in super::super) fn ill_formed_place(self, bytes: &[u8], error: Utf8Error) -> usize {
        let sequence = error
            .error_len()
            .unwrap_or(bytes.len() - error.valid_up_to());
        match self.wrong {
            Some(Wrong::PlaceAfterIllFormed) => error.valid_up_to() + sequence,
            _ => error.valid_up_to(),
        }
    }

    /// The place of a bad byte or an ill-formed sequence.
    pub(in super::super) fn misread_bad_place(self, bytes: &[u8], place: usize) -> usize {
        match self.wrong {
            Some(Wrong::BadPlaceInCharacters) => {
                String::from_utf8_lossy(&bytes[..place]).chars().count()
            }
            _ => place,
        }
    }
}

impl IllFormed {
    /// How many bytes at the start of `bytes`, where no character stands, are of this form.
    fn taken(self, bytes: &[u8]) -> usize {
        const CONTINUATION: std::ops::RangeInclusive<u8> = 0x80..=0xbf;
        let length = match (self, bytes) {
            (IllFormed::Overlong, [0xc0..=0xc1, ..]) => 2,
            (IllFormed::Overlong, [0xe0, 0x80..=0x9f, ..]) => 3,
            (IllFormed::Overlong, [0xf0, 0x80..=0x8f, ..]) => 4,
            (IllFormed::Surrogate, [0xed, 0xa0..=0xbf, ..]) => 3,
            (IllFormed::PastTheLast, [0xf4, 0x90..=0xbf, ..] | [0xf5..=0xf7, ..]) => 4,
            (IllFormed::FiveBytes, [0xf8..=0xfb, ..]) => 5,
            (IllFormed::Stray, [0x80..=0xbf, ..]) => 1,
            (IllFormed::CutShort, [0xc2..=0xf4, rest @ ..]) if rest.len() < 3 => bytes.len(),
            _ => return 0,
        };
        match bytes.get(1..length) {
            Some(rest) if rest.iter().all(|byte| CONTINUATION.contains(byte)) => length,
            _ => 0,
        }
    }
}
