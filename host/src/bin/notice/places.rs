//! Lines and columns.

/// Where something stands, for people: both numbers count from 1.
#[derive(Clone, Copy, Debug, PartialEq, Eq)]
pub struct Place {
    pub line: usize,
    /// Characters (code points) from the line's start; a byte that is in no character counts as one.
    pub column: usize,
}

impl Place {
    /// The place of a byte of a text, or of the text's end, whose line is known from a row.
    pub fn on_line(line: usize, text: &[u8], byte: usize) -> Place {
        let before = &text[..byte];
        let last_line_end = before.iter().rposition(|byte| *byte == b'\n');
        let line_start = last_line_end.map_or(0, |at| at + 1);
        Place {
            line,
            column: 1 + characters(&before[line_start..]),
        }
    }

    /// The same where no row says the line: it is counted too.
    pub fn counted(text: &[u8], byte: usize) -> Place {
        let line_ends = text[..byte].iter().filter(|byte| **byte == b'\n');
        Place::on_line(1 + line_ends.count(), text, byte)
    }
}

/// How many characters there are, and bytes that are in none.
fn characters(bytes: &[u8]) -> usize {
    bytes
        .utf8_chunks()
        .map(|chunk| chunk.valid().chars().count() + chunk.invalid().len())
        .sum()
}

#[cfg(test)]
mod tests {
    use super::Place;

    fn place(text: &[u8], byte: usize) -> (usize, usize) {
        let Place { line, column } = Place::counted(text, byte);
        (line, column)
    }

    #[test]
    fn a_rows_line_is_taken_as_it_is() {
        let place = Place::on_line(14, b"ab\ncd", 4);
        assert_eq!((place.line, place.column), (14, 2));
    }

    #[test]
    fn both_numbers_count_from_1() {
        assert_eq!(place(b"", 0), (1, 1));
        assert_eq!(place(b"ab\ncd", 1), (1, 2));
        assert_eq!(place(b"ab\ncd", 2), (1, 3));
        assert_eq!(place(b"ab\ncd", 3), (2, 1));
        assert_eq!(place(b"ab\ncd", 5), (2, 3));
        assert_eq!(place(b"\n\n", 2), (3, 1));
    }

    #[test]
    fn columns_count_characters() {
        let text = "µg é😀[x]".as_bytes();
        let bracket = text.iter().position(|byte| *byte == b'[').unwrap();
        assert_eq!(bracket, 10);
        assert_eq!(place(text, bracket), (1, 6));
        assert_eq!(place(b"\ta", 1), (1, 2));
        assert_eq!(place("e\u{301}x".as_bytes(), 3), (1, 3));
    }

    #[test]
    fn columns_count_bytes_where_no_character_is() {
        assert_eq!(place(b"a\xff\xfe\xc3\xa9b", 5), (1, 5));
        assert_eq!(place(b"\xe2\x82b", 2), (1, 3));
    }
}
