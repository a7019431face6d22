//! The rows of Unicode's file CaseFolding (version 15.0) that are about U+0000 to U+052F: those of status C and F
//! (document 02, request 3).

const FILE: &str = include_str!("../tests/data/CaseFolding-0000-052F.txt");

/// Where the rows end: no row is about this character or a later one.
pub const END: char = '\u{530}';

/// A row: what a character folds to.
#[derive(Clone, Debug, PartialEq, Eq)]
pub struct Row {
    pub character: char,
    /// C, to one character, or F, to several.
    pub status: String,
    pub folded: String,
}

/// Every row, in the file's order.
pub fn rows() -> Vec<Row> {
    let rows = FILE.lines().filter(|line| !line.starts_with('#'));
    rows.map(row).collect()
}

/// The characters before the end, in order.
pub fn characters() -> impl Iterator<Item = char> {
    '\0'..END
}

/// A line of the file: "code; status; mapping; # name".
fn row(line: &str) -> Row {
    let fields: Vec<&str> = line.split("; ").collect();
    let [code, status, mapping, _name] = fields[..] else {
        panic!("no row: {line}");
    };
    Row {
        character: character(code),
        status: status.to_string(),
        folded: mapping.split(' ').map(character).collect(),
    }
}

/// A character by the hexadecimal digits of its code point.
fn character(digits: &str) -> char {
    let code = u32::from_str_radix(digits, 16).ok();
    let character = code.and_then(char::from_u32);
    character.unwrap_or_else(|| panic!("no code point: {digits}"))
}
