//! The listing as JSON: an object with the arrays `definitions`, `links`, `images` and `code_spans`, an item a
//! line. Every key is always there; what is absent is null. The keys of files are there where there
//! are two files.

use std::fmt::Write;
use std::ops::Range;

use crate::listing::{Code, Definition, Hidden, Link, Listing, Named, Part};
use crate::texts::{Files, Which};

/// The whole listing.
pub fn text(listing: &Listing, files: &Files) -> String {
    let definitions = listing.definitions.iter().enumerate();
    let definitions = definitions.map(|(index, one)| definition(index + 1, one, files));
    let arrays = [
        array("definitions", definitions),
        links("links", &listing.links, files),
        links("images", &listing.images, files),
        array("code_spans", listing.codes.iter().map(code)),
    ];
    format!("{{\n{}\n}}\n", arrays.join(",\n"))
}

fn array(name: &str, items: impl Iterator<Item = String>) -> String {
    let items: Vec<String> = items.map(|item| format!("\n{item}")).collect();
    format!("\"{name}\": [{}]", items.join(","))
}

fn definition(number: usize, definition: &Definition, files: &Files) -> String {
    let mut members = vec![("number", number.to_string())];
    members.extend(file("file", Some(definition.which), files));
    members.extend([
        ("line", definition.place.line.to_string()),
        ("column", definition.place.column.to_string()),
        ("label", part(&definition.label)),
        ("destination", part(&definition.destination)),
        ("title", optional(definition.title.as_ref(), part)),
        (
            "hidden_by",
            optional(definition.hidden.as_ref(), |one| hidden(one, files)),
        ),
    ]);
    object(&members)
}

fn hidden(hidden: &Hidden, files: &Files) -> String {
    let Hidden {
        by,
        destination_differs,
        title_differs,
    } = hidden;
    let mut members = vec![("number", by.number.to_string())];
    members.extend(file("file", Some(by.which), files));
    members.extend([
        ("line", by.line.to_string()),
        ("destination_differs", destination_differs.to_string()),
        ("title_differs", title_differs.to_string()),
    ]);
    object(&members)
}

fn links(name: &str, list: &[Link], files: &Files) -> String {
    array(name, list.iter().map(|one| link(one, files)))
}

/// A link or an image.
fn link(link: &Link, files: &Files) -> String {
    let definition = link.definition.as_ref();
    let number = |named: &Named| named.number.to_string();
    let line = |named: &Named| named.line.to_string();
    let which = definition.map(|named| named.which);
    let mut members = vec![
        ("kind", string(link.form.word())),
        ("line", link.place.line.to_string()),
        ("column", link.place.column.to_string()),
        ("start", link.whole.start.to_string()),
        ("end", link.whole.end.to_string()),
        ("text", part(&link.text)),
        ("definition", optional(definition, number)),
    ];
    members.extend(file("definition_file", which, files));
    members.extend([
        ("definition_line", optional(definition, line)),
        ("destination", optional(link.destination.as_ref(), part)),
        ("title", optional(link.title.as_ref(), part)),
    ]);
    object(&members)
}

/// The member that names a text's file, or null for no text; none where there is one file.
fn file<'k>(key: &'k str, which: Option<Which>, files: &Files) -> Option<(&'k str, String)> {
    files.sheet.as_ref()?;
    let name = which.and_then(|which| files.name(which));
    let name = optional(name, |name| string(&name.to_string_lossy()));
    Some((key, name))
}

fn code(code: &Code) -> String {
    object(&[
        ("line", code.place.line.to_string()),
        ("column", code.place.column.to_string()),
        ("start", code.whole.start.to_string()),
        ("end", code.whole.end.to_string()),
        ("text", part(&code.text)),
    ])
}

fn part(part: &Part) -> String {
    let Range { start, end } = part.range;
    object(&[
        ("start", start.to_string()),
        ("end", end.to_string()),
        ("text", string(&part.text)),
    ])
}

fn optional<T>(item: Option<T>, value: impl Fn(T) -> String) -> String {
    item.map_or_else(|| "null".to_string(), value)
}

/// An object of members whose values are JSON already.
fn object(members: &[(&str, String)]) -> String {
    let members: Vec<String> = members
        .iter()
        .map(|(name, value)| format!("\"{name}\": {value}"))
        .collect();
    format!("{{{}}}", members.join(", "))
}

fn string(text: &str) -> String {
    let mut quoted = String::with_capacity(text.len() + 2);
    quoted.push('"');
    for character in text.chars() {
        match character {
            '"' | '\\' => quoted.extend(['\\', character]),
            '\n' => quoted.push_str("\\n"),
            '\t' => quoted.push_str("\\t"),
            '\0'..='\u{1f}' | '\u{7f}'..='\u{9f}' => {
                // Writing in a string never fails.
                let _ = write!(quoted, "\\u{:04x}", u32::from(character));
            }
            _ => quoted.push(character),
        }
    }
    quoted.push('"');
    quoted
}

#[cfg(test)]
mod tests {
    use super::string;
    use host::json::{parse, Value};

    #[test]
    fn every_character_comes_back() {
        let below: String = (1..0x300).filter_map(char::from_u32).collect();
        for text in ["", "\"\\/", "µg 😀 \u{2028}\u{fffd}", &below] {
            assert_eq!(parse(&string(text)), Ok(Value::String(text.to_string())));
        }
        assert_eq!(string("a\"\\\n\u{1b}"), "\"a\\\"\\\\\\n\\u001b\"");
    }
}
