//! The listing as tables for people.

use crate::files;
use crate::listing::{Code, Definition, Hidden, Link, Listing, Named, Part};
use crate::places::Place;
use crate::texts::{Files, Which};
use crate::visible;

/// A column is padded to its widest cell, but never wider than this; longer cells are whole and
/// push the rest of their line to the right.
const WIDEST: usize = 60;

/// The whole listing. Where there are two files, each definition says in which it stands.
pub fn text(listing: &Listing, files: &Files) -> String {
    let codes = listing.codes.iter().map(|one| code(one).into());
    [
        definitions(&listing.definitions, files),
        links("Links", "TEXT", &listing.links, files),
        links("Images", "DESCRIPTION", &listing.images, files),
        part("Code spans", "", heads(CODE_HEADS).into(), codes),
    ]
    .join("\n")
}

const FILE_HEAD: &str = "FILE";
const DEFINITION_HEADS: [&str; 5] = ["LINE:COLUMN", "LABEL", "DESTINATION", "TITLE", "STATE"];
const CODE_HEADS: [&str; 2] = ["LINE:COLUMN", "CODE"];

fn heads<const COLUMNS: usize>(heads: [&str; COLUMNS]) -> [String; COLUMNS] {
    heads.map(str::to_string)
}

fn definitions(definitions: &[Definition], files: &Files) -> String {
    let hidden = || definitions.iter().filter_map(|one| one.hidden.as_ref());
    let differ = hidden().filter(|hidden| differs(hidden)).count();
    let remark = match hidden().count() {
        0 => ", hidden: 0".to_string(),
        count => format!(", hidden: {count}, of these different: {differ}"),
    };
    let head = files.sheet.as_ref().map(|_| FILE_HEAD.to_string());
    let heads = led(head, heads(DEFINITION_HEADS));
    let rows = definitions
        .iter()
        .map(|one| led(file(one.which, files), definition(one, files)));
    part("Definitions", &remark, heads, rows)
}

/// A row with one more cell before the others, or without it.
fn led<const COLUMNS: usize>(first: Option<String>, cells: [String; COLUMNS]) -> Vec<String> {
    first.into_iter().chain(cells).collect()
}

/// The name of a text's file, where there are two.
fn file(which: Which, files: &Files) -> Option<String> {
    files.told_apart(which).map(files::shown_name)
}

fn differs(hidden: &Hidden) -> bool {
    hidden.destination_differs || hidden.title_differs
}

fn definition(definition: &Definition, files: &Files) -> [String; 5] {
    [
        place(definition.place),
        visible::visible(&definition.label.text),
        visible::destination(&definition.destination.text),
        title(definition.title.as_ref()),
        definition
            .hidden
            .as_ref()
            .map_or_else(|| "first".to_string(), |hidden| state(hidden, files)),
    ]
}

/// How a hidden definition stands to the one that hides it.
fn state(hidden: &Hidden, files: &Files) -> String {
    let by = line_of(&hidden.by, files);
    match (hidden.destination_differs, hidden.title_differs) {
        (false, false) => format!("hidden by {by}, same destination and title"),
        (true, false) => format!("HIDDEN by {by}, DESTINATION DIFFERS"),
        (false, true) => format!("HIDDEN by {by}, TITLE DIFFERS"),
        (true, true) => format!("HIDDEN by {by}, DESTINATION AND TITLE DIFFER"),
    }
}

/// The line where a definition stands, and before it the file, where there are two.
fn line_of(named: &Named, files: &Files) -> String {
    let line = format!("line {}", named.line);
    match file(named.which, files) {
        Some(file) => format!("{file} {line}"),
        None => line,
    }
}

/// Links or images; `text` heads what stands between their brackets.
fn links(name: &str, text: &str, list: &[Link], files: &Files) -> String {
    let heads = heads([
        "LINE:COLUMN",
        "KIND",
        text,
        "DESTINATION",
        "TITLE",
        "DEFINITION",
    ]);
    let rows = list.iter().map(|one| link(one, files).into());
    part(name, "", heads.into(), rows)
}

fn link(link: &Link, files: &Files) -> [String; 6] {
    [
        place(link.place),
        link.form.word().to_string(),
        visible::visible(&link.text.text),
        link.destination.as_ref().map_or_else(
            || "no destination".to_string(),
            |part| visible::destination(&part.text),
        ),
        title(link.title.as_ref()),
        link.definition.as_ref().map_or_else(
            || "none needed".to_string(),
            |definition| line_of(definition, files),
        ),
    ]
}

fn code(code: &Code) -> [String; 2] {
    [place(code.place), visible::visible(&code.text.text)]
}

fn place(place: Place) -> String {
    format!("{}:{}", place.line, place.column)
}

fn title(title: Option<&Part>) -> String {
    title.map_or_else(|| "no title".to_string(), |part| visible::title(&part.text))
}

/// A part's name and count with a remark on it, and the table if there are rows.
fn part(
    name: &str,
    remark: &str,
    heads: Vec<String>,
    rows: impl Iterator<Item = Vec<String>>,
) -> String {
    let mut table = vec![heads];
    table.extend(rows);
    match table.len() - 1 {
        0 => format!("{name}: none\n"),
        count => format!("{name}: {count}{remark}\n{}", aligned(&table)),
    }
}

/// The rows as lines with aligned columns, two spaces between them.
fn aligned(rows: &[Vec<String>]) -> String {
    let width = |column: usize| {
        let cells = rows.iter().map(|row| row[column].chars().count());
        cells.filter(|width| *width <= WIDEST).max().unwrap_or(0)
    };
    let widths: Vec<usize> = (0..rows[0].len()).map(width).collect();
    rows.iter().map(|row| line(row, &widths)).collect()
}

fn line(row: &[String], widths: &[usize]) -> String {
    let cells = row.iter().zip(widths);
    let line: String = cells
        .map(|(cell, width)| format!("  {cell:width$}"))
        .collect();
    format!("{}\n", line.trim_end())
}

#[cfg(test)]
mod tests {
    use super::{aligned, WIDEST};

    #[test]
    fn long_cells_are_whole_and_widen_no_column() {
        let long = "x".repeat(WIDEST + 1);
        let rows = [["é", "b"], ["aaa", "c"], [&long, "d"]];
        let rows = rows.map(|row| row.map(str::to_string).to_vec());
        assert_eq!(aligned(&rows), format!("  é    b\n  aaa  c\n  {long}  d\n"));
    }
}
