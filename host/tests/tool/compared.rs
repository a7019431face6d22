//! What the tool prints of a note and a sheet, against the second reader's rows and page.

use std::ops::Range;
use std::path::PathBuf;

use host::json::{self, Value};
use host::second::{self, kind, DefinitionRow, SpanRow};

use crate::run::{notice, Folder, Ran};

/// The kinds of links, and those of images: inline, full, collapsed, shortcut.
const LINKS: [u32; 4] = [kind::INLINE, kind::FULL, kind::COLLAPSED, kind::SHORTCUT];
const IMAGES: [u32; 4] = [
    kind::INLINE_IMAGE,
    kind::FULL_IMAGE,
    kind::COLLAPSED_IMAGE,
    kind::SHORTCUT_IMAGE,
];

/// Compares the tool with the second reader on a note that neither refuses, and says whether a release of it
/// is stopped.
pub fn compare(note: &str) -> bool {
    Texts { note, sheet: None }.compare()
}

/// The same with a sheet beside the note.
pub fn compare_beside(note: &str, sheet: &str) -> bool {
    let folder = Folder::new();
    let file = folder.write("sheet.md", sheet.as_bytes());
    let sheet = Sheet { text: sheet, file };
    let sheet = Some(&sheet);
    Texts { note, sheet }.compare()
}

/// A sheet, and the file where it stands.
#[derive(Debug)]
pub struct Sheet<'t> {
    text: &'t str,
    file: PathBuf,
}

/// What the tool is given: a note on standard input, and a sheet or none.
#[derive(Clone, Copy, Debug)]
pub struct Texts<'t> {
    note: &'t str,
    sheet: Option<&'t Sheet<'t>>,
}

impl<'t> Texts<'t> {
    fn compare(self) -> bool {
        let [note, sheet] = self.bytes();
        let wanted = second::render(note, sheet, false, usize::MAX, usize::MAX, usize::MAX);
        assert_eq!(wanted.number, second::number::SUCCESS, "{self:?}");
        let page = self.run(&["page"], &[]);
        assert_eq!(Some(page.as_bytes()), wanted.page.as_deref(), "{self:?}");
        let text = self.run(&["links", "--json"], &[]);
        let listed = json::parse(&text).unwrap_or_else(|error| panic!("{self:?}: {error}\n{text}"));
        let definitions = wanted.definition_rows.expect("rows on success");
        self.compare_definitions(items(&listed, "definitions"), &definitions);
        let spans = wanted.span_rows.expect("rows on success");
        self.compare_spans(&listed, &spans, &definitions);
        self.compare_table(&definitions, &spans);
        self.compare_enquiry(&definitions);
        self.compare_release(&page, &definitions)
    }

    /// What the tool prints when it is given these words, the sheet, and these names before the note.
    fn run(self, words: &[&str], names: &[&str]) -> String {
        self.ran(words, names).good()
    }

    /// The same of a run that may be refused.
    pub fn ran(self, words: &[&str], names: &[&str]) -> Ran {
        let mut words = words.to_vec();
        if let Some(sheet) = self.sheet {
            words.extend(["--sheet", sheet.file.to_str().expect("a plain name")]);
        }
        let words = [&words[..], &["--"], names, &["-"]].concat();
        notice(&words, self.note.as_bytes())
    }

    /// The bytes of the note and the sheet.
    pub fn bytes(self) -> [&'t [u8]; 2] {
        [0, 1].map(|text| self.text(text).as_bytes())
    }

    /// The text with this number.
    pub fn text(self, text: u32) -> &'t str {
        match text {
            0 => self.note,
            _ => self.sheet.map_or("", |sheet| sheet.text),
        }
    }

    /// The part of a text.
    pub fn part(self, text: u32, start: u32, end: u32) -> &'t str {
        &self.text(text)[range(start, end)]
    }

    /// The name of a text's file, where there are two.
    pub fn file(self, text: u32) -> Option<&'t str> {
        self.sheet.map(|sheet| match text {
            0 => "-",
            _ => sheet.file.to_str().expect("a plain name"),
        })
    }

    /// The member names the text's file; where there is one file it is left out.
    pub fn assert_file(self, item: &Value, key: &str, text: u32) {
        let said = item.get(key).map(|name| name.as_str().expect("a name"));
        assert_eq!(said, self.file(text), "{self:?} {key}");
    }

    fn compare_definitions(self, listed: &[Value], rows: &[DefinitionRow]) {
        assert_eq!(listed.len(), rows.len(), "{self:?}");
        for (index, (item, row)) in listed.iter().zip(rows).enumerate() {
            let text = row[0];
            self.assert_file(item, "file", text);
            let [label, destination, title] =
                ["label", "destination", "title"].map(|key| self.places(text, item, key));
            let parts = [label, destination, title].concat();
            let made = [vec![text], parts, vec![number(item, "line")]].concat();
            assert_eq!(made, row, "{self:?}");
            assert_eq!(number(item, "number"), index as u32 + 1);
            self.assert_place(item, text, row[1] - 1);
            self.compare_hidden(item, index, rows);
        }
    }

    fn compare_spans(self, listed: &Value, rows: &[SpanRow], definitions: &[DefinitionRow]) {
        let of = |name, kinds: [u32; 4]| {
            let items = items(listed, name).iter();
            items.map(move |item| self.link_row(item, kinds, definitions))
        };
        let links = of("links", LINKS);
        let images = of("images", IMAGES);
        let codes = items(listed, "code_spans").iter();
        let codes = codes.map(|item| self.code_row(item));
        let mut made: Vec<SpanRow> = links.chain(images).chain(codes).collect();
        made.sort_by_key(|row| row[2]);
        assert_eq!(made, rows, "{self:?}");
    }

    /// The row of a link or an image, whose kinds are given.
    fn link_row(self, item: &Value, kinds: [u32; 4], definitions: &[DefinitionRow]) -> SpanRow {
        let word = item.get("kind").and_then(Value::as_str).expect("a kind");
        let place = ["inline", "full", "collapsed", "shortcut"]
            .iter()
            .position(|known| *known == word);
        let kind = kinds[place.unwrap_or_else(|| panic!("{self:?}: kind {word}"))];
        let definition = self.definition_number(item, definitions);
        let target = match definition {
            0 => 0,
            number => definitions[number as usize - 1][0],
        };
        let parts = ["destination", "title"].map(|key| self.places(target, item, key));
        self.span_row(item, kind, definition, parts)
    }

    /// The number of a reference's definition, after its file and line were compared; 0 for no reference.
    fn definition_number(self, item: &Value, definitions: &[DefinitionRow]) -> u32 {
        if item.get("definition") == Some(&Value::Null) {
            let file = self.sheet.map(|_| &Value::Null);
            assert_eq!(item.get("definition_file"), file, "{self:?}");
            assert_eq!(item.get("definition_line"), Some(&Value::Null), "{self:?}");
            return 0;
        }
        let definition = number(item, "definition");
        let row = definitions[definition as usize - 1];
        self.assert_file(item, "definition_file", row[0]);
        let (line, _) = place(self.text(row[0]), row[1]);
        assert_eq!(number(item, "definition_line"), line, "{self:?}");
        definition
    }

    fn code_row(self, item: &Value) -> SpanRow {
        self.span_row(item, kind::CODE_SPAN, 0, [[0, 0]; 2])
    }

    fn span_row(self, item: &Value, kind: u32, definition: u32, parts: [[u32; 2]; 2]) -> SpanRow {
        let [start, end] = ["start", "end"].map(|key| number(item, key));
        self.assert_place(item, 0, start);
        let text = self.places(0, item, "text");
        let [[from, to], [title_from, title_to]] = parts;
        let line = number(item, "line");
        [
            kind, start, end, text[0], text[1], definition, from, to, title_from, title_to, line,
        ]
    }

    /// The people's table has a line for each row, and no character that moves a terminal.
    fn compare_table(self, definitions: &[DefinitionRow], spans: &[SpanRow]) {
        let table = self.run(&["links"], &[]);
        let is_head = |line: &&str| line.contains("  LINE:COLUMN  ");
        let heads = table.lines().filter(is_head).count();
        let rows = table.lines().filter(|line| line.starts_with("  ")).count() - heads;
        assert_eq!(rows, definitions.len() + spans.len(), "{self:?}\n{table}");
        let moves = |character: char| character.is_control() && character != '\n';
        assert!(!table.contains(moves), "{self:?}\n{table:?}");
    }

    /// What the last label opens: its file, line and column.
    fn compare_enquiry(self, rows: &[DefinitionRow]) {
        let Some(row) = rows.last() else {
            return;
        };
        let label = self.part(row[0], row[1], row[2]);
        let [note, sheet] = self.bytes();
        let wanted = second::resolve(note, sheet, label.as_bytes());
        let text = wanted.text as u32;
        let (line, column) = place(self.text(text), wanted.destination.start as u32);
        let file = self
            .file(text)
            .map_or(String::new(), |file| format!("{file} "));
        let said = self.run(&["where"], &[label]);
        let end = format!(", {file}line {line} (column {column})\n");
        assert!(said.ends_with(&end), "{self:?}\n{said}, not {end}");
    }

    /// A part's place in a text, or 0, 0; what it says is the text's.
    fn places(self, text: u32, item: &Value, key: &str) -> [u32; 2] {
        let part = item.get(key).expect(key);
        if part == &Value::Null {
            return [0, 0];
        }
        let [start, end] = ["start", "end"].map(|key| number(part, key));
        let said = part.get("text").and_then(Value::as_str);
        assert_eq!(said, Some(self.part(text, start, end)), "{self:?} {key}");
        [start, end]
    }

    fn assert_place(self, item: &Value, text: u32, at: u32) {
        let said = (number(item, "line"), number(item, "column"));
        assert_eq!(said, place(self.text(text), at), "{self:?}");
    }
}

fn items<'v>(listed: &'v Value, key: &str) -> &'v [Value] {
    listed.get(key).and_then(Value::as_array).expect(key)
}

pub fn number(item: &Value, key: &str) -> u32 {
    item.get(key).and_then(Value::as_number).expect(key) as u32
}

fn range(start: u32, end: u32) -> Range<usize> {
    start as usize..end as usize
}

/// Line and column, by counting from the text's start.
pub fn place(text: &str, at: u32) -> (u32, u32) {
    let before = &text[..at as usize];
    let line = 1 + before.matches('\n').count();
    let column = 1 + before.chars().rev().take_while(|c| *c != '\n').count();
    (line as u32, column as u32)
}
