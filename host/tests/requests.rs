//! Cases of the requests of document 02 that are in force, answered by an independent reader, against the
//! second reader. A case was answered when the requests in its `in_force` were. Where request 1 was not,
//! the sheet is empty and a definition row has seven numbers: such a case holds behind a leading 0, where as
//! many whole definition rows are lent. Those of request 4 are older than lines, but have no rows and lend no
//! whole row, so that they stand as they were. Where request 8 was not, the case is for no release. Where request 3
//! was not, the answer is that of the second reader folding A to Z alone, which is checked; with request 3 it is the
//! same, but for seven that are named here: of those the second reader's answer is wanted, its number and value as
//! a person reads them off. Where request 5 was not, no `![` stands in the note, so that images change no answer.

use host::json::{self, Value};
use host::second::{self, ReadAnswer, RenderAnswer, ResolveAnswer, DEFINITION_ROW_WIDTH};
use host::second::{Reader, Wrong};
use host::sources::IN_FORCE;

const FILE: &str = include_str!("data/requests.json");
/// The request that gave definition rows their leading number.
const SHEET: f64 = 1.0;
/// The request that gave the setting.
const RELEASE: f64 = 8.0;
/// The request that made folding go past Z.
const FOLDING: f64 = 3.0;
/// The request that added images, and what opens one.
const IMAGES: f64 = 5.0;
const OPENING: &[u8] = b"![";
/// The older cases whose answers it changes, and what each is now, read off its texts: a label is found, another
/// reference has a row, definitions conflict.
const CHANGED: [(&str, u32, usize); 7] = [
    ("r01-077", 0, 17),
    ("r01-102", 5, 3),
    ("r01-109", 0, 38),
    ("r08-011", 9, 2),
    ("r08-055", 9, 2),
    ("r08-065", 9, 2),
    ("r08-095", 9, 2),
];

/// A case: the two texts, the setting, what is asked, and what is wanted.
struct Case {
    id: String,
    name: String,
    folds: bool,
    note: Vec<u8>,
    sheet: Vec<u8>,
    release: bool,
    asked: Asked,
    wanted: Answer,
}

/// How many numbers are lent to each table.
#[derive(Clone, Copy)]
struct Tables {
    definition_numbers: usize,
    span_numbers: usize,
}

/// What the entry is given beside the texts.
enum Asked {
    Read(Tables),
    /// With so many bytes lent to the page.
    Page(Tables, usize),
    /// For this label.
    Enquiry(Vec<u8>),
}

/// What the entry answers and leaves.
#[derive(Debug, PartialEq, Eq)]
enum Answer {
    Read(ReadAnswer),
    Page(RenderAnswer),
    /// With the part that is handed back.
    Enquiry(ResolveAnswer, Vec<u8>),
}

fn cases() -> Vec<Case> {
    let file = json::parse(FILE).expect("the file of cases is JSON");
    let list = file.as_array().expect("the file of cases is a list");
    list.iter().map(case).collect()
}

fn case(value: &Value) -> Case {
    let in_force = list(value, "in_force").iter().map(Value::as_number);
    let in_force: Vec<f64> = in_force.flatten().collect();
    let known = |request: &f64| IN_FORCE.contains(&(*request as usize));
    assert!(in_force.iter().all(known), "{value:?}");
    let release = value.get("release") == Some(&Value::Bool(true));
    assert!(in_force.contains(&RELEASE) || !release, "{value:?}");
    let note = bytes(value, "note_hex");
    let may_have_images = note.windows(2).any(|two| two == OPENING);
    assert!(in_force.contains(&IMAGES) || !may_have_images, "{value:?}");
    let (asked, wanted) = asked_and_wanted(value, !in_force.contains(&SHEET));
    let id = string(value, "id");
    Case {
        name: format!("{id} {}", string(value, "what")),
        id,
        folds: in_force.contains(&FOLDING),
        note,
        sheet: bytes(value, "sheet_hex"),
        release,
        asked,
        wanted,
    }
}

fn asked_and_wanted(value: &Value, before_sheets: bool) -> (Asked, Answer) {
    let expect = value.get("expect").expect("what is wanted");
    let tables = || tables(value, before_sheets);
    match string(value, "entry").as_str() {
        "read" => {
            let wanted = wanted_reading(expect, before_sheets);
            (Asked::Read(tables()), Answer::Read(wanted))
        }
        "page" => {
            let wanted = wanted_page(expect, before_sheets);
            let page_bytes = number(value, "page_bytes");
            (Asked::Page(tables(), page_bytes), Answer::Page(wanted))
        }
        "enquire" => {
            let part = bytes(expect, "part_hex");
            let wanted = wanted_enquiry(expect, part.len());
            let label = bytes(value, "label_hex");
            (Asked::Enquiry(label), Answer::Enquiry(wanted, part))
        }
        other => panic!("a case of the entry {other}"),
    }
}

/// What is lent: where rows had seven numbers, as many whole definition rows and the same part of a row.
fn tables(value: &Value, before_sheets: bool) -> Tables {
    let numbers = number(value, "def_numbers");
    let width = DEFINITION_ROW_WIDTH - usize::from(before_sheets);
    Tables {
        definition_numbers: numbers / width * DEFINITION_ROW_WIDTH + numbers % width,
        span_numbers: number(value, "span_numbers"),
    }
}

/// What is wanted of the reader; a table that is unchanged is an empty list there, and a refusal has no
/// counts.
fn wanted_reading(expect: &Value, before_sheets: bool) -> ReadAnswer {
    let answer = number(expect, "number") as u32;
    let changed = |after: &[u32]| !after.contains(&answer);
    let definition_rows = || {
        if before_sheets {
            return rows(expect, "def_rows").into_iter().map(behind_0).collect();
        }
        rows(expect, "def_rows")
    };
    ReadAnswer {
        number: answer,
        value: number(expect, "value"),
        definition_count: count(expect, "definitions"),
        span_count: count(expect, "spans"),
        text: number(expect, "text"),
        definition_rows: changed(&[1, 2, 3]).then(definition_rows),
        span_rows: changed(&[1, 2, 3, 4, 5, 9]).then(|| rows(expect, "span_rows")),
    }
}

/// What is wanted of the page writer, likewise.
fn wanted_page(expect: &Value, before_sheets: bool) -> RenderAnswer {
    let reading = wanted_reading(expect, before_sheets);
    RenderAnswer {
        number: reading.number,
        value: reading.value,
        definition_count: reading.definition_count,
        span_count: reading.span_count,
        page_length: count(expect, "html_length"),
        text: reading.text,
        definition_rows: reading.definition_rows,
        span_rows: reading.span_rows,
        page: (reading.number == 0).then(|| bytes(expect, "page_hex")),
    }
}

/// A row of seven numbers with the note's number before it.
fn behind_0([a, b, c, d, e, f, g]: [u32; 7]) -> [u32; DEFINITION_ROW_WIDTH] {
    [0, a, b, c, d, e, f, g]
}

/// What is wanted of the enquiry, whose part has so many bytes.
fn wanted_enquiry(expect: &Value, part: usize) -> ResolveAnswer {
    let answer = number(expect, "number") as u32;
    let value = number(expect, "value");
    let found = value..value + part;
    ResolveAnswer {
        number: answer,
        value,
        destination: if answer == 0 { found } else { 0..0 },
        text: number(expect, "text"),
    }
}

/// A count, which is given on success alone.
fn count(expect: &Value, name: &str) -> usize {
    if number(expect, "number") == 0 {
        return number(expect, name);
    }
    assert_eq!(expect.get(name), None, "{name} of a refusal");
    0
}

fn string(value: &Value, name: &str) -> String {
    let member = value.get(name).and_then(Value::as_str);
    member.unwrap_or_else(|| panic!("no {name}")).to_string()
}

fn number(value: &Value, name: &str) -> usize {
    let member = value.get(name).and_then(Value::as_number);
    member.unwrap_or_else(|| panic!("no {name}")) as usize
}

fn list<'v>(value: &'v Value, name: &str) -> &'v [Value] {
    let member = value.get(name).and_then(Value::as_array);
    member.unwrap_or_else(|| panic!("no {name}"))
}

fn bytes(value: &Value, name: &str) -> Vec<u8> {
    let digits = string(value, name);
    let byte = |at| u8::from_str_radix(&digits[at..at + 2], 16).expect("two digits");
    (0..digits.len()).step_by(2).map(byte).collect()
}

fn rows<const WIDTH: usize>(value: &Value, name: &str) -> Vec<[u32; WIDTH]> {
    list(value, name).iter().map(row).collect()
}

fn row<const WIDTH: usize>(value: &Value) -> [u32; WIDTH] {
    let items = value.as_array().expect("a row");
    assert_eq!(items.len(), WIDTH, "{value:?}");
    std::array::from_fn(|place| items[place].as_number().expect("a number") as u32)
}

impl Case {
    /// What is answered: by a reader, or where none is named by the one that is tested.
    fn answer(&self, reader: Option<Reader>) -> Answer {
        let Case {
            note,
            sheet,
            release,
            ..
        } = self;
        match &self.asked {
            Asked::Read(lent) => {
                let Tables {
                    definition_numbers,
                    span_numbers,
                } = *lent;
                Answer::Read(match reader {
                    Some(by) => by.read(note, sheet, *release, definition_numbers, span_numbers),
                    None => second::read(note, sheet, *release, definition_numbers, span_numbers),
                })
            }
            Asked::Page(lent, bytes) => Answer::Page(self.page(reader, *lent, *bytes)),
            Asked::Enquiry(label) => {
                let answer = match reader {
                    Some(by) => by.resolve(note, sheet, label),
                    None => second::resolve(note, sheet, label),
                };
                let part = [note, sheet][answer.text][answer.destination.clone()].to_vec();
                Answer::Enquiry(answer, part)
            }
        }
    }

    /// The same of the page writer.
    fn page(&self, reader: Option<Reader>, lent: Tables, bytes: usize) -> RenderAnswer {
        let [note, sheet] = [&self.note, &self.sheet];
        let Tables {
            definition_numbers: definitions,
            span_numbers: spans,
        } = lent;
        match reader {
            Some(by) => by.render(note, sheet, self.release, definitions, spans, bytes),
            None => second::render(note, sheet, self.release, definitions, spans, bytes),
        }
    }

    /// Fails where the answer is another. One that is older than folding is the answer of a reader that folds A to
    /// Z alone; where folding changes it, the answer is the second reader's.
    fn check(&self) {
        let name = &self.name;
        let answer = self.answer(None);
        if self.folds {
            assert_eq!(answer, self.wanted, "{name}");
            return;
        }
        let before = Reader::misreading(Wrong::OnlyAsciiFolded);
        assert_eq!(self.answer(Some(before)), self.wanted, "{name}");
        let now = self.answer(Some(Reader::RIGHT));
        assert_eq!(answer, now, "{name}");
        match self.changed() {
            Some(number_and_value) => {
                assert_eq!(now.number_and_value(), number_and_value, "{name}");
                assert_ne!(now, self.wanted, "{name}");
            }
            None => assert_eq!(now, self.wanted, "{name}"),
        }
    }

    /// What an older answer is now, where folding changes it.
    fn changed(&self) -> Option<(u32, usize)> {
        let changed = CHANGED.iter().find(|(id, ..)| *id == self.id);
        changed.map(|(_, number, value)| (*number, *value))
    }
}

impl Answer {
    fn number_and_value(&self) -> (u32, usize) {
        match self {
            Answer::Read(answer) => (answer.number, answer.value),
            Answer::Page(answer) => (answer.number, answer.value),
            Answer::Enquiry(answer, _) => (answer.number, answer.value),
        }
    }
}

#[test]
fn answers_as_wanted() {
    let cases = cases();
    cases.iter().for_each(Case::check);
    let count = |of: fn(&Asked) -> bool| cases.iter().filter(|case| of(&case.asked)).count();
    // Of request 4: 5 pages. Of request 9: 12 and 28. Of request 1: 19, 43 and 54 enquiries. Of request 8:
    // 16 and 44, of which 38 are for a release. Of request 3: 13, 51 and 69, and 29 for a release. Of request 5:
    // 49 pages.
    assert_eq!(
        count(|asked| matches!(asked, Asked::Read(..))),
        12 + 19 + 16 + 13
    );
    assert_eq!(
        count(|asked| matches!(asked, Asked::Page(..))),
        5 + 28 + 43 + 44 + 51 + 49
    );
    assert_eq!(count(|asked| matches!(asked, Asked::Enquiry(..))), 54 + 69);
    assert_eq!(cases.iter().filter(|case| case.release).count(), 38 + 29);
    let changed = cases.iter().filter(|case| case.changed().is_some());
    assert_eq!(changed.count(), CHANGED.len());
}
