//! Definitions of equal labels: what the tool says of those that are hidden, and of a release, against the
//! second reader.

use host::json::Value;
use host::second::{self, number, DefinitionRow};

use crate::compared::{self, place, Texts};

/// Where the starts of the destination and the title stand in a definition row.
const DESTINATION: usize = 3;
const TITLE: usize = 5;

impl<'t> Texts<'t> {
    /// A definition is hidden by the first one with an equal label, if that is another.
    pub fn compare_hidden(self, item: &Value, index: usize, rows: &[DefinitionRow]) {
        let own = &rows[index];
        let first = rows.iter().position(|row| self.equal_labels(row, own));
        let first = first.expect("a row has its own label");
        let hidden = item.get("hidden_by").expect("the key hidden_by");
        if first == index {
            assert_eq!(hidden, &Value::Null, "{self:?}");
            return;
        }
        let other = &rows[first];
        let named = compared::number(hidden, "number");
        assert_eq!(named, first as u32 + 1, "{self:?}");
        self.assert_file(hidden, "file", other[0]);
        let (line, _) = self.bracket(other);
        assert_eq!(compared::number(hidden, "line"), line, "{self:?}");
        for (key, at) in [
            ("destination_differs", DESTINATION),
            ("title_differs", TITLE),
        ] {
            let differs = self.differ(own, other, at);
            let said = hidden.get(key);
            assert_eq!(said, Some(&Value::Bool(differs)), "{self:?} {key}");
        }
    }

    /// A release is stopped where the second reader stops it, else the page is the one without a release.
    /// Says whether it is stopped.
    pub fn compare_release(self, page: &str, rows: &[DefinitionRow]) -> bool {
        let [note, sheet] = self.bytes();
        let wanted = second::read(note, sheet, true, usize::MAX, usize::MAX);
        let [check, released] =
            ["check", "page"].map(|command| self.ran(&[command, "--release"], &[]));
        if wanted.number == number::SUCCESS {
            assert_eq!(check.good(), "", "{self:?}");
            assert_eq!(released.good(), page, "{self:?}");
            return false;
        }
        assert_eq!(wanted.number, number::CONFLICTING_DEFINITIONS, "{self:?}");
        let ended = (check.status, check.err.as_str());
        assert_eq!(ended, (Some(9), ""), "{self:?}");
        assert_eq!(released.bad(9), check.out, "{self:?}");
        self.compare_line(&check.out, wanted.value, rows);
        true
    }

    /// The line starts at the definition with this number and ends with the place of the first one of equal
    /// label that differs from it; but for its end it has no character that moves a terminal.
    fn compare_line(self, said: &str, number: usize, rows: &[DefinitionRow]) {
        let own = &rows[number - 1];
        let differ = |row: &&DefinitionRow| {
            let parts = self.differ(row, own, DESTINATION) || self.differ(row, own, TITLE);
            parts && self.equal_labels(row, own)
        };
        let other = rows.iter().find(differ).expect("one that differs");
        let file = |row: &DefinitionRow| self.file(row[0]).unwrap_or("-");
        let (line, column) = self.bracket(own);
        let start = format!("{}:{line}:{column}: refusal 9: \"[", file(own));
        assert!(said.starts_with(&start), "{self:?}\n{said}, not {start}");
        let (line, _) = self.bracket(other);
        let end = if other[0] == own[0] {
            format!(" at line {line}; keep one\n")
        } else {
            format!(" at line {line} of {}; keep one\n", file(other))
        };
        assert!(said.ends_with(&end), "{self:?}\n{said}, not {end}");
        assert_eq!(
            said.find(char::is_control),
            Some(said.len() - 1),
            "{said:?}"
        );
    }

    /// The line and column of a definition.
    fn bracket(self, row: &DefinitionRow) -> (u32, u32) {
        place(self.text(row[0]), row[1] - 1)
    }

    fn equal_labels(self, one: &DefinitionRow, other: &DefinitionRow) -> bool {
        let [one, other] = [one, other].map(|row| self.part(row[0], row[1], row[2]));
        second::same_label(one.as_bytes(), other.as_bytes())
    }

    /// Whether two rows differ in the part whose start has this index, or in whether it is there.
    fn differ(self, one: &DefinitionRow, other: &DefinitionRow, at: usize) -> bool {
        let part = |row: &DefinitionRow| {
            (row[at + 1] != 0).then(|| self.part(row[0], row[at], row[at + 1]))
        };
        part(one) != part(other)
    }
}
