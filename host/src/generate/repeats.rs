//! Notes and sheets that define few labels often: most repeats say the same, written otherwise, some do not.

use super::chance::Chance;
use super::grammar;
use crate::second::MOST_BRACKETS_OPEN;

const LABELS: [&str; 4] = ["a", "max rate", "é", "Maß σ"];
/// Near each other in length, case and escapes; the empty one has to stand in points.
const DESTINATIONS: &[&str] = &["/u", "/U", "/v", "/u/", "/u\\)", "/u\\\\", "u(v)", ""];
const TITLES: &[Option<&str>] = &[
    None,
    Some(""),
    Some("t"),
    Some("T"),
    Some("u"),
    Some("t u"),
    Some("t\nu"),
    Some("t\\)"),
];
const DELIMITERS: [[&str; 2]; 3] = [["\"", "\""], ["'", "'"], ["(", ")"]];
const SPACES: &[&str] = &[" ", " ", "\n", "\t", " \n "];

/// What definitions of a label say.
#[derive(Clone, Copy)]
struct Said {
    destination: &'static str,
    title: Option<&'static str>,
}

impl Said {
    fn by_chance(chance: &mut Chance) -> Said {
        Said {
            destination: chance.one_of(DESTINATIONS),
            title: chance.one_of(TITLES),
        }
    }

    /// The same, but once in a while with another destination or title.
    fn or_other(self, chance: &mut Chance) -> Said {
        let other = Said::by_chance(chance);
        match chance.below(24) {
            0 => Said {
                destination: other.destination,
                ..self
            },
            1 => Said {
                title: other.title,
                ..self
            },
            _ => self,
        }
    }

    /// As it stands in a definition, with delimiters and spaces by chance.
    fn written(self, chance: &mut Chance) -> String {
        let Said { destination, title } = self;
        let mut text = chance.one_of(SPACES).to_string();
        let in_points = destination.is_empty() || chance.once_in(3);
        let [before, after] = if in_points { ["<", ">"] } else { ["", ""] };
        text += &format!("{before}{destination}{after}");
        if let Some(title) = title {
            let [opening, closing] = chance.one_of(&DELIMITERS);
            text += &format!("{}{opening}{title}{closing}", chance.one_of(SPACES));
        }
        text
    }
}

/// A note and a sheet by chance; the sheet is empty once in three times.
pub fn texts(chance: &mut Chance) -> (Vec<u8>, Vec<u8>) {
    let said = LABELS.map(|_| Said::by_chance(chance));
    let note = text(&said, chance);
    let sheet = if chance.once_in(3) {
        String::new()
    } else {
        text(&said, chance)
    };
    (note.into_bytes(), sheet.into_bytes())
}

/// Some blocks of definitions, and of text after them at times.
fn text(said: &[Said], chance: &mut Chance) -> String {
    let mut text = String::new();
    for _ in 0..chance.between(1, 3) {
        text += &definitions(said, chance);
        if chance.once_in(2) {
            text += "x [a] [t][Max  Rate] [MASS Σ] `c`\n";
        }
        if chance.once_in(60) {
            text += &"[".repeat(MOST_BRACKETS_OPEN + 1);
        }
        text += "\n\n";
    }
    text
}

/// Up to three definitions.
fn definitions(said: &[Said], chance: &mut Chance) -> String {
    let mut lines = String::new();
    for _ in 0..chance.below(4) {
        let which = chance.below(LABELS.len());
        let label = grammar::varied(chance, LABELS[which]);
        let said = said[which].or_other(chance);
        lines += &format!("[{label}]:{}\n", said.written(chance));
    }
    lines
}
