//! The table of the law and the table of the code against the rows of Unicode's file, one by one.

use std::collections::BTreeMap;
use std::path::Path;

use host::case_folding::{self, Row, END};

/// The law's table and its short list, and the code's table.
const LAW: &str = "casefold/specs/Table.antt";
const SHORT_LIST: &str = "casefold/specs/Fold.antt";
const CODE: &str = "folding/src/entries.rt";

/// "one table of 1,328 entries, U+0000 to U+052F".
const ENTRIES: usize = 1_328;
/// What a table has for a character that folds to several.
const SEVERAL: u32 = 0;

/// What a table and a short list say.
#[derive(Clone)]
struct Said {
    table: Vec<u32>,
    several: BTreeMap<u32, Vec<u32>>,
}

/// A file of the crates.
fn stored(name: &str) -> String {
    let path = Path::new(env!("CARGO_MANIFEST_DIR"))
        .join("../crates")
        .join(name);
    std::fs::read_to_string(&path).unwrap_or_else(|error| panic!("{}: {error}", path.display()))
}

/// The numbers written in hexadecimal digits after `0x`, in order.
fn numbers(text: &str) -> Vec<u32> {
    let digits = text.split("0x").skip(1).map(|rest| {
        let end = rest.find(|character: char| !character.is_ascii_hexdigit());
        &rest[..end.unwrap_or(rest.len())]
    });
    let number = |digits: &str| u32::from_str_radix(digits, 16).expect("hexadecimal digits");
    digits.map(number).collect()
}

/// What stands in the file after `start`, up to `end`.
fn between<'t>(text: &'t str, start: &str, end: &str) -> &'t str {
    let (_, after) = text
        .split_once(start)
        .unwrap_or_else(|| panic!("no {start:?}"));
    let (inside, _) = after
        .split_once(end)
        .unwrap_or_else(|| panic!("no {end:?}"));
    inside
}

/// The law's table.
fn law() -> Vec<u32> {
    numbers(between(&stored(LAW), "\ntable =\n", "[]"))
}

/// The code's table.
fn code() -> Vec<u32> {
    numbers(between(&stored(CODE), "[u16; 1328] = [", "]"))
}

/// The law's short list: on each line a character, an arrow, and those that it folds to.
fn short_list() -> BTreeMap<u32, Vec<u32>> {
    let file = stored(SHORT_LIST);
    let lines = between(&file, "\nseveral =\n", "\n\n").lines();
    let entries = lines.filter_map(|line| line.split_once('⇒'));
    let entry = |(from, to): (&str, &str)| match numbers(from)[..] {
        [from] => (from, numbers(to)),
        _ => panic!("no entry: {from}"),
    };
    entries.map(entry).collect()
}

/// What the file says of each character below the end: those that it folds to, itself where no row is about it.
fn wanted(rows: &[Row]) -> Vec<Vec<u32>> {
    let mut wanted: Vec<Vec<u32>> = (0..END as u32).map(|own| vec![own]).collect();
    for row in rows {
        wanted[row.character as usize] = row.folded.chars().map(u32::from).collect();
    }
    wanted
}

/// The characters of which a table and a short list say something else than the file.
fn differences(said: &Said, rows: &[Row]) -> Vec<u32> {
    let wanted = wanted(rows);
    let says = |own: usize| match (said.several.get(&(own as u32)), said.table.get(own)) {
        (None, Some(one)) => Some(vec![*one]),
        (Some(several), Some(&SEVERAL)) if several.len() > 1 => Some(several.clone()),
        _ => None,
    };
    let longest = wanted.len().max(said.table.len());
    let differs = |own: &usize| wanted.get(*own) != says(*own).as_ref();
    let of_table = (0..longest).filter(differs).map(|own| own as u32);
    let past = said.several.keys().filter(|own| **own as usize >= longest);
    of_table.chain(past.copied()).collect()
}

/// The law and the code with what is said of several, which the law alone lists.
fn both() -> [Said; 2] {
    let several = short_list();
    [law(), code()].map(|table| Said {
        table,
        several: several.clone(),
    })
}

#[test]
fn the_file_has_its_rows() {
    let rows = case_folding::rows();
    assert_eq!(rows.len(), 447);
    assert_eq!(END as usize, ENTRIES);
    for row in &rows {
        let several = row.folded.chars().count() > 1;
        let status = if several { "F" } else { "C" };
        assert_eq!(row.status, status, "{row:?}");
        assert!(row.character < END, "{row:?}");
        assert_ne!(row.folded, row.character.to_string());
    }
    assert!(rows
        .windows(2)
        .all(|two| two[0].character < two[1].character));
}

#[test]
fn the_law_and_the_code_are_the_file() {
    let rows = case_folding::rows();
    for said in both() {
        assert_eq!(said.table.len(), ENTRIES);
        assert_eq!(differences(&said, &rows), []);
    }
}

#[test]
fn six_characters_fold_to_several() {
    let rows = case_folding::rows().into_iter();
    let several = rows.filter(|row| row.status == "F");
    let wanted = several.map(|row| {
        let folded = row.folded.chars().map(u32::from);
        (row.character as u32, folded.collect())
    });
    let wanted: BTreeMap<u32, Vec<u32>> = wanted.collect();
    assert_eq!(wanted.len(), 6);
    assert_eq!(short_list(), wanted);
}

/// The differences of the law once something in it is changed.
fn differences_after(change: impl Fn(&mut Said)) -> Vec<u32> {
    let [mut law, _] = both();
    change(&mut law);
    differences(&law, &case_folding::rows())
}

/// One entry changed is named, wherever it stands.
#[test]
fn a_changed_entry_is_a_difference() {
    let rows = case_folding::rows();
    let [law, _] = both();
    let changes = (0..ENTRIES).flat_map(|own| [1, 32, 80].map(|added| (own, added)));
    for (own, added) in changes {
        let mut said = law.clone();
        said.table[own] += added;
        assert_eq!(differences(&said, &rows), [own as u32]);
    }
}

/// So is an entry of the short list that is missing, cut, lengthened, or about another character.
#[test]
fn a_changed_list_is_a_difference() {
    for (own, several) in short_list() {
        let longer = [&several[..], &[0x73]].concat();
        let without = |said: &mut Said| drop(said.several.remove(&own));
        let with = |own: u32, list: &[u32]| {
            let list = list.to_vec();
            move |said: &mut Said| drop(said.several.insert(own, list.clone()))
        };
        assert_eq!(differences_after(without), [own]);
        assert_eq!(differences_after(with(own, &several[..1])), [own]);
        assert_eq!(differences_after(with(own, &longer)), [own]);
        assert_eq!(differences_after(with(0xd7, &several)), [0xd7]);
        assert_eq!(differences_after(with(0x530, &several)), [0x530]);
    }
}

/// So is a table that ends too soon or too late.
#[test]
fn a_table_of_another_length_is_a_difference() {
    let shorter = |said: &mut Said| said.table.truncate(ENTRIES - 1);
    assert_eq!(differences_after(shorter), [0x52f]);
    let longer = |said: &mut Said| said.table.push(0x530);
    assert_eq!(differences_after(longer), [0x530]);
}
