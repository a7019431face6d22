//! Every command on every example, against stored output.

use std::path::{Path, PathBuf};

use crate::run::{notice_in, Ran};

const GOOD: [&str; 8] = [
    "formulary",
    "june",
    "limits",
    "max",
    "night-shift",
    "pump-library",
    "pump-screens",
    "ward-round",
];
const REFUSED: &str = "too-deep";
/// Those with definitions that conflict, which stops a release.
const CONFLICTING: [&str; 2] = ["june", "night-shift"];
/// The sheet, and the notice that cites it.
const SHEET: &str = "limits.md";
const BESIDE: &str = "ward-round.md";

fn host() -> &'static Path {
    Path::new(env!("CARGO_MANIFEST_DIR"))
}

fn folder() -> PathBuf {
    host().join("../examples")
}

fn stored(name: &str) -> String {
    let path = host().join("tests/data/tool").join(name);
    std::fs::read_to_string(&path).unwrap_or_else(|error| panic!("{}: {error}", path.display()))
}

fn run(words: &[&str]) -> Ran {
    notice_in(&folder(), words)
}

#[test]
fn all_examples_are_here() {
    let names = std::fs::read_dir(folder()).expect("the examples");
    let mut names: Vec<String> = names
        .map(|entry| entry.expect("an example").file_name())
        .map(|name| name.to_string_lossy().into_owned())
        .filter(|name| name.ends_with(".md"))
        .collect();
    names.sort();
    let mut wanted = GOOD.to_vec();
    wanted.push(REFUSED);
    wanted.sort();
    let wanted = wanted.iter().map(|name| format!("{name}.md"));
    assert_eq!(names, wanted.collect::<Vec<_>>());
}

#[test]
fn pages() {
    for name in GOOD {
        let file = format!("{name}.md");
        let page = run(&["page", &file]).good();
        assert_eq!(page, stored(&format!("{name}.page.html")), "{name}");
        let standalone = run(&["page", "--standalone", &file]).good();
        assert!(standalone.contains(&page), "{name}");
        assert!(standalone.contains(&format!("<title>{file}</title>")));
    }
}

#[test]
fn a_whole_document() {
    let standalone = run(&["page", "--standalone", "max.md"]).good();
    assert_eq!(standalone, stored("max.standalone.html"));
}

#[test]
fn links() {
    for name in GOOD {
        let file = format!("{name}.md");
        let table = run(&["links", &file]).good();
        assert_eq!(table, stored(&format!("{name}.links.txt")), "{name}");
        let json = run(&["links", "--json", &file]).good();
        assert_eq!(json, stored(&format!("{name}.links.json")), "{name}");
    }
}

#[test]
fn checks() {
    for name in GOOD {
        assert_eq!(run(&["check", &format!("{name}.md")]).good(), "", "{name}");
    }
}

#[test]
fn releases() {
    for name in GOOD {
        let file = format!("{name}.md");
        let [check, page] = ["check", "page"].map(|command| run(&[command, "--release", &file]));
        if CONFLICTING.contains(&name) {
            let line = stored(&format!("{name}.release.txt"));
            assert_eq!((check.status, &check.out), (Some(9), &line));
            assert_eq!(page.bad(9), line);
        } else {
            assert_eq!(check.good(), "", "{name}");
            assert_eq!(page.good(), stored(&format!("{name}.page.html")), "{name}");
        }
    }
}

/// Examples, labels, and what these open.
const DESTINATIONS: [(&str, &str, &str); 7] = [
    (
        "june",
        "max rate",
        "/pump/2026-06/max-rate, line 4 (column 13)\n",
    ),
    (
        "june",
        "\tMAX\nRate ",
        "/pump/2026-06/max-rate, line 4 (column 13)\n",
    ),
    (
        "june",
        "pharmacy",
        "mailto:pharmacy@ward.example, line 5 (column 14)\n",
    ),
    (
        "pump-library",
        "rollback",
        "</pump/library/7.1 (kept)>, line 2 (column 14)\n",
    ),
    (
        "pump-screens",
        "alarm  e-17",
        "</screens/7.2/alarm E-17.png>, line 2 (column 16)\n",
    ),
    (
        "night-shift",
        "On Call",
        "tel:+00-555-0100, line 1 (column 12)\n",
    ),
    (
        "ward-round",
        "placebin limit",
        "/trials/7/placebin, line 1 (column 19)\n",
    ),
];

#[test]
fn destinations() {
    for (name, label, wanted) in DESTINATIONS {
        let file = format!("{name}.md");
        assert_eq!(run(&["where", label, &file]).good(), wanted, "{label:?}");
    }
}

#[test]
fn beside_the_sheet() {
    let with_sheet = |words: &[&str]| run(&[words, &["--sheet", SHEET, BESIDE]].concat()).good();
    let page = with_sheet(&["page"]);
    assert_eq!(page, stored("ward-round.sheet.page.html"));
    let standalone = with_sheet(&["page", "--standalone"]);
    assert!(standalone.contains(&format!("<body>\n{page}</body>")));
    assert!(standalone.contains(&format!("<title>{BESIDE}</title>")));
    let table = with_sheet(&["links"]);
    assert_eq!(table, stored("ward-round.sheet.links.txt"));
    let json = with_sheet(&["links", "--json"]);
    assert_eq!(json, stored("ward-round.sheet.links.json"));
    assert_eq!(with_sheet(&["check"]), "");
    let stopped = run(&["page", "--release", "--sheet", SHEET, BESIDE]);
    assert_eq!(stopped.bad(9), stored("ward-round.sheet.release.txt"));
    let answers = [
        (
            "Placebin Limit",
            "/trials/7/placebin, ward-round.md line 1 (column 19)\n",
        ),
        (
            "specimen limit",
            "/limits/2026-11/specimen, limits.md line 6 (column 19)\n",
        ),
        (
            "renal\ndosing",
            "</limits/2026-11/renal dosing>, limits.md line 9 (column 18)\n",
        ),
    ];
    for (label, wanted) in answers {
        assert_eq!(with_sheet(&["where", label]), wanted, "{label:?}");
    }
}

/// Without the sheet the same labels open nothing and stand in the page as they are written.
#[test]
fn without_the_sheet() {
    for label in ["Examplin limit", "Specimen limit", "pharmacy"] {
        let alone = run(&["where", label, BESIDE]).bad(7);
        assert!(alone.starts_with("ward-round.md:1:1: refusal 7: no definition in the note has "));
        assert!(stored("ward-round.page.html").contains(&format!("[{label}]")));
        assert!(!stored("ward-round.sheet.page.html").contains(&format!("[{label}]")));
    }
}

#[test]
fn the_refused_example() {
    let file = format!("{REFUSED}.md");
    let line = stored(&format!("{REFUSED}.check.txt"));
    let refused = Ran {
        status: Some(4),
        out: line.clone(),
        err: String::new(),
    };
    assert_eq!(run(&["check", &file]), refused);
    for words in [
        &["page", &file][..],
        &["page", "--standalone", &file],
        &["links", &file],
        &["links", "--json", &file],
    ] {
        assert_eq!(run(words).bad(4), line, "{words:?}");
    }
    assert!(run(&["where", "e1", &file])
        .bad(7)
        .contains(": refusal 7: "));
}
