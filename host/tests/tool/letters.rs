//! Labels in Latin, Greek and Cyrillic letters (document 02, request 3).

use crate::compared::{compare, compare_beside};
use crate::run::notice;
use host::cases::folding::{EQUAL, UNEQUAL};

const NOTE: &str = "[Доза]: /Доза 'Макс'\n[ДОЗА]: /alt\n[ß]: /s\n\n[дОЗА] [т][доза] [SS]\n";

fn run(words: &[&str], note: &str) -> String {
    notice(&[words, &["-"]].concat(), note.as_bytes()).good()
}

#[test]
fn page_and_where() {
    let link =
        |text: &str| format!("<a href=\"/%D0%94%D0%BE%D0%B7%D0%B0\" title=\"Макс\">{text}</a>");
    let wanted = format!(
        "<p>{} {} <a href=\"/s\">SS</a></p>\n",
        link("дОЗА"),
        link("т")
    );
    assert_eq!(run(&["page"], NOTE), wanted);
    assert_eq!(
        run(&["where", " доЗа "], NOTE),
        "/Доза, line 1 (column 9)\n"
    );
    assert_eq!(run(&["where", "ſs"], NOTE), "/s, line 3 (column 6)\n");
}

#[test]
fn hidden_definitions_and_a_release() {
    let listed = run(&["links"], NOTE);
    let state = "HIDDEN by line 1, DESTINATION AND TITLE DIFFER";
    assert!(listed.contains(state), "{listed}");
    let stopped = notice(&["check", "--release", "-"], NOTE.as_bytes());
    assert_eq!(stopped.status, Some(9));
    assert_eq!(
        stopped.out,
        "-:2:1: refusal 9: \"[ДОЗА]\" opens /alt here and /Доза at line 1; keep one\n"
    );
}

/// Each two labels, defined in one text and in two, against the second reader: a release is stopped where they are
/// equal.
#[test]
fn labels_by_folding() {
    let equal = EQUAL.iter().map(|labels| (labels, true));
    let unequal = UNEQUAL.iter().map(|labels| (labels, false));
    for ((a, b), wanted) in equal.chain(unequal) {
        let [one, other] = [(a, 1), (b, 2)].map(|(label, said)| format!("[{label}]: /{said}\n"));
        let used = format!("[{a}] [{b}][] [t][{b}]\n");
        assert_eq!(
            compare(&format!("{one}{other}\n{used}")),
            wanted,
            "{a:?} {b:?}"
        );
        assert_eq!(
            compare_beside(&format!("{one}\n{used}"), &other),
            wanted,
            "{a:?} {b:?}"
        );
    }
}
