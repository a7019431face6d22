//! A C program calls the library through `include/notice.h`: compiled with the machine's C compiler
//! and run. What the library asks of whoever links it is read off it.

use std::path::{Path, PathBuf};
use std::process::Command;

/// A file of the repository that has to be there.
fn file(path: &str, how: &str) -> PathBuf {
    let root = Path::new(env!("CARGO_MANIFEST_DIR")).join("..");
    let file = root.join(path);
    assert!(file.exists(), "no {path} in the repository: {how}");
    file
}

fn library() -> PathBuf {
    file(
        "crates/notice_c/out/libnotice_c.a",
        "run `rt lib` in crates/notice_c first",
    )
}

/// The header lets it call memcpy as well.
#[test]
fn library_needs_memset_alone() {
    let listed = Command::new("nm")
        .arg("-u")
        .arg(library())
        .output()
        .expect("nm, which comes with the C compiler, is on the PATH");
    assert!(listed.status.success(), "nm refuses the library");
    let listed = String::from_utf8_lossy(&listed.stdout);
    let names: Vec<&str> = listed
        .lines()
        .filter_map(|line| line.trim().strip_prefix("U "))
        .collect();
    assert_eq!(names, ["memset"], "{listed}");
}

#[test]
fn c_program_compiles_and_runs() {
    let program = file("host/c/main.c", "the C caller belongs there");
    let header = file("include/notice.h", "the header belongs there");
    let library = library();
    let made = Path::new(env!("CARGO_TARGET_TMPDIR")).join("c_caller");

    let compiled = Command::new("cc")
        .args([
            "-std=c99",
            "-pedantic",
            "-Wall",
            "-Wextra",
            "-Werror",
            "-O1",
            "-I",
        ])
        .arg(header.parent().expect("the header's folder"))
        .arg(program)
        .arg(library)
        .arg("-o")
        .arg(&made)
        .output()
        .expect("a C compiler named cc is on the PATH");
    let messages = String::from_utf8_lossy(&compiled.stderr);
    assert!(
        compiled.status.success(),
        "cc refuses the C caller:\n{messages}"
    );

    let run = Command::new(&made).output().expect("the C caller starts");
    let printed = String::from_utf8_lossy(&run.stdout);
    let messages = String::from_utf8_lossy(&run.stderr);
    assert!(run.status.success(), "{}\n{printed}{messages}", run.status);
    assert_eq!(printed.trim_end().lines().last(), Some("ok"), "{printed}");
}
