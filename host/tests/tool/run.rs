//! Running the tool, and folders that are removed.

use std::ffi::OsStr;
use std::io::Write;
use std::path::{Path, PathBuf};
use std::process::{Command, Output, Stdio};
use std::sync::atomic::{AtomicUsize, Ordering};

/// The built tool.
pub const TOOL: &str = env!("CARGO_BIN_EXE_notice");

/// What a run left behind.
#[derive(Debug, PartialEq, Eq)]
pub struct Ran {
    pub status: Option<i32>,
    pub out: String,
    pub err: String,
}

impl Ran {
    pub fn of(output: Output) -> Ran {
        let text = |bytes| String::from_utf8(bytes).expect("output in UTF-8");
        Ran {
            status: output.status.code(),
            out: text(output.stdout),
            err: text(output.stderr),
        }
    }

    /// The output of a run that went well and had nothing else to say.
    pub fn good(self) -> String {
        assert_eq!((self.status, self.err.as_str()), (Some(0), ""));
        self.out
    }

    /// The words on standard error of a run that printed nothing and ended with this status.
    pub fn bad(self, status: i32) -> String {
        assert_eq!(
            (self.status, self.out.as_str()),
            (Some(status), ""),
            "{}",
            self.err
        );
        self.err
    }
}

/// Runs the tool in a folder.
pub fn notice_in(folder: &Path, words: &[impl AsRef<OsStr>]) -> Ran {
    let output = Command::new(TOOL)
        .args(words)
        .current_dir(folder)
        .stdin(Stdio::null())
        .output();
    Ran::of(output.expect("the tool runs"))
}

/// The line of a refusal, after every command that reads whole notes said it alike. `run` is given a
/// command's words without its files.
pub fn refused(run: impl Fn(&[&str]) -> Ran, status: i32) -> String {
    let others = [
        &["page"][..],
        &["page", "--standalone"],
        &["links"],
        &["links", "--json"],
    ];
    said_alike(run, &["check"], &others, status)
}

/// The line that a check prints, after the other commands said it on standard error and printed nothing.
pub fn said_alike(
    run: impl Fn(&[&str]) -> Ran,
    check: &[&str],
    others: &[&[&str]],
    status: i32,
) -> String {
    let Ran {
        status: ended,
        out,
        err,
    } = run(check);
    assert_eq!((ended, err.as_str()), (Some(status), ""), "{out}");
    assert!(out.ends_with('\n') && out.lines().count() == 1, "{out:?}");
    for words in others {
        assert_eq!(run(words).bad(status), out, "{words:?}");
    }
    out
}

/// Runs the tool with a note on standard input.
pub fn notice(words: &[impl AsRef<OsStr>], note: &[u8]) -> Ran {
    Ran::of(notice_bytes(words, note))
}

/// The same, with what it wrote as bytes.
pub fn notice_bytes(words: &[impl AsRef<OsStr>], note: &[u8]) -> Output {
    let mut tool = Command::new(TOOL)
        .args(words)
        .stdin(Stdio::piped())
        .stdout(Stdio::piped())
        .stderr(Stdio::piped())
        .spawn()
        .expect("the tool starts");
    let mut input = tool.stdin.take().expect("a standard input");
    std::thread::scope(|scope| {
        // The tool may end without reading, which closes its end.
        scope.spawn(move || drop(input.write_all(note)));
        tool.wait_with_output().expect("the tool ends")
    })
}

/// A folder of its own for one test.
pub struct Folder(PathBuf);

impl Folder {
    pub fn new() -> Folder {
        static COUNT: AtomicUsize = AtomicUsize::new(0);
        let number = COUNT.fetch_add(1, Ordering::Relaxed);
        let name = format!("notice-tool-test-{}-{number}", std::process::id());
        let path = std::env::temp_dir().join(name);
        std::fs::create_dir(&path).expect("a new folder");
        Folder(path)
    }

    pub fn path(&self) -> &Path {
        &self.0
    }

    /// Writes a file in it.
    pub fn write(&self, name: impl AsRef<Path>, bytes: &[u8]) -> PathBuf {
        let path = self.0.join(name);
        std::fs::create_dir_all(path.parent().expect("a folder")).expect("its folder");
        std::fs::write(&path, bytes).expect("a new file");
        path
    }
}

impl Drop for Folder {
    fn drop(&mut self) {
        // A test that failed has more to say than a folder that stays.
        let _ = std::fs::remove_dir_all(&self.0);
    }
}
