//! A folder of a test's own, and the command run in it.
#![allow(dead_code)]

use std::fs;
use std::io::Write;
use std::path::{Path, PathBuf};
use std::process::{self, Command, Output, Stdio};
use std::sync::atomic::{AtomicUsize, Ordering};

pub const PIRKUNNA: &str = env!("CARGO_BIN_EXE_pirkunna");

/// A thing a line: number;lender. The page shows the number alone.
pub const VIEW: &str = r#"each (copy ('0'..'9')+ hide (";" (not ";\n")*) new ";" "\n")"#;

pub struct Folder(PathBuf);

impl Folder {
    pub fn new() -> Folder {
        static NUMBER: AtomicUsize = AtomicUsize::new(0);
        let number = NUMBER.fetch_add(1, Ordering::Relaxed);
        let path = std::env::temp_dir().join(format!("pirkunna-test-{}-{number}", process::id()));
        fs::create_dir(&path).expect("a folder for the test");
        Folder(path)
    }

    /// One with a view, a source and a changed look.
    pub fn with_catalogue() -> Folder {
        let folder = Folder::new();
        folder.write("a.view", VIEW);
        folder.write("source", "1;Lind\n2;\n3;Aro\n");
        folder.write("look", "1\n22\n3\n4\n");
        folder
    }

    pub fn path(&self, name: &str) -> PathBuf {
        self.0.join(name)
    }

    pub fn write(&self, name: &str, contents: impl AsRef<[u8]>) {
        fs::write(self.path(name), contents).expect("a file of the test");
    }

    pub fn read(&self, name: &str) -> Vec<u8> {
        fs::read(self.path(name)).expect("a file of the test")
    }

    /// The names of all files.
    pub fn names(&self) -> Vec<String> {
        let entries = fs::read_dir(&self.0).expect("the folder");
        let mut names = entries.map(|e| e.expect("a file").file_name().to_string_lossy().into_owned()).collect::<Vec<_>>();
        names.sort();
        names
    }

    pub fn command(&self, words: &str) -> Command {
        let mut command = Command::new(PIRKUNNA);
        command.args(words.split_whitespace()).current_dir(&self.0).stdin(Stdio::null());
        command
    }

    pub fn run(&self, words: &str) -> Output {
        self.command(words).output().expect("the command runs")
    }

    /// Runs with bytes on standard input.
    pub fn run_with(&self, words: &str, input: &[u8]) -> Output {
        let mut command = self.command(words);
        command.stdin(Stdio::piped()).stdout(Stdio::piped()).stderr(Stdio::piped());
        let mut child = command.spawn().expect("the command runs");
        child.stdin.take().expect("a pipe").write_all(input).expect("the command reads");
        child.wait_with_output().expect("the command ends")
    }

    pub fn root(&self) -> &Path {
        &self.0
    }
}

impl Drop for Folder {
    fn drop(&mut self) {
        let _ = fs::remove_dir_all(&self.0);
    }
}

/// A run that ends well with this on standard output, and says nothing else.
pub fn assert_prints(output: &Output, expected: impl AsRef<[u8]>) {
    assert_eq!(String::from_utf8_lossy(&output.stderr), "");
    assert_eq!(output.status.code(), Some(0));
    assert!(output.stdout == expected.as_ref(), "printed {:?}", String::from_utf8_lossy(&output.stdout));
}

/// A run that is refused: with this on standard error, status 1 and nothing on standard output.
pub fn assert_refused(output: &Output, why: &str) {
    let said = String::from_utf8_lossy(&output.stderr);
    assert!(said.starts_with("pirkunna: ") && said.contains(why), "said {said:?}, and not {why:?}");
    assert_eq!(output.status.code(), Some(1));
    assert!(output.stdout.is_empty(), "a refusal printed {:?}", String::from_utf8_lossy(&output.stdout));
}
