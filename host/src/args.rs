//! The words of the command line.

use std::ffi::OsString;
use std::fmt;
use std::path::PathBuf;

pub const USAGE: &str = "usage: pirkunna judge [--row] VIEW
       pirkunna show [--row] VIEW SOURCE
       pirkunna make [--row] VIEW LOOK
       pirkunna put [--row] [--in-place] VIEW SOURCE LOOK";

pub const HELP: &str = "Each of VIEW, SOURCE and LOOK is a file; one of them may be -, for standard input.

  judge       say whether the view is clear: whether sources and looks can be cut in one way only
  show        print how the source looks
  make        print the source that is made from the look alone
  put         print the source that the look gives where it is put back into the source
  --row       the view is the bytes of a row, and not in notation
  --in-place  write what put gives into the file SOURCE, which stays whole whatever goes wrong";

/// What is asked for.
#[derive(Debug, PartialEq)]
pub enum Task {
    Help,
    Version,
    Judge { view: ViewFile },
    Show { view: ViewFile, source: Input },
    Make { view: ViewFile, look: Input },
    Put { view: ViewFile, source: Target, look: Input },
}

/// Where bytes are read from.
#[derive(Debug, PartialEq)]
pub enum Input {
    Standard,
    File(PathBuf),
}

/// The source of a put: printed anew, or replaced.
#[derive(Debug, PartialEq)]
pub enum Target {
    Printed(Input),
    Replaced(PathBuf),
}

#[derive(Debug, PartialEq)]
pub struct ViewFile {
    pub input: Input,
    /// The bytes of a row, and not notation.
    pub is_row: bool,
}

impl fmt::Display for Input {
    fn fmt(&self, f: &mut fmt::Formatter) -> fmt::Result {
        match self {
            Input::Standard => f.write_str("standard input"),
            Input::File(path) => path.display().fmt(f),
        }
    }
}

/// Reads the words behind the command's name; what is wrong with them otherwise.
pub fn read(words: impl Iterator<Item = OsString>) -> Result<Task, String> {
    let mut words = words.peekable();
    let Some(verb) = words.next() else {
        return Err("nothing is asked for".into());
    };
    let mut is_row = false;
    let mut in_place = false;
    while let Some(word) = words.next_if(|word| word != "-" && word.as_encoded_bytes().starts_with(b"-")) {
        match word.to_str() {
            Some("--row") => is_row = true,
            Some("--in-place") if verb == "put" => in_place = true,
            Some("--") => break,
            _ => return Err(format!("unknown option {}", word.to_string_lossy())),
        }
    }
    let files = words.map(input).collect::<Vec<_>>();
    if files.iter().filter(|file| **file == Input::Standard).count() > 1 {
        return Err("standard input can be read once only".into());
    }
    task(&verb.to_string_lossy(), files, is_row, in_place)
}

fn input(word: OsString) -> Input {
    if word == "-" { Input::Standard } else { Input::File(word.into()) }
}

fn task(verb: &str, files: Vec<Input>, is_row: bool, in_place: bool) -> Result<Task, String> {
    let view = |input| ViewFile { input, is_row };
    Ok(match verb {
        "judge" => {
            let [file] = exactly(verb, files)?;
            Task::Judge { view: view(file) }
        }
        "show" => {
            let [file, source] = exactly(verb, files)?;
            Task::Show { view: view(file), source }
        }
        "make" => {
            let [file, look] = exactly(verb, files)?;
            Task::Make { view: view(file), look }
        }
        "put" => {
            let [file, source, look] = exactly(verb, files)?;
            let source = match source {
                Input::File(path) if in_place => Target::Replaced(path),
                Input::Standard if in_place => return Err("standard input can't be replaced in place".into()),
                input => Target::Printed(input),
            };
            Task::Put { view: view(file), source, look }
        }
        "--help" | "-h" => exactly(verb, files).map(|[]| Task::Help)?,
        "--version" | "-V" => exactly(verb, files).map(|[]| Task::Version)?,
        _ => return Err(format!("unknown command {verb}")),
    })
}

fn exactly<const N: usize>(verb: &str, files: Vec<Input>) -> Result<[Input; N], String> {
    let files_wanted = if N == 1 { "1 file".into() } else { format!("{N} files") };
    files.try_into().map_err(|files: Vec<_>| format!("{verb} takes {files_wanted}, and not {}", files.len()))
}
