//! The command `pirkunna`: judges views, shows sources, makes sources from looks, and puts looks back.
//!
//! Answers go to standard output, and only whole ones: a refusal prints nothing there. It says `pirkunna: FILE: why` on standard
//! error and ends with status 1; words that make no sense end with status 2.

mod args;

use args::{Input, Target, Task, ViewFile};
use pirkunna::replace::Original;
use pirkunna::{Refusal, Verdict, View};
use std::env;
use std::fmt::Display;
use std::fs;
use std::io::{self, Read, Write};
use std::process::ExitCode;

/// Why a task isn't done.
enum Failure {
    /// What is wrong, with the file.
    Said(String),
    /// Nobody reads what is printed: there is nobody to tell.
    Unread,
}

fn main() -> ExitCode {
    let task = match args::read(env::args_os().skip(1)) {
        Ok(task) => task,
        Err(wrong) => {
            complain(&format!("{wrong}\n{}", args::USAGE));
            return ExitCode::from(2);
        }
    };
    match run(task) {
        Ok(()) => ExitCode::SUCCESS,
        Err(Failure::Said(why)) => {
            complain(&why);
            ExitCode::from(1)
        }
        Err(Failure::Unread) => ExitCode::from(1),
    }
}

/// Says it on standard error, if anybody listens.
fn complain(why: &str) {
    let _ = writeln!(io::stderr(), "pirkunna: {why}");
}

fn run(task: Task) -> Result<(), Failure> {
    match task {
        Task::Help => print(format!("{}\n\n{}\n", args::USAGE, args::HELP).as_bytes()),
        Task::Version => print(format!("pirkunna {}\n", env!("CARGO_PKG_VERSION")).as_bytes()),
        Task::Judge { view } => judge(&view),
        Task::Show { view, source } => {
            let (shown_by, bytes) = (read_view(&view)?, read(&source)?);
            let look = shown_by.show(&bytes).map_err(|why| refused(why, &view, &source, &source))?;
            print(&look)
        }
        Task::Make { view, look } => {
            let (made_by, bytes) = (read_view(&view)?, read(&look)?);
            let source = made_by.make(&bytes).map_err(|why| refused(why, &view, &look, &look))?;
            print(&source)
        }
        Task::Put { view, source, look } => put(&view, source, &look),
    }
}

fn judge(view: &ViewFile) -> Result<(), Failure> {
    let file = &view.input;
    let said = match view_of(view)? {
        Ok(view) => {
            let verdict = match view.judge() {
                Verdict::Plain => "plain",
                Verdict::Unclear => "unclear",
            };
            format!("{file}: a view of {} bytes: {verdict}\n", view.row().len())
        }
        Err(Refusal::NoSuch) => format!("{file}: no view\n"),
        Err(why) => return Err(about_view(view, why)),
    };
    print(said.as_bytes())
}

fn put(view: &ViewFile, source: Target, look: &Input) -> Result<(), Failure> {
    let put_by = read_view(view)?;
    match source {
        Target::Printed(source) => {
            let new = put_by.put(&read(&source)?, &read(look)?).map_err(|why| refused(why, view, &source, look))?;
            print(&new)
        }
        Target::Replaced(path) => {
            let original = Original::read(&path).map_err(|e| failed(path.display(), e))?;
            let source = Input::File(path);
            let new = put_by.put(original.bytes(), &read(look)?).map_err(|why| refused(why, view, &source, look))?;
            original.replace(&new).map_err(|e| failed(&source, e))
        }
    }
}

/// The view of a file, or why the file says none.
fn view_of(view: &ViewFile) -> Result<Result<View, Refusal>, Failure> {
    let bytes = read(&view.input)?;
    Ok(if view.is_row { View::from_row(bytes) } else { View::parse(&bytes) })
}

fn read_view(view: &ViewFile) -> Result<View, Failure> {
    view_of(view)?.map_err(|why| about_view(view, why))
}

fn about_view(view: &ViewFile, why: Refusal) -> Failure {
    match why {
        Refusal::Notation(_) => Failure::Said(format!("{}:{why}", view.input)),
        _ => failed(&view.input, why),
    }
}

/// A refusal, with the file that it is about.
fn refused(why: Refusal, view: &ViewFile, source: &Input, look: &Input) -> Failure {
    match why {
        Refusal::NoSource | Refusal::NoMemory => failed(source, why),
        Refusal::NoLook => failed(look, why),
        _ => about_view(view, why),
    }
}

fn failed(file: impl Display, why: impl Display) -> Failure {
    Failure::Said(format!("{file}: {why}"))
}

fn read(input: &Input) -> Result<Vec<u8>, Failure> {
    let read = match input {
        Input::File(path) => fs::read(path),
        Input::Standard => {
            let mut bytes = Vec::new();
            io::stdin().lock().read_to_end(&mut bytes).map(|_| bytes)
        }
    };
    read.map_err(|e| failed(input, e))
}

fn print(bytes: &[u8]) -> Result<(), Failure> {
    let mut out = io::stdout().lock();
    out.write_all(bytes).and_then(|()| out.flush()).map_err(|e| match e.kind() {
        io::ErrorKind::BrokenPipe => Failure::Unread,
        _ => failed("standard output", e),
    })
}
