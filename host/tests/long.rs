//! A catalogue of 100 MB, shown, changed and put back, with both laws by comparison of all bytes. Prints time and memory:
//!
//!     cargo test --release --offline --test long -- --ignored --nocapture

mod folder;

use folder::Folder;
use pirkunna::View;
use std::fs;
use std::thread;
use std::time::{Duration, Instant};

const BYTES: usize = 100_000_000;

/// A catalogue of that many bytes and a few more, and its look, with some titles changed or not.
fn catalogue(changed: bool) -> (Vec<u8>, Vec<u8>) {
    let lenders = ["Anna Lind", "", "Family Aro", "N. N."];
    let remarks = ["oil; in its first frame", "a gift", "see 1; not for sale; keep dry"];
    let (mut source, mut look) = (String::new(), String::new());
    let mut number = 0;
    while source.len() < BYTES {
        let title = if changed && number % 10 == 0 { "The sea, at dawn" } else { "Sea at dusk" };
        let (year, lender, remark) = (1800 + number % 200, lenders[number % 4], remarks[number % 3]);
        source += &format!("{number};{title};{year};{lender};{remark}\n");
        look += &format!("{number};{title};{year};;{remark}\n");
        number += 1;
    }
    (source.into_bytes(), look.into_bytes())
}

fn timed<T>(what: &str, bytes: usize, work: impl FnOnce() -> T) -> T {
    let start = Instant::now();
    let result = work();
    let seconds = start.elapsed().as_secs_f64();
    println!("{what}: {bytes} bytes, {seconds:.1} s, {:.1} MB/s", bytes as f64 / 1e6 / seconds);
    result
}

/// The most memory that a process had yet, as the system counts it; none if it has ended.
fn peak(process: &str) -> Option<String> {
    let status = fs::read_to_string(format!("/proc/{process}/status")).ok()?;
    let line = status.lines().find(|line| line.starts_with("VmHWM:"))?;
    Some(line["VmHWM:".len()..].trim().into())
}

/// Runs the command with a file as its output, and prints the most memory that it had a moment before its end.
fn run(folder: &Folder, words: &str, out: &str) {
    let out = fs::File::create(folder.path(out)).expect("a file");
    let mut child = folder.command(words).stdout(out).spawn().expect("the command runs");
    let mut most = None;
    let status = loop {
        most = peak(&child.id().to_string()).or(most);
        if let Some(status) = child.try_wait().expect("a child") {
            break status;
        }
        thread::sleep(Duration::from_millis(20));
    };
    assert!(status.success());
    println!("  most memory of the command: {}", most.expect("it was seen"));
}

#[test]
#[ignore = "minutes, and gigabytes"]
fn a_hundred_million_bytes() {
    let text = fs::read(concat!(env!("CARGO_MANIFEST_DIR"), "/../examples/lender/catalogue.view")).expect("the view");
    let view = View::parse(&text).expect("a view");
    let (source, look) = catalogue(false);
    println!("a view of {} bytes", view.row().len());

    let shown = timed("show", source.len(), || view.show(&source)).expect("a source");
    assert!(shown == look);
    let same = timed("put of what is shown", source.len() + look.len(), || view.put(&source, &look)).expect("both");
    assert!(same == source, "putting back what one sees changes nothing");
    drop((shown, same));

    let (new_source, new_look) = catalogue(true);
    let new = timed("put of a change", source.len() + new_look.len(), || view.put(&source, &new_look)).expect("both");
    assert!(new == new_source, "what the page doesn't show stands as it was");
    let seen = timed("show of it", new.len(), || view.show(&new)).expect("a source");
    assert!(seen == new_look, "what is put back is what one then sees");
    println!("  most memory of all this: {}", peak("self").expect("this process runs"));
}

#[test]
#[ignore = "minutes, and gigabytes"]
fn a_hundred_million_bytes_by_the_command() {
    let folder = Folder::new();
    let view = concat!(env!("CARGO_MANIFEST_DIR"), "/../examples/lender/catalogue.view");
    fs::copy(view, folder.path("view")).expect("the view");
    let (source, look) = catalogue(false);
    let new_look = [&look[..], b"7;Winter road;1910;;new\n"].concat();
    folder.write("source", &source);
    folder.write("look", &new_look);
    timed("pirkunna show", source.len(), || run(&folder, "show view source", "shown"));
    assert!(folder.read("shown") == look);
    timed("pirkunna put --in-place", source.len() + new_look.len(), || {
        run(&folder, "put --in-place view source look", "said");
    });
    assert!(folder.read("said").is_empty());
    let new = folder.read("source");
    assert!(new == [&source[..], b"7;Winter road;1910;;new\n"].concat());
}
