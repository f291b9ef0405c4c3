//! What goes wrong around the calls: disks, kills, files that are not what they should be. The old file stays whole, and the
//! message says what is wrong.

mod folder;

use folder::{Folder, PIRKUNNA, assert_prints, assert_refused};
use pirkunna::replace::Original;
use std::fs;
use std::os::unix::fs::{MetadataExt, PermissionsExt};
use std::os::unix::process::{CommandExt, ExitStatusExt};
use std::path::Path;
use std::process::{Command, Stdio};
use std::time::Duration;
use std::{env, process, thread};

/// A source of many lines, with the look that changes each.
fn long_catalogue() -> (Folder, Vec<u8>, Vec<u8>) {
    let folder = Folder::with_catalogue();
    let old = "1;Lind\n".repeat(100_000).into_bytes();
    let new = "2;Lind\n".repeat(100_000).into_bytes();
    folder.write("source", &old);
    folder.write("look", "2\n".repeat(100_000));
    (folder, old, new)
}

/// Runs the command in a shell, behind other words.
fn run_behind(before: &str, folder: &Folder, words: &str) -> process::Output {
    let script = format!("{before}; exec {PIRKUNNA} {words}");
    Command::new("sh").args(["-c", &script]).current_dir(folder.root()).output().expect("a shell")
}

/// A limit on the size of files stands for a disk that fills up.
#[test]
fn no_room_for_the_new_file() {
    let (folder, old, _) = long_catalogue();
    let output = run_behind("ulimit -f 64; trap '' XFSZ", &folder, "put --in-place a.view source look");
    assert_refused(&output, "pirkunna: source: the new file can't be written beside it: File too large");
    assert!(folder.read("source") == old);
    assert_eq!(folder.names(), ["a.view", "look", "source"]);
}

#[test]
#[ignore = "mounts a small disk, which root may"]
fn no_room_on_the_disk() {
    let (folder, old, _) = long_catalogue();
    fs::create_dir(folder.path("disk")).expect("a folder");
    let mount = |words: &[&str]| {
        let status = Command::new(words[0]).args(&words[1..]).current_dir(folder.root()).status();
        assert!(status.expect("runs").success(), "{words:?}");
    };
    mount(&["mount", "-t", "tmpfs", "-o", "size=1m", "tmpfs", "disk"]);
    folder.write("disk/source", &old);
    let output = folder.run("put --in-place a.view disk/source look");
    let (is, names) = (folder.read("disk/source"), fs::read_dir(folder.path("disk")).expect("the disk").count());
    mount(&["umount", "disk"]);
    assert_refused(&output, "pirkunna: disk/source: the new file can't be written beside it: No space left on device");
    assert!(is == old && names == 1);
}

#[test]
fn killed_in_the_middle_of_writing() {
    let (folder, old, _) = long_catalogue();
    let output = run_behind("ulimit -f 64", &folder, "put --in-place a.view source look");
    assert!(output.status.signal().is_some(), "the limit kills: {output:?}");
    assert!(folder.read("source") == old);
}

#[test]
fn not_enough_memory() {
    let folder = Folder::with_catalogue();
    let old = "1;Lind\n".repeat(4_000_000);
    folder.write("source", &old);
    for words in ["show a.view source", "put a.view source look", "put --in-place a.view source look"] {
        let output = run_behind("ulimit -v 300000", &folder, words);
        assert_refused(&output, "pirkunna: source: not enough memory for texts this long\n");
    }
    assert!(folder.read("source") == old.as_bytes());
}

#[test]
fn no_room_on_standard_output() {
    let (folder, ..) = long_catalogue();
    let full = fs::OpenOptions::new().write(true).open("/dev/full").expect("/dev/full");
    let output = folder.command("show a.view source").stdout(full).stderr(Stdio::piped()).output().expect("runs");
    assert_refused(&output, "pirkunna: standard output: No space left on device");
}

const CHILD: &str = "PIRKUNNA_TEST_KILLED_BEFORE_RENAME";

/// What `killed_between_write_and_rename` runs, in a process that kills itself.
#[test]
#[ignore = "no test of its own"]
fn child_that_is_killed() {
    if let Some(path) = env::var_os(CHILD) {
        let original = Original::read(Path::new(&path)).expect("the source");
        let _draft = original.draft(b"new").expect("room beside it");
        let _ = Command::new("kill").args(["-9", &process::id().to_string()]).status();
        unreachable!("killed");
    }
}

#[test]
fn killed_between_write_and_rename() {
    let folder = Folder::with_catalogue();
    let old = folder.read("source");
    let mut child = Command::new(env::current_exe().expect("this test"));
    child.args(["--ignored", "--exact", "child_that_is_killed"]).env(CHILD, folder.path("source"));
    let status = child.stdout(Stdio::null()).status().expect("runs");
    assert_eq!(status.signal(), Some(9));
    assert_eq!(folder.read("source"), old);
    let left = folder.names();
    assert!(left.len() == 4 && left[0].starts_with(".pirkunna-"), "{left:?}");
    assert_eq!(folder.read(&left[0]), b"new");
    // What a kill leaves is in nobody's way.
    assert_prints(&folder.run("put --in-place a.view source look"), "");
    assert_eq!(folder.read("source"), b"1;Lind\n22;\n3;Aro\n4;\n");
}

#[test]
fn killed_at_any_time() {
    let (folder, old, new) = long_catalogue();
    let mut killed = 0;
    for turn in 0..40 {
        folder.write("source", &old);
        let mut child = folder.command("put --in-place a.view source look").spawn().expect("runs");
        thread::sleep(Duration::from_millis(turn * 4));
        child.kill().expect("a child");
        let status = child.wait().expect("a child");
        let is = folder.read("source");
        assert!(is == old || is == new, "neither old nor new after {turn}");
        assert!(is == new || !status.success(), "ended well, and the file is old");
        killed += usize::from(!status.success());
    }
    assert!(killed > 0, "no run was killed");
}

/// As root every file can be read, so the command runs as nobody then.
fn as_nobody(folder: &Folder, words: &str) -> process::Output {
    let program = folder.path("pirkunna");
    if !program.exists() {
        fs::copy(PIRKUNNA, &program).expect("a copy of the command");
    }
    let mut command = Command::new(program);
    command.args(words.split_whitespace()).current_dir(folder.root());
    if is_root(folder) {
        command.uid(65534).gid(65534);
    }
    command.output().expect("runs")
}

fn is_root(folder: &Folder) -> bool {
    fs::metadata(folder.root()).expect("the folder").uid() == 0
}

fn set_mode(folder: &Folder, name: &str, mode: u32) {
    fs::set_permissions(folder.path(name), fs::Permissions::from_mode(mode)).expect("a mode");
}

#[test]
fn files_that_may_not_be_read_or_written() {
    let folder = Folder::with_catalogue();
    set_mode(&folder, "source", 0);
    assert_refused(&as_nobody(&folder, "show a.view source"), "pirkunna: source: Permission denied");
    assert_refused(&as_nobody(&folder, "put --in-place a.view source look"), "pirkunna: source: Permission denied");
    set_mode(&folder, "source", 0o444);
    assert_refused(&as_nobody(&folder, "put --in-place a.view source look"), "pirkunna: source: Permission denied");
    // The file may be written, but no new one can be made beside it.
    set_mode(&folder, "source", 0o666);
    set_mode(&folder, "", 0o555);
    assert_refused(
        &as_nobody(&folder, "put --in-place a.view source look"),
        "no new file can be made beside it: Permission denied",
    );
    // One can be made, but it would be another's than the old one was.
    set_mode(&folder, "", 0o777);
    if is_root(&folder) {
        let output = as_nobody(&folder, "put --in-place a.view source look");
        assert_refused(&output, "the new file can't be written beside it: Operation not permitted");
        assert_eq!(folder.names(), ["a.view", "look", "pirkunna", "source"]);
    }
    set_mode(&folder, "", 0o755);
    assert_eq!(folder.read("source"), b"1;Lind\n2;\n3;Aro\n");
}

#[test]
fn folders_and_devices_in_place_of_files() {
    let folder = Folder::with_catalogue();
    fs::create_dir(folder.path("box")).expect("a folder");
    for words in ["judge box", "show a.view box", "make a.view box", "put a.view source box", "put --in-place a.view box look"]
    {
        assert_refused(&folder.run(words), "pirkunna: box: Is a directory");
    }
    assert_refused(&folder.run("put --in-place a.view /dev/null look"), "pirkunna: /dev/null: not a regular file");
}

#[test]
fn a_file_that_vanishes_or_changes_is_left_so() {
    let folder = Folder::with_catalogue();
    let original = Original::read(&folder.path("source")).expect("the source");
    let draft = original.draft(b"new").expect("room beside it");
    fs::remove_file(folder.path("source")).expect("the source");
    assert_eq!(draft.commit().expect_err("it is gone").kind(), std::io::ErrorKind::NotFound);
    assert_eq!(folder.names(), ["a.view", "look"]);

    folder.write("source", "old");
    let original = Original::read(&folder.path("source")).expect("the source");
    let draft = original.draft(b"new").expect("room beside it");
    folder.write("source", "somebody else's");
    assert!(draft.commit().expect_err("it was changed").to_string().contains("it was changed"));
    assert_eq!(folder.read("source"), b"somebody else's");
    assert_eq!(folder.names(), ["a.view", "look", "source"]);
}

#[test]
fn views_of_no_bytes_and_of_ten_million() {
    let folder = Folder::with_catalogue();
    folder.write("none", "");
    assert_refused(&folder.run("show none source"), "pirkunna: none:1:1: expected a view");
    assert_prints(&folder.run("judge --row none"), "none: no view\n");
    folder.write("long", "copy 'a' ".repeat(1_200_000));
    assert_refused(&folder.run("judge long"), "pirkunna: long:1:1: the row of this view would have 5999999 bytes");
    folder.write("spaces", format!("{}\ncopy )", " ".repeat(10_000_000)));
    assert_refused(&folder.run("judge spaces"), "pirkunna: spaces:2:6: expected a form");
    folder.write("row", vec![12; 10_000_000]);
    assert_prints(&folder.run("judge --row row"), "row: no view\n");
    assert_refused(&folder.run("show --row row source"), "pirkunna: row: no view\n");
}

#[test]
fn texts_with_any_bytes() {
    let folder = Folder::with_catalogue();
    let all = Vec::from_iter(0..=255);
    folder.write("any", "copy any*");
    folder.write("all", &all);
    assert_prints(&folder.run("show any all"), &all);
    assert_prints(&folder.run("put any source all"), &all);

    // No newline at the end, and CRLF, are no sources of a view that wants newlines; with any bytes in the lender they are.
    folder.write("open", "1;Lind\n2;");
    assert_refused(&folder.run("show a.view open"), "pirkunna: open: not a source of this view\n");
    folder.write("crlf", "1;Lind\r\n2;\0\r\n");
    assert_prints(&folder.run("show a.view crlf"), "1\n2\n");
    folder.write("look", "3\n4\n");
    assert_prints(&folder.run("put a.view crlf look"), "3;Lind\r\n4;\0\r\n");
    folder.write("look", "3\r\n");
    assert_refused(&folder.run("put a.view crlf look"), "pirkunna: look: not a look of this view\n");
    folder.write("nul", "copy '\0'\n");
    folder.write("zero", "\0");
    assert_prints(&folder.run("show nul zero"), "\0");
}
