//! The command: its answers, refusals and statuses.

mod folder;

use folder::{Folder, VIEW, assert_prints, assert_refused};
use std::fs;
use std::os::unix::fs::{PermissionsExt, symlink};
use std::process::Stdio;

#[test]
fn judges() {
    let folder = Folder::with_catalogue();
    folder.write("twice", "copy 'a'* copy 'a'*");
    folder.write("row", [10, 1, 97, 97]);
    folder.write("no-row", [10, 1, 98, 97]);
    assert_prints(&folder.run("judge a.view"), "a.view: a view of 36 bytes: plain\n");
    assert_prints(&folder.run("judge twice"), "twice: a view of 11 bytes: unclear\n");
    assert_prints(&folder.run("judge --row row"), "row: a view of 4 bytes: plain\n");
    assert_prints(&folder.run("judge --row no-row"), "no-row: no view\n");
    assert_prints(&folder.run_with("judge -", VIEW.as_bytes()), "standard input: a view of 36 bytes: plain\n");
}

#[test]
fn shows_makes_and_puts() {
    let folder = Folder::with_catalogue();
    assert_prints(&folder.run("show a.view source"), "1\n2\n3\n");
    assert_prints(&folder.run("make a.view look"), "1;\n22;\n3;\n4;\n");
    assert_prints(&folder.run("put a.view source look"), "1;Lind\n22;\n3;Aro\n4;\n");
    assert_prints(&folder.run_with("show a.view -", b"7;x\n"), "7\n");
    assert_prints(&folder.run_with("put a.view - look", b"7;x\n"), "1;x\n22;\n3;\n4;\n");
    assert_prints(&folder.run_with("put a.view source -", b"9\n"), "9;Lind\n");
    assert_prints(&folder.run_with("show - source", VIEW.as_bytes()), "1\n2\n3\n");
    assert_prints(&folder.run_with("show -- a.view -", b""), "");
}

#[test]
fn refuses_texts_and_views() {
    let folder = Folder::with_catalogue();
    folder.write("twice", "copy 'a'* copy 'a'*");
    folder.write("wrong", "each (\n  copy 'a'\n");
    folder.write("no-row", [10, 1, 98, 97]);
    assert_refused(&folder.run("show a.view look"), "pirkunna: look: not a source of this view\n");
    assert_refused(&folder.run("make a.view source"), "pirkunna: source: not a look of this view\n");
    assert_refused(&folder.run("put a.view look look"), "pirkunna: look: not a source of this view\n");
    assert_refused(&folder.run("put a.view source source"), "pirkunna: source: not a look of this view\n");
    assert_refused(&folder.run("show twice source"), "pirkunna: twice: this view is unclear");
    assert_refused(&folder.run("judge wrong"), "pirkunna: wrong:3:1: expected )\n");
    assert_refused(&folder.run("show wrong source"), "pirkunna: wrong:3:1: expected )\n");
    assert_refused(&folder.run("show --row no-row source"), "pirkunna: no-row: no view\n");
    assert_refused(&folder.run("show a.view absent"), "pirkunna: absent: No such file");
    assert_refused(&folder.run("show absent source"), "pirkunna: absent: No such file");
}

#[test]
fn refuses_words_that_make_no_sense() {
    let folder = Folder::with_catalogue();
    let wrong = [
        "",
        "paint a.view",
        "judge",
        "judge a.view source",
        "show a.view",
        "put a.view source",
        "show --in-place a.view source",
        "show --quick a.view source",
        "show - -",
        "put --in-place a.view - look",
        "--help a.view",
    ];
    for words in wrong {
        let output = folder.run(words);
        assert_eq!(output.status.code(), Some(2), "{words}");
        assert!(output.stdout.is_empty(), "{words}");
        assert!(String::from_utf8_lossy(&output.stderr).contains("usage: pirkunna judge"), "{words}");
    }
    assert!(String::from_utf8_lossy(&folder.run("--help").stdout).contains("--in-place"));
    assert_prints(&folder.run("--version"), "pirkunna 0.1.0\n");
}

#[test]
fn puts_in_place() {
    let folder = Folder::with_catalogue();
    fs::set_permissions(folder.path("source"), fs::Permissions::from_mode(0o640)).expect("a mode");
    symlink("source", folder.path("link")).expect("a link");
    assert_prints(&folder.run("put --in-place a.view link look"), "");
    assert_eq!(folder.read("source"), b"1;Lind\n22;\n3;Aro\n4;\n");
    let kept = fs::metadata(folder.path("source")).expect("the source").permissions().mode();
    assert_eq!(kept & 0o7777, 0o640);
    assert!(fs::symlink_metadata(folder.path("link")).expect("the link").is_symlink());
    assert_eq!(folder.names(), ["a.view", "link", "look", "source"]);
}

#[test]
fn leaves_a_file_alone_that_would_be_the_same() {
    let folder = Folder::with_catalogue();
    let old = fs::metadata(folder.path("source")).expect("the source").modified().expect("a time");
    folder.write("look", "1\n2\n3\n");
    assert_prints(&folder.run("put --in-place a.view source look"), "");
    assert_eq!(folder.read("source"), b"1;Lind\n2;\n3;Aro\n");
    assert_eq!(fs::metadata(folder.path("source")).expect("the source").modified().expect("a time"), old);
}

#[test]
fn a_refused_put_leaves_the_file_alone() {
    let folder = Folder::with_catalogue();
    folder.write("look", "1\nx\n");
    assert_refused(&folder.run("put --in-place a.view source look"), "pirkunna: look: not a look of this view\n");
    assert_eq!(folder.read("source"), b"1;Lind\n2;\n3;Aro\n");
    assert_eq!(folder.names(), ["a.view", "look", "source"]);
}

/// A reader that goes away ends the command, quietly.
#[test]
fn nobody_reads() {
    let folder = Folder::with_catalogue();
    folder.write("source", "1;Lind\n".repeat(200_000));
    let mut child = folder.command("show a.view source").stdout(Stdio::piped()).stderr(Stdio::piped()).spawn().expect("runs");
    drop(child.stdout.take());
    let output = child.wait_with_output().expect("the command ends");
    assert_eq!((output.status.code(), output.stderr.len()), (Some(1), 0));
}
