//! Links the proved calls: has the kit's command `rt` prove and build them where the archive is missing or older than a source,
//! and links the kit's own archive beside it.

use std::env;
use std::fs;
use std::io;
use std::path::{Path, PathBuf};
use std::process::Command;
use std::time::SystemTime;

fn main() {
    println!("cargo::rerun-if-changed=build.rs");
    if let Err(why) = link() {
        println!("cargo::error={why}");
    }
}

fn link() -> Result<(), String> {
    let package = PathBuf::from(variable("CARGO_MANIFEST_DIR")?);
    let root = package.parent().ok_or("this package has no folder above it")?;
    let archive = root.join("crates/calls/out/libcalls.a");
    let sources = sources(root).map_err(|e| format!("{}: {e}", root.display()))?;
    for path in sources.iter().chain([&archive]) {
        println!("cargo::rerun-if-changed={}", path.display());
    }

    if !is_fresh(&archive, &sources) {
        rt(&["lib"], &root.join("crates/calls"))?;
    }
    link_archive(&archive)?;
    link_archive(&beside(root)?)
}

/// What the archive is built from: the list of the crates, and what each of them says.
fn sources(root: &Path) -> io::Result<Vec<PathBuf>> {
    let mut sources = vec![root.join("crates.txt")];
    for entry in fs::read_dir(root.join("crates"))? {
        let of_crate = entry?.path();
        sources.extend(["src", "specs", "proofs"].map(|part| of_crate.join(part)).into_iter().filter(|part| part.exists()));
    }
    Ok(sources)
}

/// The kit's own archive, in the folder of its first page: the allocator that the calls use.
fn beside(root: &Path) -> Result<PathBuf, String> {
    let said = rt(&["doc"], root)?;
    let page = said.lines().map(Path::new).find(|line| line.is_file());
    let kit = page.and_then(Path::parent).ok_or("rt doc doesn't say where the Rattle kit lies")?;
    Ok(kit.join("c/liblibc_c.a"))
}

/// Runs the kit's command, and returns what it says.
fn rt(words: &[&str], folder: &Path) -> Result<String, String> {
    let run = Command::new("rt").args(words).current_dir(folder).output();
    let output = run.map_err(|e| match e.kind() {
        io::ErrorKind::NotFound => {
            "the command rt of the Rattle kit is not on PATH; it proves and builds the calls that this package links".into()
        }
        _ => format!("rt: {e}"),
    })?;
    let said = String::from_utf8_lossy(&output.stdout) + String::from_utf8_lossy(&output.stderr);
    if !output.status.success() {
        let last = said.lines().rev().take(5).collect::<Vec<_>>();
        let last = last.into_iter().rev().collect::<Vec<_>>().join(" / ");
        return Err(format!("rt {}: {}: {last}", words.join(" "), output.status));
    }
    Ok(said.into_owned())
}

/// Whether the archive is there and no source is newer.
fn is_fresh(archive: &Path, sources: &[PathBuf]) -> bool {
    let Ok(made) = archive.metadata().and_then(|m| m.modified()) else {
        return false;
    };
    sources.iter().all(|source| newest(source).is_ok_and(|changed| changed <= made))
}

/// When the newest file in a folder was changed.
fn newest(path: &Path) -> io::Result<SystemTime> {
    let mut newest_yet = path.metadata()?.modified()?;
    if path.is_dir() {
        for entry in fs::read_dir(path)? {
            newest_yet = newest_yet.max(newest(&entry?.path())?);
        }
    }
    Ok(newest_yet)
}

/// Has cargo link a static library `DIR/libNAME.a`.
fn link_archive(archive: &Path) -> Result<(), String> {
    let stem = archive.file_stem().and_then(|s| s.to_str()).and_then(|s| s.strip_prefix("lib"));
    let (Some(folder), Some(name)) = (archive.parent(), stem) else {
        return Err(format!("{}: not the name of a static library", archive.display()));
    };
    println!("cargo::rustc-link-search=native={}", folder.display());
    println!("cargo::rustc-link-lib=static={name}");
    Ok(())
}

fn variable(name: &str) -> Result<String, String> {
    env::var(name).map_err(|_| format!("cargo sets no {name}"))
}
