//! A file whose contents are replaced: the new bytes are written into a file beside it, synced, and renamed over it. So whatever
//! goes wrong, a full disk or a kill, the file is the old one or the new one, whole.
//!
//! Permissions, owner and group are kept, and a link to the file stays a link. Not kept are other names of the same file (hard
//! links go on naming the old one), access lists and extended attributes. A kill before the rename can leave a file
//! `.pirkunna-PROCESS-NUMBER` behind in the folder.

use std::fs::{self, File, Metadata, OpenOptions};
use std::io::{self, Read, Write};
use std::os::unix::fs::{MetadataExt, OpenOptionsExt, fchown};
use std::path::{Path, PathBuf};
use std::process;

/// A file as it was read.
#[derive(Debug)]
pub struct Original {
    /// Where the file itself is, behind all links.
    path: PathBuf,
    bytes: Vec<u8>,
    was: Metadata,
}

/// New contents for a file, written and synced beside it. Removed where it is let go and wasn't committed.
#[derive(Debug)]
pub struct Draft<'a> {
    original: &'a Original,
    path: PathBuf,
    is_committed: bool,
}

impl Original {
    /// Reads a file that may be written too.
    pub fn read(path: &Path) -> io::Result<Original> {
        let path = fs::canonicalize(path)?;
        // Renaming asks nothing of the file's own permissions, so whether it may be written is asked here.
        let mut file = OpenOptions::new().read(true).write(true).open(&path)?;
        let was = file.metadata()?;
        if !was.is_file() {
            return Err(io::Error::new(io::ErrorKind::InvalidInput, "not a regular file"));
        }
        let mut bytes = Vec::new();
        file.read_to_end(&mut bytes)?;
        Ok(Original { path, bytes, was })
    }

    pub fn bytes(&self) -> &[u8] {
        &self.bytes
    }

    /// Replaces the contents. Bytes that are the same already are not written again.
    pub fn replace(&self, new: &[u8]) -> io::Result<()> {
        if new == self.bytes {
            return Ok(());
        }
        self.draft(new)?.commit()
    }

    /// Writes new contents beside the file, and syncs them.
    pub fn draft(&self, new: &[u8]) -> io::Result<Draft<'_>> {
        let (mut file, path) = self.create_beside()?;
        let draft = Draft { original: self, path, is_committed: false };
        let written = file.write_all(new).and_then(|()| self.hand_over(&file)).and_then(|()| file.sync_all());
        written.map_err(|e| explained(e, "the new file can't be written beside it"))?;
        Ok(draft)
    }

    fn create_beside(&self) -> io::Result<(File, PathBuf)> {
        let mut number = 0;
        loop {
            let path = self.folder().join(format!(".pirkunna-{}-{number}", process::id()));
            match OpenOptions::new().write(true).create_new(true).mode(0o600).open(&path) {
                Ok(file) => return Ok((file, path)),
                Err(e) if e.kind() == io::ErrorKind::AlreadyExists && number < 1000 => number += 1,
                Err(e) => return Err(explained(e, "no new file can be made beside it")),
            }
        }
    }

    /// Gives a new file the owner, the group and the permissions of this one.
    fn hand_over(&self, file: &File) -> io::Result<()> {
        let new = file.metadata()?;
        if (new.uid(), new.gid()) != (self.was.uid(), self.was.gid()) {
            fchown(file, Some(self.was.uid()), Some(self.was.gid()))?;
        }
        file.set_permissions(self.was.permissions())
    }

    fn folder(&self) -> &Path {
        self.path.parent().unwrap_or(Path::new("/"))
    }

    /// Whether the file is still the one that was read.
    fn is_unchanged(&self) -> io::Result<bool> {
        let signs = |m: &Metadata| (m.dev(), m.ino(), m.len(), m.mtime(), m.mtime_nsec(), m.ctime(), m.ctime_nsec());
        Ok(signs(&fs::symlink_metadata(&self.path)?) == signs(&self.was))
    }
}

impl Draft<'_> {
    /// Puts the new file in the place of the old one, unless that has changed since it was read.
    pub fn commit(mut self) -> io::Result<()> {
        if !self.original.is_unchanged()? {
            return Err(io::Error::other("it was changed while it was worked on, so it is left as it is"));
        }
        fs::rename(&self.path, &self.original.path)?;
        self.is_committed = true;
        let synced = File::open(self.original.folder()).and_then(|folder| folder.sync_all());
        synced.map_err(|e| explained(e, "the new file stands, but its folder can't be synced"))
    }
}

impl Drop for Draft<'_> {
    fn drop(&mut self) {
        if !self.is_committed {
            let _ = fs::remove_file(&self.path);
        }
    }
}

fn explained(e: io::Error, what: &str) -> io::Error {
    io::Error::new(e.kind(), format!("{what}: {e}"))
}
