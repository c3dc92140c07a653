//! Pages and recordings that the program writes for people: nothing that is not its own is written over.
use super::beside::Beside;
use crate::failure::Failure;
use std::{
    fs::{self, File, Metadata},
    io::{self, ErrorKind, Read, Write},
    os::unix::fs::{FileTypeExt, MetadataExt},
    path::Path,
};

/// How much of a file is read to see whether it is ours.
const HEAD: u64 = 1_024;

/// Whether a page may go there: nothing is there, or a page with this mark, or it is to be forced.
pub fn may_go(path: &Path, mark: &str, force: bool) -> Result<(), Failure> {
    let told = |why: &str| Err(Failure::file(path.display(), why));
    let found = match there(path)? {
        None => return Ok(()),
        Some(There::Nowhere) if force => return Ok(()),
        Some(There::Nowhere) => return told("a link that leads nowhere, and is left as it is (--force replaces it)"),
        Some(There::Something(found)) => found,
    };
    let kind = found.file_type();
    if kind.is_dir() {
        return told("is a folder");
    }
    if force || kind.is_fifo() || kind.is_char_device() || kind.is_socket() {
        return Ok(());
    }
    if found.permissions().readonly() {
        return told("is read-only, and is left as it is (--force writes over it)");
    }
    let mut head = Vec::new();
    // Who may not write to a page may not replace it either.
    let opened = File::options().read(true).write(true).open(path);
    let read = opened.and_then(|file| file.take(HEAD).read_to_end(&mut head));
    read.map_err(|e| Failure::file(path.display(), format!("can't be written to: {e}")))?;
    match String::from_utf8_lossy(&head).contains(mark) {
        true => Ok(()),
        false => told("is no page of burrcradle's, and is left as it is (--force writes over it)"),
    }
}

/// Writes a page: beside what is there, and then in its place.
pub fn write(path: &Path, page: &str, mark: &str, force: bool) -> Result<(), Failure> {
    let over = there(path)?;
    may_go(path, mark, force)?;
    let written = put(path, page.as_bytes(), over);
    written.map_err(|e| Failure::file(path.display(), format!("the page could not be written: {e}")))
}

/// Whether a file may go there that must have these bytes: nothing is there, or just that.
pub fn may_go_as(path: &Path, bytes: &[u8]) -> Result<(), Failure> {
    let same = match there(path)? {
        None => return Ok(()),
        Some(There::Nowhere) => false,
        Some(There::Something(found)) => found.is_file() && fs::read(path).is_ok_and(|there| there == bytes),
    };
    match same {
        true => Ok(()),
        false => Err(Failure::file(path.display(), "there is another file of this name, and it is left as it is")),
    }
}

/// Writes a file where there is none; one that has these bytes already is left alone.
pub fn write_as(path: &Path, bytes: &[u8]) -> Result<(), Failure> {
    may_go_as(path, bytes)?;
    match there(path)? {
        Some(_) => Ok(()),
        None => Beside::write(path, bytes, None)
            .and_then(|file| file.place(path))
            .map_err(|e| Failure::file(path.display(), e)),
    }
}

/// What is under a name.
enum There {
    Something(Metadata),
    /// A link to nothing.
    Nowhere,
}

fn there(path: &Path) -> Result<Option<There>, Failure> {
    let gone = |e: &io::Error| e.kind() == ErrorKind::NotFound;
    match (fs::symlink_metadata(path), fs::metadata(path)) {
        (Err(e), _) if gone(&e) => Ok(None),
        (Ok(_), Err(e)) if gone(&e) => Ok(Some(There::Nowhere)),
        (_, Ok(found)) => Ok(Some(There::Something(found))),
        (_, Err(e)) => Err(Failure::file(path.display(), e)),
    }
}

fn put(path: &Path, bytes: &[u8], over: Option<There>) -> io::Result<()> {
    match over {
        None => Beside::write(path, bytes, None)?.place(path),
        Some(There::Nowhere) => Beside::write(path, bytes, None)?.replace(path),
        Some(There::Something(found)) if !found.is_file() => File::options().write(true).open(path)?.write_all(bytes),
        Some(There::Something(found)) => {
            // Through a link to the file itself, so that the link stays one.
            let real = fs::canonicalize(path)?;
            let beside = Beside::write(&real, bytes, Some(&found))?;
            let now = fs::metadata(&real)?;
            if (now.dev(), now.ino()) != (found.dev(), found.ino()) {
                return Err(io::Error::other("another file took its place meanwhile"));
            }
            beside.replace(&real)
        }
    }
}
