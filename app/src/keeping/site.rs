//! A site's file: a version line, then the table's 60 numbers by name, one to a line. It is replaced as a whole, so that
//! a kill at any moment leaves the old or the new table, and a file that makes no sense is never written over. Nor is one of
//! version 1 or 2: it lacks what each channel lost, and nothing in it tells that. One of version 3 lacks the set of borders, which
//! could only be the first: it is read as that, and the next writing makes it one of this version.
use super::beside::{self, Beside};
use crate::{
    answered::{grid, table},
    failure::{Failure, Refusal},
};
use host::{Refused, Table, TABLE};
use std::{
    fs::{self, File, Metadata, TryLockError},
    io::{self, ErrorKind},
    os::unix::fs::MetadataExt,
    path::{Path, PathBuf},
    thread,
    time::{Duration, Instant},
};

/// The version line: this, and then the version.
const KEPT: &str = "burrcradle site ";
const VERSION: &str = "4";

/// The version from before a table had a set of borders.
const BEFORE_SETS: &str = "3";

/// The versions from before shortfalls were counted by channel.
const EARLIER: [&str; 2] = ["1", "2"];

/// The table of a site's file, which the library finds sound.
pub fn load(path: &Path) -> Result<Table, Failure> {
    let name = path.display().to_string();
    let bytes = fs::read(path).map_err(|e| Failure::file(&name, e))?;
    let table = parse(&bytes).map_err(|why| Failure::file(&name, why))?;
    sound(table).map_err(|refused| {
        let more = "the file is damaged or was edited, and is left as it is".to_string();
        Failure::Refused(Refusal { what: name, refused, more })
    })
}

/// Asks the library to add no samples at all: an unsound table is refusal 9, and to a sound one that is refusal 3.
fn sound(table: Table) -> Result<Table, Refused> {
    match host::add(&mut table.clone(), &[]) {
        Err(refused) if refused.number != 3 => Err(refused),
        _ => Ok(table),
    }
}

/// Whether a file with this version line has the set of borders; or why it can't be read.
fn has_set(line: &str) -> Result<bool, String> {
    match line.strip_prefix(KEPT) {
        Some(VERSION) => Ok(true),
        Some(BEFORE_SETS) => Ok(false),
        Some(earlier) if EARLIER.contains(&earlier) => Err(format!(
            "line 1: a site's file of version {earlier}, kept before shortfalls were counted by channel. What each channel lost \
             can't be worked out from it, and it is left as it is: `burrcradle new`, under another name, and `burrcradle add` \
             make the site anew from its recordings"
        )),
        _ => Err(format!("line 1: {line:?} where \"{KEPT}{VERSION}\" is wanted: no site's file, or of another version")),
    }
}

/// Reads what `render` writes, or wrote before there were sets, and nothing else: a value in other digits or a line cut short is
/// an error.
fn parse(bytes: &[u8]) -> Result<Table, String> {
    let text = String::from_utf8_lossy(bytes);
    let mut lines = text.split_inclusive('\n').enumerate().map(|(at, line)| (at + 1, line));
    let mut next = |wanted: &str| match lines.next() {
        Some((at, line)) => match line.strip_suffix('\n') {
            Some(whole) => Ok((at, whole.to_string())),
            None => Err(format!("line {at} is cut short: {line:?}")),
        },
        None => Err(format!("the file ends where {wanted} is wanted")),
    };
    let (_, version) = next("the version line")?;
    let has_set = has_set(&version)?;
    let mut table = [0; TABLE];
    for (word, name) in table.iter_mut().zip(table::names()) {
        if name == table::BORDERS && !has_set {
            *word = grid::FIRST;
            continue;
        }
        let (at, line) = next(&name)?;
        *word = value(&line, &name).map_err(|why| format!("line {at}: {why}"))?;
    }
    match next("nothing more") {
        Ok((at, line)) => Err(format!("line {at}: {line:?} after the last number")),
        Err(why) if why.starts_with("line") => Err(why),
        Err(_) => Ok(table),
    }
}

fn value(line: &str, name: &str) -> Result<u64, String> {
    let digits = line.strip_prefix(name).and_then(|rest| rest.strip_prefix(' '));
    let digits = digits.ok_or_else(|| format!("{line:?} where {name:?} and its number are wanted"))?;
    match digits.parse::<u64>() {
        Ok(number) if number.to_string() == digits => Ok(number),
        _ => Err(format!("{digits:?} is no whole number that fits 64 bits")),
    }
}

fn render(table: &Table) -> String {
    let mut text = format!("{KEPT}{VERSION}\n");
    for (name, word) in table::names().iter().zip(table) {
        text.push_str(&format!("{name} {word}\n"));
    }
    text
}

/// Makes a site's file where there is none.
pub fn create(path: &Path, table: &Table) -> Result<(), Failure> {
    let there = || Failure::file(path.display(), "there is such a file already, and it is left as it is");
    if path.file_name().is_none() {
        return Err(Failure::file(path.display(), "no name for a file"));
    }
    if fs::symlink_metadata(path).is_ok() {
        return Err(there());
    }
    let written = Beside::write(path, render(table).as_bytes(), None).and_then(|beside| beside.place(path));
    written.map_err(|e| match e.kind() {
        ErrorKind::AlreadyExists => there(),
        _ => Failure::file(path.display(), format!("could not be made: {e}")),
    })
}

/// A site that nobody else writes to while this lives. The lock is on the site's file itself, so whoever may write to it
/// can take the lock, and it ends with its process.
pub struct Locked {
    name: String,
    /// The file itself, through links, so that two names of one site share one lock.
    path: PathBuf,
    found: Metadata,
    _lock: File,
}

/// Whether the site's file may be written to: somebody's wish that it stay as it is holds for everybody.
pub fn writable(path: &Path) -> Result<(), Failure> {
    open(path).map(drop)
}

fn open(path: &Path) -> Result<(File, Metadata), Failure> {
    let told = |e: io::Error| Failure::file(path.display(), format!("can't be written to: {e}"));
    let found = fs::metadata(path).map_err(|e| Failure::file(path.display(), e))?;
    if found.permissions().readonly() {
        return Err(Failure::file(path.display(), "the site is read-only, and is left as it is"));
    }
    let file = File::options().read(true).write(true).open(path).map_err(told)?;
    let found = file.metadata().map_err(told)?;
    Ok((file, found))
}

/// Locks a site that exists.
pub fn lock(path: &Path, wait: Duration) -> Result<Locked, Failure> {
    let began = Instant::now();
    loop {
        let real = fs::canonicalize(path).map_err(|e| Failure::file(path.display(), e))?;
        let (file, found) = open(path)?;
        match file.try_lock() {
            // Whoever had the lock may have put a new file in its place meanwhile: then that one is to be locked.
            Ok(()) if fs::metadata(&real).is_ok_and(|now| (now.dev(), now.ino()) == (found.dev(), found.ino())) => {
                return Ok(Locked { name: path.display().to_string(), path: real, found, _lock: file });
            }
            Ok(()) => {}
            Err(TryLockError::Error(e)) => {
                return Err(Failure::file(path.display(), format!("can't be locked: {e}")));
            }
            Err(TryLockError::WouldBlock) if began.elapsed() >= wait => {
                let why =
                    format!("another burrcradle is writing to this site, waited {} s, added nothing", wait.as_secs());
                return Err(Failure::file(path.display(), why));
            }
            Err(TryLockError::WouldBlock) => thread::sleep(Duration::from_millis(10)),
        }
    }
}

impl Locked {
    /// Puts the table in the file's place: written beside it, synced, renamed over it, and the renaming synced too.
    pub fn save(&self, table: &Table) -> Result<(), Failure> {
        beside::sweep(&self.path);
        let beside = Beside::write(&self.path, render(table).as_bytes(), Some(&self.found));
        let saved = beside.and_then(|beside| beside.replace(&self.path));
        saved.map_err(|e| {
            let more = match e.kind() {
                ErrorKind::PermissionDenied => " (it is written beside the old one: the folder must let you)",
                _ => "",
            };
            Failure::file(&self.name, format!("the new table could not be written: {e}{more}; the old one stands"))
        })
    }
}
