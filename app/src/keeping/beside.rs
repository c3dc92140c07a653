//! A new file beside the one that it is to replace: whatever goes wrong, the old one stays whole.
use std::{
    ffi::{OsStr, OsString},
    fs::{self, File, Metadata, Permissions},
    io::{self, ErrorKind, Write},
    os::unix::{
        ffi::OsStrExt,
        fs::{fchown, MetadataExt, OpenOptionsExt, PermissionsExt},
    },
    path::{Path, PathBuf},
    process,
};

/// Names up to this long leave room for what is put around them: a name has 255 bytes at most.
const LONGEST: usize = 220;

/// A file under a name of its own in the folder of another; it goes with its owner, unless it was put in a place.
pub struct Beside {
    path: PathBuf,
    folder: PathBuf,
}

impl Beside {
    /// Writes the bytes, all of them and onto the disk, to a file that was not there before: what lies under the name
    /// that was tried first, be it a link, is left alone. Owner and mode become those of the file it is to replace.
    pub fn write(path: &Path, bytes: &[u8], like: Option<&Metadata>) -> io::Result<Beside> {
        let folder = path.parent().filter(|f| !f.as_os_str().is_empty()).unwrap_or(Path::new(".")).to_path_buf();
        let (mut file, made) = create(path, like.is_some())?;
        let beside = Beside { path: made, folder };
        file.write_all(bytes)?;
        if let Some(old) = like {
            belong(&file, old)?;
        }
        file.sync_all()?;
        Ok(beside)
    }

    /// Puts the file in the place of another, in one step.
    pub fn replace(self, path: &Path) -> io::Result<()> {
        // A folder that can't be read can't be synced either. What was renamed stays so: an error after it would mislead.
        let folder = File::open(&self.folder);
        fs::rename(&self.path, path)?;
        let _ = folder.and_then(|folder| folder.sync_all());
        Ok(())
    }

    /// Puts the file in a place where nothing is: `AlreadyExists` where something came to be there.
    pub fn place(self, path: &Path) -> io::Result<()> {
        let folder = File::open(&self.folder);
        match fs::hard_link(&self.path, path) {
            Err(e) if e.kind() != ErrorKind::AlreadyExists => {
                // No links on this disk: a new file is written there, which a kill may leave half written and no worse.
                let bytes = fs::read(&self.path)?;
                let mut file = File::create_new(path)?;
                let written = file.write_all(&bytes).and_then(|()| file.sync_all());
                written.inspect_err(|_| drop(fs::remove_file(path)))?;
            }
            linked => linked?,
        }
        let _ = folder.and_then(|folder| folder.sync_all());
        Ok(())
    }
}

impl Drop for Beside {
    fn drop(&mut self) {
        // Renamed away, it is no longer there.
        let _ = fs::remove_file(&self.path);
    }
}

/// Creates a file beside, under the first name that is free; for its owner alone where a mode comes later.
fn create(path: &Path, owner_only: bool) -> io::Result<(File, PathBuf)> {
    let mode = if owner_only { 0o600 } else { 0o666 };
    let mut taken = 0;
    loop {
        let name = path.with_file_name(name(path, &format!("{}-{taken}", process::id())));
        match File::options().write(true).create_new(true).mode(mode).open(&name) {
            Ok(file) => return Ok((file, name)),
            Err(e) if e.kind() == ErrorKind::AlreadyExists && taken < 1_000 => taken += 1,
            Err(e) => return Err(e),
        }
    }
}

/// The front of the names of new files beside one: `.SITE.` for `SITE`; none where the name leaves no room for more.
fn front(path: &Path) -> Option<OsString> {
    let own = path.file_name().filter(|own| own.len() <= LONGEST)?;
    Some(OsString::from_iter([OsStr::new("."), own, OsStr::new(".")]))
}

/// `.SITE.4711-0.new` for `SITE`, and `.burrcradle.4711-0.new` for a name that is too long for that.
fn name(path: &Path, which: &str) -> OsString {
    let mut name = front(path).unwrap_or_else(|| ".burrcradle.".into());
    name.push(format!("{which}.new"));
    name
}

/// Gives a new file the owner, as far as that is allowed, and the mode of an old one.
fn belong(file: &File, old: &Metadata) -> io::Result<()> {
    let new = file.metadata()?;
    if (new.uid(), new.gid()) != (old.uid(), old.gid()) && fchown(file, Some(old.uid()), Some(old.gid())).is_err() {
        let _ = fchown(file, None, Some(old.gid()));
    }
    let mut mode = old.mode() & 0o777;
    if file.metadata()?.gid() != old.gid() {
        // Another group than before gets no more than everybody has.
        mode = (mode & 0o707) | ((mode & 0o007) << 3);
    }
    file.set_permissions(Permissions::from_mode(mode))
}

/// Removes what a kill has left beside a file. Only for who has the file to himself: nobody else is writing there then.
pub fn sweep(path: &Path) {
    let (Some(Ok(entries)), Some(front)) = (path.parent().map(fs::read_dir), front(path)) else { return };
    let ours = |found: &OsStr| {
        let which = found.as_bytes().strip_prefix(front.as_bytes()).and_then(|rest| rest.strip_suffix(b".new"));
        let numbers: Vec<&[u8]> = which.unwrap_or_default().split(|byte| *byte == b'-').collect();
        numbers.len() == 2 && numbers.iter().all(|n| !n.is_empty() && n.iter().all(u8::is_ascii_digit))
    };
    for entry in entries.flatten().filter(|entry| ours(&entry.file_name())) {
        if entry.file_type().is_ok_and(|kind| kind.is_file()) {
            let _ = fs::remove_file(entry.path());
        }
    }
}
