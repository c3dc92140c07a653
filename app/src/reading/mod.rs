//! Recordings: CSV or raw 32-bit samples, from a file or from standard input.
mod csv;
pub mod recording;
mod sha256;

use crate::failure::Failure;
use recording::Recording;
use sha256::{Digest, Digesting};
use std::{
    ffi::OsStr,
    fs::{self, File},
    io::{self, Read},
    path::Path,
};

/// How recordings are read.
#[derive(Clone, Copy, Default)]
pub struct How {
    /// As raw samples whatever their names.
    pub raw: bool,
    /// With the fingerprint of the file.
    pub fingerprint: bool,
}

/// The name that a recording goes by.
pub fn name(path: &OsStr) -> String {
    if path == "-" {
        "standard input".into()
    } else {
        path.to_string_lossy().into_owned()
    }
}

/// Whether reading may have to wait for somebody who writes.
pub fn may_wait(path: &OsStr) -> bool {
    path == "-" || fs::metadata(path).is_ok_and(|found| !found.is_file())
}

/// Reads a recording: raw where its name ends in `.i32` or that is asked for, else CSV; `-` is standard input.
pub fn read(path: &OsStr, how: How) -> Result<Recording, Failure> {
    let name = name(path);
    let mut length = 0;
    let input: Box<dyn Read> = match path == "-" {
        true => Box::new(io::stdin().lock()),
        false => {
            let file = File::open(path).map_err(|e| Failure::file(&name, e))?;
            length = file.metadata().map_or(0, |found| found.len());
            Box::new(file)
        }
    };
    let mut digest = Digest::new();
    let mut input = Digesting { inner: input, digest: how.fingerprint.then_some(&mut digest) };
    let raw = how.raw || Path::new(path).extension().is_some_and(|e| e.eq_ignore_ascii_case("i32"));
    let mut made = if raw { raw_samples(&name, &mut input, length)? } else { csv::samples(&name, &mut input)? };
    made.fingerprint = how.fingerprint.then(|| digest.end());
    Ok(made)
}

/// The fingerprint of bytes that were never in a file.
pub fn fingerprint(bytes: &[u8]) -> (u64, String) {
    let mut digest = Digest::new();
    digest.take(bytes);
    digest.end()
}

/// Raw samples; `length` is how many bytes are to be expected, where that is known.
fn raw_samples(name: &str, mut input: impl Read, length: u64) -> Result<Recording, Failure> {
    let mut bytes = Vec::with_capacity(length as usize + 1);
    input.read_to_end(&mut bytes).map_err(|e| Failure::file(name, e))?;
    let (words, rest) = bytes.as_chunks::<4>();
    if !rest.is_empty() {
        return Err(Failure::file(name, format!("{} bytes are no whole number of 32-bit samples", bytes.len())));
    }
    let samples = words.iter().map(|word| i32::from_le_bytes(*word)).collect();
    Ok(Recording { name: name.to_string(), samples, first_line: None, fingerprint: None })
}
