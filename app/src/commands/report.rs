//! `report`: one page about a site and some recordings.
use super::args::{Args, Takes};
use crate::{
    answered::table::{set, settings},
    asking::{self, curve, Wish},
    failure::Failure,
    keeping::{page as kept, site},
    reading::{self, How},
    showing::{
        page::{
            self,
            contents::{Contents, Shown},
        },
        words,
    },
    terminal::{Progress, Said},
};
use std::{
    ffi::OsStr,
    fs::{self, File},
    io,
    os::{fd::AsFd, unix::fs::MetadataExt},
    path::Path,
    time::{SystemTime, UNIX_EPOCH},
};

pub const TAKES: Takes = Takes {
    files: &["SITE", "RECORDING"],
    many: true,
    settings: false,
    values: &["-o"],
    flags: &["--cut", "--raw", "--force"],
};

/// What a page shows of a recording.
pub fn wish(cut: bool) -> Wish {
    Wish { cut, close: true, picture: Some(page::COLUMNS), ..Wish::default() }
}

/// The time of day, for the page that is made now.
pub fn now() -> String {
    words::date(SystemTime::now().duration_since(UNIX_EPOCH).map_or(0, |since| since.as_secs()))
}

pub fn run(args: &Args) -> Result<Said, Failure> {
    let (path, force) = (Path::new(&args.files[0]), args.flag("--force"));
    let out = args.value("-o").ok_or_else(|| Failure::Usage("-o FILE.html is wanting".into()))?;
    if out != "-" {
        if args.files.iter().any(|file| same(file, out)) {
            let why = format!("-o {}: the report would overwrite what it is made from", out.to_string_lossy());
            return Err(Failure::Usage(why));
        }
        kept::may_go(Path::new(out), page::MARK, force)?;
    }
    let table = site::load(path)?;
    let s = settings(&table);
    let mut recordings = Vec::new();
    for file in &args.files[1..] {
        let _progress = Progress::on(&format!("drawing {}", reading::name(file)));
        let recording = reading::read(file, How { raw: args.flag("--raw"), fingerprint: true })?;
        let answer = asking::about(&s, set(&table), &recording, wish(args.flag("--cut")))?;
        recordings.push(Shown { answer, fingerprint: recording.fingerprint, note: String::new() });
    }
    let (name, curve) = (path.display().to_string(), curve::steps(&s));
    let contents =
        Contents { name: &name, table: &table, holds: false, recordings: &recordings, curve: &curve, made: now() };
    let page = page::page(&contents);
    if out == "-" {
        return Ok(page.into());
    }
    kept::write(Path::new(out), &page, page::MARK, force)?;
    // Down a pipe the page is all there is to say.
    let said = if Path::new(out).is_file() { format!("{}: written\n", out.to_string_lossy()) } else { String::new() };
    Ok(Said::after(format!("{}: the page was written", out.to_string_lossy()), said))
}

/// Whether two names lead to one file; `-` is what standard input reads.
fn same(one: &OsStr, other: &OsStr) -> bool {
    let read = match one == "-" {
        true => io::stdin().as_fd().try_clone_to_owned().and_then(|input| File::from(input).metadata()),
        false => fs::metadata(one),
    };
    matches!((read, fs::metadata(other)), (Ok(a), Ok(b)) if (a.dev(), a.ino()) == (b.dev(), b.ino()))
}
