//! `new`, `show` and `add`: a site's table.
use super::args::{Args, Format, Takes};
use crate::{
    answered::{table::settings, Answer},
    asking::{self, measure},
    failure::{Failure, Refusal},
    keeping::site,
    reading::{self, recording::Recording, How},
    showing::{
        check, csv,
        json::{self, Json},
        paint::Paint,
        text, words,
    },
    terminal::{complain, Progress, Said},
};
use host::{Settings, Table};
use std::{ffi::OsString, path::Path, time::Duration};

pub const NEW: Takes =
    Takes { files: &["SITE"], many: false, settings: true, values: &["--borders"], flags: &["--json", "--csv"] };
pub const ADD: Takes = Takes {
    files: &["SITE", "RECORDING"],
    many: true,
    settings: false,
    values: &["--wait"],
    flags: &["--cut", "--raw", "--json", "--csv"],
};
pub const SHOW: Takes =
    Takes { files: &["SITE"], many: false, settings: false, values: &[], flags: &["--json", "--csv"] };

pub fn new(args: &Args) -> Result<Said, Failure> {
    let (path, format) = (Path::new(&args.files[0]), args.format()?);
    let (made, table) = host::fresh(&args.settings()?, args.borders()?);
    let what = path.display().to_string();
    made.map_err(|refused| Failure::Refused(Refusal { what, refused, more: String::new() }))?;
    site::create(path, &table)?;
    Ok(Said::after(written(path), told(path, &table, format)))
}

pub fn show(args: &Args) -> Result<Said, Failure> {
    let (path, format) = (Path::new(&args.files[0]), args.format()?);
    Ok(told(path, &site::load(path)?, format).into())
}

fn told(path: &Path, table: &Table, format: Format) -> String {
    match format {
        Format::Text => text::table(&path.display().to_string(), table, &Paint::stdout()),
        Format::Json => format!("{}\n", json::table(table)),
        Format::Csv => csv::table(table),
    }
}

/// What is done once the table is in its file.
fn written(path: &Path) -> String {
    format!("{}: the table was written", path.display())
}

pub fn add(args: &Args) -> Result<Said, Failure> {
    let (path, format) = (Path::new(&args.files[0]), args.format()?);
    let wait = args.whole("--wait")?.unwrap_or(60);
    // What is wrong with the site is told before anything is read, and nobody waits for a lock while input comes in.
    site::load(path)?;
    site::writable(path)?;
    let how = How { raw: args.flag("--raw"), fingerprint: false };
    let ahead = |file: &OsString| reading::may_wait(file).then(|| read(file, how)).transpose();
    let files = args.files[1..].iter().map(|file| Ok((file, ahead(file)?))).collect::<Result<Vec<_>, Failure>>()?;
    let locked = site::lock(path, Duration::from_secs(wait))?;
    let before = site::load(path)?;
    let (mut table, mut added, mut warnings) = (before, Vec::new(), Vec::new());
    for (file, ahead) in files {
        let recording = ahead.map_or_else(|| read(file, how), Ok)?;
        let one = add_one(&mut table, &recording, args.flag("--cut"));
        added.push(one.map_err(|failure| asking::told_of_room(failure, &before, &table))?);
        warnings.extend(check::warning(&recording.name, measure::medians(&settings(&table), &recording.samples)));
    }
    // One writing for all, so that a refusal of any leaves the file as it was.
    locked.save(&table)?;
    warnings.iter().for_each(|warning| complain(warning));
    let (s, paint) = (settings(&table), Paint::stdout());
    let text = match format {
        Format::Text => {
            text::added(&s, &added, &paint) + "\n" + &text::table(&path.display().to_string(), &table, &paint)
        }
        Format::Json => {
            let mut fields = json::added(&s, &added);
            fields.push(("table", json::table(&table)));
            format!("{}\n", Json::Object(fields))
        }
        Format::Csv => {
            // The table alone has no place for it.
            added.iter().for_each(|answer| warn_of_splits(&s, answer));
            csv::table(&table)
        }
    };
    Ok(Said::after(written(path), text))
}

/// Names the events that a cut splits on standard error, for an answer that has no place for them.
pub fn warn_of_splits(s: &Settings, answer: &Answer) {
    for cut in answer.cuts.iter().filter(|cut| !cut.splits.is_empty()) {
        complain(&format!("warning: {}: {}", answer.name, words::splits(s, cut)));
    }
}

fn read(file: &OsString, how: How) -> Result<Recording, Failure> {
    let _progress = Progress::on(&format!("reading {}", reading::name(file)));
    reading::read(file, how)
}

fn add_one(table: &mut Table, recording: &Recording, cut: bool) -> Result<Answer, Failure> {
    let _progress = Progress::on(&format!("adding {}", recording.name));
    asking::add(table, recording, cut)
}
