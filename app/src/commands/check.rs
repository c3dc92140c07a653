//! `check`: whether recordings fit the settings, before anything is added.
use super::{
    args::{Args, Format, Takes},
    events,
};
use crate::{
    answered::{grid, table::settings},
    asking::measure,
    failure::{Failure, Refusal},
    reading::{self, How},
    showing::{
        check,
        json::{self, Json},
        paint::Paint,
    },
    terminal::{Progress, Said},
};
use host::Table;

pub const TAKES: Takes = Takes { values: &["--site"], ..events::EXPLAIN };

pub fn run(args: &Args) -> Result<Said, Failure> {
    let format = args.format()?;
    let site = args.site()?;
    let before = site.map_or_else(|| fresh(args), Ok)?;
    let (s, mut table) = (settings(&before), before);
    let mut measured = Vec::new();
    for file in &args.files {
        let _progress = Progress::on(&format!("checking {}", reading::name(file)));
        let recording = reading::read(file, How { raw: args.flag("--raw"), fingerprint: false })?;
        measured.push(measure::measure(&before, &mut table, &recording, args.flag("--cut")));
        // Those for one site would be added one after another, others each by itself.
        if site.is_none() {
            table = before;
        }
    }
    let text = match format {
        Format::Text => {
            let told = measured.iter().map(|measured| check::text(&s, measured, &Paint::stdout()));
            told.collect::<Vec<_>>().join("\n")
        }
        Format::Json => {
            let told = measured.iter().map(|measured| check::json(&s, measured)).collect();
            let fields = vec![("settings", json::settings(&s)), ("recordings", Json::List(told))];
            format!("{}\n", Json::Object(fields))
        }
        Format::Csv => check::csv(&s, &measured),
    };
    let refused = measured.into_iter().filter_map(|measured| measured.refused.map(Failure::Refused)).collect();
    Ok(Said { text, done: None, refused })
}

/// A table that recordings could be added to, where no site is named. What it would take is the same by any set of borders.
fn fresh(args: &Args) -> Result<Table, Failure> {
    let (made, table) = host::fresh(&args.settings()?, grid::FIRST);
    let refusal = |refused| Refusal { what: "the settings".into(), refused, more: String::new() };
    made.map(|()| table).map_err(|refused| Failure::Refused(refusal(refused)))
}
