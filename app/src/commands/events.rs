//! `list` and `explain`: the events of recordings.
use super::args::{Args, Format, Takes};
use crate::{
    answered::{grid, Answer},
    asking::{self, Wish},
    failure::Failure,
    reading::{self, How},
    showing::{
        csv,
        json::{self, Json},
        paint::Paint,
        text,
    },
    terminal::{Progress, Said},
};
use host::Settings;

pub const LIST: Takes = Takes {
    files: &["RECORDING"],
    many: true,
    settings: true,
    values: &["--site", "--borders", "--room"],
    flags: &["--cut", "--raw", "--json", "--csv"],
};
pub const EXPLAIN: Takes = Takes { values: &["--site", "--borders"], ..LIST };

pub fn list(args: &Args) -> Result<Said, Failure> {
    let room = match args.whole("--room")? {
        Some(room) if room > 100_000_000 => return Err(Failure::Usage("--room wants at most 100000000".into())),
        room => room.map(|room| room as usize),
    };
    told(args, Wish { cut: args.flag("--cut"), room, ..Wish::default() }, text::list)
}

pub fn explain(args: &Args) -> Result<Said, Failure> {
    told(args, Wish { cut: args.flag("--cut"), close: true, ..Wish::default() }, text::explained)
}

fn told(args: &Args, wish: Wish, in_text: fn(&Settings, &Answer, &Paint) -> String) -> Result<Said, Failure> {
    let (format, (s, set)) = (args.format()?, args.terms()?);
    let mut answers = Vec::new();
    for file in &args.files {
        let _progress = Progress::on(&format!("listing {}", reading::name(file)));
        let recording = reading::read(file, How { raw: args.flag("--raw"), fingerprint: false })?;
        answers.push(asking::about(&s, set, &recording, wish)?);
    }
    let text = match format {
        Format::Text => {
            let told = answers.iter().map(|answer| in_text(&s, answer, &Paint::stdout()));
            told.collect::<Vec<_>>().join("\n")
        }
        Format::Json => {
            let told = answers.iter().map(|answer| json::recording(&s, answer, wish.close)).collect();
            let (recordings, borders) = (("recordings", Json::List(told)), json::borders(grid::of(set)));
            let fields = vec![("settings", json::settings(&s)), recordings, borders];
            format!("{}\n", Json::Object(fields))
        }
        Format::Csv => csv::events(&s, grid::of(set), &answers, wish.close),
    };
    Ok(text.into())
}
