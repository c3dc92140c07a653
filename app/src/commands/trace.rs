//! `trace`: the half-cycles of a recording, one to a line.
use super::{
    args::{Args, Format, Takes},
    events,
    table::warn_of_splits,
    window::Window,
};
use crate::{
    asking::{self, Wish},
    failure::Failure,
    reading::{self, How},
    showing::{paint::Paint, trace},
    terminal::{Progress, Said},
};

pub const TAKES: Takes = Takes { many: false, values: &["--site", "--from", "--to"], ..events::LIST };

pub fn run(args: &Args) -> Result<Said, Failure> {
    let (format, (s, set), window) = (args.format()?, args.terms()?, Window::given(args)?);
    let file = &args.files[0];
    let _progress = Progress::on(&format!("tracing {}", reading::name(file)));
    let recording = reading::read(file, How { raw: args.flag("--raw"), fingerprint: false })?;
    let wish = Wish { cut: args.flag("--cut"), halves: true, ..Wish::default() };
    let answer = asking::about(&s, set, &recording, wish)?;
    let shown = window.of(&s, &answer.name, answer.counts().total)?;
    let text = match format {
        Format::Text => trace::text(&s, &answer, &shown, &Paint::stdout()),
        Format::Json => format!("{}\n", trace::json(&s, &answer, &shown)),
        Format::Csv => {
            // The rows have no place for it.
            warn_of_splits(&s, &answer);
            trace::csv(&s, &answer, &shown)
        }
    };
    Ok(text.into())
}
