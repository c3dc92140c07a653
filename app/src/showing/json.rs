//! JSON, as much of it as the program writes, and the answers in it.
use super::{explain, words};
use crate::{
    answered::{
        grid::Grid,
        table::{self, Counts, BORDERS, SETTINGS},
        Answer, Cut, Found, Part, Split,
    },
    failure::Refusal,
};
use host::{Score, Settings, Table};
use std::fmt::{self, Display, Formatter, Write};

pub enum Json {
    Null,
    Number(String),
    Text(String),
    List(Vec<Json>),
    Object(Vec<(&'static str, Json)>),
}

impl Json {
    pub fn whole(number: u64) -> Json {
        Json::Number(number.to_string())
    }

    /// A float in the shortest digits that read back as the same float.
    pub fn float(number: f64) -> Json {
        Json::Number(number.to_string())
    }

    pub fn text(text: &str) -> Json {
        Json::Text(text.to_string())
    }
}

impl Display for Json {
    fn fmt(&self, out: &mut Formatter) -> fmt::Result {
        match self {
            Json::Null => out.write_str("null"),
            Json::Number(digits) => out.write_str(digits),
            Json::Text(text) => quoted(text, out),
            Json::List(items) => {
                out.write_char('[')?;
                for (i, item) in items.iter().enumerate() {
                    write!(out, "{}{item}", if i == 0 { "" } else { "," })?;
                }
                out.write_char(']')
            }
            Json::Object(fields) => {
                out.write_char('{')?;
                for (i, (name, value)) in fields.iter().enumerate() {
                    write!(out, "{}\"{name}\":{value}", if i == 0 { "" } else { "," })?;
                }
                out.write_char('}')
            }
        }
    }
}

fn quoted(text: &str, out: &mut Formatter) -> fmt::Result {
    out.write_char('"')?;
    for c in text.chars() {
        match c {
            '"' => out.write_str("\\\"")?,
            '\\' => out.write_str("\\\\")?,
            c if c < ' ' => write!(out, "\\u{:04x}", c as u32)?,
            c => out.write_char(c)?,
        }
    }
    out.write_char('"')
}

/// A recording's answers: its half-cycles, its cuts, its parts with their events. `told` adds the sentences of `explain`.
pub fn recording(s: &Settings, answer: &Answer, told: bool) -> Json {
    let part = |part: &Part| {
        let events = part.events.iter().map(|found| event(s, answer, found, told));
        Json::Object(vec![
            ("part", Json::whole(part.number as u64)),
            ("first_half_cycle", Json::whole(part.first_half)),
            ("half_cycles", halves(&table::counts(&part.own))),
            ("events", Json::List(events.collect())),
        ])
    };
    Json::Object(vec![
        ("recording", Json::text(&answer.name)),
        ("half_cycles", halves(&answer.counts())),
        ("cuts", cuts(s, answer)),
        ("parts", Json::List(answer.parts.iter().map(part).collect())),
    ])
}

/// Where a recording was cut, and the events that this splits; none where a cut lies between events.
pub fn cuts(s: &Settings, answer: &Answer) -> Json {
    let split = |split: &Split| {
        Json::Object(vec![
            ("kind", Json::whole(split.kind)),
            ("kind_word", Json::text(words::kind(split.kind))),
            ("start", Json::whole(split.start)),
            ("end", Json::whole(split.end)),
            ("untold", Json::whole(split.untold.1 - split.untold.0)),
        ])
    };
    let cut = |cut: &Cut| {
        Json::Object(vec![
            ("half_cycle", Json::whole(cut.at)),
            ("seconds", Json::float(words::exact_seconds(cut.at, s.f))),
            ("splits", Json::List(cut.splits.iter().map(split).collect())),
        ])
    };
    Json::List(answer.cuts.iter().map(cut).collect())
}

fn event(s: &Settings, answer: &Answer, e: &Found, told: bool) -> Json {
    let class = if e.kind == 1 { Json::text(words::class(e.class)) } else { Json::Null };
    let float = |of: fn(Score) -> f64| e.score.map_or(Json::Null, |score| Json::float(of(score)));
    let mut fields = vec![
        ("kind", Json::whole(e.kind)),
        ("kind_word", Json::text(words::kind(e.kind))),
        ("start", Json::whole(e.start)),
        ("end", Json::whole(e.end)),
        ("start_seconds", Json::float(words::exact_seconds(e.start, s.f))),
        ("seen", Json::whole(e.seen)),
        ("cut", Json::whole(answer.lost(e))),
        ("extreme", Json::whole(e.extreme)),
        ("retained", Json::whole(e.retained)),
        ("shortfall", Json::whole(e.shortfall)),
        ("type", Json::whole(e.class)),
        ("type_word", class),
        ("reason", Json::whole(e.reason)),
        ("reason_words", Json::text(words::reason(e.reason))),
        ("cell", Json::whole(e.cell)),
        ("severity", float(|score| score.severity)),
        ("energy", float(|score| score.energy)),
    ];
    if told {
        let sentences = explain::told(s, answer, e).map(|sentence| Json::text(&sentence));
        fields.extend(explain::LABELS.into_iter().zip(sentences));
    }
    fields.extend(by_channel(e.by_channel));
    Json::Object(fields)
}

/// The shortfalls of a, b and c, which make up the shortfall: exact, since seconds that are rounded down do not.
fn by_channel(parts: [u64; 3]) -> impl Iterator<Item = (&'static str, Json)> {
    words::BY_CHANNEL.into_iter().zip(parts.map(Json::whole))
}

pub fn halves(c: &Counts) -> Json {
    Json::Object(vec![
        ("total", Json::whole(c.total)),
        ("healthy", Json::whole(c.healthy)),
        ("disturbed", Json::whole(c.disturbed)),
        ("unknown", Json::whole(c.unknown)),
    ])
}

pub fn settings(s: &Settings) -> Json {
    let numbers = [s.n, s.r, s.f, s.sag, s.interruption, s.swell, s.hysteresis];
    Json::Object(SETTINGS.into_iter().zip(numbers.map(Json::whole)).collect())
}

/// A table, its cells as the rows of its own grid.
pub fn table(table: &Table) -> Json {
    let (s, c) = (table::settings(table), table::counts(table));
    let row = |counts: &[u64]| Json::List(counts.iter().map(|count| Json::whole(*count)).collect());
    let mut fields = vec![
        ("settings", settings(&s)),
        ("half_cycles", halves(&c)),
        ("cells", Json::List(table::rows(table).map(row).collect())),
        ("unplaced", Json::whole(c.unplaced)),
        ("sags", Json::whole(c.sags)),
        ("interruptions", Json::whole(c.interruptions)),
        ("swells", Json::whole(c.swells)),
        ("shortfall", Json::whole(c.shortfall)),
        ("shortfall_seconds", Json::Number(words::shortfall_seconds(&s, c.shortfall))),
    ];
    fields.extend(by_channel(c.by_channel));
    fields.push(borders(table::grid(table)));
    Json::Object(fields)
}

/// The set of borders that cells are by.
pub fn borders(grid: &Grid) -> (&'static str, Json) {
    (BORDERS, Json::text(grid.word))
}

/// What was turned away, and why.
pub fn refusal(refusal: &Refusal) -> Json {
    Json::Object(vec![
        ("what", Json::text(&refusal.what)),
        ("number", Json::whole(refusal.refused.number)),
        ("place", Json::whole(refusal.refused.place)),
        ("sentence", Json::text(&words::why(refusal))),
    ])
}

/// What each recording, or each part of one, added, and where it was cut.
pub fn added(s: &Settings, added: &[Answer]) -> Vec<(&'static str, Json)> {
    let one = |answer: &Answer, part: &Part| {
        Json::Object(vec![("recording", Json::text(&answer.named(part))), ("table", table(&part.own))])
    };
    let parts = added.iter().flat_map(|answer| answer.parts.iter().map(move |part| one(answer, part)));
    let cut = added.iter().filter(|answer| !answer.cuts.is_empty());
    let cut = cut.map(|a| Json::Object(vec![("recording", Json::text(&a.name)), ("cuts", cuts(s, a))]));
    vec![("added", Json::List(parts.collect())), ("cut", Json::List(cut.collect()))]
}
