//! Half-cycles, one to a line, as text, CSV and JSON. All that is not known of one is told by that word: an empty field or a 0
//! could pass for voltage, or for none.
use super::{
    csv,
    json::{self, Json},
    paint::Paint,
    text::{self, columns},
    words,
};
use crate::answered::{
    rms,
    told::{self, Class, Told},
    Answer, Part,
};
use host::Settings;
use std::ops::Range;

const HEAD: [&str; 10] =
    ["half-cycle", "begins at", "class", "kinds", "S of a", "S of b", "S of c", "a % of R", "b % of R", "c % of R"];

/// The names of the same for programs: first what each half-cycle has, known or not.
const OWN: [&str; 5] = ["part", "half_cycle", "seconds", "class", "kinds"];
const MEASURED: [&str; 6] = ["sum_a", "sum_b", "sum_c", "rms_percent_a", "rms_percent_b", "rms_percent_c"];

const UNKNOWN: &str = "unknown";

fn class(class: Class) -> &'static str {
    match class {
        Class::Healthy => "healthy",
        Class::Disturbed => "disturbed",
        Class::Unknown => UNKNOWN,
    }
}

/// The kinds that a half-cycle lies in, and what is said where it lies in none. Of one that nobody saw that is not known.
fn kinds(told: &Told, none: &str) -> String {
    let kinds: Vec<&str> = told.kinds().map(words::kind).collect();
    match (told.class, kinds.is_empty()) {
        (Class::Unknown, _) => UNKNOWN.into(),
        (_, true) => none.into(),
        (_, false) => kinds.join("+"),
    }
}

/// S of a, b and c, and the rms value of each in percent of R.
fn measured(s: &Settings, told: &Told) -> [String; 6] {
    let Some([a, b, c]) = told.sums() else { return [UNKNOWN; 6].map(String::from) };
    let rms = |sum: u64| {
        let hundredths = rms::hundredths(s, sum);
        format!("{}.{:02}", hundredths / 100, hundredths % 100)
    };
    [a.to_string(), b.to_string(), c.to_string(), rms(a), rms(b), rms(c)]
}

/// The half-cycles of a part that are shown, each with its number in the recording.
fn of<'a>(part: &'a Part, shown: &Range<u64>) -> impl Iterator<Item = (u64, &'a Told)> {
    let shown = shown.clone();
    (part.first_half..).zip(&part.halves).filter(move |(k, _)| shown.contains(k))
}

/// Every half-cycle of a recording that is shown, with its part.
fn all<'a>(answer: &'a Answer, shown: &'a Range<u64>) -> impl Iterator<Item = (&'a Part, u64, &'a Told)> {
    answer.parts.iter().flat_map(move |part| of(part, shown).map(move |(k, told)| (part, k, told)))
}

/// The half-cycles as text, and how many of each class they are.
pub fn text(s: &Settings, answer: &Answer, shown: &Range<u64>, paint: &Paint) -> String {
    let mut out = text::cut_note(s, answer);
    for part in answer.parts.iter().filter(|part| of(part, shown).next().is_some()) {
        out += &(text::heading(s, answer, part, paint) + &lines(s, part, shown, paint));
    }
    let c = told::counts(all(answer, shown).map(|(_, _, told)| told));
    let of = words::count(answer.counts().total, "half-cycle");
    out + &format!("  {} of {of}: {} healthy, {} disturbed, {} unknown\n", c.total, c.healthy, c.disturbed, c.unknown)
}

/// The lines of a part's half-cycles.
pub fn lines(s: &Settings, part: &Part, shown: &Range<u64>, paint: &Paint) -> String {
    let row = |(k, told): (u64, &Told)| {
        let own = [k.to_string(), words::seconds(k, s.f), class(told.class).into(), kinds(told, "-")];
        [&own[..], &measured(s, told)].concat()
    };
    columns(&HEAD, &of(part, shown).map(row).collect::<Vec<_>>(), &[2, 3], paint)
}

/// The half-cycles for spreadsheets.
pub fn csv(s: &Settings, answer: &Answer, shown: &Range<u64>) -> String {
    let mut out = csv::line(&[&OWN[..], &MEASURED].concat().iter().map(|name| name.to_string()).collect::<Vec<_>>());
    for (part, k, told) in all(answer, shown) {
        let seconds = words::exact_seconds(k, s.f).to_string();
        let own = [part.number.to_string(), k.to_string(), seconds, class(told.class).into(), kinds(told, "none")];
        out += &csv::line(&[&own[..], &measured(s, told)].concat());
    }
    out
}

/// The half-cycles for programs, with how many there are of each class in the recording and among those that are shown. An unknown
/// one has the word where others have numbers: null is read as 0 by some.
pub fn json(s: &Settings, answer: &Answer, shown: &Range<u64>) -> Json {
    let row = |(part, k, told): (&Part, u64, &Told)| {
        let kinds = match told.class {
            Class::Unknown => Json::text(UNKNOWN),
            _ => Json::List(told.kinds().map(|kind| Json::text(words::kind(kind))).collect()),
        };
        let number = |field: String| if told.sums().is_some() { Json::Number(field) } else { Json::Text(field) };
        let seconds = Json::float(words::exact_seconds(k, s.f));
        let class = Json::text(class(told.class));
        let own = [Json::whole(part.number as u64), Json::whole(k), seconds, class, kinds];
        let fields = OWN.into_iter().zip(own).chain(MEASURED.into_iter().zip(measured(s, told).map(number)));
        Json::Object(fields.collect())
    };
    Json::Object(vec![
        ("settings", json::settings(s)),
        ("recording", Json::text(&answer.name)),
        ("half_cycles", json::halves(&answer.counts())),
        ("cuts", json::cuts(s, answer)),
        ("shown", json::halves(&told::counts(all(answer, shown).map(|(_, _, told)| told)))),
        ("trace", Json::List(all(answer, shown).map(row).collect())),
    ])
}
