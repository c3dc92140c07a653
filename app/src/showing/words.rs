//! The rules' words for numbers: refusals, reasons, kinds, types, rows and columns, and how half-cycles read as seconds.
use crate::{
    answered::{
        grid::Grid,
        level::{against, reference},
        rms,
        table::{Counts, SETTINGS},
        Answer, Cut, Found, Split,
    },
    failure::Refusal,
};
use host::{Refused, Settings};

/// What each setting is, and what is allowed.
const MEANINGS: [(&str, &str); 7] = [
    ("N, samples per cycle per channel", "even, 8 to 512"),
    ("R, reference rms, in sample units", "1,000 to 50,000"),
    ("f, nominal frequency", "50 or 60"),
    ("sag threshold, percent of R", "50 to 95"),
    ("interruption threshold", "1 to 20"),
    ("swell threshold", "105 to 150"),
    ("hysteresis", "0 to 5"),
];

/// The channels, in the order of the samples.
pub const CHANNELS: [&str; 3] = ["a", "b", "c"];

/// The shortfalls of the channels, as programs read them.
pub const BY_CHANNEL: [&str; 3] = ["shortfall_a", "shortfall_b", "shortfall_c"];

/// What is said behind an event that a cut has split or that it has taken an end of.
pub fn cut(answer: &Answer, event: &Found) -> &'static str {
    match (answer.is_piece(event), answer.lost(event)) {
        (true, _) => " (a piece: cut)",
        (false, 0) => "",
        (false, _) => " (cut there)",
    }
}

/// Why something was turned away.
fn refusal(refused: &Refused) -> String {
    let place = refused.place;
    match refused.number {
        1 => outside(place),
        2 => "the length is not a multiple of 3".into(),
        3 => "there are fewer than N samples per channel".into(),
        4 => "L, the samples per channel, is not a multiple of N/2".into(),
        5 => "H, the number of half-cycles, is above 100,000".into(),
        6 => format!("a sample is out of range, the first at index {place} in the run"),
        7 => format!("the room is below 11 x the number of events, which is {place}"),
        8 => format!("total + H is above 4,000,000; {place} half-cycles are left"),
        9 => "the table offered is unsound".into(),
        other => format!("the library gave refusal {other}, for which this program has no words"),
    }
}

/// Why something was turned away, with what the place means in its file.
pub fn why(Refusal { refused, more, .. }: &Refusal) -> String {
    let more = if more.is_empty() { String::new() } else { format!(" ({more})") };
    format!("{}{more}", refusal(refused))
}

/// A refusal with its number and place.
pub fn turned_away(refusal: &Refusal) -> String {
    format!("refusal {}, place {}: {}", refusal.refused.number, refusal.refused.place, why(refusal))
}

fn outside(place: u64) -> String {
    match (1..).zip(SETTINGS.iter().zip(MEANINGS)).find(|(number, _)| *number == place) {
        Some((_, (option, (name, allowed)))) => {
            format!("a setting is outside its range: No. {place}, {name} (--{option}), allowed {allowed}")
        }
        None => "a setting is outside its range".into(),
    }
}

/// Why an event has no score.
pub fn reason(number: u64) -> &'static str {
    match number {
        0 => "scored",
        1 => "only the start unseen",
        2 => "only the end unseen",
        3 => "both ends unseen",
        4 => "not a sag",
        5 => "not an event",
        6 => "settings bad",
        _ => "a reason for which this program has no words",
    }
}

pub fn kind(number: u64) -> &'static str {
    match number {
        1 => "sag",
        2 => "interruption",
        3 => "swell",
        _ => "unnamed kind",
    }
}

/// Which ends are seen: 1 for the start plus 2 for the end.
pub fn seen(number: u64) -> &'static str {
    match number {
        0 => "neither",
        1 => "start",
        2 => "end",
        _ => "both",
    }
}

/// A sag type's letters.
pub fn class(number: u64) -> &'static str {
    ["A", "Da", "Db", "Dc", "Ca", "Cb", "Cc"].get(number as usize).copied().unwrap_or("?")
}

/// What a sag type tells. It compares six voltages and says which is smallest; which channel dropped is another question.
pub fn class_told(number: u64) -> String {
    let six = "each channel against the mean of the three, and each two channels against each other over root 3";
    let smallest = match number {
        0 => return format!("of six voltages ({six}) the smallest is at least nine tenths of the largest"),
        1 => "a against the mean",
        2 => "b against the mean",
        3 => "c against the mean",
        4 => "b against c",
        5 => "c against a",
        6 => "a against b",
        _ => return "unnamed".into(),
    };
    format!("of six voltages ({six}) the smallest is {smallest}")
}

/// A cell with the names of its row and column, short enough for a list.
pub fn placed(grid: &Grid, number: u64) -> String {
    let (at_row, at_column) = grid.place(number);
    format!("{number}: {}, {}", grid.row(at_row), grid.columns[at_column])
}

/// A cell's row and column in words.
pub fn cell(grid: &Grid, number: u64) -> String {
    let (at_row, at_column) = grid.place(number);
    format!("{}, {}", row(grid, at_row), column(grid, at_column))
}

pub fn row(grid: &Grid, at: usize) -> String {
    format!("row {at} ({})", grid.row(at))
}

pub fn column(grid: &Grid, at: usize) -> String {
    format!("column {at} ({})", grid.columns[at])
}

/// Half-cycles as seconds: half-cycles / 2f.
pub fn seconds(halves: u64, f: u64) -> String {
    format!("{:.3} s", exact_seconds(halves, f))
}

/// The same as a number, for programs.
pub fn exact_seconds(halves: u64, f: u64) -> f64 {
    halves as f64 / (2 * f) as f64
}

/// A shortfall, whole or a channel's, in milliseconds, rounded down: 1000 x shortfall / (N x R x R x 2f).
fn milliseconds(s: &Settings, shortfall: u64) -> u128 {
    let second = reference(s) * u128::from(2 * s.f);
    1000 * u128::from(shortfall) / second.max(1)
}

/// The same as seconds.
pub fn shortfall_seconds(s: &Settings, shortfall: u64) -> String {
    let ms = milliseconds(s, shortfall);
    format!("{}.{:03}", ms / 1000, ms % 1000)
}

/// The same for people: what is not nothing never reads as 0.
pub fn shortfall(s: &Settings, shortfall: u64) -> String {
    match milliseconds(s, shortfall) {
        0 if shortfall > 0 => "less than 0.001 s".into(),
        _ => format!("{} s", shortfall_seconds(s, shortfall)),
    }
}

/// What each channel lost in a sag. `nothing` is said only of a sag that somebody saw whole: of any other it is known only what a
/// channel lost at least.
pub fn losses(s: &Settings, event: &Found) -> [String; 3] {
    event.by_channel.map(|part| match (event.seen_whole(), part, milliseconds(s, part)) {
        (true, 0, _) => "nothing".into(),
        (true, ..) => shortfall(s, part),
        (false, 0, _) => "at least 0 s".into(),
        (false, _, 0) => "more than 0 s".into(),
        (false, ..) => format!("at least {}", shortfall(s, part)),
    })
}

/// The same in milliseconds, for a narrow column: a bare 0 is nothing.
pub fn lost_milliseconds(s: &Settings, event: &Found) -> [String; 3] {
    event.by_channel.map(|part| match (event.seen_whole(), part, milliseconds(s, part)) {
        (true, 1.., 0) => "<1".into(),
        (true, _, ms) => ms.to_string(),
        (false, 1.., 0) => ">0".into(),
        (false, _, ms) => format!(">={ms}"),
    })
}

/// What has to be said beside the shortfalls of a table in which something was not seen: a 0 is then nothing that was seen.
pub fn seen_only(c: &Counts) -> Option<&'static str> {
    (c.unknown > 0 || c.unplaced > 0).then_some("only what was seen is counted")
}

/// Whether what the channels lost, rounded down each, makes less than the energy.
pub fn rounds_apart(s: &Settings, event: &Found) -> bool {
    let parts = event.by_channel.iter().map(|part| milliseconds(s, *part));
    event.score.is_some() && parts.sum::<u128>() < milliseconds(s, event.shortfall)
}

/// A retained value in percent of R, always with its tenth: `90.0 %` is rounded, where a threshold of 90 % is exact.
pub fn retained(thousandths: u64) -> String {
    format!("{}.{} %", thousandths / 10, thousandths % 10)
}

/// The settings in one line.
pub fn settings(s: &Settings) -> String {
    format!(
        "N {}, R {}, {} Hz; sag {} %, interruption {} %, swell {} %, hysteresis {} %",
        s.n, s.r, s.f, s.sag, s.interruption, s.swell, s.hysteresis
    )
}

/// `1 sag`, `2 sags`.
pub fn count(number: u64, one: &str) -> String {
    format!("{number} {one}{}", if number == 1 { "" } else { "s" })
}

/// `a`, `a and b`, `a, b and c`.
pub fn and(words: &[&str]) -> String {
    match words {
        [] => String::new(),
        [one] => one.to_string(),
        [first @ .., last] => format!("{} and {last}", first.join(", ")),
    }
}

/// The rms value of a sum of squares in percent of R, never shown as if it were on a border that it is not on.
pub fn percent(s: &Settings, sum: u64, borders: &[u64]) -> String {
    let off: Vec<u64> = borders.iter().copied().filter(|border| against(s, sum, *border).is_ne()).collect();
    format!("{} %", apart(rms::percent(s, sum), &off))
}

/// A number with as many digits, one at least, as tell it from each of these borders.
pub fn apart(value: f64, borders: &[u64]) -> String {
    let looks_like = |digits: usize, border: u64| format!("{value:.digits$}") == format!("{border}.{:0<digits$}", "");
    let misleads = |digits: usize| borders.iter().any(|border| looks_like(digits, *border));
    let digits = (1..12).find(|digits| !misleads(*digits)).unwrap_or(12);
    format!("{value:.digits$}")
}

/// A time by the clock of the world, from seconds since 1970: `2026-11-15 09:30 UTC`.
pub fn date(seconds: u64) -> String {
    let (days, minutes) = (seconds / 86_400, seconds % 86_400 / 60);
    // Years that begin in March, so that the day of a leap year comes last; eras of 400 of them.
    let (era, day) = ((days + 719_468) / 146_097, (days + 719_468) % 146_097);
    let year = (day - day / 1_460 + day / 36_524 - day / 146_096) / 365;
    let day = day - (365 * year + year / 4 - year / 100);
    let month = (5 * day + 2) / 153;
    let (day, month) = (day - (153 * month + 2) / 5 + 1, if month < 10 { month + 3 } else { month - 9 });
    let year = 400 * era + year + u64::from(month < 3);
    format!("{year:04}-{month:02}-{day:02} {:02}:{:02} UTC", minutes / 60, minutes % 60)
}

/// What to say of a recording without an event of which not everything was seen.
pub fn no_event(c: &Counts) -> String {
    if c.unknown == c.total {
        let all =
            if c.total == 1 { "its one half-cycle is".into() } else { format!("all {} half-cycles are", c.total) };
        return format!("Nobody saw it: {all} unknown. That no event is listed says nothing about the voltage.");
    }
    let seen = count(c.total - c.unknown, "half-cycle");
    let unseen = if c.unknown == 1 { "1 is".into() } else { format!("{} are", c.unknown) };
    format!("No event in the {seen} that somebody saw; {unseen} unknown.")
}

/// Where a cut lies.
pub fn place(s: &Settings, cut: &Cut) -> String {
    format!("half-cycle {} ({})", cut.at, seconds(cut.at, s.f))
}

/// The events that a cut splits, by name.
pub fn splits(s: &Settings, cut: &Cut) -> String {
    let named = |what: &str, of: &dyn Fn(&Split) -> bool| {
        let name = |split: &Split| format!("the {} from half-cycle {} to {}", kind(split.kind), split.start, split.end);
        let names: Vec<String> = cut.splits.iter().filter(|split| of(split)).map(name).collect();
        (!names.is_empty()).then(|| format!("{what} {}", and(&names.iter().map(String::as_str).collect::<Vec<_>>())))
    };
    let through = named("splits", &|split| split.start < cut.at && cut.at < split.end);
    let ends = named("hides the end of", &|split| split.end == cut.at);
    let starts = named("hides the start of", &|split| split.start == cut.at);
    let pieces = if through.is_some() { PIECES } else { "" };
    let does: Vec<String> = [through, ends, starts].into_iter().flatten().collect();
    let mut said = format!(
        "No place between events was left for the cut at {}: it {}. An end at the cut is unseen, and a sag has no score then.{pieces}",
        place(s, cut),
        and(&does.iter().map(String::as_str).collect::<Vec<_>>())
    );
    for Split { kind: of, untold: (from, to), .. } in cut.splits.iter().filter(|split| split.untold.0 < split.untold.1)
    {
        said += &format!(
            " Half-cycles {from} to {} of the {kind} lie between its threshold and the hysteresis, and are told as in no {kind}.",
            to - 1,
            kind = kind(*of)
        );
    }
    said
}

const PIECES: &str =
    " What is told of a split event is pieces of it; a score or cell that one has all the same is its own.";

#[cfg(test)]
mod tests {
    use super::{apart, date};

    /// What `date -u -d @SECONDS` says: around leap days, ends of years and of centuries.
    #[test]
    fn dates() {
        for (seconds, told) in [
            (0, "1970-01-01 00:00 UTC"),
            (68_255_999, "1972-02-29 23:59 UTC"),
            (68_256_000, "1972-03-01 00:00 UTC"),
            (951_782_400, "2000-02-29 00:00 UTC"),
            (1_709_164_740, "2024-02-28 23:59 UTC"),
            (1_767_225_599, "2025-12-31 23:59 UTC"),
            (1_767_225_600, "2026-01-01 00:00 UTC"),
            (4_107_542_400, "2100-03-01 00:00 UTC"),
        ] {
            assert_eq!(date(seconds), told);
        }
    }

    #[test]
    fn digits_that_tell_a_value_from_a_border() {
        for (value, told) in [(89.94, "89.9"), (89.96, "89.96"), (90.0004, "90.0004"), (50.0, "50.0"), (92.01, "92.01")]
        {
            assert_eq!(apart(value, &[90, 92]), told);
        }
    }
}
