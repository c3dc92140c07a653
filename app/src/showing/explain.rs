//! Each event in sentences: its launch, peak and landing, why it has or has no score, and what each channel lost.
use super::words::{self, CHANNELS};
use crate::answered::{
    level::{against, borders, reference},
    Answer, Close, Found, Half,
};
use host::Settings;
use std::cmp::Ordering;

/// What the sentences of an event are about.
pub const LABELS: [&str; 5] = ["launch", "peak", "landing", "score", "loss"];

/// An event's launch, peak, landing, score and loss, a sentence each; nothing of one that was not looked at closely.
pub fn told(s: &Settings, answer: &Answer, event: &Found) -> [String; 5] {
    let Some(close) = &event.close else { return Default::default() };
    let taken = Taken { ends: answer.lost(event), piece: answer.is_piece(event) };
    [
        launch(s, event, close, taken),
        peak(s, event, close),
        landing(s, event, close, taken),
        score(s, event, close, taken),
        loss(s, event, taken),
    ]
}

/// What cuts have taken of an event: 1 for the start plus 2 for the end, and whether it is only a piece.
#[derive(Clone, Copy)]
struct Taken {
    ends: u64,
    piece: bool,
}

impl Taken {
    /// Why an end that a cut has taken is not told.
    fn told(&self, event: &Found, end: &str) -> String {
        match self.piece {
            true => format!(
                "this is a piece of the {} that a cut has split, so the {end} is not told",
                words::kind(event.kind)
            ),
            false => format!("the recording is cut there, so the {end} is unseen"),
        }
    }

    /// What stands before figures that are not the whole event's.
    fn whose(&self) -> &'static str {
        if self.piece {
            "of this piece alone: "
        } else {
            ""
        }
    }
}

/// The channels that lie so to a percent of R: `a and b are`, `c is`.
fn which(s: &Settings, sums: [u64; 3], percent: u64, lies: fn(Ordering) -> bool) -> String {
    let lie = CHANNELS.iter().zip(sums).filter(|(_, sum)| lies(against(s, *sum, percent)));
    let names: Vec<&str> = lie.map(|(name, _)| *name).collect();
    format!("{} {}", words::and(&names), if names.len() == 1 { "is" } else { "are" })
}

/// Where each channel stands: `a 60.0 %, b 97.0 %, c 97.0 %`.
fn stands(s: &Settings, kind: u64, sums: [u64; 3]) -> String {
    let stands = |(name, sum): (&str, u64)| format!("{name} {}", words::percent(s, sum, &borders(s, kind)));
    CHANNELS.into_iter().zip(sums).map(stands).collect::<Vec<_>>().join(", ")
}

fn at(s: &Settings, k: u64) -> String {
    format!("half-cycle {k} (at {})", words::seconds(k, s.f))
}

/// Why a half-cycle is unknown: `it misses 4 samples of b`.
fn misses(missing: [usize; 3]) -> String {
    let lost = CHANNELS.iter().zip(missing).filter(|(_, count)| *count > 0);
    let lost: Vec<String> =
        lost.map(|(name, count)| format!("{} of {name}", words::count(count as u64, "sample"))).collect();
    words::and(&lost.iter().map(String::as_str).collect::<Vec<_>>())
}

/// On which side of its threshold a channel launches an event of this kind.
fn side(kind: u64) -> &'static str {
    if kind == 3 {
        "above"
    } else {
        "below"
    }
}

fn launch(s: &Settings, event: &Found, close: &Close, taken: Taken) -> String {
    let ([border, _], side) = (borders(s, event.kind), side(event.kind));
    let lies = if event.kind == 3 { Ordering::is_gt } else { Ordering::is_lt };
    let (which, stands) = (which(s, close.launch, border, lies), stands(s, event.kind, close.launch));
    let before = match close.before {
        Half::Beyond => "the recording begins there, so the start is unseen and may lie earlier".into(),
        Half::Missing(missing) => format!(
            "half-cycle {} before it is unknown (it misses {}), so the start is unseen",
            event.start - 1,
            misses(missing)
        ),
        Half::Sums(_) if taken.ends & 1 == 1 => taken.told(event, "start"),
        Half::Sums(_) => format!("half-cycle {} before it is known, so the start is seen", event.start - 1),
    };
    format!("{}: {which} {side} {border} % of R ({stands}); {before}.", at(s, event.start))
}

fn peak(s: &Settings, event: &Found, close: &Close) -> String {
    let which = if event.kind == 3 { "largest" } else { "smallest" };
    let (place, channel) = close.peak.map_or_else(Default::default, |(k, sums)| {
        let on = CHANNELS.into_iter().zip(sums).filter(|(_, sum)| *sum == event.extreme);
        (format!("{}: ", at(s, k)), format!(", on {}", words::and(&on.map(|(name, _)| name).collect::<Vec<_>>())))
    });
    let retained = retained(s, event);
    let class = match event.kind {
        1 => format!("; type {}: {}", words::class(event.class), words::class_told(event.class)),
        _ => String::new(),
    };
    format!("{place}the {which} sum of squares, {}{channel}; {retained}{class}.", event.extreme)
}

/// The retained value, and where it is rounded onto the threshold, the exact sums that make it an event all the same.
fn retained(s: &Settings, event: &Found) -> String {
    let ([border, _], thousandths) = (borders(s, event.kind), event.retained);
    let told = format!(
        "retained {thousandths} = {} of R, rounded to the nearest, halves upward",
        words::retained(thousandths)
    );
    if thousandths != 10 * border {
        return told;
    }
    format!("{told}, and still {} {border} %: {}", side(event.kind), exactly(s, event.extreme, border))
}

/// Where an extreme lies to a percent of R, exactly: `the exact 10000 x 80801 = 808010000 is more than 10 x 10 x 8 x 1000 x 1000
/// = 800000000`.
fn exactly(s: &Settings, extreme: u64, percent: u64) -> String {
    let lies = match against(s, extreme, percent) {
        Ordering::Less => "less than",
        Ordering::Equal => "equal to",
        Ordering::Greater => "more than",
    };
    format!(
        "the exact 10000 x {extreme} = {} is {lies} {percent} x {percent} x {} x {} x {} = {}",
        10_000 * u128::from(extreme),
        s.n,
        s.r,
        s.r,
        u128::from(percent).pow(2) * reference(s)
    )
}

fn landing(s: &Settings, event: &Found, close: &Close, taken: Taken) -> String {
    let how = match close.landing {
        Half::Beyond => "the recording ends there, so the end is unseen and may lie later".into(),
        Half::Missing(missing) => {
            format!("it is unknown (it misses {}), so the end is unseen and may lie later", misses(missing))
        }
        Half::Sums(_) if taken.ends & 2 == 2 => taken.told(event, "end"),
        Half::Sums(sums) => {
            format!("{}: {}; it is known, so the end is seen", ended(s, event.kind, sums), stands(s, event.kind, sums))
        }
    };
    let lasted = words::seconds(event.halves(), s.f);
    format!("{}: {how}. Lasted {} = {lasted}.", at(s, event.end), words::count(event.halves(), "half-cycle"))
}

/// The condition that ended an event of this kind.
fn ended(s: &Settings, kind: u64, sums: [u64; 3]) -> String {
    let ([launch, back], hysteresis) = (borders(s, kind), s.hysteresis);
    match kind {
        1 => format!("all channels are back at {back} % of R or more ({launch} + hysteresis {hysteresis})"),
        2 => format!(
            "{} back at {back} % of R or more ({launch} + hysteresis {hysteresis}), and one is enough",
            which(s, sums, back, Ordering::is_ge)
        ),
        _ => format!("all channels are back at {back} % of R or less ({launch} - hysteresis {hysteresis})"),
    }
}

fn score(s: &Settings, event: &Found, close: &Close, taken: Taken) -> String {
    let (Some(score), Some(curve)) = (event.score, close.curve) else { return no_score(s, event, taken) };
    format!(
        "{}severity (1000 - {}) / (1000 - {curve}) = {:.3}: retained {}, and {curve} is the curve's value for {}; energy {:.3} s: \
         shortfall {} / ({} x {} x {} x 2 x {}), rounded down to milliseconds; cell {} ({}): {}, {}.",
        taken.whose(),
        event.retained,
        score.severity,
        event.retained,
        words::count(event.halves(), "half-cycle"),
        score.energy,
        event.shortfall,
        s.n,
        s.r,
        s.r,
        s.f,
        event.cell,
        event.grid.title,
        row(s, event),
        words::column(event.grid, event.grid.place(event.cell).1)
    )
}

/// The row, and where the rounded figure would say another one, the exact sums that decide. That one is the deeper: a value is
/// rounded onto a border from both sides, and the border belongs to the deeper row.
fn row(s: &Settings, event: &Found) -> String {
    let (grid, (row, _)) = (event.grid, event.grid.place(event.cell));
    let told = words::row(grid, row);
    let rounded = grid.percents.iter().filter(|border| event.retained > 10 * **border).count();
    if rounded == row {
        return told;
    }
    format!(
        "{told} and not {}, as the rounded {} would have it: {}",
        words::row(grid, rounded),
        event.retained,
        exactly(s, event.extreme, grid.percents[rounded])
    )
}

fn no_score(s: &Settings, event: &Found, taken: Taken) -> String {
    let why = format!("none, reason {}: {}", event.reason, words::reason(event.reason));
    if event.kind != 1 {
        return format!("{why}; only sags are scored.");
    }
    let unseen = 3 - event.seen;
    let there = match (unseen & taken.ends, unseen & !taken.ends) {
        (0, _) => "what happened there is not known",
        (_, 0) => "the recording is cut there",
        _ => "what happened at one end is not known, and at the other the recording is cut",
    };
    format!(
        "{why}; {there}, so neither severity nor cell is given (shortfall {} = {} is what was seen).",
        event.shortfall,
        words::shortfall(s, event.shortfall)
    )
}

/// What each channel lost. The exact parts stand beside it: they add up, and what is rounded down need not.
fn loss(s: &Settings, event: &Found, taken: Taken) -> String {
    if event.kind != 1 {
        return "not counted: only a sag has a shortfall.".into();
    }
    let ([a, b, c], [of_a, of_b, of_c]) = (words::losses(s, event), event.by_channel);
    let seen = if event.seen_whole() { "" } else { "; only what was seen is counted" };
    format!(
        "{}channel a lost {a}, b {b}, c {c}: {of_a} + {of_b} + {of_c} = shortfall {}, each / ({} x {} x {} x 2 x {}), rounded \
         down to milliseconds by itself{seen}.",
        taken.whose(),
        event.shortfall,
        s.n,
        s.r,
        s.r,
        s.f
    )
}
