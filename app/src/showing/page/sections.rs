//! The page: the site, all events, then each recording.
use super::{
    contents::{Contents, Shown},
    rms, scatter,
    svg::esc,
    table as drawn,
};
use crate::{
    answered::{
        table::{self, Counts},
        Answer, Found, Part,
    },
    showing::words,
};
use host::Settings;
use std::collections::BTreeSet;

/// Rows of a recording's event list; where there are more, the page says how many and where they are found.
const MOST_ROWS: usize = 300;
/// Unknown stretches that are named one by one.
const MOST_STRETCHES: usize = 12;

/// What the first lines of each page hold: by it a page of ours is told from any other file.
pub const MARK: &str = "<meta name=\"generator\" content=\"burrcradle ";

/// The whole page.
pub fn page(contents: &Contents) -> String {
    let (s, name, version) = (table::settings(contents.table), esc(contents.name), env!("CARGO_PKG_VERSION"));
    let mut body = format!(
        "<header><p class=\"over\">Burrcradle report: voltage sags, interruptions and swells</p><h1>{name}</h1>\
         <p class=\"sub\">{}; borders {}</p><p class=\"sub\">Made on {} by burrcradle {version}.</p></header>\n",
        esc(&words::settings(&s)),
        title(contents),
        esc(&contents.made)
    );
    body += &site_section(&s, contents);
    body += &scatter_section(&s, contents);
    let parts = contents.recordings.iter().flat_map(|shown| shown.answer.parts.iter().map(move |part| (shown, part)));
    for (number, (shown, part)) in parts.enumerate() {
        body += &recording_section(&s, number + 1, shown, part);
    }
    body += FOOT;
    format!(
        "<!DOCTYPE html>\n<html lang=\"en\"><head><meta charset=\"utf-8\">{MARK}{version}\">\n\
         <meta name=\"viewport\" content=\"width=device-width,initial-scale=1\">\
         <meta name=\"color-scheme\" content=\"light dark\"><title>{name} - Burrcradle</title>\n\
         <style>\n{}</style></head>\n<body>{HATCH}\n{body}</body></html>\n",
        include_str!("style.css")
    )
}

/// The hatching that means unknown, once for all drawings.
const HATCH: &str = "<svg class=\"defs\" aria-hidden=\"true\"><defs><pattern id=\"hatch\" width=\"7\" height=\"7\" \
                     patternUnits=\"userSpaceOnUse\" patternTransform=\"rotate(45)\">\
                     <rect class=\"hatch-ground\" width=\"7\" height=\"7\"/>\
                     <rect class=\"hatch-stroke\" width=\"2.4\" height=\"7\"/></pattern></defs></svg>";

const FOOT: &str = "<footer>Events, scores, reasons, cells and counts are the proved library's answers, and so are the peaks, what \
                    is unknown and the sums of squares that the curves are drawn from. Durations are half-cycles / 2f; a \
                    shortfall in seconds is shortfall / (N x R x R x 2f), in whole milliseconds, rounded down. What a \
                    channel lost is its part of the shortfall, rounded down by itself: the three together may be less \
                    than the whole. A retained value is the nearest tenth of a percent of R, halves upward; thresholds \
                    and rows go by exact sums and not by it. A recording's SHA-256 is what <code>sha256sum</code> says of \
                    its file.</footer>\n";

fn tile(value: &str, label: &str, more: &str) -> String {
    format!("<div class=\"tile\"><b>{}</b><span>{}</span><i>{}</i></div>", esc(value), esc(label), esc(more))
}

fn site_section(s: &Settings, contents: &Contents) -> String {
    let c = table::counts(contents.table);
    let mut tiles = vec![tile(&words::seconds(c.total, s.f), "recorded", &words::count(c.total, "half-cycle"))];
    tiles.extend(unknown_tile(s, &c));
    tiles.extend([
        tile(&c.sags.to_string(), "sags", &format!("{} unplaced", c.unplaced)),
        tile(&c.interruptions.to_string(), "interruptions", ""),
        tile(&c.swells.to_string(), "swells", ""),
        tile(&words::shortfall(s, c.shortfall), "shortfall", &c.shortfall.to_string()),
    ]);
    format!(
        "<section><h2>The site's table</h2><p class=\"note\">{}</p><div class=\"tiles\">{}</div>\n\
         <h3>Shortfall by channel</h3>{}\n<h3>Half-cycles</h3>{}\n\
         <h3>Sags by depth and duration</h3>{}\n<p class=\"note\">Rows by the smallest voltage that was left, columns by \
         duration, with the borders of {}. A sag with an unseen end has no cell: {} unplaced.</p></section>\n",
        esc(&relation(contents)),
        tiles.concat(),
        by_channel(s, &c),
        drawn::bar(contents.table),
        drawn::heat(contents.table),
        title(contents),
        c.unplaced
    )
}

/// The name of the table's borders, whole: on a phone its hyphens would break it.
fn title(contents: &Contents) -> String {
    format!("<span class=\"whole\">{}</span>", esc(table::grid(contents.table).title))
}

/// What each channel lost, in the colour of its curve.
fn by_channel(s: &Settings, c: &Counts) -> String {
    let told = |(name, part): (&str, u64)| {
        let (seconds, part) = (esc(&words::shortfall(s, part)), part.to_string());
        format!("<div class=\"tile {name}\"><b>{seconds}</b><span>channel {name}</span><i>{part}</i></div>")
    };
    let tiles: String = words::CHANNELS.into_iter().zip(c.by_channel).map(told).collect();
    let seen_only = words::seen_only(c).map(|said| format!("<p class=\"note\">Of the shortfalls {said}.</p>"));
    format!("<div class=\"tiles\">{tiles}</div>{}", seen_only.unwrap_or_default())
}

/// Unknown time, big enough not to be missed, wherever there is any.
fn unknown_tile(s: &Settings, c: &Counts) -> Option<String> {
    let more = format!("nobody saw {}", words::count(c.unknown, "half-cycle"));
    (c.unknown > 0).then(|| tile(&words::seconds(c.unknown, s.f), "unknown", &more))
}

/// How the recordings on the page stand to the table: making a page adds nothing to it.
fn relation(contents: &Contents) -> String {
    if contents.holds {
        return "The table holds the recordings below and nothing else.".into();
    }
    let mut said =
        "The table is what the site's file held when this page was made. The page shows the recordings below \
                    under the table's settings and adds nothing to it: they need not be in it."
            .to_string();
    if let Some((what, counted, shown)) = short(contents) {
        said += &format!(" They are not all in it: {what}, {counted} in the table and {shown} in them.");
    }
    said
}

/// Something of which the recordings have more than the table counts: they can't all be in it then. One that is shown twice
/// need not be in it twice.
fn short(contents: &Contents) -> Option<(String, u64, u64)> {
    let mut prints = BTreeSet::new();
    let new = |shown: &&Shown| shown.fingerprint.as_ref().is_none_or(|(_, sum)| prints.insert(sum.clone()));
    let distinct: Vec<&Shown> = contents.recordings.iter().filter(new).collect();
    let own = || distinct.iter().flat_map(|shown| &shown.answer.parts).map(|part| &part.own);
    let counts = |of: fn(&Counts) -> u64| {
        (of(&table::counts(contents.table)), own().map(|own| of(&table::counts(own))).sum::<u64>())
    };
    let cell = |at: usize| (table::cells(contents.table)[at], own().map(|own| table::cells(own)[at]).sum::<u64>());
    let mut all = vec![
        ("sags".to_string(), counts(|c| c.sags)),
        ("interruptions".into(), counts(|c| c.interruptions)),
        ("swells".into(), counts(|c| c.swells)),
        ("unplaced sags".into(), counts(|c| c.unplaced)),
        ("unknown half-cycles".into(), counts(|c| c.unknown)),
        ("disturbed half-cycles".into(), counts(|c| c.disturbed)),
        ("healthy half-cycles".into(), counts(|c| c.healthy)),
    ];
    all.extend((0..table::cells(contents.table).len()).map(|at| (format!("sags in cell {at}"), cell(at))));
    all.into_iter().find(|(_, (counted, shown))| counted < shown).map(|(what, (counted, shown))| (what, counted, shown))
}

fn scatter_section(s: &Settings, contents: &Contents) -> String {
    format!(
        "<section><h2>Depth against duration</h2>{}<p class=\"note\">Retained value in percent of R. The severity of a sag is \
         how far it stays under 100 %, divided by how far the curve does. The curve stands at {}.</p></section>\n",
        scatter::chart(s, contents),
        levels(s, contents.curve)
    )
}

/// The curve's values, each with the longest duration that it is for.
fn levels(s: &Settings, curve: &[(u64, u64)]) -> String {
    let lasts = curve.iter().skip(1).map(|(next, _)| format!("up to {}", words::seconds(next - 1, s.f)));
    let told: Vec<String> = curve
        .iter()
        .zip(lasts.chain(["beyond".to_string()]))
        .map(|((_, value), lasts)| format!("{} % {lasts}", value / 10))
        .collect();
    words::and(&told.iter().map(String::as_str).collect::<Vec<_>>())
}

fn recording_section(s: &Settings, number: usize, shown: &Shown, part: &Part) -> String {
    let (answer, c) = (&shown.answer, table::counts(&part.own));
    let mut out = format!(
        "<section class=\"recording\"><div class=\"keep\"><h2><span>{number}</span>{}</h2><p class=\"sub\">{}: {} healthy, \
         {} disturbed, {} unknown{}</p>\n{}",
        esc(&answer.named(part)),
        words::count(c.total, "half-cycle"),
        c.healthy,
        c.disturbed,
        c.unknown,
        esc(&part_note(s, answer, part)),
        fingerprint(shown)
    );
    out += &format!("{KEY}{}</div>\n", rms::chart(s, answer, part));
    let unknown = part.picture.as_ref().map_or(&[][..], |picture| &picture.unknown);
    if let Some(tile) = unknown_tile(s, &c) {
        out += &format!(
            "<div class=\"tiles\">{tile}</div><p class=\"note\"><b>Unknown:</b> {}.</p>\n",
            stretches(s, unknown)
        );
    }
    out += &events_table(s, answer, part, &c);
    if !shown.note.is_empty() {
        out += &format!("<p class=\"lesson\">{}</p>\n", esc(&shown.note));
    }
    out + "</section>\n"
}

/// What tells the recording from any other, however it is named.
fn fingerprint(shown: &Shown) -> String {
    let Some((bytes, sha256)) = &shown.fingerprint else { return String::new() };
    format!("<p class=\"print\">{}, SHA-256 {sha256}</p>\n", words::count(*bytes, "byte"))
}

/// Which line is which: told by dashes as well as by colour.
const KEY: &str = "<p class=\"keys\"><svg class=\"dash\" viewBox=\"0 0 30 8\"><path class=\"curve a\" d=\"M0 4H30\"/></svg>a \
    <svg class=\"dash\" viewBox=\"0 0 30 8\"><path class=\"curve b\" d=\"M0 4H30\"/></svg>b \
    <svg class=\"dash\" viewBox=\"0 0 30 8\"><path class=\"curve c\" d=\"M0 4H30\"/></svg>c \
    <svg class=\"dash\" viewBox=\"0 0 30 12\"><circle class=\"peak sag\" cx=\"15\" cy=\"6\" r=\"4\"/></svg>peak \
    <svg class=\"dash\" viewBox=\"0 0 30 16\"><rect class=\"bar sag\" x=\"2\" y=\"4\" width=\"26\" height=\"8\"/>\
    <line class=\"post sag\" x1=\"2\" y1=\"0\" x2=\"2\" y2=\"16\"/><line class=\"open sag\" x1=\"28\" y1=\"0\" x2=\"28\" y2=\"16\"/>\
    </svg>launch to landing (dotted end: unseen) &nbsp; the band at a threshold is its hysteresis</p>\n";

/// Where the part lies in its recording, and what the cuts at its ends do.
fn part_note(s: &Settings, answer: &Answer, part: &Part) -> String {
    if answer.cuts.is_empty() {
        return String::new();
    }
    let mut said = format!(
        ". Half-cycles and times are those of the whole recording; this part goes from half-cycle {} ({}) up to {} ({}).",
        part.first_half,
        words::seconds(part.first_half, s.f),
        part.end(),
        words::seconds(part.end(), s.f)
    );
    let here = |at: u64| at == part.first_half || at == part.end();
    let cuts: Vec<_> = answer.cuts.iter().filter(|cut| here(cut.at)).collect();
    for cut in cuts.iter().filter(|cut| !cut.splits.is_empty()) {
        said += &format!(" {}", words::splits(s, cut));
    }
    if cuts.iter().all(|cut| cut.splits.is_empty()) {
        said += " No event reaches over a cut.";
    }
    said
}

fn stretches(s: &Settings, unknown: &[(u64, u64)]) -> String {
    let named = unknown.iter().take(MOST_STRETCHES).map(|(start, end)| {
        let (from, to) = (words::seconds(*start, s.f), words::seconds(*end, s.f));
        format!("half-cycles {start} to {} ({from} to {to})", end - 1)
    });
    let mut said = named.collect::<Vec<_>>().join(", ");
    if unknown.len() > MOST_STRETCHES {
        said += &format!(", and {} more", unknown.len() - MOST_STRETCHES);
    }
    said
}

fn events_table(s: &Settings, answer: &Answer, part: &Part, c: &Counts) -> String {
    let events = &part.events;
    if events.is_empty() {
        let said = if c.unknown > 0 { words::no_event(c) } else { "No event.".into() };
        return format!("<p class=\"{}\">{}</p>\n", if c.unknown > 0 { "unseen" } else { "note" }, esc(&said));
    }
    let head = [
        "",
        "kind",
        "launch",
        "landing",
        "lasted",
        "seen",
        "retained",
        "severity",
        "energy",
        "lost",
        "cell, or why no score",
    ];
    let mut out = "<div class=\"scroll\"><table><thead><tr>".to_string();
    out += &head.map(|name| format!("<th>{name}</th>")).concat();
    out += "</tr></thead><tbody>\n";
    for (number, event) in events.iter().take(MOST_ROWS).enumerate() {
        out += &event_row(s, number + 1, event, words::cut(answer, event));
    }
    out += "</tbody></table></div>\n";
    if events.len() > MOST_ROWS {
        let more = events.len() - MOST_ROWS;
        out += &format!("<p class=\"note\">And {more} more events: <code>burrcradle list</code> has them all.</p>\n");
    }
    out
}

fn event_row(s: &Settings, number: usize, event: &Found, cut: &str) -> String {
    let kind = words::kind(event.kind);
    let class = if event.kind == 1 { format!(" {}", words::class(event.class)) } else { String::new() };
    let when = |k: u64| format!("{k}<i>{}</i>", words::seconds(k, s.f));
    let (severity, energy, last) = match event.score {
        Some(score) => (
            format!("{:.3}", score.severity),
            format!("{:.3} s", score.energy),
            format!("cell {}{cut}<i>{}</i>", event.cell, esc(&words::cell(event.grid, event.cell))),
        ),
        None => (
            "none".into(),
            "none".into(),
            format!("no score{cut}<i>reason {}: {}</i>", event.reason, words::reason(event.reason)),
        ),
    };
    format!(
        "<tr><td>{number}</td><td><b class=\"{kind}\">{kind}</b>{class}</td><td>{}</td><td>{}</td><td>{}</td><td>{}</td>\
         <td>{}</td><td>{severity}</td><td>{energy}</td><td>{}</td><td>{last}</td></tr>\n",
        when(event.start),
        when(event.end),
        words::seconds(event.halves(), s.f),
        words::seen(event.seen),
        words::retained(event.retained),
        losses(s, event),
    )
}

/// What each channel lost in a sag, one below the other: three columns more would not fit the paper.
fn losses(s: &Settings, event: &Found) -> String {
    if event.kind != 1 {
        return "-".into();
    }
    let told = |(name, loss): (&str, String)| format!("<i>{name} {}</i>", esc(&loss));
    words::CHANNELS.into_iter().zip(words::losses(s, event)).map(told).collect()
}
