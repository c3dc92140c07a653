//! What `check` found out about a recording, and what `add` warns of.
use super::{
    csv,
    json::{self, Json},
    paint::Paint,
    text::{columns, wrapped},
    words::{self, CHANNELS},
};
use crate::answered::measured::{off_reference, Channel, Measured, Odd, DEAD, USUAL};
use host::Settings;

/// The warning of `add`: the medians where one of them looks as if R were another quantity, or nobody saw anything.
pub fn warning(name: &str, medians: [Option<f64>; 3]) -> Option<String> {
    if medians.iter().all(Option::is_none) {
        return Some(format!("warning: {name}: nobody saw any of it: no half-cycle of any channel is whole"));
    }
    medians.iter().flatten().any(|median| off_reference(*median)).then(|| {
        let told = |(channel, median): (&str, Option<f64>)| match median {
            Some(median) => format!("{channel} {} %", percent(median)),
            None => format!("{channel} unseen"),
        };
        let told: Vec<String> = CHANNELS.into_iter().zip(medians).map(told).collect();
        format!(
            "warning: {name}: the median rms lies outside {} to {} % of R: {}. Is R right? `burrcradle check` tells more",
            USUAL.0,
            USUAL.1,
            told.join(", ")
        )
    })
}

/// What is odd, in a sentence.
fn odd(s: &Settings, odd: &Odd) -> String {
    let names = |channels: &[usize]| words::and(&channels.iter().map(|at| CHANNELS[*at]).collect::<Vec<_>>());
    let valued = |channels: &[(usize, f64)], unit: &str| {
        let value = |x: f64| words::apart(x, &[USUAL.0, USUAL.1, s.n]);
        let told: Vec<String> =
            channels.iter().map(|(at, x)| format!("{}{unit} on {}", value(*x), CHANNELS[*at])).collect();
        words::and(&told.iter().map(String::as_str).collect::<Vec<_>>())
    };
    match odd {
        Odd::Unseen(channels) => format!("nobody saw {}: no half-cycle there is whole", names(channels)),
        Odd::Dead(channels) => format!("dead, never at {DEAD} % of R: {}", names(channels)),
        Odd::Stuck(channel, held) => format!(
            "stuck: {} samples of {} in a row are {} ({:.1} cycles), from its sample {} on",
            held.samples,
            CHANNELS[*channel],
            held.value,
            held.samples as f64 / s.n as f64,
            held.first
        ),
        Odd::Reference(channels) => format!(
            "the median rms lies outside {} to {} % of R ({}): is R {} the rms value in sample units, and not the peak? {:.0} \
             would make {} 100 %",
            USUAL.0,
            USUAL.1,
            valued(channels, " %"),
            s.r,
            s.r as f64 * channels[0].1 / 100.0,
            CHANNELS[channels[0].0]
        ),
        Odd::Period(channels) => format!("N {} does not fit: in samples a cycle is {}", s.n, valued(channels, "")),
        Odd::Over(over) => format!(
            "the length does not fit: each channel has {} over after the last whole half cycle (N/2 = {})",
            words::count(*over, "sample"),
            s.n / 2
        ),
    }
}

/// A measured recording as text.
pub fn text(s: &Settings, m: &Measured, paint: &Paint) -> String {
    let mut out = format!(
        "{}: {} of each channel = {} ({})\n  under {}\n",
        paint.bold(&m.name),
        words::count(m.length, "sample"),
        words::count(m.halves, "half-cycle"),
        words::seconds(m.halves, s.f),
        words::settings(s)
    );
    let rows: Vec<Vec<String>> = CHANNELS.iter().zip(&m.channels).map(|(name, channel)| row(name, channel)).collect();
    out += &columns(&CHANNEL, &rows, &[0], paint);
    let found = m.odd(s);
    let mut said = vec![fits(s, m, &found)];
    if m.over == 0 && m.ragged == 0 && m.length >= s.n {
        said.push(format!("The length fits: a whole number of half cycles of {} samples.", s.n / 2));
    }
    said.extend(found.iter().map(|found| format!("Warning: {}.", odd(s, found))));
    said.extend(
        m.cuts.iter().filter(|cut| !cut.splits.is_empty()).map(|cut| format!("Warning: {}", words::splits(s, cut))),
    );
    said.push(match &m.refused {
        Some(refusal) => format!("It would be refused: {}.", words::turned_away(refusal)),
        None => "It would be accepted.".into(),
    });
    let lines = said.iter().map(|line| wrapped(line, "    ").replacen("    ", "  ", 1) + "\n");
    out + &lines.collect::<String>()
}

/// Whether N is the period of the samples.
fn fits(s: &Settings, m: &Measured, found: &[Odd]) -> String {
    let swing: Vec<&str> = m.periods().map(|(at, _)| CHANNELS[at]).collect();
    match (found.iter().any(|odd| matches!(odd, Odd::Period(..))), swing.is_empty()) {
        (_, true) => format!("Whether N {} fits can't be told: no channel that is alive shows a whole cycle.", s.n),
        (true, _) => format!("N {} does not fit the period of the samples.", s.n),
        (false, _) => format!("N {} fits the period of {}.", s.n, words::and(&swing)),
    }
}

const CHANNEL: [&str; 8] =
    ["channel", "median % of R", "least", "greatest", "missing", "out of range", "longest level", "period"];

fn row(name: &str, channel: &Channel) -> Vec<String> {
    let rms = match &channel.rms {
        Some(rms) => [rms.median, rms.least, rms.greatest].map(percent),
        None => ["unseen", "unseen", "unseen"].map(String::from),
    };
    let mut row = [&[name.to_string()][..], &rms].concat();
    row.extend([channel.missing, channel.out_of_range, channel.held.samples].map(|count| count.to_string()));
    row.push(channel.period.map_or("none".into(), |period| format!("{period:.1}")));
    row
}

/// A percentage that looks like none of the borders that it is not on.
fn percent(value: f64) -> String {
    let borders = [DEAD, USUAL.0, USUAL.1].into_iter().filter(|border| value != *border as f64);
    words::apart(value, &borders.collect::<Vec<_>>())
}

/// A measured recording for programs.
pub fn json(s: &Settings, m: &Measured) -> Json {
    let float = |number: Option<f64>| number.map_or(Json::Null, Json::float);
    let channel = |(name, channel): (&str, &Channel)| {
        let rms = channel.rms.as_ref();
        Json::Object(vec![
            ("channel", Json::text(name)),
            ("median_percent", float(rms.map(|rms| rms.median))),
            ("least_percent", float(rms.map(|rms| rms.least))),
            ("greatest_percent", float(rms.map(|rms| rms.greatest))),
            ("missing", Json::whole(channel.missing)),
            ("out_of_range", Json::whole(channel.out_of_range)),
            ("longest_level", Json::whole(channel.held.samples)),
            ("period", float(channel.period)),
        ])
    };
    let odd = m.odd(s).into_iter().map(|found| odd(s, &found));
    let splits = m.cuts.iter().filter(|cut| !cut.splits.is_empty()).map(|cut| words::splits(s, cut));
    let warnings = odd.chain(splits).map(|warning| Json::text(&warning)).collect();
    let refused = m.refused.as_ref().map_or(Json::Null, json::refusal);
    Json::Object(vec![
        ("recording", Json::text(&m.name)),
        ("samples", Json::whole(m.length)),
        ("half_cycles", Json::whole(m.halves)),
        ("seconds", Json::float(words::exact_seconds(m.halves, s.f))),
        ("over", Json::whole(m.over)),
        ("channels", Json::List(CHANNELS.into_iter().zip(&m.channels).map(channel).collect())),
        ("warnings", Json::List(warnings)),
        ("refused", refused),
    ])
}

const HEAD: &str = "recording,samples,half_cycles,over,warnings,refusal,channel,\
                    median_percent,least_percent,greatest_percent,missing,out_of_range,longest_level,period\n";

/// Measured recordings for spreadsheets, a line for each channel.
pub fn csv(s: &Settings, measured: &[Measured]) -> String {
    let mut out = HEAD.to_string();
    for m in measured {
        let refusal = m.refused.as_ref().map_or(0, |refusal| refusal.refused.number);
        let counts = [m.length, m.halves, m.over, m.odd(s).len() as u64, refusal].map(|count| count.to_string());
        for (name, channel) in CHANNELS.iter().zip(&m.channels) {
            let float = |number: Option<f64>| number.map_or("".to_string(), |number| number.to_string());
            let rms = channel.rms.as_ref();
            let rms = [rms.map(|rms| rms.median), rms.map(|rms| rms.least), rms.map(|rms| rms.greatest)].map(float);
            let found = [channel.missing, channel.out_of_range, channel.held.samples].map(|count| count.to_string());
            let own = [&[name.to_string()][..], &rms, &found, &[float(channel.period)]].concat();
            out += &csv::line(&[&[m.name.clone()][..], &counts, &own].concat());
        }
    }
    out
}
