//! Answers as aligned text, for people.
use super::{explain, paint::Paint, words};
use crate::answered::{
    table::{self, Counts},
    Answer, Found, Part,
};
use host::{Settings, Table};

/// Columns, each as wide as its widest field: numbers to the right, the columns of `left` to the left. The last field of a row that
/// has fewer fields than the head stands in all the columns that are left.
pub fn columns(head: &[&str], rows: &[Vec<String>], left: &[usize], paint: &Paint) -> String {
    let over_more = |row: &[String], at: usize| row.len() < head.len() && at + 1 == row.len();
    let width = |at: usize| {
        let rows = rows.iter().filter(|row| !over_more(row, at));
        let fields = rows.filter_map(|row| row.get(at)).map(|field| field.chars().count());
        fields.max().unwrap_or(0).max(head[at].chars().count())
    };
    let widths: Vec<usize> = (0..head.len()).map(width).collect();
    let row = |fields: &[String]| {
        let laid = fields.iter().enumerate().map(|(at, field)| match left.contains(&at) || over_more(fields, at) {
            true => format!("{field:<width$}", width = widths[at]),
            false => format!("{field:>width$}", width = widths[at]),
        });
        let line = laid.collect::<Vec<_>>().join("  ");
        format!("  {}", line.trim_end())
    };
    let names: Vec<String> = head.iter().map(|name| name.to_string()).collect();
    let mut out = paint.dim(&row(&names)) + "\n";
    for fields in rows {
        out += &(row(fields) + "\n");
    }
    out
}

/// One line about a recording or a part of it, its half-cycles and how many events it has, and a second one where there
/// is no event and not everything was seen.
pub fn heading(s: &Settings, answer: &Answer, part: &Part, paint: &Paint) -> String {
    let c = table::counts(&part.own);
    let from = match answer.parts.len() {
        1 => String::new(),
        _ => format!(", from half-cycle {} ({}) on", part.first_half, words::seconds(part.first_half, s.f)),
    };
    let mut out = format!(
        "{}: {} ({}){from}: {} healthy, {} disturbed, {} unknown; {}\n",
        paint.bold(&answer.named(part)),
        words::count(c.total, "half-cycle"),
        words::seconds(c.total, s.f),
        c.healthy,
        c.disturbed,
        c.unknown,
        words::count(part.events.len() as u64, "event"),
    );
    if part.events.is_empty() && c.unknown > 0 {
        out += &format!("  {}\n", words::no_event(&c));
    }
    out
}

/// What cutting did, for a recording in more than one part.
pub fn cut_note(s: &Settings, answer: &Answer) -> String {
    if answer.cuts.is_empty() {
        return String::new();
    }
    let (clean, forced): (Vec<_>, Vec<_>) = answer.cuts.iter().partition(|cut| cut.splits.is_empty());
    let mut said = "Half-cycles and times are those of the whole recording.".to_string();
    match clean.len() {
        0 => {}
        few @ 1..=4 => {
            let places: Vec<String> = clean.iter().map(|cut| words::place(s, cut)).collect();
            let cuts = if few == 1 { "cut" } else { "cuts" };
            let places = words::and(&places.iter().map(String::as_str).collect::<Vec<_>>());
            said += &format!(" No event reaches over the {cuts} at {places}.");
        }
        many => said += &format!(" No event reaches over {many} of the cuts."),
    }
    for cut in forced {
        said += &format!(" {}", words::splits(s, cut));
    }
    format!("{} is cut into {} parts.\n{}\n", answer.name, answer.parts.len(), wrapped(&said, ""))
}

/// The head of a list, but for its last column.
const LIST: [&str; 14] = [
    "no",
    "kind",
    "start",
    "end",
    "at",
    "lasted",
    "seen",
    "extreme",
    "retained",
    "shortfall",
    "type",
    "ms lost a / b / c",
    "severity",
    "energy",
];

/// Why three figures may not make up the fourth, for whoever adds them.
const ROUNDED: &str =
    "  What a, b and c lost is rounded down each by itself: together it may be less than the energy.\n";

/// The events of a recording.
pub fn list(s: &Settings, answer: &Answer, paint: &Paint) -> String {
    let mut out = cut_note(s, answer);
    for part in &answer.parts {
        out += &heading(s, answer, part, paint);
        if !part.events.is_empty() {
            let lost = bars(s, &part.events);
            let rows = part.events.iter().zip(lost).enumerate();
            let rows: Vec<_> = rows.map(|(at, (e, lost))| row(s, at, e, lost, words::cut(answer, e))).collect();
            let cell = format!("cell ({})", table::grid(&part.own).title);
            out += &columns(&[&LIST[..], &[&cell]].concat(), &rows, &[1, 6, 10, 14], paint);
            if part.events.iter().any(|event| words::rounds_apart(s, event)) {
                out += ROUNDED;
            }
        }
    }
    out
}

/// The line of an event. Why one has no score stands where its score would.
fn row(s: &Settings, at: usize, event: &Found, lost: String, cut: &str) -> Vec<String> {
    let mut row = vec![(at + 1).to_string(), words::kind(event.kind).into()];
    row.extend([event.start.to_string(), event.end.to_string(), words::seconds(event.start, s.f)]);
    row.extend([words::seconds(event.halves(), s.f), words::seen(event.seen).into()]);
    row.extend([event.extreme.to_string(), event.retained.to_string()]);
    row.extend(match event.kind {
        1 => [event.shortfall.to_string(), words::class(event.class).into(), lost],
        _ => ["-", "-", "-"].map(String::from),
    });
    match event.score {
        Some(score) => {
            row.extend([format!("{:.3}", score.severity), format!("{:.3} s", score.energy)]);
            row.push(format!("{}{cut}", words::placed(event.grid, event.cell)));
        }
        None => row.push(format!("none: {}{cut}", words::reason(event.reason))),
    }
    row
}

/// What each channel lost in each event, as `a / b / c`, with the strokes of all below each other.
fn bars(s: &Settings, events: &[Found]) -> Vec<String> {
    let lost: Vec<[String; 3]> = events.iter().map(|event| words::lost_milliseconds(s, event)).collect();
    let sags = || events.iter().zip(&lost).filter(|(event, _)| event.kind == 1);
    let width = |channel: usize| sags().map(|(_, lost)| lost[channel].len()).max().unwrap_or(0);
    let [a, b, c] = [0, 1, 2].map(width);
    lost.iter().map(|[of_a, of_b, of_c]| format!("{of_a:>a$} / {of_b:>b$} / {of_c:>c$}")).collect()
}

/// The events of a recording in words.
pub fn explained(s: &Settings, answer: &Answer, paint: &Paint) -> String {
    let mut out = cut_note(s, answer);
    for part in &answer.parts {
        out += &heading(s, answer, part, paint);
        for (at, event) in part.events.iter().enumerate() {
            let title = format!("event {}: {}", at + 1, words::kind(event.kind));
            out += &format!("\n  {}\n", paint.bold(&title));
            for (label, sentence) in explain::LABELS.iter().zip(explain::told(s, answer, event)) {
                let sentence = wrapped(&sentence, "             ");
                out += &format!("    {label:<8} {}\n", sentence.trim_start());
            }
        }
    }
    out
}

/// A table: half-cycles, events, cells and shortfall.
pub fn table(name: &str, table: &Table, paint: &Paint) -> String {
    let (s, c) = (table::settings(table), table::counts(table));
    let mut out = format!("{}: {}\n", paint.bold(name), words::settings(&s));
    let shortfall = |shortfall: u64| format!("{shortfall} = {}", words::shortfall(&s, shortfall));
    let [of_a, of_b, of_c] = c.by_channel.map(shortfall);
    let lines = [
        ("half-cycles", format!("{} ({})", c.total, words::seconds(c.total, s.f))),
        ("", format!("{} healthy, {} disturbed, {} unknown", c.healthy, c.disturbed, c.unknown)),
        ("sags", format!("{} ({} unplaced)", c.sags, c.unplaced)),
        ("interruptions", c.interruptions.to_string()),
        ("swells", c.swells.to_string()),
        ("shortfall", shortfall(c.shortfall)),
        ("  channel a", of_a),
        ("  channel b", of_b),
        ("  channel c", of_c),
    ];
    for (label, told) in lines.into_iter().chain(words::seen_only(&c).map(|said| ("", said.into()))) {
        out += &format!("  {label:<13}  {told}\n");
    }
    out + "\n" + &grid(table, paint)
}

/// The sags by depth and duration, in the grid of the table's own set.
fn grid(table: &Table, paint: &Paint) -> String {
    let grid = table::grid(table);
    let head = [&["sags by depth"], grid.columns].concat();
    let depth = |(row, counts): (usize, &[u64])| {
        let counts = counts.iter().map(|count| if *count == 0 { ".".into() } else { count.to_string() });
        std::iter::once(grid.row(row)).chain(counts).collect()
    };
    let rows: Vec<Vec<String>> = table::rows(table).enumerate().map(depth).collect();
    format!("  {:<13}  {}\n{}", table::BORDERS, grid.title, columns(&head, &rows, &[0], paint))
}

/// What each recording added.
pub fn added(s: &Settings, added: &[Answer], paint: &Paint) -> String {
    let head = [
        "added",
        "half-cycles",
        "lasting",
        "healthy",
        "disturbed",
        "unknown",
        "sags",
        "unplaced",
        "interruptions",
        "swells",
    ];
    let row = |answer: &Answer, part: &Part| {
        let c: Counts = table::counts(&part.own);
        let mut row = vec![answer.named(part), c.total.to_string(), words::seconds(c.total, s.f)];
        let counts = [c.healthy, c.disturbed, c.unknown, c.sags, c.unplaced, c.interruptions, c.swells];
        row.extend(counts.map(|count| count.to_string()));
        row
    };
    let rows: Vec<_> = added.iter().flat_map(|a| a.parts.iter().map(move |part| row(a, part))).collect();
    let notes: String = added.iter().map(|answer| cut_note(s, answer)).collect();
    notes + &columns(&head, &rows, &[0], paint)
}

/// A paragraph in lines of up to a hundred characters, each set in. A number and its unit stay together.
pub fn wrapped(paragraph: &str, indent: &str) -> String {
    let time = |word: &str| ["s", "ms"].contains(&word.trim_end_matches(['.', ',', ';', ':', ')']));
    let unit = |word: &str| word.starts_with('%') || time(word);
    let mut together: Vec<String> = Vec::new();
    for word in paragraph.split_whitespace() {
        match together.last_mut() {
            Some(number) if unit(word) => *number += &format!(" {word}"),
            _ => together.push(word.to_string()),
        }
    }
    let mut lines: Vec<String> = Vec::new();
    for word in together {
        match lines.last_mut() {
            Some(line) if line.chars().count() + word.chars().count() < 100 => *line += &format!(" {word}"),
            _ => lines.push(format!("{indent}{word}")),
        }
    }
    lines.join("\n")
}

#[cfg(test)]
mod tests {
    use super::wrapped;

    /// Whatever stands before it, a line does not end between a number and its unit.
    #[test]
    fn a_number_stays_with_its_unit() {
        for (before, unit) in (1..100).flat_map(|before| ["s", "s).", "ms", "ms).", "%,"].map(|unit| (before, unit))) {
            let number = format!("(200 {unit}");
            let told = wrapped(&format!("{} {number} of it", "x".repeat(before)), "");
            assert!(told.contains(&number), "{told}");
        }
    }
}
