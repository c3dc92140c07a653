//! Answers as CSV, for spreadsheets.
use super::{explain, words};
use crate::answered::{
    grid::Grid,
    table::{self, BORDERS},
    Answer, Found, Part,
};
use host::{Settings, Table};

/// A line of fields, each quoted where it must be.
pub fn line(fields: &[String]) -> String {
    let quoted = fields.iter().map(|field| {
        if field.contains([',', '"', '\n', '\r']) {
            format!("\"{}\"", field.replace('"', "\"\""))
        } else {
            field.clone()
        }
    });
    quoted.collect::<Vec<_>>().join(",") + "\n"
}

/// What a row says of its recording, and then of its event.
const RECORDING: [&str; 5] = ["recording", "total", "healthy", "disturbed", "unknown"];
const EVENT: [&str; 20] = [
    "part",
    "first_half_cycle",
    "event",
    "kind",
    "kind_word",
    "start",
    "end",
    "start_seconds",
    "seen",
    "cut",
    "extreme",
    "retained",
    "shortfall",
    "type",
    "type_word",
    "reason",
    "reason_words",
    "cell",
    "severity",
    "energy",
];

/// The events of recordings, one to a line, each with its recording's half-cycles and with the ends that a cut has taken (1
/// for the start plus 2 for the end); severity and energy are empty where there is no score. A recording without events has one line
/// too, of kind 0: what nobody saw must not vanish. `told` adds the sentences of `explain`. Each line ends with the set of borders
/// that cells are by.
pub fn events(s: &Settings, grid: &Grid, answers: &[Answer], told: bool) -> String {
    let mut head = [&RECORDING[..], &EVENT].concat();
    if told {
        head.extend(explain::LABELS);
    }
    // Behind all else, so that no column that was there before has moved.
    head.extend(words::BY_CHANNEL);
    head.push(BORDERS);
    let mut out = line(&head.iter().map(|name| name.to_string()).collect::<Vec<_>>());
    for answer in answers {
        let c = answer.counts();
        let mut recording = vec![answer.name.clone()];
        recording.extend([c.total, c.healthy, c.disturbed, c.unknown].map(|count| count.to_string()));
        let mut row = |mut fields: Vec<String>| {
            fields.resize(head.len() - recording.len() - 1, String::new());
            out += &line(&[&recording[..], &fields, &[grid.word.to_string()]].concat());
        };
        for (part, number, event) in answer.events() {
            let mut fields = fields(s, part, number, event, answer.lost(event));
            if told {
                fields.extend(explain::told(s, answer, event));
            }
            fields.extend(event.by_channel.map(|part| part.to_string()));
            row(fields);
        }
        if answer.events().next().is_none() {
            row(["1", "0", "0", "0", "none"].map(String::from).to_vec());
        }
    }
    out
}

fn fields(s: &Settings, part: &Part, number: usize, event: &Found, lost: u64) -> Vec<String> {
    let class = if event.kind == 1 { words::class(event.class) } else { "" };
    let mut fields = [part.number as u64, part.first_half, number as u64, event.kind].map(|n| n.to_string()).to_vec();
    fields.extend([words::kind(event.kind).into(), event.start.to_string(), event.end.to_string()]);
    fields.push(words::exact_seconds(event.start, s.f).to_string());
    let numbers = [event.seen, lost, event.extreme, event.retained, event.shortfall, event.class];
    fields.extend(numbers.map(|n| n.to_string()));
    fields.extend([class.into(), event.reason.to_string(), words::reason(event.reason).into(), event.cell.to_string()]);
    let score = event.score.map(|score| [score.severity, score.energy].map(|x| x.to_string()));
    fields.extend(score.unwrap_or_default());
    fields
}

/// A table's numbers by name, and its set of borders by its word.
pub fn table(table: &Table) -> String {
    let rows = table::named(table).map(|(name, number)| line(&[name, number.to_string()]));
    let set = line(&[BORDERS, table::grid(table).word].map(String::from));
    "name,value\n".to_string() + &rows.collect::<String>() + &set
}
