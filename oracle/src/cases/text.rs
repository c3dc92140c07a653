//! The text of `crates/answers/specs/Cases.antt`: the questions, and a program's answers to them.
use super::tables::{healthy_only, various, various_by, vast};
use super::{sections, Answer, Asked, Case, Program, Section, HIGH, HOUSE, SHARP, TEN, WIDE};
use crate::borders::{self, MOST};
use crate::site::{at, settings as settings_of};
use crate::{Refused, Settings, Table, HALF, WORDS};

/// Where the file stands in the repository.
pub const FILE: &str = concat!(env!("CARGO_MANIFEST_DIR"), "/../crates/answers/specs/Cases.antt");

/// A line of a case is no longer, where there is a joint to cut it at.
const WIDTH: usize = 130;

/// What stands above the cases, and the statement below them.
const HEAD: &str = include_str!("head.txt");
const STATEMENT: &str = include_str!("statement.txt");

/// The whole file, with the answers of a program.
pub fn text(program: &Program) -> String {
    let sections = sections();
    let mut text = HEAD.to_string();
    let mut number = 0;
    for section in &sections {
        text += &list_of(program, section, &mut number);
    }
    let names: Vec<&str> = sections.iter().map(|section| section.name).collect();
    let joined = filled("", &names.join(" ++ "), " ++ ").join("\n");
    text + &STATEMENT.replace("ALL", &joined).replace("EACH", &names.join(" "))
}

/// The cases of a section, as a list.
fn list_of(program: &Program, section: &Section, number: &mut usize) -> String {
    let mut lines = vec![
        format!("-- ---- {}", section.about),
        String::new(),
        format!("{} : List Case", section.name),
        format!("{} =", section.name),
    ];
    for (i, case) in section.cases.iter().enumerate() {
        *number += 1;
        lines.extend(case_lines(program, case, *number, i == 0));
    }
    lines.push("    ∷ []".to_string());
    lines.join("\n") + "\n\n"
}

/// A case: its name and what it pins, the question, the answer.
fn case_lines(program: &Program, case: &Case, number: usize, first: bool) -> Vec<String> {
    let answer = program.answer(&case.asked);
    let cons = if first { "" } else { "∷ " };
    let question = format!("{cons}{}", case.asked.text());
    let mut lines = filled("-- ", &format!("C{number}: {}{}", case.pins, in_decimals(&answer)), " ");
    let answer = format!("⟶ {}", answer.text());
    if 4 + question.chars().count() + 1 + answer.chars().count() <= 120 {
        lines.push(format!("    {question} {answer}"));
    } else {
        lines.extend(filled("", &question, " ++ "));
        lines.extend(filled("", &answer, " ++ "));
    }
    lines
}

/// A text over as many lines as it needs, cut before a joint only.
fn filled(mark: &str, text: &str, joint: &str) -> Vec<String> {
    let mut lines = vec![];
    let mut line = format!("    {mark}");
    for (i, part) in text.split(joint).enumerate() {
        let part = if i == 0 { part.to_string() } else { format!("{joint}{part}") };
        if i > 0 && line.chars().count() + part.chars().count() > WIDTH {
            lines.push(line);
            line = format!("    {mark}{}", part.trim_start());
        } else {
            line += &part;
        }
    }
    lines.push(line);
    lines
}

impl Asked {
    /// The question as the file writes it.
    pub fn text(&self) -> String {
        match self {
            Asked::List { settings, room, recording } => {
                format!("list {} {room} {}", settings_text(settings), argument(&recording.text()))
            }
            Asked::Halves { settings, room, recording } => {
                format!("halves {} {room} {}", settings_text(settings), argument(&recording.text()))
            }
            Asked::Add { table, recording } => {
                format!("add {} {}", argument(&table_text(table)), argument(&recording.text()))
            }
            Asked::Fresh { settings, set } => format!("fresh {} {set}", settings_text(settings)),
            Asked::Score { settings, set, event } => {
                format!("score {} {set} (event {})", settings_text(settings), joined(event))
            }
            Asked::Straight { settings, recording } => {
                format!("straight {} {}", settings_text(settings), argument(&recording.text()))
            }
        }
    }
}

impl Answer {
    /// The answer as the file writes it.
    pub fn text(&self) -> String {
        match self {
            Answer::List { told, run } => {
                let event = |words: &[u64]| format!("words {}", joined(words));
                told_text(told.map(|events| format!("events {events}")), "run", &run_text(told, run, WORDS, event))
            }
            Answer::Halves { told, run } => {
                told_text(told.map(|halves| format!("told {halves}")), "run", &run_text(told, run, HALF, half_text))
            }
            Answer::Site { told, table } => told_text(told.map(|()| "taken".to_string()), "site", &table_text(table)),
            Answer::Judged { reason: 0, score: Ok(score), cell } => {
                format!("scored {} {} {cell}", bits(score.severity), bits(score.energy))
            }
            Answer::Judged { reason, score: Err(why), cell } if reason == why => format!("unscored {reason} {cell}"),
            Answer::Judged { .. } => panic!("the reason and the score disagree: {self:?}"),
            Answer::Sums([a, b, c]) => format!("sums ({a} ∷ {b} ∷ {c} ∷ [])"),
        }
    }
}

/// What is told, and then what a lent run or a table holds.
fn told_text(told: Result<String, Refused>, lent: &str, holds: &str) -> String {
    let words = match told {
        Ok(words) => words,
        Err(Refused { number, place }) => format!("refused {number} {place}"),
    };
    format!("{words} ({lent} {})", argument(holds))
}

/// The lent run: the numbers of each event or half-cycle, so many each, and the nines beyond.
fn run_text(told: &Result<u64, Refused>, run: &[u64], size: usize, one: impl Fn(&[u64]) -> String) -> String {
    let (written, rest) = run.split_at(size * told.unwrap_or(0) as usize);
    let mut parts: Vec<String> = written.chunks(size).map(one).collect();
    match rest {
        [] if !parts.is_empty() => {}
        _ if rest.iter().all(|&number| number == 9) => parts.push(format!("nines {}", rest.len())),
        _ => panic!("written beyond the last: {rest:?}"),
    }
    parts.join(" ++ ")
}

/// The five numbers of a half-cycle, equal sums once.
fn half_text(words: &[u64]) -> String {
    match *words {
        [class, kinds, a, b, c] if a == b && b == c => format!("balanced {class} {kinds} {a}"),
        _ => format!("five {}", joined(words)),
    }
}

fn settings_text(s: &Settings) -> String {
    match *s {
        HOUSE => "house".to_string(),
        SHARP => "sharp".to_string(),
        WIDE => "wide".to_string(),
        TEN => "ten".to_string(),
        HIGH => "high".to_string(),
        Settings { n, r, f, sag, interruption, swell, hysteresis } => {
            format!("(settings {n} {r} {f} {sag} {interruption} {swell} {hysteresis})")
        }
    }
}

fn table_text(table: &Table) -> String {
    let (settings, set) = (settings_text(&settings_of(table)), table[at::SET]);
    let total = table[at::TOTAL];
    let [a, b, c] = [0, 1, 2].map(|channel| table[at::PARTS + channel]);
    if *table == various() {
        return "various".to_string();
    }
    if *table == various_by(1) {
        return "other_various".to_string();
    }
    if *table == vast([a, b, c]) {
        return format!("vast {a} {b} {c}");
    }
    if *table == healthy_only(total) && total > 0 {
        return format!("healthy_only {total}");
    }
    if table[at::TOTAL..].iter().all(|&number| number == 0) {
        return format!("blank {settings} {set}");
    }
    let cells = cells_text(set, &table[at::CELLS..at::UNPLACED]);
    let (before, after) = (joined(&table[at::TOTAL..at::CELLS]), joined(&table[at::UNPLACED..]));
    format!("table {settings} {set} {before} {cells} {after}")
}

/// The forty cells: none, or those of the set rising by one from cell to cell, and those that differ.
fn cells_text(set: u64, cells: &[u64]) -> String {
    let used = borders::of(set).map_or(MOST, |borders| borders.cells());
    let last = used as usize - 1;
    let rises = cells[last] >= used && cells[last - 1] == cells[last] - 1;
    let first = cells[last].saturating_sub(used - 1);
    let from = match rises {
        true if used < MOST => format!("few {first}"),
        true => format!("rising {used} {first}"),
        false => "none".to_string(),
    };
    let usual = |i: usize| if rises && i <= last { first + i as u64 } else { 0 };
    let differs = cells.iter().enumerate().filter(|&(i, &count)| count != usual(i));
    let cells = differs.fold(from, |cells, (i, count)| format!("put {i} {count} {}", argument(&cells)));
    argument(&cells)
}

/// In parentheses, where it is more than a word.
fn argument(text: &str) -> String {
    if text.contains(' ') {
        format!("({text})")
    } else {
        text.to_string()
    }
}

fn joined(numbers: &[u64]) -> String {
    numbers.iter().map(u64::to_string).collect::<Vec<String>>().join(" ")
}

/// The bits of a float, in fours.
fn bits(float: f64) -> String {
    let digits = format!("{:016x}", float.to_bits());
    format!("0x{}_{}_{}_{}", &digits[..4], &digits[4..8], &digits[8..12], &digits[12..])
}

/// A score's floats as a reader would write them.
fn in_decimals(answer: &Answer) -> String {
    match answer {
        Answer::Judged { score: Ok(score), .. } => format!(" (severity {}, energy {})", score.severity, score.energy),
        _ => String::new(),
    }
}
