//! The second table of cases, C1, C2, ..: questions chosen by hand for what each of them pins, and any program's answers to
//! them. `text` writes both as `crates/answers/specs/Cases.antt`, where the definitions are proved to give the second
//! program's answers.
mod borders;
mod channels;
mod gaps;
mod making;
mod marks;
mod nearest;
mod parts;
mod recording;
mod refusals;
mod scores;
mod tables;
mod text;
mod told;
mod types;

pub use recording::Recording;
pub use text::{text, FILE};

use crate::{Event, Refused, Score, Settings, Table, HALF, WORDS};

/// N 8, R 1,000, f 50, thresholds 90, 10, 110, hysteresis 2: those of the known answers.
pub const HOUSE: Settings = Settings { n: 8, r: 1_000, f: 50, sag: 90, interruption: 10, swell: 110, hysteresis: 2 };

/// The same without hysteresis.
pub const SHARP: Settings = Settings { hysteresis: 0, ..HOUSE };

/// f 60, other thresholds, the largest hysteresis.
pub const WIDE: Settings = Settings { f: 60, sag: 80, interruption: 20, swell: 120, hysteresis: 5, ..HOUSE };

/// N 10 and R 1,001: no mark is a whole number of S.
pub const TEN: Settings = Settings { n: 10, r: 1_001, f: 60, sag: 85, interruption: 7, swell: 113, hysteresis: 3 };

/// R 50,000: the largest sample is twice the reference.
pub const HIGH: Settings = Settings { r: 50_000, ..HOUSE };

/// A question, with what it pins.
pub struct Case {
    pub pins: String,
    pub asked: Asked,
}

/// One call with all that is handed over. The run lent to a list or to half-cycles holds 9 everywhere.
#[allow(clippy::large_enum_variant, reason = "a few hundred are held at a time")]
pub enum Asked {
    List { settings: Settings, room: usize, recording: Recording },
    Halves { settings: Settings, room: usize, recording: Recording },
    Add { table: Table, recording: Recording },
    Fresh { settings: Settings, set: u64 },
    Score { settings: Settings, set: u64, event: Event },
    Straight { settings: Settings, recording: Recording },
}

/// All that a call hands back, and what the lent run holds afterwards.
#[allow(clippy::large_enum_variant, reason = "a few hundred are held at a time")]
#[derive(Debug)]
pub enum Answer {
    List { told: Result<u64, Refused>, run: Vec<u64> },
    Halves { told: Result<u64, Refused>, run: Vec<u64> },
    Site { told: Result<(), Refused>, table: Table },
    Judged { reason: u64, score: Result<Score, u64>, cell: u64 },
    Sums([u64; 3]),
}

/// Goes over a recording and writes into a lent run.
type Runner = fn(&Settings, &[i32], &mut [u64]) -> Result<u64, Refused>;
type Maker = fn(&Settings, u64) -> (Result<(), Refused>, Table);

/// A program that can be asked.
pub struct Program {
    pub list: Runner,
    pub halves: Runner,
    pub add: fn(&mut Table, &[i32]) -> Result<(), Refused>,
    pub fresh: Maker,
    pub score: fn(&Settings, u64, &Event) -> Result<Score, u64>,
    pub reason: fn(&Settings, u64, &Event) -> u64,
    pub cell: fn(&Settings, u64, &Event) -> u64,
    /// The shortfalls of a, b and c in an accepted recording.
    pub shortfalls: fn(&Settings, &[i32]) -> [u64; 3],
}

/// The one that the expected answers come from.
pub const SECOND: Program = Program {
    list: crate::list,
    halves: crate::halves,
    add: crate::add,
    fresh: crate::fresh,
    score: crate::score,
    reason: crate::reason,
    cell: crate::cell,
    shortfalls: |s, samples| [0, 1, 2].map(|channel| crate::straight(s, samples, channel)),
};

impl Program {
    pub fn answer(&self, asked: &Asked) -> Answer {
        match asked {
            Asked::List { settings, room, recording } => {
                let mut run = vec![9; *room];
                let told = (self.list)(settings, &recording.samples(), &mut run);
                Answer::List { told, run }
            }
            Asked::Halves { settings, room, recording } => {
                let mut run = vec![9; *room];
                let told = (self.halves)(settings, &recording.samples(), &mut run);
                Answer::Halves { told, run }
            }
            Asked::Add { table, recording } => {
                let mut table = *table;
                let told = (self.add)(&mut table, &recording.samples());
                Answer::Site { told, table }
            }
            Asked::Fresh { settings, set } => {
                let (told, table) = (self.fresh)(settings, *set);
                Answer::Site { told, table }
            }
            Asked::Score { settings, set, event } => Answer::Judged {
                reason: (self.reason)(settings, *set, event),
                score: (self.score)(settings, *set, event),
                cell: (self.cell)(settings, *set, event),
            },
            Asked::Straight { settings, recording } => Answer::Sums((self.shortfalls)(settings, &recording.samples())),
        }
    }
}

/// Cases of one subject; the name is that of their list in the file.
pub struct Section {
    pub name: &'static str,
    pub about: &'static str,
    pub cases: Vec<Case>,
}

/// All cases, in the order of their numbers.
pub fn sections() -> Vec<Section> {
    vec![
        channels::sags(),
        channels::interruptions(),
        channels::swells(),
        channels::overlaps(),
        marks::section(),
        gaps::section(),
        types::section(),
        nearest::section(),
        scores::durations(),
        scores::depths(),
        scores::energies(),
        scores::not_events(),
        parts::events(),
        making::section(),
        tables::sound(),
        tables::growing(),
        parts::tables(),
        parts::recordings(),
        borders::columns(),
        borders::rows(),
        borders::known(),
        borders::unscored(),
        borders::making(),
        borders::unused(),
        borders::placing(),
        refusals::lengths(),
        refusals::samples(),
        refusals::room(),
        refusals::order(),
        told::classes(),
        told::bands(),
        told::marks(),
        told::gaps(),
        told::refused(),
    ]
}

/// The list of a recording, with room for its events and one number more.
fn list(settings: Settings, recording: Recording, pins: impl Into<String>) -> Case {
    let room = WORDS * crate::list::events(&settings, &recording.samples()).len() + 1;
    Case { pins: pins.into(), asked: Asked::List { settings, room, recording } }
}

/// The same with a room of its own.
fn list_into(room: usize, settings: Settings, recording: Recording, pins: impl Into<String>) -> Case {
    Case { pins: pins.into(), asked: Asked::List { settings, room, recording } }
}

/// Each half-cycle of a recording, with room for all and one number more.
fn halves(settings: Settings, recording: Recording, pins: impl Into<String>) -> Case {
    let room = HALF * crate::recording::half_cycles(&settings, &recording.samples()) as usize + 1;
    halves_into(room, settings, recording, pins)
}

fn halves_into(room: usize, settings: Settings, recording: Recording, pins: impl Into<String>) -> Case {
    Case { pins: pins.into(), asked: Asked::Halves { settings, room, recording } }
}

fn add(table: Table, recording: Recording, pins: impl Into<String>) -> Case {
    Case { pins: pins.into(), asked: Asked::Add { table, recording } }
}

/// A recording added to a fresh table, by document 01's borders.
fn add_first(settings: Settings, recording: Recording, pins: impl Into<String>) -> Case {
    add(crate::fresh(&settings, 0).1, recording, pins)
}

/// A fresh table for document 01's borders.
fn fresh(settings: Settings, pins: impl Into<String>) -> Case {
    fresh_by(0, settings, pins)
}

fn fresh_by(set: u64, settings: Settings, pins: impl Into<String>) -> Case {
    Case { pins: pins.into(), asked: Asked::Fresh { settings, set } }
}

/// The score of an event, by document 01's borders.
fn score(settings: Settings, event: Event, pins: impl Into<String>) -> Case {
    score_by(0, settings, event, pins)
}

fn score_by(set: u64, settings: Settings, event: Event, pins: impl Into<String>) -> Case {
    Case { pins: pins.into(), asked: Asked::Score { settings, set, event } }
}

/// What each channel lacks in a recording, straight from its samples.
fn straight(settings: Settings, recording: Recording, pins: impl Into<String>) -> Case {
    Case { pins: pins.into(), asked: Asked::Straight { settings, recording } }
}

/// The numbers of an event or a table, some of them changed.
fn with<const N: usize>(mut numbers: [u64; N], changes: &[(usize, u64)]) -> [u64; N] {
    for &(place, number) in changes {
        numbers[place] = number;
    }
    numbers
}
