//! The hunt for differences: cases drawn at random from a seed, both programs asked, each answer and all lent memory
//! compared number for number.
mod answers;
mod borders;
mod events;
mod parts;
mod recordings;
mod settings;
mod shrink;
mod tables;

use crate::borders::SETS;
use crate::random::Random;
use crate::recording;
use crate::settings::first_bad;
use crate::{Event, Settings, Table};
use recordings::Recording;
use std::fmt;
use std::time::{Duration, Instant};

pub use answers::{of_the_oracle, of_the_product, Answer};
pub use recordings::{three_phase, Phasors};

/// One question that both programs are asked.
#[allow(clippy::large_enum_variant, reason = "one case is held at a time")]
#[derive(Clone, Debug, PartialEq)]
pub enum Case {
    List { settings: Settings, samples: Vec<i32>, room: usize },
    Halves { settings: Settings, samples: Vec<i32>, room: usize },
    Add { table: Table, samples: Vec<i32> },
    Fresh { settings: Settings, set: u64 },
    Score { settings: Settings, set: u64, event: Event },
}

/// A case as it was drawn.
#[derive(Clone, Debug, PartialEq)]
pub struct Drawn {
    pub case: Case,
    /// How many blocks of its recording meet their level only nearly.
    pub near: u64,
}

/// How long a run goes on.
#[derive(Clone, Copy, Debug)]
pub enum Until {
    Cases(u64),
    Elapsed(Duration),
}

/// A case on which the two programs disagree, cut down as far as it would go.
#[derive(Debug)]
pub struct Difference {
    pub seed: u64,
    pub number: u64,
    pub shortest: Case,
}

/// What a run found.
#[derive(Debug, Default)]
pub struct Report {
    pub cases: u64,
    /// How many blocks of all recordings met their level only nearly.
    pub near: u64,
    pub difference: Option<Difference>,
}

/// Compares the programs on the cases of a seed, from number `first` on, and stops at the first difference.
pub fn run(seed: u64, first: u64, until: Until) -> Report {
    let began = Instant::now();
    let goes_on = |cases: u64| match until {
        Until::Cases(wanted) => cases < wanted,
        Until::Elapsed(allowed) => began.elapsed() < allowed,
    };
    let mut report = Report::default();
    while report.difference.is_none() && goes_on(report.cases) {
        let number = first + report.cases;
        report.compare(seed, number, draw(seed, number));
    }
    report
}

impl Report {
    /// Compares the programs on one more case, which has this number of this seed.
    pub fn compare(&mut self, seed: u64, number: u64, drawn: Drawn) {
        self.cases += 1;
        self.near += drawn.near;
        if differs(&drawn.case) {
            self.difference = Some(Difference { seed, number, shortest: shrink::shortest(drawn.case) });
        }
    }

    pub fn differences(&self) -> u8 {
        u8::from(self.difference.is_some())
    }
}

/// Whether the two programs disagree on a case.
pub fn differs(case: &Case) -> bool {
    of_the_product(case) != of_the_oracle(case)
}

/// What a case is drawn from. Each stands by itself, so that one can be asked again alone.
fn source(seed: u64, number: u64) -> Random {
    Random::new(seed ^ number.wrapping_mul(0xd134_2543_de82_ef95))
}

/// Good settings of a seed with a number, and a few recordings for them, of which some may be refused.
pub fn draw_recordings(seed: u64, number: u64) -> (Settings, Vec<Vec<i32>>) {
    let random = &mut source(seed, number);
    let settings = settings::good(random, number);
    let count = random.between(1, 4);
    (settings, (0..count).map(|_| recordings::any(random, &settings).samples).collect())
}

/// The case of a seed with a number. Those whose half-cycles are told were lists and additions before there was such a call: all
/// others have kept their numbers.
pub fn draw(seed: u64, number: u64) -> Drawn {
    let random = &mut source(seed, number);
    match random.below(20) {
        2 | 7 | 8 => draw_halves(random, number),
        0..=7 => draw_list(random, number),
        8..=12 => draw_add(random, number),
        13 => draw_fresh(random, number),
        14 => draw_placed(random, number),
        _ => draw_score(random, number),
    }
}

fn draw_list(random: &mut Random, number: u64) -> Drawn {
    let drawn = settings::mostly_good(random, number);
    let (settings, Recording { samples, near }) = draw_recording(random, drawn);
    let room = draw_room(random, &settings, &samples);
    Drawn { case: Case::List { settings, samples, room }, near }
}

/// A recording for the settings. One of the longest is rare, and has a small N for it to stay within a few megabytes.
fn draw_recording(random: &mut Random, settings: Settings) -> (Settings, Recording) {
    if first_bad(&settings).is_none() && random.once_in(500) {
        let settings = Settings { n: random.pick(&[8, 8, 10, 16]), ..settings };
        return (settings, recordings::long(random, &settings));
    }
    (settings, recordings::any(random, &settings))
}

/// No room, exactly enough, one short, one over, plenty, or anything.
fn draw_room(random: &mut Random, s: &Settings, samples: &[i32]) -> usize {
    let needed = events::listed(s, samples).len() * crate::WORDS;
    match random.below(7) {
        0 => 0,
        1 | 2 => needed,
        3 => needed.saturating_sub(1),
        4 => needed + 1,
        5 => needed + 40,
        _ => random.below(2 * needed as u64 + 12) as usize,
    }
}

fn draw_halves(random: &mut Random, number: u64) -> Drawn {
    let drawn = settings::mostly_good(random, number);
    let (settings, Recording { samples, near }) = draw_recording(random, drawn);
    let room = draw_room_for_halves(random, &settings, &samples);
    Drawn { case: Case::Halves { settings, samples, room }, near }
}

/// The same for half-cycles, and what would be right for one number each, for one half-cycle less, or for the list. Where a sample is
/// out of range there may be room enough, too.
fn draw_room_for_halves(random: &mut Random, s: &Settings, samples: &[i32]) -> usize {
    let needed = words_of_halves(s, samples);
    match random.below(11) {
        0 => 0,
        1..=3 => needed,
        4 => needed.saturating_sub(1),
        5 => needed + 1,
        6 => needed + 40,
        7 => needed / crate::HALF,
        8 => needed.saturating_sub(crate::HALF),
        9 => events::listed(s, samples).len() * crate::WORDS,
        _ => random.below(2 * needed as u64 + 12) as usize,
    }
}

/// How many numbers the half-cycles of a recording take by its length, whatever its samples are; none where it is too short for one
/// or the settings are bad.
pub fn words_of_halves(s: &Settings, samples: &[i32]) -> usize {
    let long_enough = first_bad(s).is_none() && samples.len() as u64 / 3 >= s.n;
    if long_enough {
        crate::HALF * recording::half_cycles(s, samples) as usize
    } else {
        0
    }
}

fn draw_add(random: &mut Random, number: u64) -> Drawn {
    let drawn = settings::good(random, number);
    let (settings, Recording { samples, near }) = draw_recording(random, drawn);
    let set = borders::known(random);
    let table = tables::any(random, &settings, set, &samples);
    Drawn { case: Case::Add { table, samples }, near }
}

/// A single sag to be placed by the table's borders, under a sag threshold that leaves none of its rows empty.
fn draw_placed(random: &mut Random, number: u64) -> Drawn {
    let (set, sag) = (borders::known(random), random.between(90, 95));
    let settings = Settings { n: random.pick(&[8, 8, 10, 16]), sag, ..settings::good(random, number) };
    let Recording { samples, near } = recordings::one_sag(random, &settings, &SETS[set as usize]);
    let table = tables::any(random, &settings, set, &samples);
    Drawn { case: Case::Add { table, samples }, near }
}

fn draw_fresh(random: &mut Random, number: u64) -> Drawn {
    let (settings, set) = (settings::good_or_bad(random, number), borders::any(random));
    Drawn { case: Case::Fresh { settings, set }, near: 0 }
}

fn draw_score(random: &mut Random, number: u64) -> Drawn {
    let (settings, set) = (settings::mostly_good(random, number), borders::any(random));
    let (event, near) = events::any(random, &settings, set);
    Drawn { case: Case::Score { settings, set, event }, near }
}

/// How many differing words of one answer are printed.
const PRINTED: usize = 12;

/// A case in words, and below it each number on which the programs disagree.
pub fn explain(case: &Case) -> String {
    let (product, oracle) = (of_the_product(case), of_the_oracle(case));
    let mut lines = vec![case.to_string()];
    for ((name, product), (_, oracle)) in product.iter().zip(&oracle) {
        let words = product.iter().zip(oracle).enumerate();
        for (i, (product, oracle)) in words.filter(|(_, (product, oracle))| product != oracle).take(PRINTED) {
            lines.push(format!("  {name}, word {i}: product {product}, oracle {oracle}"));
        }
    }
    lines.join("\n")
}

/// The last lines of a run.
impl fmt::Display for Report {
    fn fmt(&self, f: &mut fmt::Formatter) -> fmt::Result {
        writeln!(f, "{} blocks met their level only nearly", self.near)?;
        write!(f, "{} cases, {} differences", self.cases, self.differences())
    }
}

impl fmt::Display for Difference {
    fn fmt(&self, f: &mut fmt::Formatter) -> fmt::Result {
        writeln!(f, "difference in case {} of seed {}; the shortest found:", self.number, self.seed)?;
        writeln!(f, "{}", explain(&self.shortest))?;
        write!(f, "again: compare --seed {} --first {} --cases 1", self.seed, self.number)
    }
}

impl fmt::Display for Case {
    fn fmt(&self, f: &mut fmt::Formatter) -> fmt::Result {
        match self {
            Case::List { settings, samples, room } => {
                write!(f, "list, {settings:?}, room {room}, {}", Samples(samples))
            }
            Case::Halves { settings, samples, room } => {
                write!(f, "halves, {settings:?}, room {room}, {}", Samples(samples))
            }
            Case::Add { table, samples } => write!(f, "add, table {table:?}, {}", Samples(samples)),
            Case::Fresh { settings, set } => write!(f, "fresh, {settings:?}, set {set}"),
            Case::Score { settings, set, event } => {
                write!(f, "score, reason and cell, {settings:?}, set {set}, event {event:?}")
            }
        }
    }
}

/// A run of samples, printed with equal neighbours counted.
struct Samples<'a>(&'a [i32]);

impl fmt::Display for Samples<'_> {
    fn fmt(&self, f: &mut fmt::Formatter) -> fmt::Result {
        write!(f, "{} samples:", self.0.len())?;
        for equal in self.0.chunk_by(|one, next| one == next) {
            match equal.len() {
                1 => write!(f, " {}", equal[0])?,
                times => write!(f, " {} x {times}", equal[0])?,
            }
        }
        Ok(())
    }
}
