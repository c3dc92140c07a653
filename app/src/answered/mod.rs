//! What was answered about a recording, by name. Half-cycles are numbered as in the whole recording, whatever it was cut
//! into, and nothing here knows how it is shown.
pub mod grid;
pub mod level;
pub mod measured;
pub mod rms;
pub mod table;
pub mod told;

use grid::Grid;
use host::{Score, Table};
use table::Counts;
use told::Told;

/// An event with its score, or the reason why it has none.
pub struct Found {
    pub kind: u64,
    pub start: u64,
    pub end: u64,
    pub seen: u64,
    pub extreme: u64,
    pub retained: u64,
    pub shortfall: u64,
    pub class: u64,
    /// The shortfalls of channels a, b and c, which make up the shortfall.
    pub by_channel: [u64; 3],
    pub reason: u64,
    pub cell: u64,
    /// The grid that the cell is one of.
    pub grid: &'static Grid,
    pub score: Option<Score>,
    /// The single half-cycles that tell how it came about, where they were asked for.
    pub close: Option<Close>,
}

impl Found {
    pub fn halves(&self) -> u64 {
        self.end - self.start
    }

    /// Whether somebody saw it whole, from its start to its end.
    pub fn seen_whole(&self) -> bool {
        self.seen == 3
    }
}

/// An event looked at closely, half-cycle by half-cycle.
pub struct Close {
    /// The half-cycle before its start.
    pub before: Half,
    /// The sums of squares at its start.
    pub launch: [u64; 3],
    /// The earliest half-cycle at which the extreme occurs, and the sums of squares there.
    pub peak: Option<(u64, [u64; 3])>,
    /// The half-cycle at its end, which is no longer in it.
    pub landing: Half,
    /// The value of the severity curve for its duration.
    pub curve: Option<u64>,
}

/// The half-cycle before an event or at its end.
#[derive(Clone, Copy)]
pub enum Half {
    /// Known: the sum of squares of each channel.
    Sums([u64; 3]),
    /// Unknown: how many samples each channel misses, which the library does not tell and which is counted.
    Missing([usize; 3]),
    /// There is none: the recording begins or ends there.
    Beyond,
}

/// What the library says about a recording.
pub struct Answer {
    pub name: String,
    /// The recording whole, or the parts that it was cut into.
    pub parts: Vec<Part>,
    /// The cuts, one less than the parts.
    pub cuts: Vec<Cut>,
}

/// A cut between two parts.
pub struct Cut {
    /// The half-cycle with which the next part begins.
    pub at: u64,
    /// The events that lose an end by it. There are none where it lies between events.
    pub splits: Vec<Split>,
}

/// An event that a cut goes through, or that begins or ends just there, as it is in the whole recording.
pub struct Split {
    pub kind: u64,
    pub start: u64,
    pub end: u64,
    /// The half-cycles of it after the cut, up to but not with the second number, that are told as in no event of its kind:
    /// they lie between the threshold and its hysteresis, and the next part does not see how the event began.
    pub untold: (u64, u64),
}

/// What the library says about one part.
pub struct Part {
    /// From 1.
    pub number: usize,
    /// The recording's half-cycle at which the part begins.
    pub first_half: u64,
    pub events: Vec<Found>,
    /// The table of this part alone.
    pub own: Table,
    /// Its half-cycles, where they were asked for.
    pub halves: Vec<Told>,
    /// What a drawing of it shows, where that was asked for.
    pub picture: Option<Picture>,
}

/// What a drawing shows of a part besides its events.
pub struct Picture {
    /// Unknown stretches, each from its first half-cycle up to but not with its end.
    pub unknown: Vec<(u64, u64)>,
    /// The rms of each channel in percent of R.
    pub curves: [Curve; 3],
}

/// The least and the greatest value of each column of a drawing, none where all of it is unknown.
pub type Curve = Vec<Option<(f64, f64)>>;

impl Answer {
    /// The name of a part: the recording's own, with the part's number where it was cut.
    pub fn named(&self, part: &Part) -> String {
        match self.parts.len() {
            1 => self.name.clone(),
            of => format!("{}, part {} of {of}", self.name, part.number),
        }
    }

    /// The recording's half-cycles and events, all parts together.
    pub fn counts(&self) -> Counts {
        let mut all = Counts::default();
        for c in self.parts.iter().map(|part| table::counts(&part.own)) {
            all.total += c.total;
            all.healthy += c.healthy;
            all.disturbed += c.disturbed;
            all.unknown += c.unknown;
            all.unplaced += c.unplaced;
            all.sags += c.sags;
            all.interruptions += c.interruptions;
            all.swells += c.swells;
            all.shortfall += c.shortfall;
            all.by_channel.iter_mut().zip(c.by_channel).for_each(|(sum, own)| *sum += own);
        }
        all
    }

    /// Which ends of an event a cut has taken: 1 for the start plus 2 for the end.
    pub fn lost(&self, event: &Found) -> u64 {
        let lost = self.splits_of(event).map(|(at, whole)| {
            let start = event.start > whole.start || event.start == at;
            let end = event.end < whole.end || event.end == at;
            u64::from(start) + 2 * u64::from(end)
        });
        lost.fold(0, |lost, more| lost | more)
    }

    /// Whether what is told as an event is a piece of one that a cut has split.
    pub fn is_piece(&self, event: &Found) -> bool {
        self.splits_of(event).any(|(_, whole)| (whole.start, whole.end) != (event.start, event.end))
    }

    /// The splits, each with its cut, of the event that this is, or is a piece of.
    fn splits_of(&self, event: &Found) -> impl Iterator<Item = (u64, &Split)> {
        let [kind, start, end] = [event.kind, event.start, event.end];
        let splits = self.cuts.iter().flat_map(|cut| cut.splits.iter().map(move |split| (cut.at, split)));
        splits.filter(move |(_, whole)| whole.kind == kind && whole.start <= start && end <= whole.end)
    }

    /// Every event with its part and its number there, from 1.
    pub fn events(&self) -> impl Iterator<Item = (&Part, usize, &Found)> {
        let numbered = |part| move |(at, event)| (part, at + 1, event);
        self.parts.iter().flat_map(move |part| part.events.iter().enumerate().map(numbered(part)))
    }
}

impl Part {
    /// The half-cycle after the part's last.
    pub fn end(&self) -> u64 {
        self.first_half + table::counts(&self.own).total
    }
}
