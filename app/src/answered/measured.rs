//! What a recording looks like before the rules are asked: whether it fits the settings that it is read with.
use super::Cut;
use crate::failure::Refusal;
use host::Settings;

/// A recording measured.
pub struct Measured {
    pub name: String,
    /// Samples of each channel, and samples beyond the last that all three have.
    pub length: u64,
    pub ragged: u64,
    /// Half-cycles, and samples of each channel beyond the last whole half cycle.
    pub halves: u64,
    pub over: u64,
    pub channels: [Channel; 3],
    /// Where it would be cut.
    pub cuts: Vec<Cut>,
    /// Why the library would turn it away, and what the place means in the file.
    pub refused: Option<Refusal>,
}

/// One channel measured.
pub struct Channel {
    pub missing: u64,
    pub out_of_range: u64,
    /// The rms of its half-cycles in percent of R; none where none is whole.
    pub rms: Option<Spread>,
    /// The longest run of one value.
    pub held: Held,
    /// How many samples it takes from one rise through zero to the next; none where it does not swing.
    pub period: Option<f64>,
}

pub struct Spread {
    pub median: f64,
    pub least: f64,
    pub greatest: f64,
}

/// A run of one value: from which sample of the channel on, and for how many.
#[derive(Clone, Copy, Default)]
pub struct Held {
    pub value: i32,
    pub first: u64,
    pub samples: u64,
}

/// What is odd about a recording. Channels are numbered from 0, which is a.
pub enum Odd {
    /// Channels of which no half-cycle is whole: nobody saw them.
    Unseen(Vec<usize>),
    /// Channels that never reach 5 percent of R.
    Dead(Vec<usize>),
    /// A channel that holds one value for a cycle or longer.
    Stuck(usize, Held),
    /// Channels whose median lies outside 80 to 120 percent of R, and the medians.
    Reference(Vec<(usize, f64)>),
    /// Channels on which a cycle is not N samples long, and how long it is.
    Period(Vec<(usize, f64)>),
    /// The length is no multiple of N/2.
    Over(u64),
}

/// Where the median of a channel's rms should lie, in percent of R.
pub const USUAL: (u64, u64) = (80, 120);
/// A channel that never reaches this, in percent of R, is dead.
pub const DEAD: u64 = 5;
/// N fits where it is the whole number nearest to the period: sampling is locked to the mains.
const SLACK: f64 = 0.5;

impl Measured {
    /// What is odd. Of a channel that is unseen or dead nothing else is said.
    pub fn odd(&self, s: &Settings) -> Vec<Odd> {
        let channels = || self.channels.iter().enumerate();
        let off = |(_, period): &(usize, f64)| (period - s.n as f64).abs() > SLACK;
        let medians = self.alive().filter_map(|(at, c)| c.rms.as_ref().map(|rms| (at, rms.median)));
        let mut odd = vec![
            Odd::Unseen(channels().filter(|(_, channel)| channel.rms.is_none()).map(|(at, _)| at).collect()),
            Odd::Dead(channels().filter(|(_, channel)| channel.is_dead()).map(|(at, _)| at).collect()),
        ];
        odd.extend(self.alive().filter(|(_, c)| c.held.samples >= s.n).map(|(at, c)| Odd::Stuck(at, c.held)));
        odd.push(Odd::Reference(medians.filter(|(_, median)| off_reference(*median)).collect()));
        odd.push(Odd::Period(self.periods().filter(off).collect()));
        odd.push(Odd::Over(self.over));
        odd.retain(|odd| !odd.is_nothing());
        odd
    }

    /// The channels that somebody saw and that are not dead.
    fn alive(&self) -> impl Iterator<Item = (usize, &Channel)> {
        self.channels.iter().enumerate().filter(|(_, channel)| channel.rms.is_some() && !channel.is_dead())
    }

    /// The period of each channel that is alive and swings.
    pub fn periods(&self) -> impl Iterator<Item = (usize, f64)> + '_ {
        self.alive().filter_map(|(at, channel)| channel.period.map(|period| (at, period)))
    }
}

impl Channel {
    fn is_dead(&self) -> bool {
        self.rms.as_ref().is_some_and(|rms| rms.greatest < DEAD as f64)
    }
}

impl Odd {
    fn is_nothing(&self) -> bool {
        match self {
            Odd::Unseen(channels) | Odd::Dead(channels) => channels.is_empty(),
            Odd::Reference(channels) | Odd::Period(channels) => channels.is_empty(),
            Odd::Stuck(..) => false,
            Odd::Over(over) => *over == 0,
        }
    }
}

/// Whether a median looks as if R were another quantity.
pub fn off_reference(median: f64) -> bool {
    !(USUAL.0 as f64..=USUAL.1 as f64).contains(&median)
}
