//! The three kinds of events: what starts one, what ends one, and whether half-cycle k lies in one.
use crate::recording::Half;
use crate::settings::{above, below};
use crate::Settings;

/// A kind of event, with its number.
#[derive(Clone, Copy, Debug, PartialEq, Eq)]
pub enum Kind {
    Sag = 1,
    Interruption = 2,
    Swell = 3,
}

/// All kinds, in the order of their numbers.
pub const KINDS: [Kind; 3] = [Kind::Sag, Kind::Interruption, Kind::Swell];

impl Kind {
    /// The condition at j that an event of this kind begins with.
    fn launches(self, s: &Settings, half: Half) -> bool {
        let Some(sums) = half else { return false };
        match self {
            Kind::Sag => sums.iter().any(|&sum| below(s, sum, s.sag)),
            Kind::Interruption => sums.iter().all(|&sum| below(s, sum, s.interruption)),
            Kind::Swell => sums.iter().any(|&sum| above(s, sum, s.swell)),
        }
    }

    /// The condition at m that no event of this kind outlasts.
    fn lands(self, s: &Settings, half: Half) -> bool {
        let Some(sums) = half else { return false };
        match self {
            Kind::Sag => sums.iter().all(|&sum| !below(s, sum, s.sag + s.hysteresis)),
            Kind::Interruption => sums.iter().any(|&sum| !below(s, sum, s.interruption + s.hysteresis)),
            Kind::Swell => sums.iter().all(|&sum| !above(s, sum, s.swell - s.hysteresis)),
        }
    }

    /// "In a sag at k", and the same for the other kinds: some j up to k, all known from j to k, no m that ends it.
    pub fn holds_at(self, s: &Settings, halves: &[Half], k: usize) -> bool {
        (0..=k).any(|j| {
            self.launches(s, halves[j])
                && (j..=k).all(|i| halves[i].is_some())
                && !(j + 1..=k).any(|m| self.lands(s, halves[m]))
        })
    }
}
