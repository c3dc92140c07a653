//! An event looked at closely, for `explain` and for the marks of the page.
use super::{curve, trace};
use crate::{
    answered::{told::Told, Close, Half},
    reading::recording::MISSING,
};
use host::{Event, Settings};

/// A recording's samples, and the half-cycles of the stretch of it that begins at `first`.
pub struct Look<'a> {
    pub s: &'a Settings,
    pub samples: &'a [i32],
    pub first: u64,
    pub halves: &'a [Told],
}

impl Look<'_> {
    /// The single half-cycles of an event, which is numbered as in its stretch.
    pub fn at(&self, event: &Event) -> Close {
        let [kind, start, end, _, extreme, ..] = *event;
        // Each half-cycle of an event is known.
        let halves = || (self.first + start..).zip(&self.halves[start as usize..end as usize]);
        let sums = || halves().filter_map(|(k, told)| Some((k, told.sums()?)));
        let furthest = |sums: &[u64; 3]| if kind == 3 { sums.iter().max() } else { sums.iter().min() }.copied();
        Close {
            before: (self.first + start).checked_sub(1).map_or(Half::Beyond, |k| self.half(k)),
            launch: sums().next().map(|(_, sums)| sums).unwrap_or_default(),
            peak: sums().find(|(_, sums)| furthest(sums) == Some(extreme)),
            landing: self.half(self.first + end),
            curve: curve::value(self.s, end - start),
        }
    }

    /// Half-cycle k of the recording: the stretch has it, or it lies beyond a cut and is asked for.
    fn half(&self, k: u64) -> Half {
        let own = k.checked_sub(self.first).and_then(|at| self.halves.get(at as usize)).copied();
        match own.or_else(|| trace::alone(self.s, self.samples, k)) {
            None => Half::Beyond,
            Some(told) => told.sums().map_or_else(|| Half::Missing(self.missing(k)), Half::Sums),
        }
    }

    /// How many samples each channel misses in half-cycle k: a plain count, which the library does not tell.
    fn missing(&self, k: u64) -> [usize; 3] {
        let window = trace::window(self.s, self.samples, k).unwrap_or_default();
        [0, 1, 2].map(|channel| window.iter().skip(channel).step_by(3).filter(|x| **x == MISSING).count())
    }
}
