//! A half-cycle as the library tells it.
use super::table::Counts;
use host::HALF;

/// What a half-cycle is.
#[derive(Clone, Copy, Debug, PartialEq, Eq)]
pub enum Class {
    /// Known, and in no event.
    Healthy,
    /// Known, and in at least one event.
    Disturbed,
    /// Nobody saw all of it.
    Unknown,
}

/// The library's five numbers by name.
#[derive(Clone, Copy)]
pub struct Told {
    pub class: Class,
    /// 1 for a sag plus 2 for an interruption plus 4 for a swell.
    kinds: u64,
    /// Zeros where it is unknown: `sums` hands out only what is known.
    sums: [u64; 3],
}

impl Told {
    pub fn of([class, kinds, sums @ ..]: [u64; HALF]) -> Told {
        let class = match class {
            1 => Class::Healthy,
            2 => Class::Disturbed,
            _ => Class::Unknown,
        };
        Told { class, kinds, sums }
    }

    /// The sums of squares of a, b and c; none where it is unknown.
    pub fn sums(&self) -> Option<[u64; 3]> {
        (self.class != Class::Unknown).then_some(self.sums)
    }

    /// The kinds of event that it lies in.
    pub fn kinds(&self) -> impl Iterator<Item = u64> + '_ {
        (1..=3).filter(|kind| self.kinds >> (kind - 1) & 1 == 1)
    }
}

/// How many half-cycles there are of each class.
pub fn counts<'a>(halves: impl Iterator<Item = &'a Told>) -> Counts {
    let mut counts = Counts::default();
    for told in halves {
        counts.total += 1;
        match told.class {
            Class::Healthy => counts.healthy += 1,
            Class::Disturbed => counts.disturbed += 1,
            Class::Unknown => counts.unknown += 1,
        }
    }
    counts
}
