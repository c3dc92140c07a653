//! Cutting a recording that is too long for the library: between events, so that each keeps its ends and its score.
//!
//! A cut lies between two neighbouring half-cycles neither of which is in an event. Then no event reaches over it: the
//! first of the two lets an end be seen, the second a start, and each part's list, moved back, is the whole recording's.
use super::{
    list::list,
    trace::{alone, trace, MOST},
};
use crate::answered::{
    level,
    told::{Class, Told},
    Cut, Split,
};
use host::{Event, Refused, Settings};

/// A run of samples that is handed to the library whole.
pub struct Stretch<'a> {
    /// The recording's half-cycle at which it begins.
    pub first_half: usize,
    pub samples: &'a [i32],
    /// The library's list of it, where the cutting has asked for it already.
    pub events: Option<Vec<Event>>,
}

/// A recording as the library is asked about it: whole, or cut into parts.
pub struct Cutting<'a> {
    pub stretches: Vec<Stretch<'a>>,
    pub cuts: Vec<Cut>,
}

/// The recording whole or, where it is too long and `cut` is asked for, its parts. The library says what is too long. A
/// refusal of a stretch has its place in the whole recording.
pub fn cutting<'a>(s: &'a Settings, samples: &'a [i32], cut: bool) -> Result<Cutting<'a>, Refused> {
    let block = 3 * (s.n as usize / 2);
    match cut.then(|| host::list(s, samples, &mut [])) {
        Some(Err(Refused { number: 5, .. })) => Whole { s, samples, block, most: MOST }.cut_up(),
        _ => {
            let whole = Stretch { first_half: 0, samples, events: None };
            Ok(Cutting { stretches: vec![whole], cuts: Vec::new() })
        }
    }
}

/// A recording that is too long.
struct Whole<'a> {
    s: &'a Settings,
    samples: &'a [i32],
    /// Samples in half a cycle, all channels.
    block: usize,
    /// How many half-cycles a part may have.
    most: usize,
}

/// An event that reaches over a cut, in half-cycles of the whole recording. The next part's list may have forgotten it.
#[derive(Clone, Copy)]
struct Over {
    kind: u64,
    start: u64,
    end: u64,
}

impl<'a> Whole<'a> {
    fn cut_up(&self) -> Result<Cutting<'a>, Refused> {
        let (mut made, mut first, mut over) = (Cutting { stretches: Vec::new(), cuts: Vec::new() }, 0, Vec::new());
        while first < self.halves() {
            let stretch = self.ended(self.listed(first, self.most.min(self.halves() - first))?, &over);
            first += self.halves_of(&stretch);
            if first < self.halves() {
                over = self.over(&stretch, &over);
                made.cuts.push(self.cut(first as u64, &over));
            }
            made.stretches.push(stretch);
        }
        for (cut, next) in made.cuts.iter_mut().zip(&made.stretches[1..]) {
            cut.splits.iter_mut().for_each(|split| split.untold = self.untold(cut.at, split, next));
        }
        Ok(made)
    }

    /// The stretch up to its last place between events; all of it where it has none, or is the last.
    fn ended(&self, stretch: Stretch<'a>, over: &[Over]) -> Stretch<'a> {
        if stretch.first_half + self.halves_of(&stretch) == self.halves() {
            return stretch;
        }
        let Some(halves) = self.last_place(&stretch, over) else { return stretch };
        let events = stretch.events.into_iter().flatten().filter(|event| event[1] < halves as u64).collect();
        Stretch { events: Some(events), ..self.stretch(stretch.first_half, halves) }
    }

    /// The events that the stretch's last half-cycle is in, each with its own start and end: the stretch may begin within one.
    fn over(&self, stretch: &Stretch, before: &[Over]) -> Vec<Over> {
        let first = stretch.first_half as u64;
        let at = first + self.halves_of(stretch) as u64;
        let own = stretch.events.iter().flatten().filter(|event| first + event[2] == at);
        let reaching = |kind: u64| match before.iter().find(|over| over.kind == kind && at <= over.end) {
            Some(older) => Some(*older),
            None => own.clone().find(|event| event[0] == kind).map(|event| Over {
                kind,
                start: first + event[1],
                end: self.end(kind, at),
            }),
        };
        (1..=3).filter_map(reaching).collect()
    }

    /// Where an event of this kind ends that goes on up to half-cycle k: where that is unknown, meets the condition that ends
    /// it, or is beyond the recording. The library tells the half-cycles from k on as if no event had been going on, so its sums are
    /// compared here. A stretch that it refuses is one of the parts' too, and the recording is refused then.
    fn end(&self, kind: u64, k: u64) -> u64 {
        let ends = |told: &Told| told.sums().is_none_or(|sums| level::lands(self.s, kind, sums));
        let end_from = |first: usize| {
            let stretch = self.stretch(first, self.most.min(self.halves() - first));
            trace(self.s, stretch.samples).ok()?.iter().position(ends).map(|at| first + at)
        };
        (k as usize..self.halves()).step_by(self.most).find_map(end_from).unwrap_or(self.halves()) as u64
    }

    /// The cut before half-cycle `at`, with the events that lose an end by it: those that reach over it, end there or start
    /// there. An end that an unknown half-cycle hides is not lost by the cut.
    fn cut(&self, at: u64, over: &[Over]) -> Cut {
        let known = |k: u64| alone(self.s, self.samples, k).filter(|told| told.class != Class::Unknown);
        let (before, after) = (known(at - 1), known(at));
        let begun = after.iter().filter(|_| before.is_some()).flat_map(Told::kinds);
        let starts = begun.filter(|kind| !over.iter().any(|o| o.kind == *kind));
        let starts = starts.map(|kind| Over { kind, start: at, end: self.end(kind, at + 1) });
        let mut splits: Vec<Over> = over.iter().copied().filter(|_| after.is_some()).chain(starts).collect();
        splits.sort_by_key(|o| o.kind);
        let split = |Over { kind, start, end }: Over| Split { kind, start, end, untold: (at, at) };
        Cut { at, splits: splits.into_iter().map(split).collect() }
    }

    /// What the part after a cut does not tell of an event that the cut goes through.
    fn untold(&self, at: u64, split: &Split, next: &Stretch) -> (u64, u64) {
        let first = next.first_half as u64;
        let pieces = next.events.iter().flatten().filter(|e| e[0] == split.kind).map(|e| first + e[1]);
        let told = pieces.min().unwrap_or(split.end).min(split.end);
        (at, told.min(first + self.halves_of(next) as u64))
    }

    /// A stretch; neighbours share the half cycle of samples at the cut, so that each half-cycle is in one part.
    fn stretch(&self, first_half: usize, halves: usize) -> Stretch<'a> {
        let samples = &self.samples[first_half * self.block..(first_half + halves + 1) * self.block];
        Stretch { first_half, samples, events: None }
    }

    fn halves(&self) -> usize {
        self.samples.len() / self.block - 1
    }

    fn halves_of(&self, stretch: &Stretch) -> usize {
        stretch.samples.len() / self.block - 1
    }

    /// A stretch with the library's list of it.
    fn listed(&self, first_half: usize, halves: usize) -> Result<Stretch<'a>, Refused> {
        let stretch = self.stretch(first_half, halves);
        let moved = |Refused { number, place }| match number {
            6 => Refused { number, place: place + (first_half * self.block) as u64 },
            _ => Refused { number, place },
        };
        let events = list(self.s, stretch.samples, None).map_err(moved)?;
        Ok(Stretch { events: Some(events), ..stretch })
    }

    /// The last place in a stretch, or at its end, before and after which a half-cycle lies in no event.
    fn last_place(&self, stretch: &Stretch, over: &[Over]) -> Option<usize> {
        let (first, halves) = (stretch.first_half, self.halves_of(stretch));
        let mut inside = vec![false; halves];
        for [_, start, end, ..] in stretch.events.iter().flatten() {
            inside[*start as usize..*end as usize].fill(true);
        }
        // After a half-cycle in no event the next is in one exactly if it is by itself.
        let next = alone(self.s, self.samples, (first + halves) as u64);
        inside.push(next.is_some_and(|told| told.class == Class::Disturbed));
        for Over { end, .. } in over {
            inside[..(*end as usize - first).min(halves + 1)].fill(true);
        }
        (1..=halves).rev().find(|place| !inside[place - 1] && !inside[*place])
    }
}

#[cfg(test)]
mod tests {
    use super::{Cutting, Stretch, Whole};
    use crate::answered::{grid, table::counts};
    use host::{Event, Settings};
    use oracle::{plain, random::Random, recording};

    /// Blocks of half a cycle at levels on and beside the thresholds, held for a while, on one channel or on all, with gaps.
    fn drawn(random: &mut Random, s: &Settings) -> Vec<i32> {
        let blocks = random.between(10, 120) as usize;
        let quiet = random.pick(&[1, 2, 4, 12]);
        let mut samples = Vec::new();
        while samples.len() < blocks * 12 {
            let level = match random.below(quiet + 2) {
                0 => random.pick(&[0, 5, 9, 10, 11, 12, 13, 40, 70, 85, 88, 89]) * s.r as i32 / 100,
                1 => random.pick(&[90, 91, 92, 93, 105, 108, 109, 110, 111, 130]) * s.r as i32 / 100,
                _ => s.r as i32,
            };
            let three = if random.once_in(3) { [level, s.r as i32, s.r as i32] } else { [level; 3] };
            (0..4 * random.between(1, 9)).for_each(|_| samples.extend(three));
        }
        samples.truncate(blocks * 12);
        for _ in 0..random.below(4) {
            let at = random.below(samples.len() as u64) as usize;
            samples[at] = i32::MIN;
        }
        samples
    }

    /// The events of all parts where they lie in the whole.
    fn moved_back(cutting: &Cutting) -> Vec<Event> {
        let moved = |first: u64, mut event: Event| {
            event[1..3].iter_mut().for_each(|half| *half += first);
            event
        };
        let of = |part: &Stretch| {
            part.events.iter().flatten().map(|e| moved(part.first_half as u64, *e)).collect::<Vec<_>>()
        };
        cutting.stretches.iter().flat_map(of).collect()
    }

    /// Each cut is at the last place of its stretch, or at its end where there is none.
    fn assert_last_places(cutting: &Cutting, most: usize, events: &[Event]) {
        let inside = |k: usize| events.iter().any(|e| (e[1]..e[2]).contains(&(k as u64)));
        for (first, cut) in cutting.stretches.iter().map(|part| part.first_half).zip(&cutting.cuts) {
            let place = (first + 1..=first + most).rev().find(|p| !inside(p - 1) && !inside(*p));
            assert_eq!(cut.at as usize, place.unwrap_or(first + most));
        }
    }

    /// Each cut names just the events that lose an end by it, with their own starts and ends, and what is not told of them.
    fn assert_splits(s: &Settings, samples: &[i32], cutting: &Cutting, events: &[Event], told: &[Event]) {
        let known = |k: u64| recording::half(s, samples, k).is_some();
        let inside = |of: &[Event], kind: u64, k: u64| of.iter().any(|e| e[0] == kind && (e[1]..e[2]).contains(&k));
        for (at, cut) in cutting.cuts.iter().enumerate() {
            let loses = |e: &&Event| match cut.at {
                p if p == e[1] => known(p - 1),
                p if p == e[2] => known(p),
                p => e[1] < p && p < e[2],
            };
            let mut wanted: Vec<[u64; 3]> = events.iter().filter(loses).map(|e| [e[0], e[1], e[2]]).collect();
            wanted.sort();
            let named: Vec<[u64; 3]> = cut.splits.iter().map(|split| [split.kind, split.start, split.end]).collect();
            assert_eq!(named, wanted, "{}", cut.at);
            let next = cutting.cuts.get(at + 1).map_or(u64::MAX, |next| next.at);
            for split in &cut.splits {
                let untold = (cut.at..split.end.min(next)).take_while(|k| !inside(told, split.kind, *k)).count() as u64;
                assert_eq!(split.untold, (cut.at, cut.at + untold), "{}", cut.at);
            }
        }
    }

    /// What is cut is the whole again, number for number, but for the events that a cut is said to split; and it splits none
    /// where two neighbours lie in no event.
    #[test]
    fn parts_are_the_whole_but_for_what_is_split() {
        let random = &mut Random::new(11);
        let (mut clean, mut split) = (0, 0);
        for case in 0..4_000 {
            let (sag, hysteresis) = (random.pick(&[90, 80, 95]), random.below(6));
            let s = Settings { n: 8, r: 1000, f: 50, sag, interruption: 10, swell: 110, hysteresis };
            let (samples, most) = (drawn(random, &s), random.between(2, 40) as usize);
            let whole = Whole { s: &s, samples: &samples, block: 12, most };
            let Ok(cutting) = whole.cut_up() else { panic!("{case}: refused") };
            let (walked, told) = (plain::walk(&s, &samples), moved_back(&cutting));
            let (_, mut table) = host::fresh(&s, grid::FIRST);
            cutting.stretches.iter().for_each(|part| host::add(&mut table, part.samples).unwrap());
            let c = counts(&table);
            assert_eq!((c.total, c.unknown), (whole.halves() as u64, walked.unknown), "{case}");
            assert!(cutting.stretches.iter().all(|part| whole.halves_of(part) <= most), "{case}");
            assert_last_places(&cutting, most, &walked.events);
            assert_splits(&s, &samples, &cutting, &walked.events, &told);
            for event in &walked.events {
                let mut splits = cutting.cuts.iter().flat_map(|cut| &cut.splits);
                let split = splits.any(|split| [split.kind, split.start, split.end] == event[..3]);
                assert_eq!(told.contains(event), !split, "{case}: {event:?}");
            }
            if cutting.cuts.iter().all(|cut| cut.splits.is_empty()) {
                clean += 1;
                assert_eq!((told, c.disturbed), (walked.events, walked.disturbed), "{case}");
            } else {
                split += 1;
            }
        }
        assert!(clean > 500 && split > 500, "{clean} {split}");
    }
}
