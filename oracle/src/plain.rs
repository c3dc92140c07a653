//! The yardstick for speed: an ordinary lister, table adder and teller of half-cycles, linear in the recording. One pass over
//! the half-cycles, each window summed anew, and one watch for each kind that is either quiet or has an event open. The tests
//! hold it to the naive program.
use crate::recording::{self, Half, MISSING};
use crate::site::at;
use crate::{score, settings, site};
use crate::{Event, Refused, Settings, Table, HALF, WORDS};

const SAG: u64 = 1;
const INTERRUPTION: u64 = 2;
const SWELL: u64 = 3;

/// Lists the events of a recording into `room`: how many there are, or the refusal.
pub fn list(s: &Settings, samples: &[i32], room: &mut [u64]) -> Result<u64, Refused> {
    settings::check(s)?;
    recording::check(s, samples)?;
    let events = walk(s, samples).events;
    if room.len() < WORDS * events.len() {
        return Err(Refused { number: 7, place: events.len() as u64 });
    }
    for (words, event) in room.chunks_exact_mut(WORDS).zip(&events) {
        words.copy_from_slice(event);
    }
    Ok(events.len() as u64)
}

/// Adds a recording to the table; a refusal leaves it as it was.
pub fn add(table: &mut Table, samples: &[i32]) -> Result<(), Refused> {
    site::check(table)?;
    let s = site::settings(table);
    recording::check(&s, samples)?;
    let halves = recording::half_cycles(&s, samples);
    site::check_room(table, halves)?;
    let walked = walk(&s, samples);
    table[at::TOTAL] += halves;
    table[at::HEALTHY] += halves - walked.disturbed - walked.unknown;
    table[at::DISTURBED] += walked.disturbed;
    table[at::UNKNOWN] += walked.unknown;
    count(table, &s, &walked.events);
    Ok(())
}

/// Tells each half-cycle of a recording into `room`: how many there are, or the refusal.
pub fn halves(s: &Settings, samples: &[i32], room: &mut [u64]) -> Result<u64, Refused> {
    settings::check(s)?;
    recording::check(s, samples)?;
    let halves = recording::half_cycles(s, samples);
    if (room.len() as u64) < HALF as u64 * halves {
        return Err(Refused { number: 7, place: halves });
    }
    let mut places = room.chunks_exact_mut(HALF);
    walk_telling(s, samples, |words| {
        if let Some(place) = places.next() {
            place.copy_from_slice(&words);
        }
    });
    Ok(halves)
}

/// Counts the events into the table.
fn count(table: &mut Table, s: &Settings, events: &[Event]) {
    for event in events {
        let [kind, _, _, seen, _, _, shortfall, _, parts @ ..] = *event;
        match kind {
            SAG => {
                table[at::SAGS] += 1;
                table[at::SHORTFALL] += shortfall;
                table[at::PARTS..].iter_mut().zip(parts).for_each(|(sum, part)| *sum += part);
                let placed =
                    if seen == 3 { at::CELLS + score::cell(s, table[at::SET], event) as usize } else { at::UNPLACED };
                table[placed] += 1;
            }
            INTERRUPTION => table[at::INTERRUPTIONS] += 1,
            _ => table[at::SWELLS] += 1,
        }
    }
}

/// What one pass over a recording finds.
pub struct Walked {
    pub events: Vec<Event>,
    pub disturbed: u64,
    pub unknown: u64,
}

/// One pass over a whole run of half-cycles, however many there are: what is cut into parts elsewhere can be held to it.
pub fn walk(s: &Settings, samples: &[i32]) -> Walked {
    walk_telling(s, samples, |_| ())
}

/// The same, with the five numbers of each half-cycle told on the way.
fn walk_telling(s: &Settings, samples: &[i32], mut tell: impl FnMut([u64; HALF])) -> Walked {
    let mut watches = [SAG, INTERRUPTION, SWELL].map(|kind| Watch::new(s, kind));
    let mut walked = Walked { events: Vec::new(), disturbed: 0, unknown: 0 };
    let mut before: Half = None;
    let halves = recording::half_cycles(s, samples);
    for k in 0..halves {
        let half = sums(recording::window(s, samples, k));
        for watch in &mut watches {
            if let Some(open) = watch.step(k, half, before.is_some()) {
                walked.events.push(watch.event(s, samples, open, k, half.is_some()));
            }
        }
        let [sag, interruption, swell] = [0, 1, 2].map(|kind: usize| u64::from(watches[kind].open.is_some()));
        let kinds = sag + 2 * interruption + 4 * swell;
        let disturbed = u64::from(kinds > 0);
        walked.disturbed += disturbed;
        walked.unknown += u64::from(half.is_none());
        tell(match half {
            None => [3, 0, 0, 0, 0],
            Some([a, b, c]) => [1 + disturbed, kinds, a, b, c],
        });
        before = half;
    }
    for watch in &mut watches {
        if let Some(open) = watch.open.take() {
            walked.events.push(watch.event(s, samples, open, halves, false));
        }
    }
    walked.events.sort_by_key(|&[kind, start, ..]| (start, kind));
    walked
}

/// The sums of squares of a window; none where a sample is missing.
fn sums(window: &[i32]) -> Half {
    if window.contains(&MISSING) {
        return None;
    }
    let mut sums = [0; 3];
    for sample in window.chunks_exact(3) {
        for (sum, &x) in sums.iter_mut().zip(sample) {
            *sum += (i64::from(x) * i64::from(x)) as u64;
        }
    }
    Some(sums)
}

/// An event that has not ended yet.
struct Open {
    start: u64,
    start_seen: bool,
    extreme: u64,
    extreme_at: u64,
    short: [u64; 3],
}

/// One kind's watch over the half-cycles. The limits stand at 10,000 times a sum of squares.
struct Watch {
    kind: u64,
    launch: u64,
    land: u64,
    reference: u64,
    open: Option<Open>,
}

impl Watch {
    fn new(s: &Settings, kind: u64) -> Watch {
        let reference = s.n * s.r * s.r;
        let (launch, land) = match kind {
            SAG => (s.sag, s.sag + s.hysteresis),
            INTERRUPTION => (s.interruption, s.interruption + s.hysteresis),
            _ => (s.swell, s.swell - s.hysteresis),
        };
        Watch { kind, launch: launch * launch * reference, land: land * land * reference, reference, open: None }
    }

    fn launches(&self, sums: [u64; 3]) -> bool {
        let mut scaled = sums.iter().map(|sum| 10_000 * sum);
        match self.kind {
            SAG => scaled.any(|v| v < self.launch),
            INTERRUPTION => scaled.all(|v| v < self.launch),
            _ => scaled.any(|v| v > self.launch),
        }
    }

    fn lands(&self, sums: [u64; 3]) -> bool {
        let mut scaled = sums.iter().map(|sum| 10_000 * sum);
        match self.kind {
            SAG => scaled.all(|v| v >= self.land),
            INTERRUPTION => scaled.any(|v| v >= self.land),
            _ => scaled.all(|v| v <= self.land),
        }
    }

    /// Takes half-cycle k; hands out the event that ends before it.
    fn step(&mut self, k: u64, half: Half, before_known: bool) -> Option<Open> {
        let Some(sums) = half else {
            return self.open.take();
        };
        if self.open.is_some() && self.lands(sums) {
            return self.open.take();
        }
        if self.open.is_none() && self.launches(sums) {
            let extreme = if self.kind == SWELL { 0 } else { u64::MAX };
            self.open = Some(Open { start: k, start_seen: before_known, extreme, extreme_at: k, short: [0; 3] });
        }
        self.note(k, sums);
        None
    }

    /// Lets the open event, if there is one, take in half-cycle k.
    fn note(&mut self, k: u64, sums: [u64; 3]) {
        let Some(open) = &mut self.open else {
            return;
        };
        for (short, sum) in open.short.iter_mut().zip(sums) {
            if if self.kind == SWELL { sum > open.extreme } else { sum < open.extreme } {
                open.extreme = sum;
                open.extreme_at = k;
            }
            if self.kind == SAG && 10_000 * sum < self.launch {
                *short += self.reference - sum;
            }
        }
    }

    fn event(&self, s: &Settings, samples: &[i32], open: Open, end: u64, end_seen: bool) -> Event {
        let seen = u64::from(open.start_seen) + 2 * u64::from(end_seen);
        let retained = score::retained(s, open.extreme);
        let class = if self.kind == SAG { recording::sag_type(s, samples, open.extreme_at) } else { 0 };
        let [a, b, c] = open.short;
        [self.kind, open.start, end, seen, open.extreme, retained, a + b + c, class, a, b, c]
    }
}
