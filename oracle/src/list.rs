//! The event list: longest unbroken runs of half-cycles of one kind, with their numbers.
use crate::kinds::{Kind, KINDS};
use crate::recording::{self, Half};
use crate::settings::{self, below, reference};
use crate::{score, Event, Refused, Settings};

/// Lists the events of a recording into `room`, eleven numbers each: how many there are, or the refusal.
pub fn list(s: &Settings, samples: &[i32], room: &mut [u64]) -> Result<u64, Refused> {
    settings::check(s)?;
    recording::check(s, samples)?;
    let events = events(s, samples);
    let words: Vec<u64> = events.concat();
    if room.len() < words.len() {
        return Err(Refused { number: 7, place: events.len() as u64 });
    }
    room[..words.len()].copy_from_slice(&words);
    Ok(events.len() as u64)
}

/// The events of an accepted recording, by start and then by kind.
pub fn events(s: &Settings, samples: &[i32]) -> Vec<Event> {
    let halves = recording::halves(s, samples);
    let mut events = Vec::new();
    for kind in KINDS {
        for (start, end) in runs(s, &halves, kind) {
            events.push(event(s, samples, &halves, kind, start, end));
        }
    }
    events.sort_by_key(|&[kind, start, ..]| (start, kind));
    events
}

/// The longest unbroken runs of half-cycles in an event of this kind, each from start up to but not with end.
fn runs(s: &Settings, halves: &[Half], kind: Kind) -> Vec<(usize, usize)> {
    let inside: Vec<bool> = (0..halves.len()).map(|k| kind.holds_at(s, halves, k)).collect();
    let mut runs = Vec::new();
    for start in 0..inside.len() {
        if inside[start] && (start == 0 || !inside[start - 1]) {
            let length = inside[start..].iter().take_while(|&&inside| inside).count();
            runs.push((start, start + length));
        }
    }
    runs
}

/// The eleven numbers of the event of one kind from start to end.
fn event(s: &Settings, samples: &[i32], halves: &[Half], kind: Kind, start: usize, end: usize) -> Event {
    let start_seen = start > 0 && halves[start - 1].is_some();
    let end_seen = end < halves.len() && halves[end].is_some();
    let within: Vec<[u64; 3]> = halves[start..end].iter().map(|half| half.expect("known in an event")).collect();
    let sums = within.iter().flatten();
    let extreme = *if kind == Kind::Swell { sums.max() } else { sums.min() }.unwrap();
    let own = |channel: usize| within.iter().map(|sums| sums[channel]).collect::<Vec<u64>>();
    let (shortfall, class, [a, b, c]) = match kind {
        Kind::Sag => {
            let deepest = start + within.iter().position(|sums| sums.contains(&extreme)).unwrap();
            let class = recording::sag_type(s, samples, deepest as u64);
            (shortfall(s, within.as_flattened()), class, [0, 1, 2].map(|channel| shortfall(s, &own(channel))))
        }
        _ => (0, 0, [0; 3]),
    };
    let seen = u64::from(start_seen) + 2 * u64::from(end_seen);
    let (start, end, retained) = (start as u64, end as u64, score::retained(s, extreme));
    [kind as u64, start, end, seen, extreme, retained, shortfall, class, a, b, c]
}

/// What the channels with these sums lack of the reference, wherever one is itself below the sag threshold.
fn shortfall(s: &Settings, sums: &[u64]) -> u64 {
    let low = sums.iter().filter(|&&sum| below(s, sum, s.sag));
    low.map(|&sum| (reference(s) - u128::from(sum)) as u64).sum()
}
