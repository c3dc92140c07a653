//! Cuts a case on which the programs differ down to a short one on which they still do.
use super::{differs, Case};
use crate::recording::MISSING;
use crate::site::{self, at};
use crate::{Event, Settings, Table};
use std::time::{Duration, Instant};

/// Enough for most cases; what is left of a very long one is printed as far as it got.
const PATIENCE: Duration = Duration::from_secs(5);

/// The shortest case found from this one, each step still a difference.
pub fn shortest(mut case: Case) -> Case {
    let began = Instant::now();
    while let Some(smaller) = step(&case, began) {
        case = smaller;
    }
    case
}

/// The first smaller case on which the programs differ, if one is found in time.
fn step(case: &Case, began: Instant) -> Option<Case> {
    let mut tried = candidates(case).take_while(|_| began.elapsed() < PATIENCE);
    tried.find(|smaller| smaller != case && differs(smaller))
}

/// Smaller cases to try, the boldest first.
fn candidates(case: &Case) -> Box<dyn Iterator<Item = Case> + '_> {
    match case {
        Case::List { settings, samples, room } => {
            let again = |samples: &[i32], room| Case::List { settings: *settings, samples: samples.to_vec(), room };
            runs(*settings, samples, *room, again)
        }
        Case::Halves { settings, samples, room } => {
            let again = |samples: &[i32], room| Case::Halves { settings: *settings, samples: samples.to_vec(), room };
            runs(*settings, samples, *room, again)
        }
        Case::Add { table, samples } => {
            let shorter = recordings(site::settings(table), samples);
            let shorter = shorter.map(move |samples| Case::Add { table: *table, samples });
            Box::new(shorter.chain(tables(table).map(move |table| Case::Add { table, samples: samples.clone() })))
        }
        Case::Fresh { settings, set } => {
            Box::new(numbers(*set).map(move |set| Case::Fresh { settings: *settings, set }))
        }
        Case::Score { settings, set, event } => {
            let (settings, set) = (*settings, *set);
            let sets = numbers(set).map(move |set| Case::Score { settings, set, event: *event });
            Box::new(sets.chain(events(event).map(move |event| Case::Score { settings, set, event })))
        }
    }
}

/// The same question of a shorter recording, or with a smaller room.
fn runs<'a>(
    settings: Settings,
    samples: &'a [i32],
    room: usize,
    again: impl Fn(&[i32], usize) -> Case + Copy + 'a,
) -> Box<dyn Iterator<Item = Case> + 'a> {
    let shorter = recordings(settings, samples).map(move |samples| again(&samples, room));
    let rooms = numbers(room as u64).map(move |room| again(samples, room as usize));
    Box::new(shorter.chain(rooms))
}

/// Simpler tables: a fresh one, one with less shortfall, one with a number smaller.
fn tables(table: &Table) -> impl Iterator<Item = Table> + '_ {
    let fresh = site::fresh(&site::settings(table), table[at::SET]).1;
    let less_short = numbers(table[at::SHORTFALL]).map(move |less| {
        let mut table = *table;
        table[at::SHORTFALL] = less;
        table[at::PARTS..].copy_from_slice(&all_on_a(less));
        table
    });
    std::iter::once(fresh).chain(less_short).chain(one_smaller(table, at::SET))
}

/// Simpler events: one with less shortfall, one with a number smaller.
fn events(event: &Event) -> impl Iterator<Item = Event> + '_ {
    let less_short = numbers(event[6]).map(move |less| {
        let mut event = *event;
        event[6] = less;
        event[8..].copy_from_slice(&all_on_a(less));
        event
    });
    less_short.chain(one_smaller(event, 0))
}

/// The same words with one of them smaller, from this place on.
fn one_smaller<const N: usize>(words: &[u64; N], first: usize) -> impl Iterator<Item = [u64; N]> + '_ {
    (first..N).flat_map(move |i| {
        numbers(words[i]).map(move |word| {
            let mut words = *words;
            words[i] = word;
            words
        })
    })
}

/// A shortfall's parts. They go down with it: alone it would no longer be what they add up to.
fn all_on_a(shortfall: u64) -> [u64; 3] {
    [shortfall, 0, 0]
}

/// Smaller numbers than this one. One less is tried of small ones only: a large one would go down step by step.
fn numbers(word: u64) -> impl Iterator<Item = u64> {
    let less = [0, 1, word / 2, word - word / 8, word - word / 128];
    let one_less = (2..64).contains(&word).then(|| word - 1);
    less.into_iter().chain(one_less).filter(move |&smaller| smaller < word)
}

/// Simpler recordings: whole cycles cut out, then blocks, then single sample times; then stretches made flat.
fn recordings(s: Settings, samples: &[i32]) -> impl Iterator<Item = Vec<i32>> + '_ {
    let block = (3 * s.n as usize / 2).clamp(1, 1 << 20);
    let cut = pieces(samples.len(), block).map(|(first, end)| [&samples[..first], &samples[end..]].concat());
    let flat = [s.r.min(1 << 20) as i32, 0].into_iter().flat_map(move |value| {
        pieces(samples.len(), block).filter_map(move |(first, end)| {
            // Never back again: a stretch is made flat only where it is neither flat nor already simpler.
            let piece = &samples[first..end];
            let simple = piece.iter().all(|&sample| sample == 0 || sample == value);
            let lost = piece.contains(&MISSING) && piece.len() > block;
            (!simple && !lost).then(|| flattened(samples, first, end, value))
        })
    });
    cut.chain(flat)
}

fn flattened(samples: &[i32], first: usize, end: usize, value: i32) -> Vec<i32> {
    let mut flat = samples.to_vec();
    flat[first..end].fill(value);
    flat
}

/// Stretches of the run, longest first: halves, quarters and so on down to a block.
fn pieces(length: usize, block: usize) -> impl Iterator<Item = (usize, usize)> {
    let blocks = length.div_ceil(block);
    let sizes =
        std::iter::successors(Some(blocks / 2), |&size| (size > 1).then_some(size / 2)).filter(|&size| size > 0);
    sizes.flat_map(move |size| (0..blocks).step_by(size).map(move |at| (at * block, ((at + size) * block).min(length))))
}
