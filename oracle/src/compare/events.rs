//! Event words for the comparison: from real lists, changed by one, on every border, and anything at all.
use super::borders::{in_a_column, in_a_row};
use super::{parts, recordings};
use crate::borders::{all_columns, all_rows, of};
use crate::random::Random;
use crate::score::{beside_the_steps, retained, sum_at};
use crate::settings::{first_bad, reference};
use crate::{plain, Event, Settings, WORDS};

/// The events of a recording; none where it is refused.
pub fn listed(s: &Settings, samples: &[i32]) -> Vec<Event> {
    // A first try without room tells the number of events.
    let needed = match plain::list(s, samples, &mut []) {
        Err(refused) if refused.number == 7 => refused.place as usize,
        _ => 0,
    };
    let mut words = vec![0; needed * WORDS];
    let _ = plain::list(s, samples, &mut words);
    words.chunks_exact(WORDS).map(|words| words.try_into().unwrap()).collect()
}

/// Any eleven numbers, under settings that may be bad and a set of borders that may be unknown; with them the near blocks of the
/// recording that they are from.
pub fn any(random: &mut Random, s: &Settings, set: u64) -> (Event, u64) {
    let (mut event, near) = match random.below(8) {
        0 => real(random, s),
        1 => (placed(random, s, set), 0),
        7 => (wild(random), 0),
        _ => (bordering(random, s), 0),
    };
    if random.once_in(3) {
        let i = random.below(WORDS as u64) as usize;
        event[i] = event[i].wrapping_add(random.pick(&[1, u64::MAX]));
    }
    (event, near)
}

/// An event of a real recording, and that recording's near blocks.
fn real(random: &mut Random, s: &Settings) -> (Event, u64) {
    let recording = recordings::any(random, s);
    let events = listed(s, &recording.samples);
    if events.is_empty() {
        (bordering(random, s), 0)
    } else {
        (random.pick(&events), recording.near)
    }
}

/// A sag in any cell of the set, on a border of its row and of its column or just beyond it.
fn placed(random: &mut Random, s: &Settings, set: u64) -> Event {
    let Some(borders) = of(set).filter(|_| first_bad(s).is_none()) else { return bordering(random, s) };
    let (level, beside) = in_a_row(random, borders.rows);
    let extreme = sum_at(s, level).saturating_add_signed(beside);
    let h = in_a_column(random, s, borders.columns);
    let shortfall = random.below(3 * reference(s) as u64 * h + 1);
    let [a, b, c] = parts::made_up(random, shortfall);
    [1, 7, 7 + h, 3, extreme, retained(s, extreme), shortfall, random.below(7), a, b, c]
}

/// An event with each number on a border, beside it, or within its bounds.
fn bordering(random: &mut Random, s: &Settings) -> Event {
    if first_bad(s).is_some() {
        return wild(random);
    }
    let h = duration(random, s);
    let end = match random.below(20) {
        0 => random.word(),
        1..=4 => h,
        5..=8 => 100_000,
        9 => 100_001,
        _ => h + random.below(1_000),
    };
    let start = end.saturating_sub(h);
    let kind = random.pick(&[1, 1, 1, 1, 1, 1, 2, 3, 0, 4]);
    let seen = random.pick(&[3, 3, 3, 3, 3, 0, 1, 2, 4]);
    let extreme = extreme(random, s);
    let most = (3 * reference(s) * u128::from(end - start)).min(u128::from(u64::MAX)) as u64;
    let lost = match random.below(6) {
        0 => 0,
        1 => most,
        2 => most.saturating_add(1),
        3 => whole_milliseconds(random, s),
        _ => random.below(most.max(1)),
    };
    let (shortfall, class) = if kind == 1 || random.once_in(4) { (lost, random.below(8)) } else { (0, 0) };
    let retained = retained_or_not(random, s, extreme);
    let [a, b, c] = parts::any(random, shortfall);
    [kind, start, end, seen, extreme, retained, shortfall, class, a, b, c]
}

/// A number of half-cycles where the curve steps, a column of some set begins, or anything; none and one too many, too.
fn duration(random: &mut Random, s: &Settings) -> u64 {
    match random.below(8) {
        0 | 1 => random.between(0, 60),
        2 => random.between(0, 100_000),
        3 => random.pick(&[0, 1, 100_000, 100_001]),
        4 | 5 => random.pick(&beside_the_steps(s.f)),
        _ => random.pick(&all_columns(s.f)) + random.below(3) - 1,
    }
}

/// A sum where a row of some set begins, at a threshold, in the last row, which is narrow, at a whole thousandth or a half, or anything
/// allowed; the first beyond, too.
fn extreme(random: &mut Random, s: &Settings) -> u64 {
    let most = s.n * 10_000_000_000;
    let at = |thousandths: u64| (thousandths * thousandths * s.n * s.r * s.r).div_ceil(1_000_000);
    let beside = |random: &mut Random, sum: u64| (sum + random.below(3)).saturating_sub(1);
    match random.below(9) {
        0..=2 => {
            let row = random.pick(&all_rows());
            beside(random, at(10 * row))
        }
        3 => beside(random, at(10 * s.sag)),
        4 => {
            // No allowed sum has more: a sample of 100,000 against R.
            let most = random.pick(&[10, 1_000, 100_000_000 / s.r]);
            let sum = sum_at(s, random.between(0, 2 * most));
            beside(random, sum)
        }
        5 => random.below(at(10 * s.sag)),
        6 => random.between(at(850) + 1, at(10 * s.sag).max(at(850) + 2) - 1),
        7 => random.pick(&[0, 1, most, most + 1]),
        _ => random.between(0, most),
    }
}

/// A shortfall of a whole number of milliseconds, or one unit beside.
fn whole_milliseconds(random: &mut Random, s: &Settings) -> u64 {
    let milliseconds = random.below(3_000);
    let second = reference(s) as u64 * 2 * s.f;
    (milliseconds * second).div_ceil(1_000).wrapping_add(random.below(3)).wrapping_sub(1)
}

/// The retained value of the extreme; seldom another.
fn retained_or_not(random: &mut Random, s: &Settings, extreme: u64) -> u64 {
    let right = if extreme <= s.n * 10_000_000_000 { retained(s, extreme) } else { 0 };
    if random.once_in(10) {
        random.pick(&[right.wrapping_sub(1), right + 1, 0, u64::MAX])
    } else {
        right
    }
}

/// All ones, all zeros, or any words, large and small.
fn wild(random: &mut Random) -> Event {
    match random.below(4) {
        0 => [u64::MAX; WORDS],
        1 => [0; WORDS],
        _ => [0; WORDS].map(|_: u64| random.any_size()),
    }
}
