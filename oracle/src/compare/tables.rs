//! Site tables for the comparison: fresh, grown, sound to the brim, and unsound by one in each condition.
use super::{borders, parts};
use crate::borders::{of, MOST};
use crate::random::Random;
use crate::recording;
use crate::settings::reference;
use crate::site::{at, fresh, FULLEST};
use crate::{plain, Settings, Table, TABLE};

/// Any table for good settings and a known set of borders, and for the recording that will be added to it.
pub fn any(random: &mut Random, s: &Settings, set: u64, samples: &[i32]) -> Table {
    match random.below(12) {
        0..=2 => fresh(s, set).1,
        3 => grown(s, set, samples),
        4..=6 => sound(random, s, set, samples),
        7..=9 => {
            let table = sound(random, s, set, samples);
            broken(random, s, table)
        }
        10 => wrapped(random, s, set, samples),
        _ => wild(random),
    }
}

/// A table that has taken this recording once already, where it can be taken.
fn grown(s: &Settings, set: u64, samples: &[i32]) -> Table {
    let mut table = fresh(s, set).1;
    // A refused recording leaves the table fresh, which is as good here.
    let _ = plain::add(&mut table, samples);
    table
}

/// A table whose counts merely add up, some of them as large as they may be.
fn sound(random: &mut Random, s: &Settings, set: u64, samples: &[i32]) -> Table {
    let total = total(random, s, samples);
    let mut table = fresh(s, set).1;
    table[at::TOTAL] = total;
    share(random, total, &mut table[at::HEALTHY..=at::UNKNOWN]);
    table[at::SAGS..=at::SWELLS].fill_with(|| up_to(random, total));
    place(random, &mut table);
    let shortfall = up_to(random, most_shortfall(s, total));
    let made_up = parts::made_up(random, shortfall);
    short(table, shortfall, made_up)
}

/// Shares the sags out among the cells of the table's set and the unplaced.
fn place(random: &mut Random, table: &mut Table) {
    let (sags, used) = (table[at::SAGS], used(table) as usize);
    share(random, sags, &mut table[at::CELLS..=at::CELLS + used]);
    // The one after the last cell stands for the unplaced, and is it where all forty are used.
    table.swap(at::CELLS + used, at::UNPLACED);
}

/// How many cells a table's set has.
fn used(table: &Table) -> u64 {
    of(table[at::SET]).map_or(MOST, |borders| borders.cells())
}

/// The table with this shortfall, and these for a, b and c.
fn short(mut table: Table, whole: u64, parts: [u64; 3]) -> Table {
    table[at::SHORTFALL] = whole;
    table[at::PARTS..].copy_from_slice(&parts);
    table
}

/// A total that leaves room for the recording, exactly none over, one too few, or anything.
fn total(random: &mut Random, s: &Settings, samples: &[i32]) -> u64 {
    let halves = if samples.len() as u64 / 3 >= s.n { recording::half_cycles(s, samples) } else { 1 };
    let brim = FULLEST - halves.min(FULLEST);
    match random.below(7) {
        0 => brim,
        1 => brim + 1,
        2 => FULLEST,
        3 => 0,
        4 => random.below(100),
        _ => random.between(0, FULLEST),
    }
}

fn most_shortfall(s: &Settings, total: u64) -> u64 {
    (3 * reference(s) * u128::from(total)) as u64
}

fn up_to(random: &mut Random, most: u64) -> u64 {
    match random.below(4) {
        0 => 0,
        1 => most,
        _ => random.below(most.max(1)),
    }
}

/// Shares a sum out among the counts.
pub fn share(random: &mut Random, sum: u64, counts: &mut [u64]) {
    let mut left = sum;
    for _ in 0..random.between(1, 4) {
        let part = up_to(random, left);
        counts[random.below(counts.len() as u64) as usize] += part;
        left -= part;
    }
    counts[random.below(counts.len() as u64) as usize] += left;
}

/// A sound table with one condition broken, by one wherever that can be.
fn broken(random: &mut Random, s: &Settings, mut table: Table) -> Table {
    match random.below(16) {
        0 => table[random.below(7) as usize] = random.pick(&[0, 7, 513, 999, 50_001, 96, 151, u64::MAX]),
        1 => table[at::TOTAL] += 1,
        2 => table[random.between(at::HEALTHY as u64, at::UNKNOWN as u64) as usize] += 1,
        3 => table[random.between(at::CELLS as u64, at::UNPLACED as u64) as usize] += 1,
        4 => table[at::SAGS] = table[at::SAGS].wrapping_sub(1),
        5 => {
            let more = table[at::TOTAL] + 1 - table[at::SAGS];
            table[at::SAGS] += more;
            table[at::UNPLACED] += more;
        }
        6 => table[at::INTERRUPTIONS] = table[at::TOTAL] + 1,
        7 => table[at::SWELLS] = table[at::TOTAL] + 1,
        8 => {
            let above = most_shortfall(s, table[at::TOTAL]) + 1;
            table = short(table, above, parts::made_up(random, above));
        }
        9 => {
            let more = FULLEST + 1 - table[at::TOTAL];
            table[at::TOTAL] += more;
            table[at::HEALTHY] += more;
        }
        10 => table = short(table, table[at::SHORTFALL], parts::one_off(random, table[at::SHORTFALL])),
        11 => table[at::SHORTFALL] = table[at::SHORTFALL].wrapping_sub(1),
        12 => table[at::SET] = borders::unknown(random),
        13 | 14 => astray(random, &mut table),
        _ => {
            let i = random.between(at::TOTAL as u64, TABLE as u64 - 1) as usize;
            table[i] = table[i].wrapping_add(random.pick(&[1, u64::MAX]));
        }
    }
    table
}

/// Under set 1, a sag moved to a cell that it does not use. Where there is no sag, one is made.
fn astray(random: &mut Random, table: &mut Table) {
    table[at::SET] = 1;
    table[at::CELLS..=at::UNPLACED].fill(0);
    place(random, table);
    let unused = random.between(used(table), MOST - 1);
    let cell = random.pick(&[used(table), unused, MOST - 1]) as usize;
    match table[at::CELLS..=at::UNPLACED].iter_mut().find(|count| **count > 0) {
        Some(count) => *count -= 1,
        None => table[at::SAGS] += 1,
    }
    table[at::CELLS + cell] += 1;
}

/// Counts that add up only if a sum may wrap round, or shortfalls that do.
fn wrapped(random: &mut Random, s: &Settings, set: u64, samples: &[i32]) -> Table {
    if random.once_in(2) {
        return wrapped_shortfalls(random, s, set, samples);
    }
    let mut table = sound(random, s, set, samples);
    let counts = random.pick(&[(at::HEALTHY, at::UNKNOWN), (at::CELLS, at::UNPLACED)]);
    let large = random.pick(&[u64::MAX, 1 << 63, 1 << 32]);
    let one = random.between(counts.0 as u64, counts.1 as u64) as usize;
    let other = if one == counts.0 { counts.1 } else { counts.0 };
    table[one] = table[one].wrapping_add(large);
    table[other] = table[other].wrapping_sub(large);
    table
}

/// Shortfalls of a, b and c that make up the whole only if their sum wraps round. Often the whole is as large as it can be under
/// any settings: then none of the three has to be larger. The recording is for other settings, but none is looked at.
fn wrapped_shortfalls(random: &mut Random, s: &Settings, set: u64, samples: &[i32]) -> Table {
    let settings = random.pick(&[*s, Settings { n: 512, r: 50_000, ..*s }]);
    let mut table = sound(random, &settings, set, samples);
    if random.once_in(2) {
        table[at::SHORTFALL] = most_shortfall(&settings, table[at::TOTAL]);
    }
    short(table, table[at::SHORTFALL], parts::wrapped(random, table[at::SHORTFALL]))
}

/// Zeros, all ones, or any words at all.
fn wild(random: &mut Random) -> Table {
    match random.below(3) {
        0 => [0; TABLE],
        1 => [u64::MAX; TABLE],
        _ => [0; TABLE].map(|_: u64| random.any_size()),
    }
}
