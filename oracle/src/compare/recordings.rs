//! Recordings for the comparison: levels on and beside each border, three-phase sines with sags of every type, noise,
//! gaps, samples out of range, and lengths that are turned away.
use super::borders::{in_a_column, in_a_row};
use crate::borders::{all_rows, Borders};
use crate::random::Random;
use crate::recording::MISSING;
use crate::score::sum_at;
use crate::settings::first_bad;
use crate::Settings;
use std::f64::consts::PI;

const LIMIT: i32 = 100_000;

/// The samples of a recording, or of one channel or block of it.
#[derive(Clone, Debug, Default)]
pub struct Recording {
    pub samples: Vec<i32>,
    /// How many of its blocks meet their level only nearly.
    pub near: u64,
}

impl Recording {
    /// Samples that were drawn without a level to meet.
    fn without_levels(samples: Vec<i32>) -> Recording {
        Recording { samples, near: 0 }
    }

    fn append(&mut self, next: &Recording) {
        self.samples.extend(&next.samples);
        self.near += next.near;
    }
}

/// Any recording for the settings, which may be bad: then what it holds hardly matters.
pub fn any(random: &mut Random, s: &Settings) -> Recording {
    if first_bad(s).is_some() {
        let length = random.below(200);
        return Recording::without_levels((0..length).map(|_| random.signed(-LIMIT, LIMIT)).collect());
    }
    let blocks = block_count(random, s);
    let mut recording = match random.below(10) {
        0..=5 => levels(random, s, blocks),
        6 | 7 => Recording::without_levels(sines(random, s, blocks)),
        8 => Recording::without_levels(noise(random, s, blocks)),
        _ => Recording::without_levels(flat(random, s, blocks)),
    };
    let samples = &mut recording.samples;
    if random.once_in(3) {
        lose_some(random, s, samples);
    }
    if random.once_in(16) {
        spoil(random, samples);
    }
    if random.once_in(12) {
        fray(random, s, samples);
    }
    recording
}

/// How many blocks of half a cycle: mostly few, since the naive program tries every j; with a small N now and then more.
fn block_count(random: &mut Random, s: &Settings) -> usize {
    let most = if s.n <= 32 && random.once_in(40) { 300 } else { 24 };
    random.between(2, most) as usize
}

/// A recording as long as allowed, one half-cycle longer, or long enough for the last columns.
pub fn long(random: &mut Random, s: &Settings) -> Recording {
    let halves = match random.below(4) {
        0 => 100_000,
        1 => 100_001,
        2 => 125 * s.f,
        _ => random.between(1_000, 20_000),
    };
    let blocks = halves as usize + 1;
    let mut samples = Vec::with_capacity(blocks * 3 * s.n as usize / 2);
    let mut hold = 0;
    let mut level = [s.r as i32; 3];
    for _ in 0..blocks {
        if hold == 0 {
            hold = random.pick(&[1, 2, 3, 5, 40, 300, 2_000, 6 * s.f, 10 * s.f, 40 * s.f, 120 * s.f]) + random.below(3);
            let v = s.r * random.pick(&[0, 5, 10, 39, 41, 69, 84, 91, 100, 100, 100, 112, 130]) / 100;
            level = if random.once_in(3) { [v as i32, s.r as i32, s.r as i32] } else { [v as i32; 3] };
            level.rotate_right(random.below(3) as usize);
        }
        hold -= 1;
        for _ in 0..s.n / 2 {
            samples.extend(level);
        }
    }
    if random.once_in(2) {
        lose_some(random, s, &mut samples);
    }
    Recording::without_levels(samples)
}

/// A sag in any cell of the set, on a border of its row and of its column or just beyond it, on one channel or on all.
pub fn one_sag(random: &mut Random, s: &Settings, borders: &Borders) -> Recording {
    let (level, beside) = in_a_row(random, borders.rows);
    let h = in_a_column(random, s, borders.columns);
    // A window half in the low blocks is in the sag too, or isn't: beside high blocks it never is.
    let (flank, lasts) = random.pick(&[(2_800, h + 1), (2_000, h + 1), (2_000, h.saturating_sub(1).max(1))]);
    let (calm, flank) = (at_the_reference(s, 1), block_of(s, flank, 0));
    let mut low = Recording::default();
    for piece in [&calm, &flank, &held(s, level, beside, lasts as usize), &flank, &calm] {
        low.append(piece);
    }
    let others = if random.once_in(2) { low.clone() } else { at_the_reference(s, lasts as usize + 4) };
    interleaved(random, [low, others.clone(), others])
}

/// A run of blocks, each channel's level held for a few blocks and then drawn anew from the borders and beside them.
fn levels(random: &mut Random, s: &Settings, blocks: usize) -> Recording {
    let manner = random.below(4);
    let mut channels: [Recording; 3] = Default::default();
    for channel in 0..3 {
        channels[channel] = match manner {
            0 if channel > 0 => channels[0].clone(),
            1 if channel > 0 => at_the_reference(s, blocks),
            2 if channel == 2 => channels[0].clone(),
            _ => one_channel(random, s, blocks),
        };
    }
    interleaved(random, channels)
}

/// Any channel may be the one that differs: what is told of one shows only where the others are not like it.
fn interleaved(random: &mut Random, mut channels: [Recording; 3]) -> Recording {
    channels.rotate_right(random.below(3) as usize);
    let [a, b, c] = &channels;
    let samples = (0..a.samples.len()).flat_map(|i| [a.samples[i], b.samples[i], c.samples[i]]).collect();
    Recording { samples, near: a.near + b.near + c.near }
}

fn at_the_reference(s: &Settings, blocks: usize) -> Recording {
    let block = block_of(s, 2_000, 0);
    Recording { samples: block.samples.repeat(blocks), near: block.near * blocks as u64 }
}

fn one_channel(random: &mut Random, s: &Settings, blocks: usize) -> Recording {
    let mut channel = Recording::default();
    let mut left = blocks;
    while left > 0 {
        let hold = (random.between(1, 5) as usize).min(left);
        let halves = border(random, s);
        let beside = random.pick(&[-1, 0, 0, 1]);
        channel.append(&held(s, halves, beside, hold));
        left -= hold;
    }
    channel
}

/// Blocks at one level, moved by so many units. Two neighbouring blocks make a window, and only one of them is moved.
fn held(s: &Settings, halves: u64, beside: i64, blocks: usize) -> Recording {
    let (moved, still) = (block_of(s, halves, beside), block_of(s, halves, 0));
    let mut held = Recording::default();
    (0..blocks).for_each(|i| held.append(if i % 2 == 0 { &moved } else { &still }));
    held
}

/// A level in halves of a thousandth of the reference: most often one that some rule compares with, else any or one beside. The
/// odd ones are where a retained value begins.
fn border(random: &mut Random, s: &Settings) -> u64 {
    let compared = [
        10 * s.sag,
        10 * (s.sag + s.hysteresis),
        10 * s.interruption,
        10 * (s.interruption + s.hysteresis),
        10 * s.swell,
        10 * (s.swell - s.hysteresis),
    ];
    match random.below(8) {
        0..=3 => 2 * random.pick(&compared),
        4 => 20 * random.pick(&all_rows()),
        5 => 2 * random.pick(&[0, 500, 1_000, 1_000, 1_000, 1_200]),
        6 => 2 * random.pick(&compared) + random.below(13) - 6,
        _ => random.below(3_200),
    }
}

/// Half a cycle of one channel whose squares sum to half of what a window at this level has, plus `beside`. The window's
/// sum is rounded up, so that with 0 it is the first at or above the level, and with -1 the last below. Where no four
/// squares are found for the end of the block, it is near: its sum is a little less.
fn block_of(s: &Settings, halves: u64, beside: i64) -> Recording {
    let window = sum_at(s, halves);
    // The two halves of an odd sum differ by one; both being the larger, a window is at most one unit above.
    let wanted = (window.div_ceil(2) as i64 + beside).max(0) as u64;
    let count = s.n / 2;
    let base = (wanted / count).isqrt();
    let mut samples = vec![base as i32; count as usize - 4];
    let rest = wanted - base * base * (count - 4);
    let found = four_squares(rest, LIMIT as u64);
    let near = u64::from(found.is_none());
    samples.extend(found.unwrap_or_else(|| nearly(rest)));
    // Alternating signs: the squares are the same, and a program that sums before it squares is found out.
    for sample in samples.iter_mut().step_by(2) {
        *sample = -*sample;
    }
    Recording { samples, near }
}

/// Four samples up to `most` whose squares sum to `rest`. Every number is the sum of four squares, but one of them may be
/// beyond `most`, and the search has its bounds.
fn four_squares(rest: u64, most: u64) -> Option<Vec<i32>> {
    let found = Search { most, tries: TRIES }.squares(rest, 4);
    if found.is_some() || !rest.is_multiple_of(8) {
        return found;
    }
    // Odd squares are 1 above a multiple of 8, even ones 0 or 4: four that sum to such a multiple are all even. So a quarter
    // of the sum is as good, and there the same number of tries reaches twice as far.
    let halves = four_squares(rest / 4, most / 2)?;
    Some(halves.into_iter().map(|half| 2 * half).collect())
}

/// Four samples whose squares sum to nearly `rest`: each is the largest that what is left of it has room for.
fn nearly(rest: u64) -> Vec<i32> {
    let mut left = rest;
    let mut largest = || {
        let root = left.isqrt().min(LIMIT as u64);
        left -= root * root;
        root as i32
    };
    (0..4).map(|_| largest()).collect()
}

/// How many numbers a search looks at before it gives up, which takes some hundredths of a second. No search that found four
/// squares has been seen to take more than a seventh of these.
const TRIES: u64 = 1 << 22;

/// A search for squares of samples up to `most`, with so many tries left.
struct Search {
    most: u64,
    tries: u64,
}

impl Search {
    /// As many samples, up to four, whose squares sum to `rest`.
    fn squares(&mut self, rest: u64, count: u64) -> Option<Vec<i32>> {
        self.tries = self.tries.checked_sub(1)?;
        let root = rest.isqrt().min(self.most);
        if count == 1 {
            return (root * root == rest).then(|| vec![root as i32]);
        }
        // Such numbers are no sum of three squares (Legendre) or of two, and the search would go through them all.
        let without_fours = if rest == 0 { 0 } else { rest >> (rest.trailing_zeros() & !1) };
        let without_twos = if rest == 0 { 0 } else { rest >> rest.trailing_zeros() };
        if count == 3 && without_fours % 8 == 7 || count == 2 && without_twos % 4 == 3 {
            return None;
        }
        // Of two squares the larger is tried near the root only: what is left is then small, and sooner a square itself.
        let tries = if count == 2 { 64 } else { usize::MAX };
        let mut largest = (0..=root).rev().take_while(|first| count * first * first >= rest).take(tries);
        largest.find_map(|first| {
            let mut others = self.squares(rest - first * first, count - 1)?;
            others.push(first as i32);
            Some(others)
        })
    }
}

/// Three phasors, as real and imaginary parts in units of the reference.
pub type Phasors = [(f64, f64); 3];

/// Three-phase voltages before and after a sag.
const HEALTHY: Phasors = [(1.0, 0.0), (-0.5, -0.866_025_403_784_438_6), (-0.5, 0.866_025_403_784_438_6)];

/// Sines from phasors, one for each block of half a cycle, rounded to samples.
pub fn three_phase(s: &Settings, blocks: &[Phasors]) -> Vec<i32> {
    let per_block = s.n as usize / 2;
    let peak = s.r as f64 * 2f64.sqrt();
    let mut samples = Vec::new();
    for (block, phasors) in blocks.iter().enumerate() {
        for i in 0..per_block {
            let (sin, cos) = (2.0 * PI * (block * per_block + i) as f64 / s.n as f64).sin_cos();
            for (re, im) in phasors {
                let value = peak * (re * cos - im * sin);
                samples.push((value.round() as i32).clamp(-LIMIT, LIMIT));
            }
        }
    }
    samples
}

/// A sag of type A, D or C with its main drop turned to any phase, or a sag with two channels only, or a swell.
fn disturbed(random: &mut Random) -> Phasors {
    let v = random.below(1_300) as f64 / 1_000.0;
    let turn = random.below(3) as usize;
    let half_root = 3f64.sqrt() / 2.0;
    let mut phasors = match random.below(4) {
        0 => HEALTHY.map(|(re, im)| (v * re, v * im)),
        1 => [(v, 0.0), (-0.5 * v, -half_root), (-0.5 * v, half_root)],
        2 => [(1.0, 0.0), (-0.5, -half_root * v), (-0.5, half_root * v)],
        _ => [(v, 0.0), HEALTHY[1], HEALTHY[2]],
    };
    phasors.rotate_right(turn);
    // Each phase has moved on by `turn`, so the whole is turned by as many thirds of a cycle to stay in step.
    for _ in 0..turn {
        phasors = phasors.map(|(re, im)| (-0.5 * re + half_root * im, -half_root * re - 0.5 * im));
    }
    phasors
}

fn sines(random: &mut Random, s: &Settings, blocks: usize) -> Vec<i32> {
    let mut during = Vec::new();
    while during.len() < blocks {
        let hold = random.between(1, 8) as usize;
        let phasors = if random.once_in(2) { HEALTHY } else { disturbed(random) };
        during.extend(vec![phasors; hold]);
    }
    let mut samples = three_phase(s, &during[..blocks]);
    if random.once_in(3) {
        let most = (s.r / 50) as i32;
        for sample in &mut samples {
            *sample = (*sample + random.signed(-most, most)).clamp(-LIMIT, LIMIT);
        }
    }
    samples
}

/// Samples over the whole range, or near its ends, or small.
fn noise(random: &mut Random, s: &Settings, blocks: usize) -> Vec<i32> {
    let most = random.pick(&[LIMIT, s.r as i32, 2 * s.r as i32, 1, 10]).min(LIMIT);
    let ends = random.once_in(4);
    let mut draw = || if ends { random.pick(&[-LIMIT, 0, LIMIT]) } else { random.signed(-most, most) };
    (0..blocks * 3 * s.n as usize / 2).map(|_| draw()).collect()
}

/// One value throughout: zero, the reference, an end of the range, or missing.
fn flat(random: &mut Random, s: &Settings, blocks: usize) -> Vec<i32> {
    let reference = s.r as i32;
    let value = random.pick(&[0, reference, -reference, LIMIT, -LIMIT, MISSING, reference / 2]);
    vec![value; blocks * 3 * s.n as usize / 2]
}

/// Marks samples as missing: a single one, a block, a few, either end, or all.
fn lose_some(random: &mut Random, s: &Settings, samples: &mut [i32]) {
    let length = samples.len();
    let block = 3 * s.n as usize / 2;
    let somewhere = random.below(length as u64) as usize;
    match random.below(8) {
        0 | 1 => samples[somewhere] = MISSING,
        2 => {
            let first = somewhere / block * block;
            samples[first..first + block].fill(MISSING);
        }
        3 => samples[0] = MISSING,
        4 => samples[length - 1] = MISSING,
        // On either side of a block's edge, where a window begins or ends.
        5 => {
            let edge = somewhere / block * block;
            samples[edge.saturating_sub(random.below(2) as usize)] = MISSING;
        }
        6 => {
            for _ in 0..random.between(2, 5) {
                samples[random.below(length as u64) as usize] = MISSING;
            }
        }
        _ if random.once_in(4) => samples.fill(MISSING),
        _ => samples[..block.min(length)].fill(MISSING),
    }
}

/// Puts one or two samples out of range, often by one unit, anywhere or at either end.
fn spoil(random: &mut Random, samples: &mut [i32]) {
    for _ in 0..random.between(1, 2) {
        let last = samples.len() as u64 - 1;
        let anywhere = random.between(0, last);
        let at = random.pick(&[0, last, anywhere, anywhere]) as usize;
        samples[at] = random.pick(&[LIMIT + 1, -LIMIT - 1, i32::MAX, i32::MIN + 1]);
    }
}

/// Takes or adds samples so that the length is turned away: ragged, short of a block, too short, none.
fn fray(random: &mut Random, s: &Settings, samples: &mut Vec<i32>) {
    let cycle = 3 * s.n as usize;
    let wanted = match random.below(6) {
        0 => 0,
        1 => samples.len() - random.between(1, 2) as usize,
        2 => samples.len() - 3,
        3 => cycle - 3,
        4 => cycle / 2,
        _ => samples.len() + 3 * random.between(1, s.n / 2) as usize,
    };
    samples.resize(wanted, s.r as i32);
}

#[cfg(test)]
mod tests {
    use super::*;

    fn sum_of_squares(samples: &[i32]) -> u64 {
        samples.iter().map(|&sample| u64::from(sample.unsigned_abs()).pow(2)).sum()
    }

    #[test]
    fn few_squares_are_found() {
        // Up to the highest level at the largest reference; a high power of four times a small number has few.
        let most = 4 * 80_000 * 80_000;
        let sums = (0..16).flat_map(|power| (0..64).map(move |factor: u64| factor << (2 * power)));
        for rest in sums.filter(|&rest| rest <= most) {
            let found = four_squares(rest, LIMIT as u64).unwrap_or_else(|| panic!("none for {rest}"));
            assert!(found.len() == 4 && found.iter().all(|sample| (0..=LIMIT).contains(sample)), "{rest}: {found:?}");
            assert_eq!(sum_of_squares(&found), rest);
        }
    }

    #[test]
    fn a_near_sum_is_close() {
        // 4 + 1 + 1 + 0 times 4^16 is the only way to write this one, and twice 2^16 is out of range.
        let rest = 6 << 32;
        assert_eq!(four_squares(rest, LIMIT as u64), None);
        let samples = nearly(rest);
        assert!(samples.len() == 4 && samples.iter().all(|sample| (0..=LIMIT).contains(sample)), "{samples:?}");
        assert!((rest - 1_000..rest).contains(&sum_of_squares(&samples)), "{samples:?}");
    }

    #[test]
    fn near_blocks_are_counted() {
        // A reference out of range: no four samples reach the higher levels, and all four are the largest then.
        let s = Settings { n: 16, r: 120_000, f: 50, sag: 90, interruption: 10, swell: 110, hysteresis: 2 };
        let is_near = |block: &[i32]| block[4..].iter().all(|sample| sample.abs() == LIMIT);
        let mut counted = 0;
        for seed in 0..20 {
            let recording = levels(&mut Random::new(seed), &s, 12);
            let channel = |i: usize| recording.samples.iter().skip(i).step_by(3).copied().collect::<Vec<i32>>();
            let near = (0..3).map(|i| channel(i).chunks(8).filter(|block| is_near(block)).count() as u64).sum();
            assert_eq!(recording.near, near, "seed {seed}");
            counted += near;
        }
        assert!((1..20 * 3 * 12).contains(&counted), "{counted} blocks");
    }
}
