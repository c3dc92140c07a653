//! Each half-cycle told: which samples it covers, what makes it unknown, the widest samples, and that it agrees with the list and
//! with the site table.
mod common;
use common::{blocks, blocks_of, told, Half, BLOCK, GAP, HEALTHY, MISSING, SETS, SETTINGS};
use host::{add, fresh, halves, list, Settings, HALF, WORDS};

/// One sample of 7 among zeros, at each place in turn: its square is in S of its own channel and of the half-cycles that it is
/// part of. The zeros are a sag and an interruption.
#[test]
fn each_sample_is_in_its_own_sums() {
    for n in [8, 10] {
        let half_cycle = 3 * n / 2;
        for at in 0..6 * half_cycle {
            let mut samples = vec![0; 6 * half_cycle];
            samples[at] = 7;
            let mut want = [[2, 3, 0, 0, 0]; 5];
            for half in covered_by(at / half_cycle, &mut want) {
                half[2 + at % 3] = 49;
            }
            told(&Settings { n: n as u64, ..SETTINGS }, &samples, &want);
        }
    }
}

/// Of six blocks, the half-cycles that have the block: two, and one for the first and the last block.
fn covered_by(block: usize, of: &mut [Half; 5]) -> &mut [Half] {
    &mut of[block.saturating_sub(1)..(block + 1).min(5)]
}

/// On any channel, and at any place of its half-cycles.
#[test]
fn a_missing_sample_at_each_place() {
    for at in 0..6 * BLOCK {
        let mut samples = blocks(&[1000; 6]);
        samples[at] = MISSING;
        let mut want = [HEALTHY; 5];
        covered_by(at / BLOCK, &mut want).fill(GAP);
        told(&SETTINGS, &samples, &want);
    }
}

/// S is N x 10^10, for either sign.
#[test]
fn widest_samples() {
    for n in [8, 512] {
        let samples: Vec<i32> = [100_000, -100_000].into_iter().cycle().take(3 * n as usize).collect();
        let s = n * 10_000_000_000;
        told(&Settings { n, ..SETTINGS }, &samples, &[[2, 4, s, s, s]]);
    }
}

#[test]
fn the_longest_recording() {
    let samples = blocks(&vec![1000; 100_001]);
    let mut lent = vec![9; HALF * 100_000];
    assert_eq!(halves(&SETTINGS, &samples, &mut lent), Ok(100_000));
    assert!(lent.chunks_exact(HALF).all(|half| half == HEALTHY));
}

/// Numbers without a pattern.
struct Drawn(u64);

impl Drawn {
    fn below(&mut self, bound: usize) -> usize {
        self.0 = self.0.wrapping_mul(6364136223846793005).wrapping_add(1442695040888963407);
        (self.0 >> 33) as usize % bound
    }
}

/// Blocks on both sides of each threshold and in its band, one to three alike, the channels too or each its own; samples missing.
fn mixed(drawn: &mut Drawn) -> Vec<i32> {
    const LEVELS: [i32; 12] = [0, 99, 110, 121, 500, 899, 910, 921, 1000, 1079, 1090, 1101];
    let mut levels = Vec::new();
    while levels.len() < 400 {
        let alike = LEVELS[drawn.below(12)];
        let block = if drawn.below(2) == 0 { [alike; 3] } else { [(); 3].map(|_| LEVELS[drawn.below(12)]) };
        levels.extend(vec![block; 1 + drawn.below(3)]);
    }
    let mut samples = blocks_of(&levels);
    for _ in 0..10 {
        let at = drawn.below(samples.len());
        samples[at] = MISSING;
    }
    samples
}

/// A half-cycle is told to lie in a kind exactly if such an event in the list has it, and a table of either set counts as many of
/// each class as are told. Every class and all sums of kinds that there are occur.
#[test]
fn the_list_and_the_table_agree() {
    let mut drawn = Drawn(11);
    let mut kinds = [0; 8];
    for _ in 0..40 {
        let samples = mixed(&mut drawn);
        let each_half = all_halves(&samples);
        let listed = all_events(&samples);
        for (k, half) in each_half.iter().enumerate() {
            assert_eq!(half[1], kinds_at(&listed, k as u64), "half-cycle {k}");
            kinds[half[1] as usize] += 1;
        }
        let classes = [1, 2, 3].map(|class| each_half.iter().filter(|half| half[0] == class).count() as u64);
        assert!(classes.iter().all(|&count| count > 0));
        for set in SETS {
            let mut table = fresh(&SETTINGS, set).1;
            assert_eq!(add(&mut table, &samples), Ok(()));
            assert_eq!(table[9..12], classes);
        }
    }
    assert_eq!(kinds.map(|count| count > 0), [true, true, false, true, true, true, false, false]);
}

fn all_halves(samples: &[i32]) -> Vec<Half> {
    let mut lent = vec![9; HALF * (samples.len() / BLOCK - 1)];
    assert_eq!(halves(&SETTINGS, samples, &mut lent), Ok((samples.len() / BLOCK - 1) as u64));
    lent.chunks_exact(HALF).map(|half| half.try_into().unwrap()).collect()
}

/// Kind, start and end of each event.
fn all_events(samples: &[i32]) -> Vec<[u64; 3]> {
    let mut lent = vec![0; 3 * WORDS * (samples.len() / BLOCK)];
    let count = list(&SETTINGS, samples, &mut lent).unwrap();
    lent.chunks_exact(WORDS).take(count as usize).map(|event| [event[0], event[1], event[2]]).collect()
}

fn kinds_at(listed: &[[u64; 3]], k: u64) -> u64 {
    let bit = |kind: u64| if kind == 3 { 4 } else { kind };
    listed.iter().filter(|[_, start, end]| (*start..*end).contains(&k)).map(|&[kind, ..]| bit(kind)).sum()
}
