//! A recording: what turns it away, and its half-cycles.
use crate::{Refused, Settings};

/// The one sample value that means "missing".
pub const MISSING: i32 = i32::MIN;

/// The most half-cycles that a recording may have.
pub const LONGEST: u64 = 100_000;

/// The sums of squares of the three channels over one half-cycle's window; none where a sample is missing.
pub type Half = Option<[u64; 3]>;

/// The refusals 2 to 6, in their order. The settings are good.
pub fn check(s: &Settings, samples: &[i32]) -> Result<(), Refused> {
    let length = samples.len() as u64 / 3;
    let refuse = |number, place| Err(Refused { number, place });
    if !samples.len().is_multiple_of(3) {
        return refuse(2, 0);
    }
    if length < s.n {
        return refuse(3, 0);
    }
    if !length.is_multiple_of(s.n / 2) {
        return refuse(4, 0);
    }
    if half_cycles(s, samples) > LONGEST {
        return refuse(5, 0);
    }
    match samples.iter().position(|&sample| !in_range(sample)) {
        Some(index) => refuse(6, index as u64),
        None => Ok(()),
    }
}

fn in_range(sample: i32) -> bool {
    sample == MISSING || (-100_000..=100_000).contains(&sample)
}

/// How many half-cycles the recording has.
pub fn half_cycles(s: &Settings, samples: &[i32]) -> u64 {
    let length = samples.len() as u64 / 3;
    2 * length / s.n - 1
}

/// The samples of half-cycle k, the channels still interleaved.
pub fn window<'a>(s: &Settings, samples: &'a [i32], k: u64) -> &'a [i32] {
    let first = 3 * (k * s.n / 2) as usize;
    &samples[first..first + 3 * s.n as usize]
}

/// Half-cycle k, summed anew from its window.
pub fn half(s: &Settings, samples: &[i32], k: u64) -> Half {
    let window = window(s, samples, k);
    if window.contains(&MISSING) {
        return None;
    }
    let square = |&sample: &i32| (i64::from(sample) * i64::from(sample)) as u64;
    let sum = |channel: usize| window.iter().skip(channel).step_by(3).map(square).sum();
    Some([sum(0), sum(1), sum(2)])
}

/// All half-cycles of an accepted recording.
pub fn halves(s: &Settings, samples: &[i32]) -> Vec<Half> {
    (0..half_cycles(s, samples)).map(|k| half(s, samples, k)).collect()
}

/// The type of a sag from the samples of one half-cycle: 0 for A, 1 to 6 for Da, Db, Dc, Ca, Cb, Cc.
pub fn sag_type(s: &Settings, samples: &[i32], k: u64) -> u64 {
    let six = six_sums(window(s, samples, k));
    let smallest = *six.iter().min().unwrap();
    let largest = *six.iter().max().unwrap();
    if 100 * smallest >= 81 * largest {
        return 0;
    }
    1 + six.iter().position(|&sum| sum == smallest).unwrap() as u64
}

fn six_sums(window: &[i32]) -> [i128; 6] {
    let mut six = [0; 6];
    for sample in window.chunks(3) {
        let [a, b, c] = [0, 1, 2].map(|channel| i128::from(sample[channel]));
        six[0] += (2 * a - b - c).pow(2);
        six[1] += (2 * b - a - c).pow(2);
        six[2] += (2 * c - a - b).pow(2);
        six[3] += 3 * (b - c).pow(2);
        six[4] += 3 * (c - a).pow(2);
        six[5] += 3 * (a - b).pow(2);
    }
    six
}
