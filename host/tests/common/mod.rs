//! The recordings of the known answers: N 8, R 1,000, f 50, thresholds 90, 10, 110, hysteresis 2; and the sets of borders.
#![allow(dead_code)]
use host::{halves, Settings, HALF};

pub const SETTINGS: Settings = Settings { n: 8, r: 1000, f: 50, sag: 90, interruption: 10, swell: 110, hysteresis: 2 };

/// The two sets of borders.
pub const SETS: [u64; 2] = [0, 1];

/// One above the last cell of each.
pub const NOT_SCORED: [u64; 2] = [40, 25];

/// Unknown sets, also such of which one bit, 32 or 63 alone would be 0 or 1.
pub const UNKNOWN: [u64; 7] = [2, 3, 1 << 32, (1 << 32) + 1, 1 << 63, (1 << 63) + 1, u64::MAX];

pub const MISSING: i32 = i32::MIN;

/// A half-cycle's numbers. A block of v has 4 v v as its sum of squares, and a half-cycle two blocks.
pub type Half = [u64; HALF];

/// One at 1000 on all channels.
pub const HEALTHY: Half = [1, 0, 8000000, 8000000, 8000000];

/// An unknown one.
pub const GAP: Half = [3, 0, 0, 0, 0];

/// How many numbers a block has: four samples of three channels.
pub const BLOCK: usize = 12;

/// Blocks of four equal samples, with a value for each channel.
pub fn blocks_of(values: &[[i32; 3]]) -> Vec<i32> {
    values.iter().flat_map(|channels| channels.repeat(4)).collect()
}

/// Blocks of four equal samples, channels equal.
pub fn blocks(values: &[i32]) -> Vec<i32> {
    blocks_of(&values.iter().map(|&v| [v; 3]).collect::<Vec<_>>())
}

/// 1000 1000 v v 1000 1000, with a v for each channel.
pub fn dip_of(v: [i32; 3]) -> Vec<i32> {
    let healthy = [1000; 3];
    blocks_of(&[healthy, healthy, v, v, healthy, healthy])
}

/// 1000 1000 v v 1000 1000.
pub fn dip(v: i32) -> Vec<i32> {
    dip_of([v; 3])
}

/// Each half-cycle as it is told, in a room just large enough and in larger ones: nothing beyond the last is written.
pub fn told(s: &Settings, samples: &[i32], want: &[Half]) {
    let words = want.concat();
    for over in [0, 1, 6] {
        let mut lent = vec![9; words.len() + 7];
        assert_eq!(halves(s, samples, &mut lent[..words.len() + over]), Ok(want.len() as u64));
        assert_eq!(lent[..words.len()], words);
        assert_eq!(lent[words.len()..], [9; 7]);
    }
}
