//! Recordings as the file writes them: pieces of a few words, joined, with single samples put in afterwards.
use crate::recording::MISSING;
use std::ops::{Add, Neg};

/// A recording, as its pieces.
#[derive(Clone, Debug)]
pub struct Recording {
    pieces: Vec<Piece>,
    puts: Vec<(usize, i32)>,
}

#[derive(Clone, Debug)]
enum Piece {
    /// So many samples of each channel, all alike.
    Alike(usize, [i32; 3]),
    /// A run of its own for each channel.
    Woven([Vec<i32>; 3]),
    /// A cycle of three sines, with an rms value for each.
    Sines([i32; 3]),
    /// Samples that are not three by three.
    Loose(Vec<i32>),
}

/// A block is four samples of each channel.
const BLOCK: usize = 4;

/// Blocks with one level on all channels.
pub fn even(blocks: usize, level: i32) -> Recording {
    uneven(blocks, level, level, level)
}

/// Blocks with a level for each channel.
pub fn uneven(blocks: usize, a: i32, b: i32, c: i32) -> Recording {
    alike(BLOCK * blocks, a, b, c)
}

/// A recording with two calm blocks on both sides.
pub fn amid(disturbed: Recording) -> Recording {
    even(2, 1000) + disturbed + even(2, 1000)
}

/// Samples, each with the same value for each channel.
pub fn alike(count: usize, a: i32, b: i32, c: i32) -> Recording {
    Recording { pieces: vec![Piece::Alike(count, [a, b, c])], puts: vec![] }
}

/// A run of samples for each channel, all equally long.
pub fn woven(channels: [&[i32]; 3]) -> Recording {
    Recording { pieces: vec![Piece::Woven(channels.map(<[i32]>::to_vec))], puts: vec![] }
}

/// A cycle of three sines, eight samples each, with an rms value for each channel.
pub fn sines(a: i32, b: i32, c: i32) -> Recording {
    Recording { pieces: vec![Piece::Sines([a, b, c])], puts: vec![] }
}

/// Samples as they are, three by three or not.
pub fn loose(samples: &[i32]) -> Recording {
    Recording { pieces: vec![Piece::Loose(samples.to_vec())], puts: vec![] }
}

/// A block in which one channel has samples of its own, and the other two one level.
pub fn one_channel(channel: usize, own: [i32; BLOCK], others: i32) -> Recording {
    let mut channels = [[others; BLOCK]; 3];
    channels[channel] = own;
    match channels {
        [a, b, c] if own == [own[0]; BLOCK] => uneven(1, a[0], b[0], c[0]),
        [a, b, c] => woven([&a, &b, &c]),
    }
}

/// Four samples whose squares make up the sum.
pub fn four_squares(sum: i32) -> [i32; BLOCK] {
    let down = |left: i32| (0..=left.isqrt()).rev();
    for x in down(sum) {
        for y in down(sum - x * x) {
            for z in down(sum - x * x - y * y) {
                let left = sum - x * x - y * y - z * z;
                if left.isqrt().pow(2) == left {
                    return [x, y, z, left.isqrt()];
                }
            }
        }
    }
    unreachable!("every number is the sum of four squares")
}

impl Recording {
    /// No samples at all.
    pub fn none() -> Recording {
        Recording { pieces: vec![], puts: vec![] }
    }

    /// The same with another sample at an index of the run.
    pub fn put(mut self, index: usize, sample: i32) -> Recording {
        self.puts.push((index, sample));
        self
    }

    /// The same with one sample missing.
    pub fn lose(self, index: usize) -> Recording {
        self.put(index, MISSING)
    }

    /// The run of samples, three channels interleaved.
    pub fn samples(&self) -> Vec<i32> {
        let mut run: Vec<i32> = self.pieces.iter().flat_map(Piece::samples).collect();
        for &(index, sample) in &self.puts {
            run[index] = sample;
        }
        run
    }

    /// The run in the words of the file.
    pub fn text(&self) -> String {
        let pieces: Vec<String> = self.pieces.iter().map(Piece::text).collect();
        let joined = if pieces.is_empty() { "[]".to_string() } else { pieces.join(" ++ ") };
        self.puts.iter().fold(joined, |run, &(index, sample)| format!("set ({run}) {index} {}", argument(sample)))
    }
}

impl Piece {
    fn samples(&self) -> Vec<i32> {
        match self {
            Piece::Alike(count, levels) => levels.repeat(*count),
            Piece::Woven([a, b, c]) => (0..a.len()).flat_map(|i| [a[i], b[i], c[i]]).collect(),
            Piece::Sines(levels) => {
                let half: Vec<i32> = HALF_SINES.iter().flat_map(|at| scaled(at, levels)).collect();
                half.iter().copied().chain(half.iter().map(|sample| -sample)).collect()
            }
            Piece::Loose(samples) => samples.clone(),
        }
    }

    fn text(&self) -> String {
        match self {
            Piece::Alike(count, levels) if negative(levels) => {
                format!("mirror ({})", Piece::Alike(*count, levels.map(|level| -level)).text())
            }
            Piece::Alike(count, [a, b, c]) => match (count % BLOCK, a == b && b == c) {
                (0, true) => format!("even {} {a}", count / BLOCK),
                (0, false) => format!("uneven {} {a} {b} {c}", count / BLOCK),
                _ => format!("alike {count} {a} {b} {c}"),
            },
            Piece::Woven(channels) => {
                let [a, b, c] = channels.each_ref().map(|samples| channel(samples));
                format!("weave ({a}) ({b}) ({c})")
            }
            Piece::Sines([a, b, c]) => format!("sines {a} {b} {c}"),
            Piece::Loose(samples) => listed(samples),
        }
    }
}

/// Half a cycle of three sines, a third of a cycle apart, with an rms value of 1,000 each.
const HALF_SINES: [[i32; 3]; 4] = [[0, -1225, 1225], [1000, -1366, 366], [1414, -707, -707], [1000, 366, -1366]];

fn scaled(at: &[i32; 3], levels: &[i32; 3]) -> [i32; 3] {
    [0, 1, 2].map(|channel| at[channel] * levels[channel] / 1000)
}

/// The samples of one channel.
fn channel(samples: &[i32]) -> String {
    if negative(samples) {
        return format!("mirror ({})", channel(&samples.iter().map(|sample| -sample).collect::<Vec<i32>>()));
    }
    match *samples {
        [level, ..] if level >= 0 && samples.iter().all(|&sample| sample == level) => {
            format!("level {} {level}", samples.len())
        }
        [p, q, r, s] if samples.iter().all(|&sample| sample >= 0) => format!("quad {p} {q} {r} {s}"),
        _ => listed(samples),
    }
}

fn listed(samples: &[i32]) -> String {
    samples.iter().map(|&sample| format!("{} ∷ ", integer(sample))).collect::<String>() + "[]"
}

/// Whether no sample is positive, and not all are 0.
fn negative(samples: &[i32]) -> bool {
    samples.iter().all(|&sample| sample <= 0) && samples.iter().any(|&sample| sample < 0)
}

fn integer(sample: i32) -> String {
    match sample {
        MISSING => "lost".to_string(),
        0.. => format!("pos {sample}"),
        _ => format!("minus {}", -i64::from(sample)),
    }
}

/// An integer where an argument stands.
fn argument(sample: i32) -> String {
    match sample {
        MISSING => integer(sample),
        _ => format!("({})", integer(sample)),
    }
}

impl Add for Recording {
    type Output = Recording;

    /// One after the other, equal neighbours as one piece. Single samples are put in last of all.
    fn add(mut self, next: Recording) -> Recording {
        assert!(self.puts.is_empty() && next.puts.is_empty(), "join first, then put");
        for piece in next.pieces {
            match (self.pieces.last_mut(), piece) {
                (Some(Piece::Alike(count, levels)), Piece::Alike(more, same)) if *levels == same => *count += more,
                (_, piece) => self.pieces.push(piece),
            }
        }
        self
    }
}

impl Neg for Recording {
    type Output = Recording;

    /// Every sample with the other sign.
    fn neg(self) -> Recording {
        let turned = |piece: Piece| match piece {
            Piece::Alike(count, levels) => Piece::Alike(count, levels.map(|level| -level)),
            Piece::Woven(channels) => Piece::Woven(channels.map(|run| run.iter().map(|sample| -sample).collect())),
            Piece::Sines(_) | Piece::Loose(_) => unimplemented!("no case mirrors these"),
        };
        Recording { pieces: self.pieces.into_iter().map(turned).collect(), puts: self.puts }
    }
}
