//! Measuring a recording: what can be seen of it before the rules are asked. Each channel is looked at by itself, also where another
//! misses samples or the library refuses the recording, so its sums are worked out here: they are measured, and decide nothing.
use crate::{
    answered::{
        measured::{Channel, Held, Measured, Spread},
        rms, table,
    },
    failure::Failure,
    reading::recording::{Recording, MISSING},
};
use host::{Settings, Table};

/// The largest sample that the rules allow.
const LARGEST: u32 = 100_000;

/// Measures a recording and tries it on a table, cut or not: where it would be accepted, the table grows by it. `site` is the
/// table as it was before any was tried.
pub fn measure(site: &Table, grown: &mut Table, recording: &Recording, cut: bool) -> Measured {
    let (s, samples) = (table::settings(site), &recording.samples);
    let (length, half) = (samples.len() as u64 / 3, s.n / 2);
    let mut tried = *grown;
    let added = super::add(&mut tried, recording, cut);
    let (cuts, refused) = match added.map_err(|failure| super::told_of_room(failure, site, &tried)) {
        Ok(answer) => {
            *grown = tried;
            (answer.cuts, None)
        }
        Err(Failure::Refused(refusal)) => (Vec::new(), Some(refusal)),
        Err(_) => (Vec::new(), None),
    };
    let [a, b, c] = percents(&s, samples);
    Measured {
        name: recording.name.clone(),
        length,
        ragged: samples.len() as u64 % 3,
        halves: (length / half).saturating_sub(1),
        over: length % half,
        channels: [one(samples, 0, a), one(samples, 1, b), one(samples, 2, c)],
        cuts,
        refused,
    }
}

/// The median of each channel's rms in percent of R; none where no half-cycle of it is whole.
pub fn medians(s: &Settings, samples: &[i32]) -> [Option<f64>; 3] {
    percents(s, samples).map(|mut percents| median(&mut percents))
}

fn one(samples: &[i32], channel: usize, mut percents: Vec<f64>) -> Channel {
    let own = || samples.iter().skip(channel).step_by(3).copied();
    let least = percents.iter().copied().fold(f64::INFINITY, f64::min);
    let greatest = percents.iter().copied().fold(0.0, f64::max);
    Channel {
        missing: own().filter(|x| *x == MISSING).count() as u64,
        out_of_range: own().filter(|x| *x != MISSING && !usable(*x)).count() as u64,
        rms: median(&mut percents).map(|median| Spread { median, least, greatest }),
        held: held(own()),
        period: period(own),
    }
}

fn usable(sample: i32) -> bool {
    sample.unsigned_abs() <= LARGEST
}

/// The rms of each channel's half-cycles in percent of R, of those that lack none of its samples. Each half cycle of samples
/// is summed once.
fn percents(s: &Settings, samples: &[i32]) -> [Vec<f64>; 3] {
    let mut percents = [(); 3].map(|()| Vec::with_capacity(samples.len() / (s.n as usize / 2 * 3)));
    let mut before = [None; 3];
    for block in samples.chunks_exact(s.n as usize / 2 * 3) {
        let (mut sums, mut whole) = ([0u64; 3], [true; 3]);
        for three in block.as_chunks::<3>().0 {
            for channel in 0..3 {
                let x = three[channel];
                whole[channel] &= usable(x);
                let size = if usable(x) { u64::from(x.unsigned_abs()) } else { 0 };
                sums[channel] += size * size;
            }
        }
        for channel in 0..3 {
            let now = whole[channel].then_some(sums[channel]);
            percents[channel].extend(before[channel].zip(now).map(|(a, b): (u64, u64)| rms::percent(s, a + b)));
            before[channel] = now;
        }
    }
    percents
}

/// The middle value, or the mean of the two in the middle; none of no values.
fn median(values: &mut [f64]) -> Option<f64> {
    let even = values.len().is_multiple_of(2);
    let middle = values.len() / 2;
    if values.is_empty() {
        return None;
    }
    let (below, upper, _) = values.select_nth_unstable_by(middle, f64::total_cmp);
    let lower = below.iter().copied().fold(f64::NEG_INFINITY, f64::max);
    Some(if even { (lower + *upper) / 2.0 } else { *upper })
}

/// The longest run of one value; a missing sample ends a run.
fn held(samples: impl Iterator<Item = i32>) -> Held {
    let (mut longest, mut now) = (Held::default(), Held::default());
    for (at, value) in samples.enumerate() {
        if value == MISSING {
            now = Held::default();
        } else if now.samples > 0 && now.value == value {
            now.samples += 1;
        } else {
            now = Held { value, first: at as u64, samples: 1 };
        }
        if now.samples > longest.samples {
            longest = now;
        }
    }
    longest
}

/// The median time between two rises through the mean. A rise counts where the channel came from well below and goes on to
/// well above, so that noise around the mean makes none; a missing sample ends what was going on.
fn period<I: Iterator<Item = i32>>(samples: impl Fn() -> I) -> Option<f64> {
    let known = || samples().filter(|x| usable(*x)).map(f64::from);
    let count = known().count() as f64;
    let mean = known().sum::<f64>() / count;
    let level = (known().map(|x| (x - mean) * (x - mean)).sum::<f64>() / count).sqrt() / 2.0;
    let (mut gaps, mut before, mut low, mut rise, mut last) = (Vec::new(), None, false, None, None);
    for (at, x) in samples().enumerate() {
        if !usable(x) {
            (before, low, rise, last) = (None, false, None, None);
            continue;
        }
        let (x, at) = (f64::from(x) - mean, at as f64);
        if let Some(from) = before.filter(|from| low && *from <= 0.0 && x > 0.0) {
            rise = Some(at - x / (x - from));
        }
        if low && x > level {
            gaps.extend(rise.zip(last).map(|(now, then): (f64, f64)| now - then));
            (low, last) = (false, rise);
        } else if x < -level {
            (low, rise) = (true, None);
        }
        before = Some(x);
    }
    median(&mut gaps).filter(|_| level > 0.0)
}
