//! What a drawing shows of a stretch besides its events: what is unknown, and the rms of what the library tells.
use crate::answered::{
    rms::percent,
    told::{Class, Told},
    Curve, Picture,
};
use host::Settings;

/// The picture of a stretch that begins at half-cycle `first` of the recording, in at most so many columns.
pub fn picture(s: &Settings, first: u64, halves: &[Told], columns: usize) -> Picture {
    Picture { unknown: unknown(first, halves), curves: curves(s, halves, columns) }
}

/// The unknown stretches, each from its first half-cycle up to but not with its end.
fn unknown(first: u64, halves: &[Told]) -> Vec<(u64, u64)> {
    let mut stretches: Vec<(u64, u64)> = Vec::new();
    for (k, _) in (first..).zip(halves).filter(|(_, told)| told.class == Class::Unknown) {
        match stretches.last_mut() {
            Some((_, end)) if *end == k => *end = k + 1,
            _ => stretches.push((k, k + 1)),
        }
    }
    stretches
}

/// The rms of each channel over at most so many columns.
fn curves(s: &Settings, halves: &[Told], columns: usize) -> [Curve; 3] {
    let columns = columns.min(halves.len());
    let mut curves = [(); 3].map(|()| vec![None; columns]);
    for (k, sums) in halves.iter().enumerate().filter_map(|(k, told)| Some((k, told.sums()?))) {
        for (curve, sum) in curves.iter_mut().zip(sums) {
            let percent = percent(s, sum);
            let column: &mut Option<(f64, f64)> = &mut curve[k * columns / halves.len()];
            let (least, most) = column.unwrap_or((percent, percent));
            *column = Some((least.min(percent), most.max(percent)));
        }
    }
    curves
}
