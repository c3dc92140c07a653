//! `--from` and `--to`: half-cycles by the time at which they begin. Times are compared as they are written, to the last digit: as a
//! float 0.07 x 100 is above 7.
use super::args::{usage, Args};
use crate::{failure::Failure, showing::words};
use host::Settings;
use std::ops::Range;

/// How many digits a time may have before its point and after it, and the steps that make a second.
const DIGITS: usize = 18;
const SECOND: u128 = 10u128.pow(DIGITS as u32);

/// From a time on, and before another, where they are given.
pub struct Window {
    from: Option<Time>,
    to: Option<Time>,
}

/// A time as it was written, and in steps.
struct Time {
    written: String,
    steps: u128,
}

impl Window {
    pub fn given(args: &Args) -> Result<Window, Failure> {
        let (from, to) = (time(args, "--from")?, time(args, "--to")?);
        match (&from, &to) {
            (Some(from), Some(to)) if from.steps > to.steps => {
                usage(format!("--from {} lies after --to {}", from.written, to.written))
            }
            _ => Ok(Window { from, to }),
        }
    }

    /// The half-cycles of a recording that begin in the window: one of them at least.
    pub fn of(&self, s: &Settings, name: &str, total: u64) -> Result<Range<u64>, Failure> {
        let first = self.from.as_ref().map_or(0, |from| from.first_half(s));
        let end = self.to.as_ref().map_or(total, |to| to.first_half(s));
        match (&self.from, &self.to) {
            (Some(from), _) if first >= total => usage(format!(
                "--from {}: no half-cycle of {name} begins then or later; the last, {}, begins at {}",
                from.written,
                total - 1,
                words::seconds(total - 1, s.f)
            )),
            (_, Some(to)) if end > total => usage(format!(
                "--to {} lies beyond the end of {name}, which has {} ({})",
                to.written,
                words::count(total, "half-cycle"),
                words::seconds(total, s.f)
            )),
            (from, Some(to)) if first == end => usage(format!(
                "no half-cycle begins from {} s on and before {} s: half-cycle k begins at k / {} s",
                from.as_ref().map_or("0", |from| &from.written),
                to.written,
                2 * s.f
            )),
            _ => Ok(first..end),
        }
    }
}

impl Time {
    /// The first half-cycle that begins then or later; half-cycle k begins at k / 2f seconds.
    fn first_half(&self, s: &Settings) -> u64 {
        let first = (self.steps * u128::from(2 * s.f)).div_ceil(SECOND);
        u64::try_from(first).unwrap_or(u64::MAX)
    }
}

fn time(args: &Args, option: &str) -> Result<Option<Time>, Failure> {
    let Some(value) = args.value(option) else { return Ok(None) };
    let time = |written: &str| Some(Time { written: written.into(), steps: steps(written)? });
    match value.to_str().and_then(time) {
        Some(time) => Ok(Some(time)),
        None => usage(format!(
            "{option} wants seconds from 0 on in digits, such as 0.25, at most {DIGITS} before and after the point, and {value:?} is none"
        )),
    }
}

/// The steps of a time; none where it is not written in digits with one point at most.
fn steps(written: &str) -> Option<u128> {
    let (whole, part) = written.split_once('.').unwrap_or((written, ""));
    let plain = |digits: &str| digits.len() <= DIGITS && digits.bytes().all(|b| b.is_ascii_digit());
    let any = !whole.is_empty() || !part.is_empty();
    (any && plain(whole) && plain(part)).then(|| format!("{whole}{part:0<DIGITS$}").parse().ok())?
}
