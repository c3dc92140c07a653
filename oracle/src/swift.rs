//! What the proof costs: the same list, table and half-cycles written for speed, in safe Rust and without a proof. The samples
//! are read once. Each step of half a cycle is summed once, half-cycle k is steps k and k + 1, and while nothing goes on a
//! half-cycle is asked one thing only, by the list and the table. A second look is taken at steps with a sample missing or
//! out of range, and at the half-cycle that a sag's type is told from. The tests hold it to the naive program.
use crate::borders::{self, Borders};
use crate::kinds::{Kind, KINDS};
use crate::recording::{LONGEST, MISSING};
use crate::site::{self, at};
use crate::{settings, Event, Refused, Settings, Table, HALF};
use std::slice::ChunksExact;

/// Lists the events of a recording into `room`: how many there are, or the refusal.
pub fn list(s: &Settings, samples: &[i32], room: &mut [u64]) -> Result<u64, Refused> {
    settings::check(s)?;
    check_length(s, samples)?;
    let mut events = Vec::new();
    walk(s, samples, |ended| insert(&mut events, event(s, samples, &ended)))?;
    let words = events.as_flattened();
    let Some(written) = room.get_mut(..words.len()) else {
        return Err(Refused { number: 7, place: events.len() as u64 });
    };
    written.copy_from_slice(words);
    Ok(events.len() as u64)
}

/// Adds a recording to the table; a refusal leaves it as it was.
pub fn add(table: &mut Table, samples: &[i32]) -> Result<(), Refused> {
    site::check(table)?;
    let s = site::settings(table);
    let halves = check_length(&s, samples)?;
    let mut grown = *table;
    let counts = walk(&s, samples, |ended| count(&mut grown, &s, &ended))?;
    site::check_room(table, halves)?;
    grown[at::TOTAL] += halves;
    grown[at::HEALTHY] += halves - counts.disturbed - counts.unknown;
    grown[at::DISTURBED] += counts.disturbed;
    grown[at::UNKNOWN] += counts.unknown;
    *table = grown;
    Ok(())
}

/// Tells each half-cycle of a recording into `room`: how many there are, or the refusal. A bad sample is met on the way and
/// nothing may be written before it is, so that the numbers are gathered first.
pub fn halves(s: &Settings, samples: &[i32], room: &mut [u64]) -> Result<u64, Refused> {
    settings::check(s)?;
    let halves = check_length(s, samples)?;
    let (marks, mut inside) = (Marks::of(s), [false; 3]);
    let mut words = Vec::with_capacity(HALF * halves as usize);
    for half in Halves::of(s, samples) {
        if !half.known {
            check_range(s, samples, half.k)?;
        }
        inside = marks.inside(inside, &half);
        words.extend(five_numbers(&half, inside));
    }
    let Some(written) = room.get_mut(..words.len()) else {
        return Err(Refused { number: 7, place: halves });
    };
    written.copy_from_slice(&words);
    Ok(halves)
}

/// The five numbers of a half-cycle that lies in events of these kinds.
#[inline(always)]
fn five_numbers(half: &Half, inside: [bool; 3]) -> [u64; HALF] {
    let [sag, interruption, swell] = inside.map(u64::from);
    let (kinds, [a, b, c]) = (sag + 2 * interruption + 4 * swell, half.sums);
    match half.known {
        true => [1 + u64::from(kinds > 0), kinds, a, b, c],
        false => [3, 0, 0, 0, 0],
    }
}

/// The refusals 2 to 5, which need no look at a sample: how many half-cycles there are.
fn check_length(s: &Settings, samples: &[i32]) -> Result<u64, Refused> {
    let refuse = |number| Err(Refused { number, place: 0 });
    let length = samples.len() as u64 / 3;
    if !samples.len().is_multiple_of(3) {
        return refuse(2);
    }
    if length < s.n {
        return refuse(3);
    }
    if !length.is_multiple_of(s.n / 2) {
        return refuse(4);
    }
    match 2 * length / s.n - 1 {
        halves if halves > LONGEST => refuse(5),
        halves => Ok(halves),
    }
}

/// The largest size of a sample that is in range.
const LARGEST: u32 = 100_000;

/// Half a cycle: each channel's sum of squares, which means something only if no sample is missing or out of range.
#[derive(Clone, Copy)]
struct Step {
    sums: [u64; 3],
    whole: bool,
}

impl Step {
    /// Sums a step. The loop is kept so plain for the compiler to take four sample times at once; other shapes that were
    /// tried are slower. Only the squares of samples that are missing or out of range can make a sum wrap round.
    #[inline(always)]
    fn of(samples: &[i32]) -> Step {
        let (mut sums, mut largest) = ([0_u64; 3], 0);
        for time in samples.as_chunks::<3>().0 {
            for (sum, &sample) in sums.iter_mut().zip(time) {
                *sum = sum.wrapping_add((i64::from(sample) * i64::from(sample)) as u64);
                largest = sample.unsigned_abs().max(largest);
            }
        }
        Step { sums, whole: largest <= LARGEST }
    }
}

/// Half-cycle k. Its sums mean something only if it is known.
#[derive(Clone, Copy)]
struct Half {
    k: u64,
    sums: [u64; 3],
    known: bool,
}

/// The half-cycles in their order, each from the step before and one step more.
struct Halves<'a> {
    steps: ChunksExact<'a, i32>,
    last: Step,
    k: u64,
}

impl<'a> Halves<'a> {
    /// The recording has at least one cycle.
    fn of(s: &Settings, samples: &'a [i32]) -> Halves<'a> {
        let mut steps = samples.chunks_exact(step_length(s));
        let last = Step::of(steps.next().unwrap_or_default());
        Halves { steps, last, k: 0 }
    }

    /// The quiet part: the next half-cycle that is unknown or at which something begins. Not inlined, so that its loop has
    /// all registers.
    #[inline(never)]
    fn first_busy(&mut self, marks: &Marks) -> Option<Half> {
        self.find(|half| !marks.quiet(half))
    }
}

impl Iterator for Halves<'_> {
    type Item = Half;

    #[inline(always)]
    fn next(&mut self) -> Option<Half> {
        let step = Step::of(self.steps.next()?);
        let sums = [0, 1, 2].map(|channel| self.last.sums[channel].wrapping_add(step.sums[channel]));
        let half = Half { k: self.k, sums, known: self.last.whole & step.whole };
        self.last = step;
        self.k += 1;
        Some(half)
    }
}

/// Samples of a step, all channels.
fn step_length(s: &Settings) -> usize {
    3 * s.n as usize / 2
}

/// Refusal 6, from half-cycle k, which is unknown: one of its steps lacks a sample or has a bad one. The steps before its
/// last were judged with the half-cycles before it, but for the very first.
fn check_range(s: &Settings, samples: &[i32], k: u64) -> Result<(), Refused> {
    let step = step_length(s);
    let first = if k == 0 { 0 } else { (k as usize + 1) * step };
    let read = &samples[first..(k as usize + 2) * step];
    match read.iter().position(|&sample| sample != MISSING && sample.unsigned_abs() > LARGEST) {
        Some(index) => Err(Refused { number: 6, place: (first + index) as u64 }),
        None => Ok(()),
    }
}

/// What the thresholds are in sums of squares. S is whole, so that 10,000 x S is below p x p x N x R x R exactly if S is
/// below the quotient rounded up, and above it exactly if S is above the quotient rounded down.
struct Marks {
    sag: u64,
    sag_end: u64,
    interruption: u64,
    interruption_end: u64,
    swell: u64,
    swell_end: u64,
    reference: u64,
}

impl Marks {
    fn of(s: &Settings) -> Marks {
        let reference = s.n * s.r * s.r;
        let below = |percent: u64| (percent * percent * reference).div_ceil(10_000);
        Marks {
            sag: below(s.sag),
            sag_end: below(s.sag + s.hysteresis),
            interruption: below(s.interruption),
            interruption_end: below(s.interruption + s.hysteresis),
            swell: top(s, s.swell),
            swell_end: top(s, s.swell - s.hysteresis),
            reference,
        }
    }

    /// Whether nothing begins here. All channels below the interruption threshold are below the sag threshold too.
    #[inline(always)]
    fn quiet(&self, half: &Half) -> bool {
        let between = |sum: u64| sum.wrapping_sub(self.sag) <= self.swell - self.sag;
        half.known & between(half.sums[0]) & between(half.sums[1]) & between(half.sums[2])
    }

    /// For each kind, whether an event launches where the sums are from this least one to this greatest, and whether one lands.
    #[inline(always)]
    fn turns(&self, least: u64, greatest: u64) -> [(bool, bool); 3] {
        [
            (least < self.sag, least >= self.sag_end),
            (greatest < self.interruption, greatest >= self.interruption_end),
            (greatest > self.swell, greatest <= self.swell_end),
        ]
    }

    /// The kinds that a half-cycle lies in, from those that the one before it lies in.
    #[inline(always)]
    fn inside(&self, before: [bool; 3], half: &Half) -> [bool; 3] {
        let (least, greatest) = ends(half.sums);
        let turns = self.turns(least, greatest);
        [0, 1, 2].map(|kind: usize| {
            let (launches, lands) = turns[kind];
            half.known & if before[kind] { !lands } else { launches }
        })
    }

    /// What each channel lacks of the reference, wherever it is itself below the sag threshold.
    fn short(&self, sums: [u64; 3]) -> [u64; 3] {
        sums.map(|sum| if sum < self.sag { self.reference - sum } else { 0 })
    }
}

/// The least of the sums, and the greatest.
#[inline(always)]
fn ends([a, b, c]: [u64; 3]) -> (u64, u64) {
    (a.min(b).min(c), a.max(b).max(c))
}

/// The largest sum that is not above so many percent.
fn top(s: &Settings, percent: u64) -> u64 {
    percent * percent * s.n * s.r * s.r / 10_000
}

/// An event that has not ended yet, with the earliest half-cycle at which its extreme occurs.
struct Open {
    start: u64,
    start_seen: bool,
    extreme: u64,
    extreme_at: Half,
    short: [u64; 3],
}

/// An event that has ended.
struct Ended {
    kind: Kind,
    open: Open,
    end: u64,
    end_seen: bool,
}

/// Known half-cycles in an event, and unknown ones.
#[derive(Default)]
struct Counts {
    disturbed: u64,
    unknown: u64,
}

/// Walks over a recording of a good length and hands out each event as it ends.
fn walk(s: &Settings, samples: &[i32], ended: impl FnMut(Ended)) -> Result<Counts, Refused> {
    let mut watch =
        Watch { marks: Marks::of(s), open: [None, None, None], known_from: 0, counts: Counts::default(), ended };
    let mut halves = Halves::of(s, samples);
    while let Some(first) = halves.first_busy(&watch.marks) {
        let mut busy = Some(first);
        while let Some(half) = busy {
            if half.known {
                watch.follow(&half);
            } else {
                check_range(s, samples, half.k)?;
                watch.lose(half.k);
            }
            busy = if watch.is_calm() { None } else { halves.next() };
        }
    }
    watch.cut(halves.k);
    Ok(watch.counts)
}

/// The watch over the three kinds while something goes on.
struct Watch<E> {
    marks: Marks,
    open: [Option<Open>; 3],
    /// The half-cycle after the last unknown one, or the first: what starts there has a start that is not seen.
    known_from: u64,
    counts: Counts,
    ended: E,
}

impl<E: FnMut(Ended)> Watch<E> {
    /// Takes a known half-cycle. Each kind goes by the least of its sums or by the greatest.
    fn follow(&mut self, half: &Half) {
        let (least, greatest) = ends(half.sums);
        let [sag, interruption, swell] = self.marks.turns(least, greatest);
        self.turn(Kind::Sag, half, sag, least);
        self.turn(Kind::Interruption, half, interruption, least);
        self.turn(Kind::Swell, half, swell, greatest);
        if let Some(sag) = &mut self.open[0] {
            sag.short.iter_mut().zip(self.marks.short(half.sums)).for_each(|(sum, short)| *sum += short);
        }
        self.counts.disturbed += u64::from(!self.is_calm());
    }

    /// What a half-cycle does to one kind, with the sum that may be the extreme.
    fn turn(&mut self, kind: Kind, half: &Half, (launches, lands): (bool, bool), sum: u64) {
        let going_on = &mut self.open[kind as usize - 1];
        match going_on {
            Some(_) if lands => {
                let open = going_on.take();
                self.end(kind, open, half.k, true);
            }
            Some(open) if exceeds(kind, sum, open.extreme) => (open.extreme, open.extreme_at) = (sum, *half),
            None if launches => {
                let start_seen = half.k > self.known_from;
                *going_on = Some(Open { start: half.k, start_seen, extreme: sum, extreme_at: *half, short: [0; 3] });
            }
            _ => {}
        }
    }

    /// Takes an unknown half-cycle, which cuts all that goes on.
    fn lose(&mut self, k: u64) {
        self.counts.unknown += 1;
        self.known_from = k + 1;
        self.cut(k);
    }

    /// Ends all that goes on, none of it seen to end.
    fn cut(&mut self, end: u64) {
        for kind in KINDS {
            let open = self.open[kind as usize - 1].take();
            self.end(kind, open, end, false);
        }
    }

    fn end(&mut self, kind: Kind, open: Option<Open>, end: u64, end_seen: bool) {
        if let Some(open) = open {
            (self.ended)(Ended { kind, open, end, end_seen });
        }
    }

    /// Whether nothing goes on.
    fn is_calm(&self) -> bool {
        self.open.iter().all(Option::is_none)
    }
}

/// Whether a sum is a new extreme for events of this kind.
fn exceeds(kind: Kind, sum: u64, extreme: u64) -> bool {
    match kind {
        Kind::Sag | Kind::Interruption => sum < extreme,
        Kind::Swell => sum > extreme,
    }
}

/// Puts an event in its place by start and kind. It passes only events of other kinds that lie within it, so that a whole
/// list takes no longer than its events are many.
fn insert(events: &mut Vec<Event>, event: Event) {
    let key = |&[kind, start, ..]: &Event| (start, kind);
    let place = events.iter().rposition(|earlier| key(earlier) < key(&event)).map_or(0, |last| last + 1);
    events.insert(place, event);
}

/// The eleven numbers of an event.
fn event(s: &Settings, samples: &[i32], ended: &Ended) -> Event {
    let Ended { kind, open, end, end_seen } = ended;
    let seen = u64::from(open.start_seen) + 2 * u64::from(*end_seen);
    let class = if *kind == Kind::Sag { sag_type(s, samples, &open.extreme_at) } else { 0 };
    let [a, b, c] = open.short;
    [*kind as u64, open.start, *end, seen, open.extreme, retained(s, open.extreme), a + b + c, class, a, b, c]
}

/// The whole number nearest to 1000 V / R, halves upward: of twice 1000 V / R, rounded down, the half, rounded up. Its square
/// is four times the quotient of 1,000,000 x S, and of the rest: 4,000,000 x S itself need not fit.
fn retained(s: &Settings, sum: u64) -> u64 {
    let (whole, full) = (1_000_000 * sum, s.n * s.r * s.r);
    (4 * (whole / full) + 4 * (whole % full) / full).isqrt().div_ceil(2)
}

/// The type of a sag from a half-cycle whose sums of squares are known: 0 for A, 1 to 6 for Da, Db, Dc, Ca, Cb, Cc.
fn sag_type(s: &Settings, samples: &[i32], half: &Half) -> u64 {
    let step = step_length(s);
    let six = six_sums(half.sums, products(&samples[half.k as usize * step..][..2 * step]));
    let (smallest, largest) = six.iter().fold((i64::MAX, 0), |(low, high), &sum| (sum.min(low), sum.max(high)));
    if 100 * smallest >= 81 * largest {
        return 0;
    }
    six.iter().zip(1..).find(|(sum, _)| **sum == smallest).map_or(0, |(_, number)| number)
}

/// The six sums of the rules, their squares multiplied out: they come from the channels' sums of squares and from those of
/// a x b, b x c and c x a.
fn six_sums(squares: [u64; 3], [ab, bc, ca]: [i64; 3]) -> [i64; 6] {
    let [a, b, c] = squares.map(|sum| sum as i64);
    let twice = |one: i64, others: i64, near: i64, far: i64| 4 * one + others - 4 * near + 2 * far;
    [
        twice(a, b + c, ab + ca, bc),
        twice(b, a + c, ab + bc, ca),
        twice(c, a + b, bc + ca, ab),
        3 * (b + c - 2 * bc),
        3 * (c + a - 2 * ca),
        3 * (a + b - 2 * ab),
    ]
}

/// The sums of a x b, b x c and c x a over a window.
fn products(window: &[i32]) -> [i64; 3] {
    let mut sums = [0; 3];
    for time in window.as_chunks::<3>().0 {
        let [a, b, c] = time.map(i64::from);
        sums = [sums[0] + a * b, sums[1] + b * c, sums[2] + c * a];
    }
    sums
}

/// Counts an event into the table.
fn count(table: &mut Table, s: &Settings, ended: &Ended) {
    let Ended { kind, open, end, end_seen } = ended;
    match kind {
        Kind::Sag => {
            table[at::SAGS] += 1;
            table[at::SHORTFALL] += open.short.iter().sum::<u64>();
            table[at::PARTS..].iter_mut().zip(open.short).for_each(|(sum, short)| *sum += short);
            let borders = borders::of(table[at::SET]).filter(|_| open.start_seen && *end_seen);
            let placed = borders.map(|borders| at::CELLS + cell(borders, s, open.extreme, end - open.start));
            table[placed.unwrap_or(at::UNPLACED)] += 1;
        }
        Kind::Interruption => table[at::INTERRUPTIONS] += 1,
        Kind::Swell => table[at::SWELLS] += 1,
    }
}

/// The cell of a sag of h half-cycles, both ends seen: a voltage on a border goes to the deeper row, a duration to the longer
/// column.
fn cell(borders: &Borders, s: &Settings, extreme: u64, h: u64) -> usize {
    let above = borders.rows.iter().filter(|&&percent| extreme > top(s, percent));
    let reached = borders.columns.iter().filter(|border| h >= border.first(s.f));
    borders.width() as usize * above.count() + reached.count()
}
