//! The proved library as a Rust host calls it: the one place that declares its functions, and a safe wrapper for each.
//! Nothing here works out an answer. A set of borders is 0, UNIPEDE's, or 1, that of IEC 61000-4-11 (`include/burrcradle.h`).

/// The seven settings, in the order of the rules.
#[derive(Clone, Copy, Debug, PartialEq, Eq)]
pub struct Settings {
    pub n: u64,
    pub r: u64,
    pub f: u64,
    pub sag: u64,
    pub interruption: u64,
    pub swell: u64,
    pub hysteresis: u64,
}

/// How many numbers an event has: kind, start, end, seen, extreme, retained, shortfall, type, and the shortfalls of channels a, b
/// and c, which make up the shortfall.
pub const WORDS: usize = 11;

/// An event's numbers.
pub type Event = [u64; WORDS];

/// How many numbers a half-cycle has: class (1 healthy, 2 disturbed, 3 unknown), the kinds it lies in (1 for a sag plus 2 for an
/// interruption plus 4 for a swell), and S of channels a, b and c, their sums of squares. Where it is unknown all but the class are
/// 0, and that is no voltage of 0.
pub const HALF: usize = 5;

/// How many numbers a site table has: seven settings and the set of borders; total, healthy, disturbed, unknown; forty cells;
/// unplaced; sags, interruptions, swells; shortfall, and those of channels a, b and c.
pub const TABLE: usize = 60;

/// A site table.
pub type Table = [u64; TABLE];

/// What was turned away: the refusal's number and its place.
#[derive(Clone, Copy, Debug, PartialEq, Eq)]
pub struct Refused {
    pub number: u64,
    pub place: u64,
}

/// The two floats of a score.
#[derive(Clone, Copy, Debug, PartialEq)]
pub struct Score {
    pub severity: f64,
    pub energy: f64,
}

/// The functions as C declares them, for a caller that looks at all the memory it lends.
#[rustfmt::skip]
pub mod raw {
    extern "C" {
        pub fn burr_reason(
            n: u64, r: u64, f: u64, sag: u64, interruption: u64, swell: u64, hysteresis: u64,
            set: u64, kind: u64, start: u64, end: u64, seen: u64, extreme: u64, retained: u64, shortfall: u64, class: u64,
            short_a: u64, short_b: u64, short_c: u64,
        ) -> u64;
        pub fn burr_cell(
            n: u64, r: u64, f: u64, sag: u64, interruption: u64, swell: u64, hysteresis: u64,
            set: u64, kind: u64, start: u64, end: u64, seen: u64, extreme: u64, retained: u64, shortfall: u64, class: u64,
            short_a: u64, short_b: u64, short_c: u64,
        ) -> u64;
        pub fn burr_score(
            n: u64, r: u64, f: u64, sag: u64, interruption: u64, swell: u64, hysteresis: u64,
            set: u64, kind: u64, start: u64, end: u64, seen: u64, extreme: u64, retained: u64, shortfall: u64, class: u64,
            short_a: u64, short_b: u64, short_c: u64,
            severity: *mut f64, energy: *mut f64,
        ) -> u64;
        pub fn burr_list(
            n: u64, r: u64, f: u64, sag: u64, interruption: u64, swell: u64, hysteresis: u64,
            samples: *const i32, samples_len: usize, events: *mut u64, events_len: usize, answer: *mut u64,
        ) -> u64;
        pub fn burr_halves(
            n: u64, r: u64, f: u64, sag: u64, interruption: u64, swell: u64, hysteresis: u64,
            samples: *const i32, samples_len: usize, halves: *mut u64, halves_len: usize, answer: *mut u64,
        ) -> u64;
        pub fn burr_fresh(
            n: u64, r: u64, f: u64, sag: u64, interruption: u64, swell: u64, hysteresis: u64,
            set: u64, table: *mut u64, place: *mut u64,
        ) -> u64;
        pub fn burr_add(table: *mut u64, samples: *const i32, samples_len: usize, place: *mut u64) -> u64;
    }
}

/// Why the event is not scored under the settings and the set of borders: 0 where it is.
#[rustfmt::skip]
pub fn reason(s: &Settings, set: u64, e: &Event) -> u64 {
    // SAFETY: numbers only.
    unsafe {
        raw::burr_reason(
            s.n, s.r, s.f, s.sag, s.interruption, s.swell, s.hysteresis, set,
            e[0], e[1], e[2], e[3], e[4], e[5], e[6], e[7], e[8], e[9], e[10],
        )
    }
}

/// The cell of the event by the set of borders; where it is not scored one above the last of the set, 40 or 25, and 40 for an
/// unknown set.
#[rustfmt::skip]
pub fn cell(s: &Settings, set: u64, e: &Event) -> u64 {
    // SAFETY: numbers only.
    unsafe {
        raw::burr_cell(
            s.n, s.r, s.f, s.sag, s.interruption, s.swell, s.hysteresis, set,
            e[0], e[1], e[2], e[3], e[4], e[5], e[6], e[7], e[8], e[9], e[10],
        )
    }
}

/// The score of the event, or the reason why it has none.
#[rustfmt::skip]
pub fn score(s: &Settings, set: u64, e: &Event) -> Result<Score, u64> {
    let mut given = Score { severity: f64::NAN, energy: f64::NAN };
    // SAFETY: both floats are this function's own.
    let why = unsafe {
        raw::burr_score(
            s.n, s.r, s.f, s.sag, s.interruption, s.swell, s.hysteresis, set,
            e[0], e[1], e[2], e[3], e[4], e[5], e[6], e[7], e[8], e[9], e[10],
            &mut given.severity, &mut given.energy,
        )
    };
    if why == 0 { Ok(given) } else { Err(why) }
}

/// Lists the events of a recording into `events`, eleven numbers each: how many there are, or the refusal.
#[rustfmt::skip]
pub fn list(s: &Settings, samples: &[i32], events: &mut [u64]) -> Result<u64, Refused> {
    let mut answer = 0;
    // SAFETY: each pointer goes with its slice's own length; the library reads and writes within it.
    let number = unsafe {
        raw::burr_list(
            s.n, s.r, s.f, s.sag, s.interruption, s.swell, s.hysteresis,
            samples.as_ptr(), samples.len(), events.as_mut_ptr(), events.len(), &mut answer,
        )
    };
    if number == 0 { Ok(answer) } else { Err(Refused { number, place: answer }) }
}

/// Tells each half-cycle of a recording into `halves`, five numbers each: how many there are, or the refusal.
#[rustfmt::skip]
pub fn halves(s: &Settings, samples: &[i32], halves: &mut [u64]) -> Result<u64, Refused> {
    let mut answer = 0;
    // SAFETY: each pointer goes with its slice's own length; the library reads and writes within it.
    let number = unsafe {
        raw::burr_halves(
            s.n, s.r, s.f, s.sag, s.interruption, s.swell, s.hysteresis,
            samples.as_ptr(), samples.len(), halves.as_mut_ptr(), halves.len(), &mut answer,
        )
    };
    if number == 0 { Ok(answer) } else { Err(Refused { number, place: answer }) }
}

/// A fresh table for the settings and the set of borders; where they are refused, the table is all zeros.
#[rustfmt::skip]
pub fn fresh(s: &Settings, set: u64) -> (Result<(), Refused>, Table) {
    let (mut table, mut place) = ([0; TABLE], 0);
    // SAFETY: the table has the 60 numbers that the library writes.
    let number = unsafe {
        raw::burr_fresh(
            s.n, s.r, s.f, s.sag, s.interruption, s.swell, s.hysteresis, set,
            table.as_mut_ptr(), &mut place,
        )
    };
    (accepted(number, place), table)
}

/// Adds a recording to the table; a refusal leaves it as it was.
pub fn add(table: &mut Table, samples: &[i32]) -> Result<(), Refused> {
    let mut place = 0;
    // SAFETY: the table has 60 numbers, and the samples' pointer goes with their length.
    let number = unsafe { raw::burr_add(table.as_mut_ptr(), samples.as_ptr(), samples.len(), &mut place) };
    accepted(number, place)
}

fn accepted(number: u64, place: u64) -> Result<(), Refused> {
    if number == 0 {
        Ok(())
    } else {
        Err(Refused { number, place })
    }
}
