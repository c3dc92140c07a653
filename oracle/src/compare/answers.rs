//! What each program answers to a case: every number it hands back and all memory lent to it, floats as their bits.
use super::Case;
use crate::settings::first_bad;
use crate::{plain, recording, site, Event, Refused, Settings, Table, TABLE};

/// Everything that a program answered, by name.
pub type Answer = Vec<(&'static str, Vec<u64>)>;

/// Lent memory past its end, where nobody may write.
const GUARD: usize = 16;

/// What a lent float holds before it is written: no answer has these bits.
const UNWRITTEN: u64 = 0x7ff8_0bad_0bad_0bad;

/// Longer recordings are judged by `plain`, which the tests hold to the naive program on shorter ones.
const NAIVE_UP_TO: u64 = 400;

/// Words that a program has no reason to write, each of its own so that a shift shows.
fn filled(length: usize) -> Vec<u64> {
    (0..length as u64).map(|i| 0xb1a0_0000_0000_0000 + i).collect()
}

/// What the proved library answers.
pub fn of_the_product(case: &Case) -> Answer {
    match case {
        Case::List { settings, samples, room } => product_run(host::raw::burr_list, settings, samples, *room),
        Case::Halves { settings, samples, room } => product_run(host::raw::burr_halves, settings, samples, *room),
        Case::Add { table, samples } => product_add(table, samples),
        Case::Fresh { settings, set } => product_fresh(settings, *set),
        Case::Score { settings, set, event } => product_score(settings, *set, event),
    }
}

/// What the second program answers.
pub fn of_the_oracle(case: &Case) -> Answer {
    match case {
        Case::List { settings, samples, room } => oracle_run([crate::list, plain::list], settings, samples, *room),
        Case::Halves { settings, samples, room } => {
            oracle_run([crate::halves, plain::halves], settings, samples, *room)
        }
        Case::Add { table, samples } => oracle_add(table, samples),
        Case::Fresh { settings, set } => oracle_fresh(settings, *set),
        Case::Score { settings, set, event } => oracle_score(settings, *set, event),
    }
}

/// A call of the library that goes over a recording and writes into a lent run.
#[rustfmt::skip]
type Call = unsafe extern "C" fn(
    u64, u64, u64, u64, u64, u64, u64, *const i32, usize, *mut u64, usize, *mut u64,
) -> u64;

/// The same of the second program.
type Form = fn(&Settings, &[i32], &mut [u64]) -> Result<u64, Refused>;

#[rustfmt::skip]
fn product_run(call: Call, s: &Settings, samples: &[i32], room: usize) -> Answer {
    let (mut lent, mut memory, mut answer) = (samples.to_vec(), filled(room + GUARD), UNWRITTEN);
    // SAFETY: the pointers are this function's own; the room handed over ends before the guard.
    let number = unsafe {
        call(
            s.n, s.r, s.f, s.sag, s.interruption, s.swell, s.hysteresis,
            lent.as_mut_ptr(), lent.len(), memory.as_mut_ptr(), room, &mut answer,
        )
    };
    let unchanged = u64::from(lent == samples);
    vec![("number", vec![number]), ("answer", vec![answer]), ("room", memory), ("samples unchanged", vec![unchanged])]
}

fn oracle_run([naive, linear]: [Form; 2], s: &Settings, samples: &[i32], room: usize) -> Answer {
    let mut memory = filled(room + GUARD);
    let form = if short(s, samples) { naive } else { linear };
    let (number, answer) = match form(s, samples, &mut memory[..room]) {
        Ok(told) => (0, told),
        Err(refused) => (refused.number, refused.place),
    };
    vec![("number", vec![number]), ("answer", vec![answer]), ("room", memory), ("samples unchanged", vec![1])]
}

/// Whether the naive program is the judge: the recording is refused, or has few half-cycles.
fn short(s: &Settings, samples: &[i32]) -> bool {
    first_bad(s).is_some() || recording::check(s, samples).is_err() || recording::half_cycles(s, samples) <= NAIVE_UP_TO
}

fn product_add(table: &Table, samples: &[i32]) -> Answer {
    let (mut lent, mut memory, mut place) = (samples.to_vec(), filled(TABLE + GUARD), UNWRITTEN);
    memory[..TABLE].copy_from_slice(table);
    // SAFETY: the pointers are this function's own; the table ends before the guard.
    let number = unsafe { host::raw::burr_add(memory.as_mut_ptr(), lent.as_mut_ptr(), lent.len(), &mut place) };
    let unchanged = u64::from(lent == samples);
    vec![("number", vec![number]), ("place", vec![place]), ("table", memory), ("samples unchanged", vec![unchanged])]
}

fn oracle_add(table: &Table, samples: &[i32]) -> Answer {
    let (mut grown, mut memory) = (*table, filled(TABLE + GUARD));
    let adder = if short(&site::settings(table), samples) { crate::add } else { plain::add };
    let (number, place) = refusal(adder(&mut grown, samples));
    memory[..TABLE].copy_from_slice(&grown);
    vec![("number", vec![number]), ("place", vec![place]), ("table", memory), ("samples unchanged", vec![1])]
}

#[rustfmt::skip]
fn product_fresh(s: &Settings, set: u64) -> Answer {
    let (mut memory, mut place) = (filled(TABLE + GUARD), UNWRITTEN);
    // SAFETY: the pointers are this function's own; the table ends before the guard.
    let number = unsafe {
        host::raw::burr_fresh(
            s.n, s.r, s.f, s.sag, s.interruption, s.swell, s.hysteresis, set,
            memory.as_mut_ptr(), &mut place,
        )
    };
    vec![("number", vec![number]), ("place", vec![place]), ("table", memory)]
}

fn oracle_fresh(s: &Settings, set: u64) -> Answer {
    let (made, table) = crate::fresh(s, set);
    let (number, place) = refusal(made);
    let mut memory = filled(TABLE + GUARD);
    memory[..TABLE].copy_from_slice(&table);
    vec![("number", vec![number]), ("place", vec![place]), ("table", memory)]
}

#[rustfmt::skip]
fn product_score(s: &Settings, set: u64, e: &Event) -> Answer {
    let (mut severity, mut energy) = (f64::from_bits(UNWRITTEN), f64::from_bits(UNWRITTEN));
    // SAFETY: both floats are this function's own.
    let why = unsafe {
        host::raw::burr_score(
            s.n, s.r, s.f, s.sag, s.interruption, s.swell, s.hysteresis, set,
            e[0], e[1], e[2], e[3], e[4], e[5], e[6], e[7], e[8], e[9], e[10],
            &mut severity, &mut energy,
        )
    };
    scored(why, severity.to_bits(), energy.to_bits(), host::reason(s, set, e), host::cell(s, set, e))
}

fn oracle_score(s: &Settings, set: u64, e: &Event) -> Answer {
    let (why, severity, energy) = match crate::score(s, set, e) {
        Ok(score) => (0, score.severity.to_bits(), score.energy.to_bits()),
        Err(why) => (why, UNWRITTEN, UNWRITTEN),
    };
    scored(why, severity, energy, crate::reason(s, set, e), crate::cell(s, set, e))
}

fn scored(why: u64, severity: u64, energy: u64, reason: u64, cell: u64) -> Answer {
    vec![
        ("score's reason", vec![why]),
        ("severity bits", vec![severity]),
        ("energy bits", vec![energy]),
        ("reason", vec![reason]),
        ("cell", vec![cell]),
    ]
}

fn refusal(outcome: Result<(), Refused>) -> (u64, u64) {
    match outcome {
        Ok(()) => (0, 0),
        Err(refused) => (refused.number, refused.place),
    }
}
