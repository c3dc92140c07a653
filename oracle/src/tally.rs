//! A recording added to a site table, each count found by itself from the half-cycles and the events.
use crate::kinds::KINDS;
use crate::list::events;
use crate::recording;
use crate::score::cell;
use crate::site::{self, at};
use crate::{Event, Refused, Table};

/// Adds a recording to the table; a refusal leaves it as it was.
pub fn add(table: &mut Table, samples: &[i32]) -> Result<(), Refused> {
    site::check(table)?;
    let s = site::settings(table);
    recording::check(&s, samples)?;
    site::check_room(table, recording::half_cycles(&s, samples))?;
    count_halves(table, samples);
    count_events(table, &events(&s, samples));
    Ok(())
}

fn count_halves(table: &mut Table, samples: &[i32]) {
    let s = site::settings(table);
    let halves = recording::halves(&s, samples);
    for k in 0..halves.len() {
        let known = halves[k].is_some();
        let in_an_event = KINDS.iter().any(|kind| kind.holds_at(&s, &halves, k));
        table[at::TOTAL] += 1;
        table[at::HEALTHY] += u64::from(known && !in_an_event);
        table[at::DISTURBED] += u64::from(known && in_an_event);
        table[at::UNKNOWN] += u64::from(!known);
    }
}

fn count_events(table: &mut Table, events: &[Event]) {
    let s = site::settings(table);
    let of = |kind: u64| events.iter().filter(move |event| event[0] == kind);
    for sag in of(1) {
        let both_seen = sag[3] == 3;
        table[if both_seen { at::CELLS + cell(&s, table[at::SET], sag) as usize } else { at::UNPLACED }] += 1;
        table[at::SHORTFALL] += sag[6];
        for channel in 0..3 {
            table[at::PARTS + channel] += sag[8 + channel];
        }
    }
    table[at::SAGS] += of(1).count() as u64;
    table[at::INTERRUPTIONS] += of(2).count() as u64;
    table[at::SWELLS] += of(3).count() as u64;
}
