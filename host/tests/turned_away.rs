//! What is turned away: its number, its place, and all lent memory as it was.
mod common;
use common::{blocks, dip, told, HEALTHY, MISSING, NOT_SCORED, SETS, SETTINGS, UNKNOWN};
use host::{add, cell, fresh, halves, list, raw, reason, score, Event, Refused, Settings, Table, TABLE, WORDS};

/// Settings of which one is outside its range, and its number.
const BAD: [(u64, Settings); 13] = [
    (1, Settings { n: 9, ..SETTINGS }),
    (1, Settings { n: 6, ..SETTINGS }),
    (1, Settings { n: 514, ..SETTINGS }),
    (2, Settings { r: 999, ..SETTINGS }),
    (2, Settings { r: 50001, ..SETTINGS }),
    (3, Settings { f: 55, ..SETTINGS }),
    (4, Settings { sag: 49, ..SETTINGS }),
    (4, Settings { sag: 96, ..SETTINGS }),
    (5, Settings { interruption: 0, ..SETTINGS }),
    (5, Settings { interruption: 21, ..SETTINGS }),
    (6, Settings { swell: 104, ..SETTINGS }),
    (6, Settings { swell: 151, ..SETTINGS }),
    (7, Settings { hysteresis: 6, ..SETTINGS }),
];

const MOST: Settings = Settings {
    n: u64::MAX,
    r: u64::MAX,
    f: u64::MAX,
    sag: u64::MAX,
    interruption: u64::MAX,
    swell: u64::MAX,
    hysteresis: u64::MAX,
};

/// K2's sag, K8's with an unseen start, K6's interruption, K10's swell.
const SAG: Event = [1, 1, 4, 3, 2000000, 500, 36000000, 0, 12000000, 12000000, 12000000];
const UNSEEN: Event = [1, 0, 2, 2, 2000000, 500, 27000000, 0, 9000000, 9000000, 9000000];
const INTERRUPTION: Event = [2, 2, 3, 3, 0, 0, 0, 0, 0, 0, 0];
const SWELL: Event = [3, 1, 4, 3, 11520000, 1200, 0, 0, 0, 0, 0];

/// Modulo 2^64, twice this is nothing.
const TOP_BIT: u64 = 1 << 63;

fn refused(number: u64, place: u64) -> Refused {
    Refused { number, place }
}

/// The list's refusal, with nothing written.
fn list_refused(s: &Settings, samples: &[i32], room: usize, number: u64, place: u64) {
    let mut events = vec![9; room];
    assert_eq!(list(s, samples, &mut events), Err(refused(number, place)));
    assert_eq!(events, vec![9; room]);
}

/// The refusal of telling each half-cycle, in a room that is part of what is lent: nothing of it is written.
fn halves_refused(s: &Settings, samples: &[i32], room: usize, number: u64, place: u64) {
    let mut lent = vec![9; room + 10];
    assert_eq!(halves(s, samples, &mut lent[..room]), Err(refused(number, place)));
    assert_eq!(lent, vec![9; room + 10]);
}

/// The table's refusal, with the table as it was.
fn add_refused(table: &Table, samples: &[i32], number: u64, place: u64) {
    let mut lent = *table;
    assert_eq!(add(&mut lent, samples), Err(refused(number, place)));
    assert_eq!(&lent, table);
}

/// All calls that take samples refuse them alike: the list, the half-cycles, and a table of either set. Samples are looked at
/// before the room.
fn all_refused(samples: &[i32], number: u64, place: u64) {
    for room in [0, 23] {
        list_refused(&SETTINGS, samples, room, number, place);
        halves_refused(&SETTINGS, samples, room, number, place);
    }
    for set in SETS {
        add_refused(&fresh(&SETTINGS, set).1, samples, number, place);
    }
}

/// A table that is not made: refusal 1, all 60 numbers written with 0, and nothing beyond them.
fn not_made(s: &Settings, set: u64, place: u64) {
    assert_eq!(fresh(s, set), (Err(refused(1, place)), [0; TABLE]));
    let (mut lent, mut at) = ([9; TABLE + 1], 9);
    // SAFETY: the table has the 60 numbers that the library writes, and one more.
    let number = unsafe {
        #[rustfmt::skip]
        let number = raw::burr_fresh(
            s.n, s.r, s.f, s.sag, s.interruption, s.swell, s.hysteresis, set, lent.as_mut_ptr(), &mut at,
        );
        number
    };
    assert_eq!((number, at), (1, place));
    assert_eq!((&lent[..TABLE], lent[TABLE]), (&[0; TABLE][..], 9));
}

/// An event that has no score.
fn unscored(s: &Settings, set: u64, event: &Event, why: u64, at: u64) {
    assert_eq!(reason(s, set, event), why, "set {set}: {event:?}");
    assert_eq!(cell(s, set, event), at, "set {set}: {event:?}");
    assert_eq!(score(s, set, event), Err(why), "set {set}: {event:?}");
}

/// A bad setting is told before an unknown set.
#[test]
fn first_bad_setting() {
    for (place, s) in &BAD {
        list_refused(s, &dip(500), 23, 1, *place);
        halves_refused(s, &dip(500), 25, 1, *place);
        for (set, at) in SETS.into_iter().zip(NOT_SCORED) {
            not_made(s, set, *place);
            unscored(s, set, &SAG, 6, at);
        }
        for set in UNKNOWN {
            not_made(s, set, *place);
            unscored(s, set, &SAG, 6, 40);
        }
    }
    let two = Settings { f: 51, swell: 0, ..SETTINGS };
    list_refused(&two, &[], 0, 1, 3);
    halves_refused(&two, &[], 0, 1, 3);
}

/// Refusal 1 with place 8 for a fresh table; reason 6 with cell 40, whatever the event; refusal 9 for a table offered.
#[test]
fn unknown_set() {
    for set in UNKNOWN {
        not_made(&SETTINGS, set, 8);
        for event in [SAG, UNSEEN, INTERRUPTION, SWELL, [0; WORDS], [u64::MAX; WORDS]] {
            unscored(&SETTINGS, set, &event, 6, 40);
        }
        for made_for in SETS {
            let mut table = fresh(&SETTINGS, made_for).1;
            assert_eq!(add(&mut table, &dip(500)), Ok(()));
            table[7] = set;
            add_refused(&table, &dip(500), 9, 0);
            add_refused(&table, &[1], 9, 0);
        }
    }
}

/// Where several refusals apply, the first is given: settings, length, samples, room.
#[test]
fn refusals_in_their_order() {
    let bad = vec![MISSING + 1; 3 * (4 * 100_002 + 1)];
    let (long, cycles) = (bad.len(), 3 * 4 * 100_002);
    let bad_setting = Settings { hysteresis: 6, ..SETTINGS };
    for len in [0, 1, 20, 21, 27, 36, long - 1, long, cycles] {
        list_refused(&bad_setting, &bad[..len], 0, 1, 7);
        halves_refused(&bad_setting, &bad[..len], 0, 1, 7);
    }
    for (len, number) in [(1, 2), (20, 2), (long - 1, 2), (0, 3), (21, 3), (27, 4), (long, 4), (cycles, 5), (36, 6)] {
        all_refused(&bad[..len], number, 0);
    }
}

#[test]
fn length_not_a_multiple_of_3() {
    all_refused(&dip(500)[1..], 2, 0);
    all_refused(&[1], 2, 0);
}

#[test]
fn no_samples() {
    all_refused(&[], 3, 0);
    assert_eq!(halves(&SETTINGS, &[], &mut []), Err(refused(3, 0)));
}

#[test]
fn fewer_samples_than_a_cycle() {
    all_refused(&dip(500)[..21], 3, 0);
}

#[test]
fn not_a_multiple_of_half_a_cycle() {
    all_refused(&dip(500)[..27], 4, 0);
}

#[test]
fn too_many_half_cycles() {
    all_refused(&vec![0; 3 * 4 * 100_002], 5, 0);
    assert_eq!(list(&SETTINGS, &vec![1000; 3 * 4 * 100_001], &mut []), Ok(0));
}

#[test]
fn sample_out_of_range() {
    for bad in [100_001, -100_001, i32::MAX, MISSING + 1] {
        let mut samples = dip(500);
        samples[40] = bad;
        all_refused(&samples, 6, 40);
        samples[7] = bad;
        all_refused(&samples, 6, 7);
    }
}

#[test]
fn widest_samples_are_taken() {
    let mut samples = dip(500);
    (samples[0], samples[1], samples[2]) = (100_000, -100_000, MISSING);
    assert_eq!(list(&SETTINGS, &samples, &mut [0; 11]), Ok(1));
}

#[test]
fn room_below_the_events() {
    list_refused(&SETTINGS, &dip(500), 10, 7, 1);
    list_refused(&SETTINGS, &dip(500), 0, 7, 1);
    list_refused(&SETTINGS, &dip(0), 21, 7, 2);
    let mut exactly_one = [9; 11];
    assert_eq!((list(&SETTINGS, &dip(500), &mut exactly_one), exactly_one), (Ok(1), SAG));
    assert_eq!(list(&SETTINGS, &dip(0), &mut [0; 22]), Ok(2));
    assert_eq!(list(&SETTINGS, &blocks(&[1000; 6]), &mut []), Ok(0));
}

/// The room goes by the half-cycles, whatever happens in them.
#[test]
fn room_below_the_half_cycles() {
    for samples in [dip(500), dip(0), blocks(&[1000; 6])] {
        for room in [0, 1, 5, 11, 20, 24] {
            halves_refused(&SETTINGS, &samples, room, 7, 5);
        }
    }
    assert_eq!(halves(&SETTINGS, &dip(500), &mut []), Err(refused(7, 5)));
    halves_refused(&SETTINGS, &blocks(&[500, 500]), 4, 7, 1);
    halves_refused(&SETTINGS, &blocks(&[MISSING, 1000]), 0, 7, 1);
    halves_refused(&SETTINGS, &vec![0; 3 * 4 * 100_001], 499_999, 7, 100_000);
    told(&SETTINGS, &blocks(&[1000; 6]), &[HEALTHY; 5]);
}

/// The place is one number: those on both sides of it stay.
#[test]
fn nothing_beside_the_answer() {
    for (room, number) in [(25, 0), (24, 7)] {
        let (mut answer, mut lent, samples) = ([9; 3], [9; 25], dip(500));
        // SAFETY: the room is within what is lent, and the samples' pointer goes with their length.
        let given = unsafe {
            #[rustfmt::skip]
            let given = raw::burr_halves(
                8, 1000, 50, 90, 10, 110, 2, samples.as_ptr(), samples.len(), lent.as_mut_ptr(), room, &mut answer[1],
            );
            given
        };
        assert_eq!((given, answer), (number, [9, 5, 9]));
    }
}

#[test]
fn table_is_full() {
    for set in SETS {
        let mut table = fresh(&SETTINGS, set).1;
        (table[8], table[9]) = (3_999_996, 3_999_996);
        add_refused(&table, &dip(500), 8, 4);
        (table[8], table[9]) = (3_999_995, 3_999_995);
        assert_eq!(add(&mut table, &dip(500)), Ok(()));
        assert_eq!(table[8], 4_000_000);
        add_refused(&table, &dip(500), 8, 0);
    }
}

#[test]
fn unsound_table() {
    add_refused(&[0; TABLE], &dip(500), 9, 0);
    add_refused(&[u64::MAX; TABLE], &dip(500), 9, 0);
    for set in SETS {
        let mut sound = fresh(&SETTINGS, set).1;
        assert_eq!(add(&mut sound, &dip(0)), Ok(()));
        // Settings; set; total; each class; a cell; unplaced; each kind; shortfall, and that of each channel.
        let counts = [(0, 1), (7, 2), (8, 1), (9, 1), (10, 1), (11, 1), (31, 1), (52, 1), (53, 5), (54, 5), (55, 6)];
        for (at, by) in counts.into_iter().chain([(56, 1), (57, 1), (58, 1), (59, 1)]) {
            let mut table = sound;
            table[at] += by;
            add_refused(&table, &dip(500), 9, 0);
        }
    }
}

/// A sag in each cell, counted among the sags or not. In a cell that the set does not have it is refused either way.
#[test]
fn cells_of_a_table() {
    for (set, cells) in [(0, 40), (1, 25)] {
        let mut empty = fresh(&SETTINGS, set).1;
        (empty[8], empty[10]) = (5, 5);
        for cell in 0..40 {
            let mut table = empty;
            table[12 + cell] = 1;
            add_refused(&table, &dip(500), 9, 0);
            table[53] = 1;
            if cell < cells {
                assert_eq!(add(&mut table, &dip(500)), Ok(()), "set {set}, cell {cell}");
            } else {
                add_refused(&table, &dip(500), 9, 0);
            }
        }
        for (first, second) in [(0, 24), (25, 39)] {
            let mut table = empty;
            (table[12 + first], table[12 + second]) = (TOP_BIT, TOP_BIT);
            add_refused(&table, &dip(500), 9, 0);
        }
    }
}

/// Tables of each set, of so many half-cycles, all disturbed, with a shortfall and those of a, b and c.
fn short(s: &Settings, total: u64, whole: u64, parts: [u64; 3]) -> [Table; 2] {
    SETS.map(|set| {
        let mut table = fresh(s, set).1;
        (table[8], table[10], table[56]) = (total, total, whole);
        table[57..].copy_from_slice(&parts);
        table
    })
}

fn both_tables_refused(tables: [Table; 2], samples: &[i32], number: u64, place: u64) {
    for table in &tables {
        add_refused(table, samples, number, place);
    }
}

/// Not more than 3 x N x R x R x total, and no bound for a single channel.
#[test]
fn shortfall_of_a_table() {
    let most = 3 * 8 * 1000 * 1000 * 5;
    for parts in [[most, 0, 0], [0, most, 0], [0, 0, most], [most / 3; 3], [1, most - 3, 2]] {
        for mut table in short(&SETTINGS, 5, most, parts) {
            assert_eq!(add(&mut table, &dip(500)), Ok(()), "{parts:?}");
        }
    }
    for parts in [[most + 1, 0, 0], [most / 3, most / 3 + 1, most / 3]] {
        both_tables_refused(short(&SETTINGS, 5, most + 1, parts), &[], 9, 0);
    }
}

#[test]
fn shortfalls_of_a_table_that_do_not_add_up() {
    let good = [12_000_000; 3];
    for channel in 0..3 {
        for part in [11_999_999, 12_000_001, 0, u64::MAX] {
            let mut parts = good;
            parts[channel] = part;
            both_tables_refused(short(&SETTINGS, 5, 36_000_000, parts), &dip(500), 9, 0);
        }
    }
    for whole in [35_999_999, 36_000_001] {
        both_tables_refused(short(&SETTINGS, 5, whole, good), &dip(500), 9, 0);
    }
    for parts in [[TOP_BIT, TOP_BIT, 36_000_000], [u64::MAX, 0, 36_000_001], [u64::MAX, u64::MAX, 36_000_002]] {
        both_tables_refused(short(&SETTINGS, 5, 36_000_000, parts), &dip(500), 9, 0);
    }
}

/// Under the largest settings a full table may have a shortfall of 15.36 x 10^18. Three that are each below 15 x 10^18 can be 2^64
/// above it. Without samples a sound table is refusal 3.
#[test]
fn large_shortfalls_of_a_table_that_wrap_round() {
    let largest = Settings { n: 512, r: 50_000, ..SETTINGS };
    let whole = 15_000_000_000_000_000_000;
    let parts = [12_000_000_000_000_000_000, 12_000_000_000_000_000_000, 9_446_744_073_709_551_616];
    both_tables_refused(short(&largest, 4_000_000, whole, [whole / 3; 3]), &[], 3, 0);
    both_tables_refused(short(&largest, 4_000_000, whole, parts), &[], 9, 0);
    let [a, b, c] = parts;
    both_tables_refused(short(&largest, 4_000_000, whole, [c, a, b]), &[], 9, 0);
    both_tables_refused(short(&largest, 4_000_000, whole, [b, c, a]), &[], 9, 0);
}

#[test]
fn not_an_event() {
    assert_eq!(SETS.map(|set| reason(&SETTINGS, set, &SAG)), [0, 0]);
    // Kind, start, end, seen, extreme, retained, type.
    for (at, word) in [(0, 0), (0, 4), (1, 4), (2, 100_001), (3, 4), (4, 6_480_000), (5, 501), (7, 7)] {
        let mut event = SAG;
        event[at] = word;
        assert_not_an_event(&event);
    }
    assert_not_an_event(&with_type_1(INTERRUPTION));
    assert_not_an_event(&with_type_1(SWELL));
}

fn assert_not_an_event(event: &Event) {
    for (set, at) in SETS.into_iter().zip(NOT_SCORED) {
        unscored(&SETTINGS, set, event, 5, at);
    }
}

fn with_type_1(mut event: Event) -> Event {
    event[7] = 1;
    event
}

fn with_parts(mut event: Event, whole: u64, parts: [u64; 3]) -> Event {
    event[6] = whole;
    event[8..].copy_from_slice(&parts);
    event
}

/// A sag's is not more than 3 x N x R x R x h, and a single channel's has no bound. The other kinds have none.
#[test]
fn shortfall_of_an_event() {
    let most = 72_000_000;
    for parts in [[most, 0, 0], [0, most, 0], [0, 0, most], [most / 3; 3], [1, most - 3, 2]] {
        assert_eq!(SETS.map(|set| reason(&SETTINGS, set, &with_parts(SAG, most, parts))), [0, 0], "{parts:?}");
    }
    assert_not_an_event(&with_parts(SAG, most + 1, [most + 1, 0, 0]));
    assert_not_an_event(&with_parts(SAG, most + 1, [24_000_000, 24_000_000, 24_000_001]));
    for event in [INTERRUPTION, SWELL] {
        assert_eq!(SETS.map(|set| reason(&SETTINGS, set, &event)), [4, 4]);
        assert_not_an_event(&with_parts(event, 1, [0, 1, 0]));
    }
}

/// By one on each channel, for each kind; and where the sum is right modulo 2^64 only.
#[test]
fn shortfalls_of_an_event_that_do_not_add_up() {
    for event in [SAG, INTERRUPTION, SWELL] {
        for at in 8..WORDS {
            for by in [1, u64::MAX] {
                let mut event = event;
                event[at] = event[at].wrapping_add(by);
                assert_not_an_event(&event);
            }
        }
        let whole = event[6];
        for parts in [[TOP_BIT, TOP_BIT, whole], [whole + 1, u64::MAX, 0], [u64::MAX, whole + 2, u64::MAX]] {
            assert_not_an_event(&with_parts(event, whole, parts));
        }
    }
    assert_not_an_event(&with_parts(SAG, 35_999_999, [12_000_000; 3]));
    assert_not_an_event(&with_parts(SAG, 36_000_001, [12_000_000; 3]));
}

#[test]
fn largest_numbers() {
    for (set, at) in SETS.into_iter().zip(NOT_SCORED) {
        unscored(&SETTINGS, set, &[u64::MAX; WORDS], 5, at);
        unscored(&MOST, set, &[u64::MAX; WORDS], 6, at);
    }
    unscored(&MOST, u64::MAX, &[u64::MAX; WORDS], 6, 40);
    list_refused(&MOST, &[i32::MAX; 30], 23, 1, 1);
    halves_refused(&MOST, &[i32::MAX; 30], 23, 1, 1);
    not_made(&MOST, u64::MAX, 1);
}

#[test]
fn floats_stay_where_there_is_no_score() {
    let not_added_up = with_parts(SAG, 36000000, [12000001, 12000000, 12000000]);
    let events = [(INTERRUPTION, 4), ([u64::MAX; WORDS], 5), (not_added_up, 5), (UNSEEN, 1)];
    let known = SETS.into_iter().flat_map(|set| events.map(|(event, why)| (set, event, why)));
    for (set, event, why) in known.chain(UNKNOWN.map(|set| (set, SAG, 6))) {
        let [kind, start, end, seen, extreme, retained, shortfall, class, short_a, short_b, short_c] = event;
        let (mut severity, mut energy) = (0.25, 0.75);
        // SAFETY: both floats are this test's own.
        let given = unsafe {
            #[rustfmt::skip]
            let given = raw::burr_score(
                8, 1000, 50, 90, 10, 110, 2, set, kind, start, end, seen, extreme, retained, shortfall, class,
                short_a, short_b, short_c, &mut severity, &mut energy,
            );
            given
        };
        assert_eq!((given, severity, energy), (why, 0.25, 0.75));
    }
}

/// A table lent with one number more, which stays.
#[test]
fn nothing_beyond_the_table() {
    for set in SETS {
        let (mut lent, mut place, samples) = ([9; TABLE + 1], 9, dip(500));
        // SAFETY: the table has 60 numbers and one more, and the samples' pointer goes with their length.
        let made = unsafe { raw::burr_fresh(8, 1000, 50, 90, 10, 110, 2, set, lent.as_mut_ptr(), &mut place) };
        assert_eq!((made, place, lent[TABLE]), (0, 0, 9));
        assert_eq!(lent[..TABLE], fresh(&SETTINGS, set).1);
        place = 9;
        // SAFETY: as above.
        let added = unsafe { raw::burr_add(lent.as_mut_ptr(), samples.as_ptr(), samples.len(), &mut place) };
        assert_eq!((added, place, lent[8], lent[TABLE]), (0, 0, 5, 9));
    }
}
