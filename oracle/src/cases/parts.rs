//! The shortfalls of a, b and c: whether they make up the whole, in an event and in a table, and what a recording gives each.
use super::recording::{amid, uneven, Recording};
use super::scores::{changed, of, INTERRUPTION, SAG, SWELL};
use super::tables::{brim, short, various, vast, with_parts};
use super::{add, list, straight, Section, HOUSE};
use crate::Table;

/// Twice this is 2^64: modulo 2^64, two such parts are nothing.
const HALF: u64 = 1 << 63;

pub fn events() -> Section {
    let all_on_c = [(of::A, 0), (of::B, 0), (of::C, 12_000_000)];
    let wraps = [(of::A, HALF), (of::B, HALF)];
    Section {
        name: "parts_of_events",
        about: "events whose three parts make up the shortfall, and such whose parts don't",
        cases: vec![
            changed(SAG, &all_on_c, "any three parts that make it up will do: all of it c's"),
            changed(SAG, &[(of::A, 7_000_001)], "a sag's part a one too large"),
            changed(SAG, &[(of::B, 3_999_999)], "part b one too small"),
            changed(SAG, &[(of::C, 1_000_001), (of::SEEN, 0)], "part c one too large and both ends unseen: 5 before 3"),
            changed(INTERRUPTION, &[(of::A, 1)], "an interruption with a part for a and no shortfall: 5 before 4"),
            changed(INTERRUPTION, &[(of::B, 1)], "for b"),
            changed(INTERRUPTION, &[(of::C, 1)], "for c"),
            changed(SWELL, &[(of::A, 1)], "a swell with a part for a"),
            changed(SWELL, &[(of::B, 1)], "for b"),
            changed(SWELL, &[(of::C, 1)], "for c"),
            changed(
                SAG,
                &[wraps[0], wraps[1], (of::C, 12_000_000)],
                "a sag's parts that only make up the shortfall if the sum wraps round at 2^64",
            ),
            changed(SWELL, &wraps, "a swell's"),
        ],
    }
}

pub fn tables() -> Section {
    let offered = |table: Table, words: &str| add(table, Recording::none(), words);
    let third = 5_000_000_000_000_000_000;
    // Twice this is 5,553,255,926,290,448,384 above 2^64.
    let large = 12_000_000_000_000_000_000;
    Section {
        name: "parts_of_tables",
        about: "tables whose three sums make up the shortfall, and such whose sums don't; a sound one is refused for its samples",
        cases: vec![
            offered(short(brim(HOUSE), [16_000_000; 3]), "any three sums that make it up will do: equal ones"),
            offered(with_parts(brim(HOUSE), [47_999_999, 0, 0]), "a's sum one too small: unsound"),
            offered(with_parts(brim(HOUSE), [48_000_000, 1, 0]), "b's one too large"),
            offered(with_parts(brim(HOUSE), [48_000_000, 0, 1]), "c's one too large"),
            offered(
                with_parts(brim(HOUSE), [HALF, HALF, 48_000_000]),
                "sums that only make up the shortfall if their sum wraps round at 2^64",
            ),
            offered(vast([third; 3]), "N 512, R 50000, a shortfall of 15 x 10^18: sound"),
            offered(vast([large, large, 9_446_744_073_709_551_616]), "each below that, together 2^64 above it: unsound"),
        ],
    }
}

pub fn recordings() -> Section {
    let alone = |a: i32, b: i32, c: i32| amid(uneven(2, a, b, c));
    let two = amid(uneven(2, 1000, 600, 300));
    let risen = amid(uneven(2, 700, 1300, 500));
    Section {
        name: "parts_of_recordings",
        about: "what each channel lacks, straight from the samples, in the list and in the table",
        cases: vec![
            straight(HOUSE, alone(500, 1000, 1000), "a alone is low, K12: three half-cycles of 3, 6 and 3 million"),
            straight(HOUSE, alone(1000, 600, 1000), "b alone"),
            straight(HOUSE, alone(1000, 1000, 700), "c alone"),
            straight(HOUSE, two.clone(), "b and c, each with what it lacks itself"),
            add(various(), two, "the same, in a table with a number of its own in each place"),
            list(
                HOUSE,
                risen.clone(),
                "a and c in a sag, b in a swell: nothing is taken off for b, and the swell has none",
            ),
            straight(HOUSE, risen, "the same, straight"),
        ],
    }
}
