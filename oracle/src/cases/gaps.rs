//! Missing samples: on each channel, in each kind of event, before a start and after an end.
use super::recording::{amid, even, uneven, Recording};
use super::{add_first, list, Section, HOUSE, WIDE};

/// Samples in one block of the run.
const RUN: usize = 12;

/// Two calm blocks, four at a level, two calm ones; a sample of the fifth block is lost.
fn cut(level: i32, lost: usize) -> Recording {
    amid(even(4, level)).lose(4 * RUN + lost)
}

/// A sag on channel c between calm blocks, with a sample of one block lost.
fn beside(before: usize, after: usize, block: usize) -> Recording {
    (even(before, 1000) + uneven(2, 1000, 1000, 500) + even(after, 1000)).lose(RUN * block + 1)
}

pub fn section() -> Section {
    let outage = amid(even(6, 0)).lose(5 * RUN + 5);
    let band = amid(even(1, 500) + even(4, 910)).lose(4 * RUN);
    let high = amid(even(1, 1500) + even(4, 1090)).lose(4 * RUN);
    Section {
        name: "gaps",
        about: "missing samples",
        cases: vec![
            list(HOUSE, cut(500, 1), "a gap on channel b cuts a sag: neither part has both ends seen"),
            list(HOUSE, cut(500, 11), "a gap on channel c, in the last sample of the block"),
            list(HOUSE, outage.clone(), "a gap on channel c cuts a sag and an interruption"),
            add_first(HOUSE, outage, "the same, in the table: two of each, the sags unplaced"),
            list(HOUSE, cut(1300, 7), "a gap on channel b cuts a swell"),
            add_first(HOUSE, cut(1300, 7), "the same, in the table"),
            list(HOUSE, beside(2, 2, 1), "a gap in the block before a sag: its start is unseen"),
            list(HOUSE, beside(2, 2, 0), "a gap a block earlier: the half-cycle before the start is unknown still"),
            list(HOUSE, beside(3, 2, 0), "another block earlier: the start is seen"),
            list(HOUSE, beside(2, 2, 4), "a gap in the block after a sag: its end is unseen"),
            list(HOUSE, beside(2, 2, 5), "a gap a block later: the half-cycle at the end is unknown still"),
            list(HOUSE, beside(2, 3, 6), "another block later: the end is seen"),
            add_first(
                HOUSE,
                beside(2, 3, 6),
                "the same, in the table: the sag has its cell, and one half-cycle is unknown",
            ),
            add_first(HOUSE, beside(2, 2, 1), "a sag whose start is unseen is unplaced"),
            add_first(HOUSE, beside(2, 2, 5), "a sag whose end is unseen is unplaced"),
            list(HOUSE, band.clone(), "after a gap, 91 percent is no sag: nothing is carried over it"),
            add_first(HOUSE, band, "the same, in the table"),
            list(HOUSE, high, "after a gap, 109 percent is no swell"),
            list(HOUSE, even(3, 500).lose(RUN + 4), "one lost sample makes both half-cycles unknown: no event"),
            add_first(HOUSE, even(3, 500).lose(RUN + 4), "the same, in the table"),
            list(HOUSE, even(4, 500).lose(0), "the first sample of all lost"),
            list(WIDE, even(4, 500).lose(47), "the last sample of all lost"),
            add_first(WIDE, even(6, 1000).lose(8).lose(70), "a gap at either end of a calm recording"),
        ],
    }
}
