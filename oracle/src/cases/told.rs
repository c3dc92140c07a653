//! Each half-cycle told: its class, the kinds it lies in and its three sums, and what is turned away.
use super::recording::{alike, amid, even, four_squares, loose, one_channel, sines, uneven};
use super::{halves, halves_into, Section, HIGH, HOUSE, SHARP, TEN, WIDE};
use crate::Settings;

/// Samples in one block of the run.
const RUN: usize = 12;

pub fn classes() -> Section {
    let over = uneven(2, 1000, 500, 1000) + uneven(1, 1000, 500, 1300) + uneven(2, 1000, 1000, 1300);
    Section {
        name: "told_classes",
        about: "each half-cycle told: its class, the kinds it lies in, and S of a, b and c",
        cases: vec![
            halves(HOUSE, uneven(2, 990, 1000, 1010), "a healthy half-cycle: 1, no kind, and each channel's own sum"),
            halves(HOUSE, uneven(2, 700, 1000, 1050), "a sag: 2, and 1 for its kind"),
            halves(HOUSE, even(2, 0), "an interruption within a sag: 3 for both kinds, and sums that are 0"),
            halves(HOUSE, uneven(2, 1000, 1200, 1300), "a swell: 4"),
            halves(HOUSE, uneven(2, 1300, 500, 1000), "a sag on b and a swell on a: 5"),
            halves(HOUSE, amid(uneven(2, 300, 500, 700)), "a sag of three half-cycles between healthy ones"),
            halves(HOUSE, even(1, 1280) + even(2, 0), "a sag and an interruption begin at one half-cycle"),
            halves(HOUSE, over, "a swell begins within a sag and outlasts it: 1, then 5, then 4"),
        ],
    }
}

pub fn bands() -> Section {
    let kept = |first: i32, band: i32| even(1, first) + even(2, band) + even(1, 1000);
    Section {
        name: "told_bands",
        about: "half-cycles within the hysteresis: in an event only where one goes on",
        cases: vec![
            halves(HOUSE, kept(500, 910), "91 percent after 50: still in the sag"),
            halves(HOUSE, even(2, 910), "91 percent alone: healthy"),
            halves(HOUSE, even(1, 500) + even(2, 920), "92 percent after 50: the sag is over"),
            halves(SHARP, even(1, 500) + even(2, 900), "hysteresis 0: it is over at 90 percent"),
            halves(HOUSE, kept(1500, 1090), "109 percent after 150: still in the swell"),
            halves(HOUSE, even(2, 0) + even(2, 110), "11 percent after none: still in the interruption"),
            halves(HOUSE, even(2, 110), "11 percent alone: a sag only"),
            halves(HOUSE, even(2, 0) + uneven(2, 0, 0, 120), "12 percent on c alone: the interruption is over"),
        ],
    }
}

pub fn marks() -> Section {
    let beside = |channel: usize, level: i32, by: i32, others: i32| {
        let moved = one_channel(channel, four_squares(4 * level * level + by), others);
        moved + one_channel(channel, [level; 4], others)
    };
    Section {
        name: "told_marks",
        about: "half-cycles on a mark and one unit of S beside it, and the largest sum",
        cases: vec![
            halves(HOUSE, beside(0, 900, -1, 1000), "a one unit below the sag threshold: a sag"),
            halves(HOUSE, uneven(2, 900, 1000, 1000), "on it: healthy"),
            halves(HOUSE, beside(1, 100, -1, 0), "b one unit below the interruption threshold: an interruption"),
            halves(HOUSE, uneven(2, 0, 100, 0), "on it: a sag only"),
            halves(HOUSE, beside(2, 1100, 1, 1000), "c one unit above the swell threshold: a swell"),
            halves(HOUSE, uneven(2, 1000, 1000, 1100), "on it: healthy"),
            halves(WIDE, uneven(2, 790, 1000, 1210), "thresholds 80 and 120: a sag on a, a swell on c"),
            halves(TEN, alike(15, 300, 1001, 1002), "N 10: ten squares in each sum"),
            halves(HOUSE, sines(500, 1000, 1300), "sines: samples of either sign"),
            halves(HIGH, uneven(2, 100_000, 50_000, 0), "the largest sum"),
        ],
    }
}

pub fn gaps() -> Section {
    Section {
        name: "told_gaps",
        about: "unknown half-cycles: 3, no kind, and sums of 0",
        cases: vec![
            halves(HOUSE, even(4, 1000).lose(0).lose(47), "the first sample of all lost, and the last"),
            halves(HOUSE, even(3, 500).lose(RUN + 4), "one in the middle of three blocks: both half-cycles unknown"),
            halves(HOUSE, even(5, 500).lose(2 * RUN + 2), "in the middle of a sag: on either side it is one"),
            halves(HOUSE, even(5, 0).lose(2 * RUN), "of an interruption: there, too, and sums of 0 everywhere"),
            halves(
                HOUSE,
                (even(1, 500) + even(4, 910)).lose(2 * RUN + 5),
                "after a gap, 91 percent is healthy: nothing is carried over it",
            ),
            halves(HOUSE, (even(2, 0) + even(3, 110)).lose(2 * RUN + 11), "and 11 percent is a sag only"),
        ],
    }
}

pub fn refused() -> Section {
    let bad = Settings { f: 55, hysteresis: 6, ..HOUSE };
    let dip = || amid(even(2, 500));
    let wild = |samples: usize| alike(samples, 1000, 1000, 1000).put(0, 100_001);
    Section {
        name: "told_refused",
        about: "half-cycles that are not told, how far the lent run is written, and the order of refusals",
        cases: vec![
            halves_into(5, HOUSE, even(2, 500), "one half-cycle, room 5: all of it written"),
            halves_into(4, HOUSE, even(2, 500), "room 4: 7, at the number of half-cycles"),
            halves_into(0, HOUSE, even(2, 1000), "no room, and no event either: 7 all the same"),
            halves_into(24, HOUSE, dip(), "room 24 for five half-cycles"),
            halves_into(28, HOUSE, dip(), "room 28: the last three numbers stay"),
            halves_into(5, HOUSE, dip(), "room for one number of each"),
            halves_into(11, HOUSE, dip(), "room for the one event of its list"),
            halves_into(25, bad, dip().put(71, 100_001), "f 55, hysteresis 6, a sample out of range: 1, at f"),
            halves_into(3, HOUSE, loose(&[100_001, 1000, 1000, 1000]), "length 4, a sample out of range: 2"),
            halves_into(3, HOUSE, wild(7), "7 samples per channel, one out of range: 3"),
            halves_into(3, HOUSE, wild(9), "9 samples per channel, one out of range: 4"),
            halves_into(25, HOUSE, dip().put(71, 100_001), "the last sample out of range: 6, and nothing written"),
            halves_into(0, HOUSE, dip().put(71, -100_001), "the same and no room: 6 before 7"),
            halves_into(25, HOUSE, dip().lose(3).put(40, i32::MAX).put(9, -100_001), "two, after a gap: the first"),
        ],
    }
}
