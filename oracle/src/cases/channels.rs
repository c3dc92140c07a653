//! Unequal channels: which of them begin, keep and end an event of each kind, where its extreme is, and events of different
//! kinds at once.
use super::recording::{amid, even, uneven};
use super::{add_first, list, Section, HOUSE, WIDE};

pub fn sags() -> Section {
    let one_by_one = amid(uneven(1, 500, 600, 700) + uneven(1, 1000, 600, 700) + uneven(1, 1000, 1000, 700));
    Section {
        name: "sags",
        about: "sags on unequal channels",
        cases: vec![
            list(
                HOUSE,
                amid(uneven(1, 500, 1000, 1000) + uneven(2, 1000, 915, 1000)),
                "a sag begun by channel a goes on while b alone is below sag threshold plus hysteresis, the others back",
            ),
            list(
                HOUSE,
                amid(uneven(1, 1000, 500, 1000) + uneven(2, 1000, 1000, 915)),
                "begun by channel b, kept by c",
            ),
            list(
                HOUSE,
                amid(uneven(1, 1000, 1000, 500) + uneven(2, 915, 1000, 1000)),
                "begun by channel c, kept by a",
            ),
            list(
                WIDE,
                amid(uneven(1, 1000, 300, 1000) + uneven(2, 1000, 840, 1000) + uneven(1, 1000, 1000, 1100)),
                "hysteresis 5: channel b keeps its own sag at 84 percent, and a surplus of c is no shortfall taken away",
            ),
            list(HOUSE, one_by_one.clone(), "a sag ends only when all are back: a first, then b, last c"),
            add_first(HOUSE, one_by_one, "the same, in the table"),
            list(
                HOUSE,
                amid(uneven(1, 500, 600, 700) + uneven(1, 500, 600, 1000) + uneven(1, 500, 1000, 1000)),
                "c first, then b, last a",
            ),
            list(
                HOUSE,
                amid(uneven(2, 700, 1000, 1000) + uneven(2, 700, 300, 1000) + uneven(1, 700, 1000, 1000)),
                "the extreme is channel b's, and a later half-cycle's than the first",
            ),
            list(
                HOUSE,
                amid(uneven(2, 700, 1000, 1000) + uneven(2, 1000, 800, 200)),
                "the extreme is channel c's, in the last half-cycles",
            ),
            list(
                HOUSE,
                amid(uneven(1, 700, 1000, 1000) + even(2, 1000) + uneven(1, 1000, 1000, 700)),
                "two sags, on a and on c, with one calm half-cycle between",
            ),
        ],
    }
}

pub fn interruptions() -> Section {
    let twice = amid(even(2, 0) + uneven(2, 0, 500, 0) + even(2, 0));
    Section {
        name: "interruptions",
        about: "interruptions on unequal channels",
        cases: vec![
            list(HOUSE, amid(uneven(2, 0, 1000, 1000)), "one channel below the threshold is no interruption"),
            list(HOUSE, amid(uneven(2, 0, 0, 1000)), "nor are two, with c up"),
            list(HOUSE, amid(uneven(2, 0, 1000, 0)), "nor are two, with b up"),
            list(HOUSE, amid(uneven(2, 1000, 0, 0)), "nor are two, with a up"),
            list(HOUSE, amid(uneven(2, 50, 60, 70)), "all three are one, its extreme the smallest: a's"),
            list(HOUSE, amid(uneven(2, 60, 50, 70)), "b's"),
            list(HOUSE, amid(uneven(2, 70, 60, 50)), "c's"),
            list(
                HOUSE,
                amid(uneven(1, 90, 80, 85) + uneven(2, 85, 90, 30) + uneven(1, 80, 70, 90)),
                "the smallest over all half-cycles: the extreme is channel c's, in the middle",
            ),
            list(HOUSE, amid(even(2, 0) + uneven(2, 500, 0, 0)), "it ends when a is back, b and c still down"),
            list(HOUSE, twice.clone(), "it ends when b is back, a and c still down; a second one in the same sag"),
            list(HOUSE, amid(even(2, 0) + uneven(2, 0, 0, 130)), "it ends when c is back, a and b still down"),
            list(
                HOUSE,
                amid(even(2, 0) + uneven(2, 0, 110, 119) + even(1, 0)),
                "channels above the threshold and below threshold plus hysteresis do not end it",
            ),
            add_first(HOUSE, twice, "two interruptions in one sag, in the table"),
        ],
    }
}

pub fn swells() -> Section {
    Section {
        name: "swells",
        about: "swells on unequal channels",
        cases: vec![
            list(
                HOUSE,
                amid(uneven(1, 1300, 1000, 1000) + uneven(2, 1000, 1090, 1000)),
                "a swell begun by channel a goes on while b alone is above swell threshold minus hysteresis",
            ),
            list(
                HOUSE,
                amid(uneven(1, 1000, 1300, 1000) + uneven(2, 1000, 1000, 1090)),
                "begun by channel b, kept by c",
            ),
            list(
                HOUSE,
                amid(uneven(1, 1000, 1000, 1300) + uneven(2, 1090, 1000, 1000)),
                "begun by channel c, kept by a",
            ),
            list(
                HOUSE,
                amid(uneven(1, 1500, 1400, 1300) + uneven(1, 1000, 1400, 1300) + uneven(1, 1000, 1000, 1300)),
                "it ends only when all are back: a first, then b, last c",
            ),
            list(
                HOUSE,
                amid(uneven(2, 1200, 1150, 1150) + uneven(2, 1150, 1150, 1250) + uneven(1, 1150, 1220, 1150)),
                "the extreme is the largest over channels and half-cycles: c's, in the middle",
            ),
            list(HOUSE, amid(uneven(2, 1100, 1250, 1200)), "channel b's"),
            add_first(
                WIDE,
                amid(uneven(1, 1600, 1000, 1000) + uneven(2, 1000, 1160, 1000)),
                "hysteresis 5: channel b keeps the swell at 116 percent; in the table",
            ),
        ],
    }
}

pub fn overlaps() -> Section {
    // 1280 beside 0 makes 90.5 percent: no sag, and the half-cycle after it is a sag and an interruption at once.
    let fall = even(2, 1000) + even(1, 1280) + even(3, 0) + even(2, 1000);
    let apart = amid(uneven(1, 1300, 1000, 1000) + uneven(2, 1300, 500, 1000) + uneven(1, 1300, 1000, 1000));
    let lap = amid(uneven(2, 1000, 500, 1000) + uneven(1, 1000, 500, 1300) + uneven(2, 1000, 1000, 1300));
    let rise = even(2, 1000) + even(2, 0) + uneven(2, 0, 0, 1500) + even(2, 1000);
    Section {
        name: "overlaps",
        about: "events of different kinds at once: by start, then kind",
        cases: vec![
            list(HOUSE, even(3, 0), "a sag and an interruption from end to end of the recording"),
            list(HOUSE, even(3, 0) + even(2, 1000), "a sag and an interruption both begin the recording"),
            list(HOUSE, fall.clone(), "a sag and an interruption start at one half-cycle, after a swell"),
            add_first(HOUSE, fall, "the same, in the table"),
            list(HOUSE, amid(uneven(2, 1200, 500, 1000)), "a sag and a swell start and end together: the sag is first"),
            list(HOUSE, apart.clone(), "a sag starts and ends within a swell: the swell is first"),
            add_first(HOUSE, apart, "the same, in the table: each half-cycle is counted once"),
            list(HOUSE, lap.clone(), "a swell starts in a sag and outlasts it"),
            add_first(HOUSE, lap, "the same, in the table"),
            list(HOUSE, rise.clone(), "a sag with an interruption and a swell in it"),
            add_first(HOUSE, rise, "the same, in the table"),
        ],
    }
}
