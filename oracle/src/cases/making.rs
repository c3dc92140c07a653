//! Settings: both ends of each range, and the first of several that are bad. A fresh table tells both.
use super::{fresh, Section, HOUSE};
use crate::Settings;

pub fn section() -> Section {
    let lowest = Settings { n: 8, r: 1_000, f: 50, sag: 50, interruption: 1, swell: 105, hysteresis: 0 };
    let highest = Settings { n: 512, r: 50_000, f: 60, sag: 95, interruption: 20, swell: 150, hysteresis: 5 };
    let outside = [
        (Settings { n: 7, ..lowest }, "N 7"),
        (Settings { n: 6, ..lowest }, "N 6, even"),
        (Settings { n: 9, ..HOUSE }, "N 9, odd"),
        (Settings { n: 511, ..HOUSE }, "N 511, odd"),
        (Settings { n: 513, ..highest }, "N 513"),
        (Settings { n: 514, ..highest }, "N 514, even"),
        (Settings { n: 0, ..HOUSE }, "N 0"),
        (Settings { r: 999, ..lowest }, "R 999"),
        (Settings { r: 50_001, ..highest }, "R 50,001"),
        (Settings { f: 49, ..HOUSE }, "f 49"),
        (Settings { f: 51, ..HOUSE }, "f 51"),
        (Settings { f: 55, ..HOUSE }, "f 55"),
        (Settings { f: 59, ..HOUSE }, "f 59"),
        (Settings { f: 61, ..HOUSE }, "f 61"),
        (Settings { sag: 49, ..lowest }, "sag threshold 49"),
        (Settings { sag: 96, ..highest }, "sag threshold 96"),
        (Settings { interruption: 0, ..lowest }, "interruption threshold 0"),
        (Settings { interruption: 21, ..highest }, "interruption threshold 21"),
        (Settings { swell: 104, ..lowest }, "swell threshold 104"),
        (Settings { swell: 151, ..highest }, "swell threshold 151"),
        (Settings { hysteresis: 6, ..highest }, "hysteresis 6"),
        (Settings { n: 513, r: 999, ..HOUSE }, "N and R bad: the first is told"),
        (Settings { r: 50_001, f: 55, ..HOUSE }, "R and f bad"),
        (Settings { r: 999, hysteresis: 6, ..HOUSE }, "R and hysteresis bad"),
        (Settings { f: 55, sag: 96, ..HOUSE }, "f and sag threshold bad"),
        (Settings { sag: 49, interruption: 21, ..HOUSE }, "sag and interruption threshold bad"),
        (Settings { interruption: 0, swell: 104, ..HOUSE }, "interruption and swell threshold bad"),
        (Settings { swell: 151, hysteresis: 6, ..HOUSE }, "swell threshold and hysteresis bad"),
        (Settings { n: 0, r: 0, f: 0, sag: 0, interruption: 0, swell: 0, hysteresis: 9 }, "all bad"),
    ];
    let mut cases = vec![
        fresh(lowest, "each setting at the lower end of its range: a fresh table"),
        fresh(highest, "each at the upper end"),
        fresh(Settings { n: 10, sag: 51, ..HOUSE }, "within"),
    ];
    cases.extend(outside.map(|(settings, words)| fresh(settings, words)));
    Section { name: "making", about: "fresh tables; where a setting is bad, zeros", cases }
}
