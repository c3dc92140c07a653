//! The known answers, through CSV, through raw files and through standard input, in the list and in the table.
mod common;
use common::{blocks, csv, listed, raw, Folder, KNOWN, MISSING};

/// A known answer: the recording; each event's eleven numbers, reason and cells by the one set of borders and the other, with its
/// severity and energy; total, healthy, disturbed and unknown half-cycles.
struct Known {
    name: &'static str,
    samples: Vec<i32>,
    events: Vec<([u64; 14], &'static str)>,
    halves: [u64; 4],
}

/// The sets of borders: the word, the place of its cell in an event, how many cells it has, which is the cell of what has none.
const SETS: [(&str, usize, u64); 2] = [("unipede", 12, 40), ("4-11", 13, 25)];

fn known(name: &'static str, samples: Vec<i32>, events: &[([u64; 14], &'static str)], halves: [u64; 4]) -> Known {
    Known { name, samples, events: events.to_vec(), halves }
}

/// K9: one sample of the fifth block is missing.
fn gap() -> Vec<i32> {
    let mut samples = blocks(&[1000, 1000, 500, 500, 500, 500, 1000, 1000]);
    samples[4 * 12 + 7] = MISSING;
    samples
}

/// K12: channel a alone drops.
fn one_channel() -> Vec<i32> {
    let mut samples = blocks(&[1000; 6]);
    samples[24..48].iter_mut().step_by(3).for_each(|a| *a = 500);
    samples
}

/// The shortfalls of the channels, by hand. N x R x R is 8,000,000, and a channel's sum counts where it is below 6,480,000, the 90
/// percent. A half-cycle over two blocks at x and y has 4xx + 4yy: over 1000 and 500 that is 5,000,000 and 3,000,000 short, over
/// 500 and 500 2,000,000 and 6,000,000 short.
/// K2 has one such half-cycle, then one of the other, then the first again, on each channel: 3 + 6 + 3 millions. K12 has them on a
/// alone, and b and c are never below.
/// K4 and K5 have one half-cycle below, at 899: 8 x 808,201 = 6,465,608, so 1,534,392 short on each. In K5 the next, over 899
/// and 919, has 6,611,048, which is above: the hysteresis band counts for no channel.
/// K6 has 4,000,000 short, 8,000,000 and 4,000,000 again on each.
/// K7 over 1000 and 100 has 4,040,000, over 100 and 101 80,804, over 101 and 1000 4,040,804: 3,960,000 + 7,919,196 + 3,959,196.
/// K8 begins with the 6 and the 3 millions. K9 has 3 and 6 before the gap, and after it the 3 of the half-cycle over 500 and 1000.
/// K11 is the one half-cycle of 6 millions.
///
/// The cells by 4-11, by hand. A row has five: below 2 half-cycles, below 20 (5h < 100), below 50, below 500, the rest. K2, K5, K6,
/// K7 and K12 last 3 or 4 and are in column 1, K4 lasts 1 and is in column 0. K2 and K12 at 50 percent are in row 2, K4 and K5
/// at 89.9 in row 4, K6 in row 0, K7 at 10.05 in row 1.
#[rustfmt::skip]
fn cases() -> Vec<Known> {
    vec![
        known("k1", blocks(&[1000; 6]), &[], [5, 5, 0, 0]),
        known("k2", blocks(&[1000, 1000, 500, 500, 1000, 1000]),
            &[([1, 1, 4, 3, 2000000, 500, 36000000, 0, 12000000, 12000000, 12000000, 0, 17, 11], "1 0.045")], [5, 2, 3, 0]),
        known("k3", blocks(&[900; 6]), &[], [5, 5, 0, 0]),
        known("k4", blocks(&[1000, 1000, 899, 899, 1000, 1000]),
            &[([1, 2, 3, 3, 6465608, 899, 4603176, 0, 1534392, 1534392, 1534392, 0, 32, 20], "0.101 0.005")], [5, 4, 1, 0]),
        known("k5", blocks(&[1000, 899, 899, 919, 919, 920, 920]),
            &[([1, 1, 5, 3, 6465608, 899, 4603176, 0, 1534392, 1534392, 1534392, 0, 33, 21], "0.202 0.005")], [6, 2, 4, 0]),
        known("k6", blocks(&[1000, 1000, 0, 0, 1000, 1000]),
            &[([1, 1, 4, 3, 0, 0, 48000000, 0, 16000000, 16000000, 16000000, 0, 1, 1], "2 0.06"),
              ([2, 2, 3, 3, 0, 0, 0, 0, 0, 0, 0, 4, 40, 25], " ")], [5, 2, 3, 0]),
        known("k7", blocks(&[1000, 1000, 100, 101, 1000, 1000]),
            &[([1, 1, 4, 3, 80804, 101, 47515176, 0, 15838392, 15838392, 15838392, 0, 9, 6], "1.798 0.059")], [5, 2, 3, 0]),
        known("k8", blocks(&[500, 500, 1000, 1000]),
            &[([1, 0, 2, 2, 2000000, 500, 27000000, 0, 9000000, 9000000, 9000000, 1, 40, 25], " ")], [3, 1, 2, 0]),
        known("k9", gap(),
            &[([1, 1, 3, 1, 2000000, 500, 27000000, 0, 9000000, 9000000, 9000000, 2, 40, 25], " "),
              ([1, 5, 6, 2, 5000000, 791, 9000000, 0, 3000000, 3000000, 3000000, 1, 40, 25], " ")],
            [7, 2, 3, 2]),
        known("k10", blocks(&[1000, 1000, 1200, 1200, 1000, 1000]),
            &[([3, 1, 4, 3, 11520000, 1200, 0, 0, 0, 0, 0, 4, 40, 25], " ")], [5, 2, 3, 0]),
        known("k11", blocks(&[500, 500]),
            &[([1, 0, 1, 0, 2000000, 500, 18000000, 0, 6000000, 6000000, 6000000, 3, 40, 25], " ")], [1, 0, 1, 0]),
        known("k12", one_channel(),
            &[([1, 1, 4, 3, 2000000, 500, 12000000, 4, 12000000, 0, 0, 0, 17, 11], "1 0.015")], [5, 2, 3, 0]),
    ]
}

/// What a list has of a known answer, with the cell that stands at that place.
fn wanted(case: &Known, cell: usize) -> Vec<(Vec<u64>, String)> {
    let event = |e: &[u64; 14]| e[..12].iter().chain([&e[cell]]).copied().collect();
    case.events.iter().map(|(e, score)| (event(e), score.to_string())).collect()
}

#[test]
fn lists_through_csv() {
    let folder = Folder::new("known-csv");
    for case in cases() {
        folder.write("k.csv", csv(&case.samples));
        assert_eq!(folder.events("k.csv", &[]), wanted(&case, 12), "{}", case.name);
        for (word, cell, _) in SETS {
            assert_eq!(folder.events("k.csv", &["--borders", word]), wanted(&case, cell), "{}, {word}", case.name);
        }
    }
}

#[test]
fn lists_through_raw_files() {
    let folder = Folder::new("known-raw");
    for case in cases() {
        folder.write("k.i32", raw(&case.samples));
        assert_eq!(folder.events("k.i32", &[]), wanted(&case, 12), "{}", case.name);
    }
}

#[test]
fn lists_through_standard_input() {
    let folder = Folder::new("known-stdin");
    for case in cases() {
        let args = [&["list", "-", "--csv"][..], &KNOWN].concat();
        let ran = folder.run_with(&args, csv(&case.samples).as_bytes());
        assert_eq!((ran.status, listed(&ran.out)), (0, wanted(&case, 12)), "{}", case.name);
        let ran = folder.run_with(&[&args[..], &["--raw"]].concat(), &raw(&case.samples));
        assert_eq!((ran.status, listed(&ran.out)), (0, wanted(&case, 12)), "{}, raw", case.name);
    }
}

/// The table that a recording makes of a fresh one follows from its events: sags with a score are in their cells, other
/// sags are unplaced. Nothing but the cells goes by the set of borders.
#[test]
fn tables() {
    let folder = Folder::new("known-tables");
    for (case, (word, at_cell, cells)) in cases().iter().flat_map(|case| SETS.map(|set| (case, set))) {
        let site = format!("{}-{word}.site", case.name);
        folder.accepted(&[&["new", &site, "--borders", word][..], &KNOWN].concat());
        folder.write("k.csv", csv(&case.samples));
        folder.accepted(&["add", &site, "k.csv"]);
        for (name, count) in ["total", "healthy", "disturbed", "unknown"].iter().zip(case.halves) {
            assert_eq!(folder.counted(&site, name), count, "{site}: {name}");
        }
        let of = |kind: u64| case.events.iter().filter(|(e, _)| e[0] == kind).count() as u64;
        for (name, kind) in [("sags", 1), ("interruptions", 2), ("swells", 3)] {
            assert_eq!(folder.counted(&site, name), of(kind), "{site}: {name}");
        }
        let cell = |cell: u64| case.events.iter().filter(|(e, _)| e[at_cell] == cell).count() as u64;
        let told = folder.accepted(&["show", &site, "--csv"]);
        for at in 0..cells {
            assert!(told.contains(&format!("\ncell-{at},{}\n", cell(at))), "{site}: cell {at}: {told}");
        }
        assert_eq!(told.matches("\ncell-").count() as u64, cells, "{site}: {told}");
        let unplaced = case.events.iter().filter(|(e, _)| e[0] == 1 && e[at_cell] == cells).count() as u64;
        assert_eq!(folder.counted(&site, "unplaced"), unplaced, "{site}");
        for (name, at) in [("shortfall", 6), ("shortfall-a", 8), ("shortfall-b", 9), ("shortfall-c", 10)] {
            let sum: u64 = case.events.iter().map(|(e, _)| e[at]).sum();
            assert_eq!(folder.counted(&site, name), sum, "{site}: {name}");
        }
    }
}

/// All twelve, one after another, in one table.
#[test]
fn one_table_of_all() {
    let folder = Folder::new("known-all");
    let mut files = Vec::new();
    for case in cases() {
        files.push(format!("{}.i32", case.name));
        folder.write(files.last().unwrap(), raw(&case.samples));
    }
    let files: Vec<&str> = files.iter().map(String::as_str).collect();
    let wanted = [
        ("total", 57),
        ("healthy", 29),
        ("disturbed", 26),
        ("unknown", 2),
        ("sags", 10),
        ("unplaced", 4),
        ("interruptions", 1),
        ("swells", 1),
        // All but K12's are a third on each channel: b and c have 12 + 1.534392 x 2 + 16 + 15.838392 + 9 + 9 + 3 + 6 millions.
        ("shortfall", 233_721_528),
        ("shortfall-a", 85_907_176),
        ("shortfall-b", 73_907_176),
        ("shortfall-c", 73_907_176),
    ];
    let cells = [
        [("cell-17", 2), ("cell-9", 1), ("cell-1", 1), ("cell-32", 1), ("cell-33", 1)],
        [("cell-11", 2), ("cell-6", 1), ("cell-1", 1), ("cell-20", 1), ("cell-21", 1)],
    ];
    for ((word, ..), cells) in SETS.iter().zip(cells) {
        folder.accepted(&[&["new", word, "--borders", word][..], &KNOWN].concat());
        folder.accepted(&[&["add", word][..], &files].concat());
        for (name, count) in wanted.iter().chain(&cells) {
            assert_eq!(folder.counted(word, name), *count, "{word}: {name}");
        }
    }
}
