//! Edges of a program that reads the samples once, a step of half a cycle at a time: the linear form, the swift one and the
//! proved library, held to the naive program. Each answer is compared, and all lent memory.
use oracle::recording::MISSING;
use oracle::site::{at, FULLEST};
use oracle::{fresh, plain, swift, Refused, Settings, Table, HALF, TABLE, WORDS};

const R: i32 = 1_000;

/// The sets of borders.
const SETS: [u64; 2] = [0, 1];

fn settings(n: u64) -> Settings {
    Settings { n, r: R as u64, f: 50, sag: 90, interruption: 10, swell: 110, hysteresis: 2 }
}

/// Goes over a recording and writes into a lent run.
type Runner = fn(&Settings, &[i32], &mut [u64]) -> Result<u64, Refused>;
type Adder = fn(&mut Table, &[i32]) -> Result<(), Refused>;

struct Program {
    name: &'static str,
    list: Runner,
    halves: Runner,
    add: Adder,
}

const PROGRAMS: [Program; 3] = [
    Program { name: "linear form", list: plain::list, halves: plain::halves, add: plain::add },
    Program { name: "swift form", list: swift::list, halves: swift::halves, add: swift::add },
    Program { name: "proved library", list: host::list, halves: host::halves, add: host::add },
];

/// What the naive program says to a list, having asked the others the same.
fn list(s: &Settings, samples: &[i32], room: usize, what: &str) -> Result<u64, Refused> {
    same(oracle::list, |program| program.list, s, samples, room, what)
}

/// The same for each half-cycle told.
fn halves(s: &Settings, samples: &[i32], room: usize, what: &str) -> Result<u64, Refused> {
    same(oracle::halves, |program| program.halves, s, samples, room, what)
}

fn same(
    naive: Runner,
    of: fn(&Program) -> Runner,
    s: &Settings,
    samples: &[i32],
    room: usize,
    what: &str,
) -> Result<u64, Refused> {
    let asked = |runner: Runner| {
        let mut memory = vec![77; room];
        (runner(s, samples, &mut memory), memory)
    };
    let expected = asked(naive);
    for program in &PROGRAMS {
        assert_eq!(asked(of(program)), expected, "{}, N {}, {what}", program.name, s.n);
    }
    expected.0
}

/// The same for a table.
fn add(table: &Table, samples: &[i32], what: &str) -> Result<(), Refused> {
    let asked = |add: Adder| {
        let mut grown = *table;
        (add(&mut grown, samples), grown)
    };
    let expected = asked(oracle::add);
    for program in &PROGRAMS {
        assert_eq!(asked(program.add), expected, "{}, N {}, {what}", program.name, table[0]);
    }
    expected.0
}

/// All three questions, with room enough and a fresh table for each set: the number of the refusal, or 0.
fn ask(s: &Settings, samples: &[i32], what: &str) -> u64 {
    let listed = list(s, samples, 400, what);
    assert_eq!(halves(s, samples, 400, what).err(), listed.err(), "N {}, {what}", s.n);
    for set in SETS {
        let added = add(&fresh(s, set).1, samples, &format!("{what}, set {set}"));
        assert_eq!(listed.err(), added.err(), "N {}, {what}, set {set}", s.n);
    }
    listed.map_or_else(|refused| refused.number, |_| 0)
}

/// Steps of half a cycle, each with its level for a, b and c.
fn steps(s: &Settings, levels: &[[i32; 3]]) -> Vec<i32> {
    levels.iter().flat_map(|level| level.repeat(s.n as usize / 2)).collect()
}

/// The same level on all channels.
fn equal(s: &Settings, levels: &[i32]) -> Vec<i32> {
    steps(s, &levels.iter().map(|&level| [level; 3]).collect::<Vec<_>>())
}

/// Steps of 4 to 16 sample times, so that any rest of a step is read too.
fn narrow() -> impl Iterator<Item = Settings> {
    (4..=16).map(|half| settings(2 * half))
}

#[test]
fn no_samples_and_odd_lengths() {
    for s in narrow() {
        let samples = equal(&s, &[R; 4]);
        for length in 0..=samples.len() {
            let refused = ask(&s, &samples[..length], &format!("{length} samples"));
            assert!(length > 0 || refused == 3);
        }
    }
}

#[test]
fn each_sample_is_read() {
    for s in narrow() {
        let samples = equal(&s, &[R, R, R / 2, R, R]);
        for index in 0..samples.len() {
            for value in [0, 100_000, -100_000, 100_001, -100_001, i32::MAX, -i32::MAX, MISSING] {
                let mut turned = samples.clone();
                turned[index] = value;
                let refused = ask(&s, &turned, &format!("{value} at {index}"));
                assert_eq!(refused == 6, value != MISSING && value.abs() > 100_000);
            }
        }
    }
}

/// Four missing samples, squared and added, are 2 to the power of 64: a sum that wraps round looks like a good one.
#[test]
fn missing_samples_do_not_cancel_out() {
    let s = settings(64);
    for first in 0..12 {
        for apart in [1, 3, 6, 12, 24] {
            let mut samples = equal(&s, &[R; 6]);
            for i in 0..4 {
                samples[2 * 96 + first + i * apart] = MISSING;
            }
            ask(&s, &samples, &format!("four missing from {first} on, {apart} apart"));
            let unknown = oracle::recording::halves(&s, &samples).iter().filter(|half| half.is_none()).count();
            assert_eq!(unknown, 2);
        }
    }
}

#[test]
fn a_gap_hides_no_bad_sample() {
    let s = settings(10);
    let samples = equal(&s, &[R, R, R / 2, R, R, R]);
    for gap in 0..samples.len() {
        for bad in (0..samples.len()).filter(|&bad| bad != gap) {
            let mut turned = samples.clone();
            (turned[gap], turned[bad]) = (MISSING, 100_001);
            assert_eq!(ask(&s, &turned, &format!("missing at {gap}, bad at {bad}")), 6);
        }
    }
    let mut two = samples;
    (two[40], two[71]) = (100_001, -100_001);
    assert_eq!(list(&s, &two, 0, "two bad ones"), Err(Refused { number: 6, place: 40 }));
}

/// All courses of six steps at these levels: events at either end, through the whole, side by side, cut by gaps.
#[test]
fn short_courses() {
    let s = settings(8);
    let levels = [R, R * 91 / 100, R / 2, 0, R * 6 / 5, MISSING];
    for course in 0..6_usize.pow(6) {
        let course = [0, 1, 2, 3, 4, 5].map(|step| levels[course / 6_usize.pow(step) % 6]);
        assert_eq!(ask(&s, &equal(&s, &course), &format!("{course:?}")), 0);
    }
}

/// A swell on a over sags on b, and sags that end in deeper ones: the order is by start, whichever ends first.
fn overlapping(s: &Settings) -> Vec<i32> {
    let (high, low) = (R * 6 / 5, R / 2);
    let within = [[high, R, R], [high, low, R], [high, R, R], [high, R, R], [high, low, R], [high, R, R], [high, R, R]];
    let deeper = [[R, low, R], [R, low, R], [0, 0, 0], [0, 0, 0], [low, low, R], [0, 0, 0], [0, 0, 0], [R, R, R]];
    let quiet = [[R, R, R]; 2];
    steps(s, &[&quiet, &within[..], &quiet, &deeper, &within, &deeper].concat())
}

#[test]
fn each_room() {
    for s in narrow() {
        let samples = overlapping(&s);
        let events = list(&s, &samples, 400, "room enough").unwrap();
        assert!(events >= 10, "{events} events");
        for room in 0..WORDS * events as usize {
            let refused = Refused { number: 7, place: events };
            assert_eq!(list(&s, &samples, room, &format!("room {room}")), Err(refused));
        }
        let mut bad = samples.clone();
        *bad.last_mut().unwrap() = 100_001;
        let refused = Refused { number: 6, place: bad.len() as u64 - 1 };
        assert_eq!(list(&s, &bad, 0, "a bad sample and no room"), Err(refused));
    }
}

/// From no room to two words more than enough. Whatever the room, a sample out of range is told first, the very last one too.
#[test]
fn each_room_for_half_cycles() {
    for s in narrow() {
        let mut samples = equal(&s, &[R, R, R / 2, R, R * 6 / 5, R]);
        samples[0] = MISSING;
        let mut bad = samples.clone();
        *bad.last_mut().unwrap() = 100_001;
        let (last, told) = (bad.len() as u64 - 1, 5);
        for room in 0..=HALF * told as usize + 2 {
            let short = (room < HALF * told as usize).then_some(Refused { number: 7, place: told });
            assert_eq!(halves(&s, &samples, room, &format!("room {room}")), short.map_or(Ok(told), Err));
            let refused = halves(&s, &bad, room, &format!("a bad sample and room {room}"));
            assert_eq!(refused, Err(Refused { number: 6, place: last }));
        }
    }
}

/// The longest recording, and one half-cycle more. Its last two half-cycles share a lower sample: what is told of them is at the
/// end of the run.
#[test]
fn the_longest_recording() {
    let s = settings(8);
    let mut samples = equal(&s, &[R; 100_001]);
    samples[99_999 * 12] = R / 2;
    let one_more = [&samples[..], &[R; 12]].concat();
    for Program { name, halves, .. } in &PROGRAMS {
        let mut run = vec![77; 500_001];
        assert_eq!(halves(&s, &one_more, &mut run), Err(Refused { number: 5, place: 0 }), "{name}");
        assert!(run.iter().all(|&word| word == 77), "{name} wrote in spite of a refusal");
        assert_eq!(halves(&s, &samples, &mut run), Ok(100_000), "{name}");
        let low = [1, 0, 7_250_000, 8_000_000, 8_000_000];
        assert_eq!(run[499_990..], [&low[..], &low, &[77]].concat(), "{name}");
    }
}

#[test]
fn tables_full_and_unsound() {
    let s = settings(8);
    let samples = overlapping(&s);
    let halves = oracle::recording::half_cycles(&s, &samples);
    let mut bad = samples.clone();
    bad[5] = 100_001;
    for (set, over) in SETS.into_iter().flat_map(|set| [(set, 0), (set, 1), (set, 2)]) {
        let mut table = fresh(&s, set).1;
        (table[at::TOTAL], table[at::HEALTHY]) = (FULLEST - halves + over, FULLEST - halves + over);
        let full = (over > 0).then_some(Refused { number: 8, place: halves - over });
        assert_eq!(add(&table, &samples, &format!("{over} too full")).err(), full);
        assert_eq!(add(&table, &bad, "bad and full"), Err(Refused { number: 6, place: 5 }));
    }
    for set in SETS {
        let mut grown = fresh(&s, set).1;
        oracle::add(&mut grown, &samples).unwrap();
        assert_eq!(add(&grown, &samples, "a table that has grown"), Ok(()));
        for word in (at::TOTAL..at::INTERRUPTIONS).chain(at::SHORTFALL..TABLE) {
            let mut unsound = grown;
            unsound[word] += 1;
            assert_unsound(&unsound, &bad, &format!("word {word}, set {set}"));
        }
    }
}

fn assert_unsound(table: &Table, samples: &[i32], what: &str) {
    assert_eq!(add(table, samples, what), Err(Refused { number: 9, place: 0 }), "{what}");
}

/// One sag, moved from cell to cell: those beyond the last of its set are unused. The place after the fortieth is the unplaced.
#[test]
fn a_sag_in_each_cell() {
    let s = settings(8);
    let samples = overlapping(&s);
    for (set, used) in SETS.into_iter().zip([40, 25]) {
        for cell in 0..=40 {
            let mut table = fresh(&s, set).1;
            for place in [at::TOTAL, at::HEALTHY, at::SAGS, at::CELLS + cell] {
                table[place] = 1;
            }
            let what = format!("a sag in cell {cell}, set {set}");
            if cell < used || at::CELLS + cell == at::UNPLACED {
                assert_eq!(add(&table, &samples, &what), Ok(()), "{what}");
            } else {
                assert_unsound(&table, &samples, &what);
            }
        }
    }
}

#[test]
fn tables_of_an_unknown_set() {
    let s = settings(8);
    let samples = overlapping(&s);
    let mut grown = fresh(&s, 1).1;
    oracle::add(&mut grown, &samples).unwrap();
    for set in (2..=300).chain([1 << 16, 1 << 32, (1 << 32) + 1, 1 << 63, u64::MAX]) {
        grown[at::SET] = set;
        assert_unsound(&grown, &samples, &format!("set {set}"));
    }
}
