//! The shortfall of each channel straight from the samples: whatever recordings a table has taken by either set of borders, its three
//! sums are what each channel lacks over every half-cycle that lies in a sag, with no use of the list. Held against the second program, its linear and
//! its swift form, and the proved library.
use oracle::compare::draw_recordings;
use oracle::recording::MISSING;
use oracle::site::at;
use oracle::{fresh, plain, straight, swift, Refused, Settings, Table};

const SETTINGS: Settings = Settings { n: 8, r: 1_000, f: 50, sag: 90, interruption: 10, swell: 110, hysteresis: 2 };

type Adder = fn(&mut Table, &[i32]) -> Result<(), Refused>;

const PROGRAMS: [(&str, Adder); 4] = [
    ("second program", oracle::add),
    ("linear form", plain::add),
    ("swift form", swift::add),
    ("proved library", host::add),
];

/// Steps of half a cycle, each with its level for a, b and c.
fn steps(levels: &[[i32; 3]]) -> Vec<i32> {
    levels.iter().flat_map(|level| level.repeat(4)).collect()
}

/// The straight sums of those recordings that are accepted, having held each program's table to them.
fn assert_straight(s: &Settings, recordings: &[Vec<i32>], what: &str) -> [u64; 3] {
    let accepted = recordings.iter().filter(|samples| oracle::recording::check(s, samples).is_ok());
    let sums = accepted
        .fold([0; 3], |sums: [u64; 3], samples| [0, 1, 2].map(|channel| sums[channel] + straight(s, samples, channel)));
    for (set, (program, add)) in PROGRAMS.into_iter().flat_map(|program| [(0, program), (1, program)]) {
        let mut table = fresh(s, set).1;
        for samples in recordings {
            // A refused recording leaves the table as it was.
            let _ = add(&mut table, samples);
        }
        assert_eq!(table[at::PARTS..], sums, "{program}, set {set}, {what}");
        assert_eq!(table[at::SHORTFALL], sums.iter().sum::<u64>(), "{program}, set {set}, {what}");
    }
    sums
}

/// Sequences of recordings. Among their sums are such as show an exchange of any two channels.
#[test]
fn any_sequence_of_recordings() {
    let mut unequal = [0; 3];
    for number in 0..3_000 {
        let (s, recordings) = draw_recordings(20_260, number);
        let [a, b, c] = assert_straight(&s, &recordings, &format!("sequence {number}"));
        for (count, differ) in unequal.iter_mut().zip([a != b, b != c, c != a]) {
            *count += u64::from(differ);
        }
    }
    assert!(unequal.iter().all(|&count| count > 1_500), "{unequal:?} of 3000");
}

/// Two steps between calm ones, each channel calm, in the band of the hysteresis, low or gone.
#[test]
fn each_channel_at_each_level() {
    let levels = [1000, 910, 500, 0];
    let level = |course: usize, place: u32| levels[course / 4_usize.pow(place) % 4];
    for course in 0..4_usize.pow(6) {
        let [first, second] = [0, 3].map(|from| [0, 1, 2].map(|channel| level(course, from + channel)));
        let samples = steps(&[[1000; 3], [1000; 3], first, second, [1000; 3], [1000; 3]]);
        assert_straight(&SETTINGS, &[samples], &format!("{first:?}, {second:?}"));
    }
}

/// By hand. A cycle at 500 lacks 3, 6 and 3 million over its three half-cycles, one at 600 lacks 2.56, 5.12 and 2.56. A lost sample
/// of the first low block leaves the last of the three half-cycles.
#[test]
fn three_recordings_by_hand() {
    let calm = [1000; 3];
    let dip = |low: [i32; 3]| steps(&[calm, calm, low, low, calm, calm]);
    let mut cut = dip([600, 1000, 500]);
    cut[2 * 12 + 1] = MISSING;
    let recordings = [dip([500, 1000, 1000]), dip([1000, 600, 500]), cut];
    let sums = assert_straight(&SETTINGS, &recordings, "by hand");
    assert_eq!(sums, [12_000_000 + 2_560_000, 10_240_000, 12_000_000 + 3_000_000]);
}
