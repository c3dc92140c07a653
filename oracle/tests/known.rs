//! The known answers K1 to K12 of the rules by both sets of borders and half-cycle by half-cycle, sags on both sides of the curve's
//! last step and of each border of set 1, each retained value at both of its ends, and shortfalls of a, b and c that add up or don't,
//! held against the second program, its linear and its swift form, and the proved library.
use oracle::recording::MISSING;
use oracle::score::{first_sum, sum_at};
use oracle::site::at;
use oracle::{Event, Refused, Score, Settings, Table, HALF, TABLE, WORDS};

const SETTINGS: Settings = Settings { n: 8, r: 1_000, f: 50, sag: 90, interruption: 10, swell: 110, hysteresis: 2 };

/// Blocks of four equal samples, the channels equal.
fn blocks(levels: &[i32]) -> Vec<i32> {
    levels.iter().flat_map(|&level| [level; 12]).collect()
}

/// 1000 1000 v v 1000 1000, with a v for each channel.
fn dip(levels: [i32; 3]) -> Vec<i32> {
    let calm = blocks(&[1000, 1000]);
    [&calm[..], &levels.repeat(8), &calm].concat()
}

type Lister = fn(&Settings, &[i32], &mut [u64]) -> Result<u64, Refused>;
type Adder = fn(&mut Table, &[i32]) -> Result<(), Refused>;
type Reasoner = fn(&Settings, u64, &Event) -> u64;

const PROGRAMS: [(&str, Lister, Adder); 4] = [
    ("second program", oracle::list, oracle::add),
    ("linear form", oracle::plain::list, oracle::plain::add),
    ("swift form", oracle::swift::list, oracle::swift::add),
    ("proved library", host::list, host::add),
];

/// The whole list, and nothing written beyond it.
fn assert_listed(samples: &[i32], events: &[Event]) {
    for (program, list, _) in PROGRAMS {
        let mut room = [77; 40];
        assert_eq!(list(&SETTINGS, samples, &mut room), Ok(events.len() as u64), "{program}");
        assert_eq!(room[..WORDS * events.len()], events.concat(), "{program}");
        assert!(room[WORDS * events.len()..].iter().all(|&word| word == 77), "{program} wrote beyond the last event");
    }
}

/// The same programs, each half-cycle told.
const TELLERS: [(&str, Lister); 4] = [
    ("second program", oracle::halves),
    ("linear form", oracle::plain::halves),
    ("swift form", oracle::swift::halves),
    ("proved library", host::halves),
];

/// A half-cycle's numbers where the channels are equal: class, kinds, and S of each.
fn even(class: u64, kinds: u64, sum: u64) -> [u64; HALF] {
    [class, kinds, sum, sum, sum]
}

/// At the reference, and in no event.
const CALM: [u64; HALF] = [1, 0, 8_000_000, 8_000_000, 8_000_000];

/// With a sample missing.
const UNKNOWN: [u64; HALF] = [3, 0, 0, 0, 0];

/// Each half-cycle, and nothing written beyond the last.
fn assert_told(samples: &[i32], halves: &[[u64; HALF]]) {
    for (program, tell) in TELLERS {
        let mut room = [77; 40];
        assert_eq!(tell(&SETTINGS, samples, &mut room), Ok(halves.len() as u64), "{program}");
        assert_eq!(room[..HALF * halves.len()], halves.concat(), "{program}");
        assert!(
            room[HALF * halves.len()..].iter().all(|&word| word == 77),
            "{program} wrote beyond the last half-cycle"
        );
    }
}

/// What the second program and the proved library say of an event: its score, the reason, and its cell.
fn judged(s: &Settings, set: u64, event: &Event) -> [(Result<Score, u64>, u64, u64); 2] {
    [
        (oracle::score(s, set, event), oracle::reason(s, set, event), oracle::cell(s, set, event)),
        (host::score(s, set, event), host::reason(s, set, event), host::cell(s, set, event)),
    ]
}

/// Cells by set 0 and by set 1, severity and energy of a sag, its energy in milliseconds.
fn assert_scored(event: Event, cells: [u64; 2], severity: f64, milliseconds: f64) {
    assert_scored_under(&SETTINGS, event, cells, severity, milliseconds);
}

fn assert_scored_under(s: &Settings, event: Event, cells: [u64; 2], severity: f64, milliseconds: f64) {
    let score = Score { severity, energy: milliseconds / 1000.0 };
    for (set, cell) in (0..).zip(cells) {
        assert_eq!(judged(s, set, &event), [(Ok(score), 0, cell); 2], "set {set}");
    }
}

fn assert_not_scored(event: Event, why: u64) {
    assert_not_scored_under(&SETTINGS, event, why);
}

fn assert_not_scored_under(s: &Settings, event: Event, why: u64) {
    for (set, cell) in [(0, 40), (1, 25)] {
        assert_eq!(judged(s, set, &event), [(Err(why), why, cell); 2], "set {set}");
    }
}

/// Where a table has its shortfalls, with what they are: that of all three channels, and that of each.
fn shortfalls(whole: u64, [a, b, c]: [u64; 3]) -> [(usize, u64); 4] {
    [(at::SHORTFALL, whole), (at::PARTS, a), (at::PARTS + 1, b), (at::PARTS + 2, c)]
}

/// Where a sag is counted, by set 0 and by set 1: in these cells, or in none.
type Placed = [usize; 2];

fn in_cells(cells: [usize; 2]) -> Placed {
    cells.map(|cell| at::CELLS + cell)
}

const UNPLACED: Placed = [at::UNPLACED; 2];

/// What a fresh table for each set holds after the recording: healthy, disturbed and unknown, its sags, then each word named by its
/// place.
fn assert_added(samples: &[i32], halves: [u64; 3], sags: &[Placed], others: &[(usize, u64)]) {
    for set in [0, 1] {
        let mut expected = [0; TABLE];
        expected[..=at::SET].copy_from_slice(&[8, 1_000, 50, 90, 10, 110, 2, set as u64]);
        expected[at::TOTAL] = halves.iter().sum();
        expected[at::HEALTHY..=at::UNKNOWN].copy_from_slice(&halves);
        expected[at::SAGS] = sags.len() as u64;
        sags.iter().for_each(|places| expected[places[set]] += 1);
        others.iter().for_each(|&(place, count)| expected[place] = count);
        for (program, _, add) in PROGRAMS {
            let mut table = host::fresh(&SETTINGS, set as u64).1;
            assert_eq!(add(&mut table, samples), Ok(()), "{program}, set {set}");
            assert_eq!(table, expected, "{program}, set {set}");
        }
    }
}

#[test]
fn k1_a_quiet_recording_has_no_event() {
    let samples = blocks(&[1000; 6]);
    assert_listed(&samples, &[]);
    assert_added(&samples, [5, 0, 0], &[], &[]);
    assert_told(&samples, &[CALM; 5]);
}

#[test]
fn k2_half_the_voltage_for_a_cycle() {
    let samples = blocks(&[1000, 1000, 500, 500, 1000, 1000]);
    let sag = [1, 1, 4, 3, 2_000_000, 500, 36_000_000, 0, 12_000_000, 12_000_000, 12_000_000];
    assert_listed(&samples, &[sag]);
    assert_scored(sag, [17, 11], 1.0, 45.0);
    let [whole, a, b, c] = shortfalls(36_000_000, [12_000_000; 3]);
    assert_added(&samples, [2, 3, 0], &[in_cells([17, 11])], &[whole, a, b, c]);
    let [edge, low] = [5_000_000, 2_000_000].map(|sum| even(2, 1, sum));
    assert_told(&samples, &[CALM, edge, low, edge, CALM]);
}

#[test]
fn k3_on_the_threshold_is_not_below_it() {
    let samples = blocks(&[900; 6]);
    assert_listed(&samples, &[]);
    assert_added(&samples, [5, 0, 0], &[], &[]);
    assert_told(&samples, &[even(1, 0, 6_480_000); 5]);
}

#[test]
fn k4_one_unit_below_the_threshold() {
    let samples = blocks(&[1000, 1000, 899, 899, 1000, 1000]);
    let sag = [1, 2, 3, 3, 6_465_608, 899, 4_603_176, 0, 1_534_392, 1_534_392, 1_534_392];
    assert_listed(&samples, &[sag]);
    assert_scored(sag, [32, 20], 0.101, 5.0);
    let [whole, a, b, c] = shortfalls(4_603_176, [1_534_392; 3]);
    assert_added(&samples, [4, 1, 0], &[in_cells([32, 20])], &[whole, a, b, c]);
    let edge = even(1, 0, 7_232_804);
    assert_told(&samples, &[CALM, edge, even(2, 1, 6_465_608), edge, CALM]);
}

#[test]
fn k5_a_sag_ends_above_the_hysteresis_only() {
    let samples = blocks(&[1000, 899, 899, 919, 919, 920, 920]);
    let sag = [1, 1, 5, 3, 6_465_608, 899, 4_603_176, 0, 1_534_392, 1_534_392, 1_534_392];
    assert_listed(&samples, &[sag]);
    assert_scored(sag, [33, 21], 0.202, 5.0);
    let [whole, a, b, c] = shortfalls(4_603_176, [1_534_392; 3]);
    assert_added(&samples, [2, 4, 0], &[in_cells([33, 21])], &[whole, a, b, c]);
    let kept = [6_465_608, 6_611_048, 6_756_488, 6_763_844].map(|sum| even(2, 1, sum));
    assert_told(&samples, &[&[even(1, 0, 7_232_804)], &kept[..], &[even(1, 0, 6_771_200)]].concat());
}

#[test]
fn k6_an_interruption_within_a_sag() {
    let samples = blocks(&[1000, 1000, 0, 0, 1000, 1000]);
    let sag = [1, 1, 4, 3, 0, 0, 48_000_000, 0, 16_000_000, 16_000_000, 16_000_000];
    let interruption = [2, 2, 3, 3, 0, 0, 0, 0, 0, 0, 0];
    assert_listed(&samples, &[sag, interruption]);
    assert_scored(sag, [1, 1], 2.0, 60.0);
    assert_not_scored(interruption, 4);
    let [whole, a, b, c] = shortfalls(48_000_000, [16_000_000; 3]);
    assert_added(&samples, [2, 3, 0], &[in_cells([1, 1])], &[(at::INTERRUPTIONS, 1), whole, a, b, c]);
    let edge = even(2, 1, 4_000_000);
    assert_told(&samples, &[CALM, edge, even(2, 3, 0), edge, CALM]);
}

#[test]
fn k7_rows_go_by_the_exact_extreme() {
    let samples = blocks(&[1000, 1000, 100, 101, 1000, 1000]);
    let sag = [1, 1, 4, 3, 80_804, 101, 47_515_176, 0, 15_838_392, 15_838_392, 15_838_392];
    assert_listed(&samples, &[sag]);
    assert_scored(sag, [9, 6], 1.798, 59.0);
    let [whole, a, b, c] = shortfalls(47_515_176, [15_838_392; 3]);
    assert_added(&samples, [2, 3, 0], &[in_cells([9, 6])], &[whole, a, b, c]);
    let [first, low, last] = [4_040_000, 80_804, 4_040_804].map(|sum| even(2, 1, sum));
    assert_told(&samples, &[CALM, first, low, last, CALM]);
}

#[test]
fn k8_a_start_not_seen() {
    let samples = blocks(&[500, 500, 1000, 1000]);
    let sag = [1, 0, 2, 2, 2_000_000, 500, 27_000_000, 0, 9_000_000, 9_000_000, 9_000_000];
    assert_listed(&samples, &[sag]);
    assert_not_scored(sag, 1);
    let [whole, a, b, c] = shortfalls(27_000_000, [9_000_000; 3]);
    assert_added(&samples, [1, 2, 0], &[UNPLACED], &[whole, a, b, c]);
    assert_told(&samples, &[even(2, 1, 2_000_000), even(2, 1, 5_000_000), CALM]);
}

#[test]
fn k9_a_missing_sample_cuts_a_sag_in_two() {
    for lost in 4 * 12..5 * 12 {
        let mut samples = blocks(&[1000, 1000, 500, 500, 500, 500, 1000, 1000]);
        samples[lost] = MISSING;
        let before = [1, 1, 3, 1, 2_000_000, 500, 27_000_000, 0, 9_000_000, 9_000_000, 9_000_000];
        let after = [1, 5, 6, 2, 5_000_000, 791, 9_000_000, 0, 3_000_000, 3_000_000, 3_000_000];
        assert_listed(&samples, &[before, after]);
        assert_not_scored(before, 2);
        assert_not_scored(after, 1);
        let [whole, a, b, c] = shortfalls(36_000_000, [12_000_000; 3]);
        assert_added(&samples, [2, 3, 2], &[UNPLACED; 2], &[whole, a, b, c]);
        let [edge, low] = [5_000_000, 2_000_000].map(|sum| even(2, 1, sum));
        assert_told(&samples, &[CALM, edge, low, UNKNOWN, UNKNOWN, edge, CALM]);
    }
}

#[test]
fn k10_a_swell() {
    let samples = blocks(&[1000, 1000, 1200, 1200, 1000, 1000]);
    let swell = [3, 1, 4, 3, 11_520_000, 1200, 0, 0, 0, 0, 0];
    assert_listed(&samples, &[swell]);
    assert_not_scored(swell, 4);
    assert_added(&samples, [2, 3, 0], &[], &[(at::SWELLS, 1)]);
    let [edge, high] = [9_760_000, 11_520_000].map(|sum| even(2, 4, sum));
    assert_told(&samples, &[CALM, edge, high, edge, CALM]);
}

#[test]
fn k11_neither_end_seen() {
    let samples = blocks(&[500, 500]);
    let sag = [1, 0, 1, 0, 2_000_000, 500, 18_000_000, 0, 6_000_000, 6_000_000, 6_000_000];
    assert_listed(&samples, &[sag]);
    assert_not_scored(sag, 3);
    let [whole, a, b, c] = shortfalls(18_000_000, [6_000_000; 3]);
    assert_added(&samples, [0, 1, 0], &[UNPLACED], &[whole, a, b, c]);
    assert_told(&samples, &[even(2, 1, 2_000_000)]);
}

/// On a, as the rules have it, and on b and c. The type is Ca, Cb or Cc.
#[test]
fn k12_a_sag_on_one_channel() {
    for (levels, class, parts) in [
        ([500, 1000, 1000], 4, [12_000_000, 0, 0]),
        ([1000, 500, 1000], 5, [0, 12_000_000, 0]),
        ([1000, 1000, 500], 6, [0, 0, 12_000_000]),
    ] {
        let samples = dip(levels);
        let [a, b, c] = parts;
        let sag = [1, 1, 4, 3, 2_000_000, 500, 12_000_000, class, a, b, c];
        assert_listed(&samples, &[sag]);
        assert_scored(sag, [17, 11], 1.0, 15.0);
        let [whole, a, b, c] = shortfalls(12_000_000, parts);
        assert_added(&samples, [2, 3, 0], &[in_cells([17, 11])], &[whole, a, b, c]);
        let [edge, low] = [5_000_000, 2_000_000].map(|low| {
            let [a, b, c] = parts.map(|part| if part > 0 { low } else { 8_000_000 });
            [2, 1, a, b, c]
        });
        assert_told(&samples, &[CALM, edge, low, edge, CALM]);
    }
}

/// At 500 a channel lacks 3, 6 and 3 million, at 700 it lacks 2.04, 4.08 and 2.04. At 910 it is in the band of the hysteresis, at
/// 1300 in a swell: it lacks nothing, and nothing is taken off the others for it.
#[test]
fn each_channel_lacks_what_it_lacks_itself() {
    let samples = dip([500, 910, 700]);
    let sag = [1, 1, 4, 3, 2_000_000, 500, 20_160_000, 3, 12_000_000, 0, 8_160_000];
    assert_listed(&samples, &[sag]);
    let [whole, a, b, c] = shortfalls(20_160_000, [12_000_000, 0, 8_160_000]);
    assert_added(&samples, [2, 3, 0], &[in_cells([17, 11])], &[whole, a, b, c]);
    let samples = dip([1300, 700, 500]);
    let sag = [1, 1, 4, 3, 2_000_000, 500, 20_160_000, 4, 0, 8_160_000, 12_000_000];
    let swell = [3, 1, 4, 3, 13_520_000, 1300, 0, 0, 0, 0, 0];
    assert_listed(&samples, &[sag, swell]);
    let [whole, a, b, c] = shortfalls(20_160_000, [0, 8_160_000, 12_000_000]);
    assert_added(&samples, [2, 3, 0], &[in_cells([17, 11])], &[(at::SWELLS, 1), whole, a, b, c]);
}

/// Two kinds at once, and each channel's own sum: 1.3 R is 13.52 million, 0.7 R 3.92, half of R 2, and beside a calm step 10.76, 5.96
/// and 5.
#[test]
fn each_channel_has_its_own_sum() {
    let edge = [2, 5, 10_760_000, 5_960_000, 5_000_000];
    let turned = [2, 5, 13_520_000, 3_920_000, 2_000_000];
    assert_told(&dip([1300, 700, 500]), &[CALM, edge, turned, edge, CALM]);
}

/// An event of each kind, with its parts changed by one and with such as add up modulo 2^64 only. Any split that adds up will do.
#[test]
fn parts_of_an_event_that_add_up_or_do_not() {
    let sag = [1, 1, 4, 3, 2_000_000, 500, 36_000_000, 0, 12_000_000, 12_000_000, 12_000_000];
    let interruption = [2, 2, 3, 3, 0, 0, 0, 0, 0, 0, 0];
    let swell = [3, 1, 4, 3, 11_520_000, 1200, 0, 0, 0, 0, 0];
    let with = |mut event: Event, parts: [u64; 3]| {
        event[8..].copy_from_slice(&parts);
        event
    };
    for parts in [[36_000_000, 0, 0], [0, 36_000_000, 0], [0, 0, 36_000_000], [1, 2, 35_999_997]] {
        assert_scored(with(sag, parts), [17, 11], 1.0, 45.0);
    }
    for event in [sag, interruption, swell] {
        for (place, by) in [(8, 1), (9, 1), (10, 1), (8, u64::MAX), (9, u64::MAX), (10, u64::MAX)] {
            let mut beside = event;
            beside[place] = event[place].wrapping_add(by);
            assert_not_scored(beside, 5);
        }
        let whole = event[6];
        for parts in [[1 << 63, 1 << 63, whole], [whole + 1, u64::MAX, 0], [u64::MAX, whole + 2, u64::MAX]] {
            assert_not_scored(with(event, parts), 5);
        }
    }
}

/// A sag of so many half-cycles at 899 on all channels, each of which lacks what K4's lacks.
fn at_899(half_cycles: u64) -> Event {
    let channel = 1_534_392 * half_cycles;
    [1, 7, 7 + half_cycles, 3, 6_465_608, 899, 3 * channel, 0, channel, channel, channel]
}

/// 20 f half-cycles are 10 s. Up to there the curve stands at 800, after it at 900; the cell is the same.
#[test]
fn the_last_step_of_the_curve() {
    let sixty = Settings { f: 60, ..SETTINGS };
    assert_scored_under(&SETTINGS, at_899(1_000), [37, 24], 0.505, 5_753.0);
    assert_scored_under(&SETTINGS, at_899(1_001), [37, 24], 1.01, 5_759.0);
    assert_scored_under(&sixty, at_899(1_200), [37, 24], 0.505, 5_753.0);
    assert_scored_under(&sixty, at_899(1_201), [37, 24], 1.01, 5_758.0);
}

/// Each retained value that a sag can have, under the highest sag threshold: beyond 20 f half-cycles its severity is twice what
/// it is up to there, bit for bit. So it stays to the longest sag.
#[test]
fn beyond_10_seconds_severity_doubles() {
    for f in [50, 60] {
        let s = Settings { f, sag: 95, ..SETTINGS };
        for retained in 0..=950 {
            // The smallest sum is below the threshold for 950, too: the half below it.
            let sag = |half_cycles| [1, 0, half_cycles, 3, first_sum(&s, retained), retained, 0, 0, 0, 0, 0];
            for score in [oracle::score, host::score] {
                let severity = |half_cycles| score(&s, 0, &sag(half_cycles)).unwrap().severity;
                let [last, first, longest] = [20 * f, 20 * f + 1, 100_000].map(severity);
                assert_eq!((2.0 * last).to_bits(), first.to_bits(), "f {f}, retained {retained}");
                assert_eq!(first, longest, "f {f}, retained {retained}");
            }
        }
    }
}

/// The first and the last sum of each retained value that a recording can have, and the two at the whole number between them: that
/// value makes an event, the next ones on either side do not. A swell, so that only the retained value decides between reason 4
/// and 5.
#[test]
fn each_retained_value_at_both_ends() {
    for (n, r) in [(8, 1_000), (10, 7_001), (256, 10_000), (512, 50_000)] {
        let s = Settings { n, r, ..SETTINGS };
        let greatest = n * 10_000_000_000;
        for value in 0..=(100_000_000 + r / 2) / r {
            let whole = sum_at(&s, 2 * value);
            let sums = [first_sum(&s, value), whole.saturating_sub(1), whole, first_sum(&s, value + 1) - 1];
            for sum in sums.map(|sum| sum.min(greatest)) {
                let swell = |retained| [3, 0, 1, 3, sum, retained, 0, 0, 0, 0, 0];
                for (program, reason) in
                    [("second program", oracle::reason as Reasoner), ("proved library", host::reason)]
                {
                    let reasons =
                        [value, value + 1, value.wrapping_sub(1)].map(|retained| reason(&s, 0, &swell(retained)));
                    assert_eq!(reasons, [4, 5, 5], "{program}: N {n}, R {r}, sum {sum}");
                }
            }
        }
    }
}

#[test]
fn what_is_turned_away() {
    let k2 = blocks(&[1000, 1000, 500, 500, 1000, 1000]);
    let mut out_of_range = k2.clone();
    out_of_range[5] = 100_001;
    for (program, list, add) in PROGRAMS {
        let mut room = [77; 10];
        assert_eq!(list(&SETTINGS, &[], &mut room), Err(Refused { number: 3, place: 0 }), "{program}");
        assert_eq!(list(&SETTINGS, &out_of_range, &mut room), Err(Refused { number: 6, place: 5 }), "{program}");
        assert_eq!(list(&SETTINGS, &k2, &mut room), Err(Refused { number: 7, place: 1 }), "{program}");
        assert_eq!(room, [77; 10], "{program} wrote in spite of a refusal");
        let mut table = [0; TABLE];
        assert_eq!(add(&mut table, &k2), Err(Refused { number: 9, place: 0 }), "{program}");
        assert_eq!(table, [0; TABLE], "{program} changed the table in spite of a refusal");
    }
    let bad = Settings { f: 55, ..SETTINGS };
    assert_not_made(&bad, 0, 3);
    assert_not_made(&bad, 1, 3);
}

/// K2 has five half-cycles, so that it takes 25 numbers.
#[test]
fn half_cycles_that_are_not_told() {
    let k2 = blocks(&[1000, 1000, 500, 500, 1000, 1000]);
    let mut out_of_range = k2.clone();
    out_of_range[71] = 100_001;
    for (program, tell) in TELLERS {
        let mut room = [77; 24];
        let mut refused = |s: &Settings, samples: &[i32]| tell(s, samples, &mut room).map_err(|r| (r.number, r.place));
        assert_eq!(refused(&Settings { f: 55, ..SETTINGS }, &out_of_range), Err((1, 3)), "{program}");
        assert_eq!(refused(&SETTINGS, &out_of_range[..71]), Err((2, 0)), "{program}");
        assert_eq!(refused(&SETTINGS, &out_of_range[51..]), Err((3, 0)), "{program}");
        assert_eq!(refused(&SETTINGS, &out_of_range[3..]), Err((4, 0)), "{program}");
        assert_eq!(refused(&SETTINGS, &out_of_range), Err((6, 71)), "{program}");
        assert_eq!(refused(&SETTINGS, &k2), Err((7, 5)), "{program}");
        assert_eq!(room, [77; 24], "{program} wrote in spite of a refusal");
        assert_eq!(tell(&SETTINGS, &k2, &mut [77; 25]), Ok(5), "{program}");
    }
}

/// Refusal 1 with its place, and zeros.
fn assert_not_made(s: &Settings, set: u64, place: u64) {
    for made in [oracle::fresh(s, set), host::fresh(s, set)] {
        assert_eq!(made, (Err(Refused { number: 1, place }), [0; TABLE]), "set {set}");
    }
}

/// The set is looked at after the seven settings, before the event, and with the table.
#[test]
fn an_unknown_set() {
    let k2 = blocks(&[1000, 1000, 500, 500, 1000, 1000]);
    let sag = [1, 1, 4, 3, 2_000_000, 500, 36_000_000, 0, 12_000_000, 12_000_000, 12_000_000];
    let swell = [3, 1, 4, 3, 11_520_000, 1200, 0, 0, 0, 0, 0];
    let bad = Settings { hysteresis: 6, ..SETTINGS };
    for set in [2, 3, 1 << 32, (1 << 32) + 1, u64::MAX] {
        assert_not_made(&SETTINGS, set, 8);
        assert_not_made(&bad, set, 7);
        for event in [sag, swell, [0; WORDS]] {
            assert_eq!(judged(&SETTINGS, set, &event), [(Err(6), 6, 40); 2], "set {set}");
            assert_eq!(judged(&bad, set, &event), [(Err(6), 6, 40); 2], "set {set}");
        }
        let mut offered = oracle::fresh(&SETTINGS, 0).1;
        offered[at::SET] = set;
        for (program, _, add) in PROGRAMS {
            let mut table = offered;
            assert_eq!(add(&mut table, &k2), Err(Refused { number: 9, place: 0 }), "{program}, set {set}");
            assert_eq!(table, offered, "{program} changed the table in spite of a refusal");
        }
    }
    assert_not_scored_under(&bad, sag, 6);
}

/// Each border of set 1, and of set 0 beside it, by hand: 80 percent is an S of 5,120,000, and a second has 100 or 120 half-cycles.
#[test]
fn borders_of_the_other_table() {
    let cells = |f: u64, h: u64, extreme: u64, retained: u64| {
        let s = Settings { f, ..SETTINGS };
        let sag = [1, 7, 7 + h, 3, extreme, retained, 0, 0, 0, 0, 0];
        [0, 1].map(|set| judged(&s, set, &sag).map(|(_, _, cell)| cell)).map(|[second, proved]| {
            assert_eq!(second, proved, "f {f}, h {h}, extreme {extreme}");
            second
        })
    };
    let rows = [
        ([80_000, 80_001], 100, [[0, 0], [8, 5]]),
        ([1_280_000, 1_280_001], 400, [[8, 5], [16, 10]]),
        ([3_920_000, 3_920_001], 700, [[16, 10], [24, 15]]),
        ([5_120_000, 5_120_001], 800, [[24, 15], [24, 20]]),
        ([5_780_000, 5_780_001], 850, [[24, 20], [32, 20]]),
    ];
    for (sums, retained, expected) in rows {
        assert_eq!(sums.map(|sum| cells(50, 1, sum, retained)), expected, "around {retained}");
    }
    let columns = [
        ([2, 2], [[0, 0], [1, 1]]),
        ([10, 12], [[1, 1], [2, 1]]),
        ([20, 24], [[2, 1], [2, 2]]),
        ([50, 60], [[2, 2], [3, 3]]),
        ([100, 120], [[3, 3], [4, 3]]),
        ([300, 360], [[4, 3], [5, 3]]),
        ([500, 600], [[5, 3], [5, 4]]),
        ([2_000, 2_400], [[5, 4], [6, 4]]),
        ([6_000, 7_200], [[6, 4], [7, 4]]),
    ];
    for (firsts, expected) in columns {
        for (f, first) in [50, 60].into_iter().zip(firsts) {
            assert_eq!([first - 1, first].map(|h| cells(f, h, 0, 0)), expected, "f {f}, h {first}");
        }
    }
}
