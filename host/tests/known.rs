//! The known answers K1 to K12, through every function of the proved library and by both sets of borders; both sides of each
//! border, of the curve's last step and of a retained value's half; and what each channel lacks by itself. The numbers are those
//! of the rules.
mod common;
use common::{blocks, dip, dip_of, told, Half, BLOCK, GAP, HEALTHY, MISSING, NOT_SCORED, SETS, SETTINGS, UNKNOWN};
use host::{add, cell, fresh, list, reason, score, Event, Score, Settings, TABLE, WORDS};

/// What is known of one event: its numbers, its reason, its cell by each set, and severity and energy where it has a score.
struct Answer {
    words: Event,
    reason: u64,
    cell: [u64; 2],
    score: Option<(f64, f64)>,
}

fn scored(words: Event, cell: [u64; 2], severity: f64, energy: f64) -> Answer {
    Answer { words, reason: 0, cell, score: Some((severity, energy)) }
}

fn unscored(words: Event, reason: u64) -> Answer {
    Answer { words, reason, cell: NOT_SCORED, score: None }
}

/// A half-cycle in a sag only, with S the same on all channels.
fn in_sag(s: u64) -> Half {
    [2, 1, s, s, s]
}

/// The half-cycles of 1000 1000 v v 1000 1000: the second and the fourth have one block of v, the third has two.
fn around(one: Half, two: Half) -> [Half; 5] {
    [HEALTHY, one, two, one, HEALTHY]
}

/// What is known of a fresh site's table after a recording. `cell` is that of its sag by each set, if one is placed.
#[derive(Default)]
struct Site {
    total: u64,
    healthy: u64,
    disturbed: u64,
    unknown: u64,
    cell: Option<[u64; 2]>,
    unplaced: u64,
    sags: u64,
    interruptions: u64,
    swells: u64,
    shortfall: u64,
    /// The shortfalls of a, b and c.
    parts: [u64; 3],
}

/// No placed sag among so many half-cycles.
fn site(total: u64, healthy: u64, disturbed: u64) -> Site {
    Site { total, healthy, disturbed, ..Site::default() }
}

fn known(samples: &[i32], each_half: &[Half], answers: &[Answer], site: Site) {
    told(&SETTINGS, samples, each_half);
    let mut events = [9; 23];
    assert_eq!(list(&SETTINGS, samples, &mut events), Ok(answers.len() as u64));
    let mut want = [9; 23];
    for (place, answer) in want.chunks_exact_mut(WORDS).zip(answers) {
        place.copy_from_slice(&answer.words);
    }
    assert_eq!(events, want);
    for answer in answers {
        asked(&SETTINGS, answer);
    }
    tabled(samples, site);
}

/// By either set only the cell differs, and by an unknown one the reason is 6.
fn asked(s: &Settings, answer: &Answer) {
    let words = &answer.words;
    let want = answer.score.map(|(severity, energy)| Score { severity, energy });
    for set in SETS {
        assert_eq!(reason(s, set, words), answer.reason);
        assert_eq!(cell(s, set, words), answer.cell[set as usize]);
        assert_eq!(score(s, set, words), want.ok_or(answer.reason));
    }
    for set in UNKNOWN {
        assert_eq!((reason(s, set, words), cell(s, set, words), score(s, set, words)), (6, 40, Err(6)));
    }
}

fn tabled(samples: &[i32], site: Site) {
    for set in SETS {
        let mut want = [0; TABLE];
        want[..8].copy_from_slice(&[8, 1000, 50, 90, 10, 110, 2, set]);
        let (made, mut table) = fresh(&SETTINGS, set);
        assert_eq!((made, table), (Ok(()), want));
        assert_eq!(add(&mut table, samples), Ok(()));
        want[8..12].copy_from_slice(&[site.total, site.healthy, site.disturbed, site.unknown]);
        if let Some(cell) = site.cell {
            want[12 + cell[set as usize] as usize] = 1;
        }
        want[52..57].copy_from_slice(&[site.unplaced, site.sags, site.interruptions, site.swells, site.shortfall]);
        want[57..].copy_from_slice(&site.parts);
        assert_eq!(table, want);
    }
}

#[test]
fn k1() {
    known(&blocks(&[1000; 6]), &[HEALTHY; 5], &[], site(5, 5, 0));
}

#[test]
fn k2() {
    let sag = scored([1, 1, 4, 3, 2000000, 500, 36000000, 0, 12000000, 12000000, 12000000], [17, 11], 1.0, 0.045);
    let after = Site { cell: Some([17, 11]), sags: 1, shortfall: 36000000, parts: [12000000; 3], ..site(5, 2, 3) };
    known(&dip(500), &around(in_sag(5000000), in_sag(2000000)), &[sag], after);
}

#[test]
fn k3() {
    known(&blocks(&[900; 6]), &[[1, 0, 6480000, 6480000, 6480000]; 5], &[], site(5, 5, 0));
}

#[test]
fn k4() {
    let sag = scored([1, 2, 3, 3, 6465608, 899, 4603176, 0, 1534392, 1534392, 1534392], [32, 20], 0.101, 0.005);
    let after = Site { cell: Some([32, 20]), sags: 1, shortfall: 4603176, parts: [1534392; 3], ..site(5, 4, 1) };
    known(&dip(899), &around([1, 0, 7232804, 7232804, 7232804], in_sag(6465608)), &[sag], after);
}

#[test]
fn k5() {
    let sag = scored([1, 1, 5, 3, 6465608, 899, 4603176, 0, 1534392, 1534392, 1534392], [33, 21], 0.202, 0.005);
    let samples = blocks(&[1000, 899, 899, 919, 919, 920, 920]);
    let after = Site { cell: Some([33, 21]), sags: 1, shortfall: 4603176, parts: [1534392; 3], ..site(6, 2, 4) };
    let each_half = [
        [1, 0, 7232804, 7232804, 7232804],
        in_sag(6465608),
        in_sag(6611048),
        in_sag(6756488),
        in_sag(6763844),
        [1, 0, 6771200, 6771200, 6771200],
    ];
    known(&samples, &each_half, &[sag], after);
}

#[test]
fn k6() {
    let sag = scored([1, 1, 4, 3, 0, 0, 48000000, 0, 16000000, 16000000, 16000000], [1, 1], 2.0, 0.06);
    let interruption = unscored([2, 2, 3, 3, 0, 0, 0, 0, 0, 0, 0], 4);
    let after = Site {
        cell: Some([1, 1]),
        sags: 1,
        interruptions: 1,
        shortfall: 48000000,
        parts: [16000000; 3],
        ..site(5, 2, 3)
    };
    known(&dip(0), &around(in_sag(4000000), [2, 3, 0, 0, 0]), &[sag, interruption], after);
}

#[test]
fn k7() {
    let sag = scored([1, 1, 4, 3, 80804, 101, 47515176, 0, 15838392, 15838392, 15838392], [9, 6], 1.798, 0.059);
    let samples = blocks(&[1000, 1000, 100, 101, 1000, 1000]);
    let after = Site { cell: Some([9, 6]), sags: 1, shortfall: 47515176, parts: [15838392; 3], ..site(5, 2, 3) };
    let each_half = [HEALTHY, in_sag(4040000), in_sag(80804), in_sag(4040804), HEALTHY];
    known(&samples, &each_half, &[sag], after);
}

#[test]
fn k8() {
    let sag = unscored([1, 0, 2, 2, 2000000, 500, 27000000, 0, 9000000, 9000000, 9000000], 1);
    let samples = blocks(&[500, 500, 1000, 1000]);
    let after = Site { unplaced: 1, sags: 1, shortfall: 27000000, parts: [9000000; 3], ..site(3, 1, 2) };
    known(&samples, &[in_sag(2000000), in_sag(5000000), HEALTHY], &[sag], after);
}

#[test]
fn k9() {
    let first = unscored([1, 1, 3, 1, 2000000, 500, 27000000, 0, 9000000, 9000000, 9000000], 2);
    let second = unscored([1, 5, 6, 2, 5000000, 791, 9000000, 0, 3000000, 3000000, 3000000], 1);
    let mut samples = blocks(&[1000, 1000, 500, 500, 500, 500, 1000, 1000]);
    samples[4 * BLOCK] = MISSING;
    let after = Site { unknown: 2, unplaced: 2, sags: 2, shortfall: 36000000, parts: [12000000; 3], ..site(7, 2, 3) };
    let each_half = [HEALTHY, in_sag(5000000), in_sag(2000000), GAP, GAP, in_sag(5000000), HEALTHY];
    known(&samples, &each_half, &[first, second], after);
}

#[test]
fn k10() {
    let swell = unscored([3, 1, 4, 3, 11520000, 1200, 0, 0, 0, 0, 0], 4);
    let each_half = around([2, 4, 9760000, 9760000, 9760000], [2, 4, 11520000, 11520000, 11520000]);
    known(&dip(1200), &each_half, &[swell], Site { swells: 1, ..site(5, 2, 3) });
}

#[test]
fn k11() {
    let sag = unscored([1, 0, 1, 0, 2000000, 500, 18000000, 0, 6000000, 6000000, 6000000], 3);
    let after = Site { unplaced: 1, sags: 1, shortfall: 18000000, parts: [6000000; 3], ..site(1, 0, 1) };
    known(&blocks(&[500, 500]), &[in_sag(2000000)], &[sag], after);
}

#[test]
fn k12() {
    let sag = scored([1, 1, 4, 3, 2000000, 500, 12000000, 4, 12000000, 0, 0], [17, 11], 1.0, 0.015);
    let after = Site { cell: Some([17, 11]), sags: 1, shortfall: 12000000, parts: [12000000, 0, 0], ..site(5, 2, 3) };
    let each_half = around([2, 1, 5000000, 8000000, 8000000], [2, 1, 2000000, 8000000, 8000000]);
    known(&dip_of([500, 1000, 1000]), &each_half, &[sag], after);
}

/// K12 on b and on c: the one channel that is low has all of the shortfall.
#[test]
fn k12_on_the_other_channels() {
    let sag = scored([1, 1, 4, 3, 2000000, 500, 12000000, 5, 0, 12000000, 0], [17, 11], 1.0, 0.015);
    let after = Site { cell: Some([17, 11]), sags: 1, shortfall: 12000000, parts: [0, 12000000, 0], ..site(5, 2, 3) };
    let each_half = around([2, 1, 8000000, 5000000, 8000000], [2, 1, 8000000, 2000000, 8000000]);
    known(&dip_of([1000, 500, 1000]), &each_half, &[sag], after);
    let sag = scored([1, 1, 4, 3, 2000000, 500, 12000000, 6, 0, 0, 12000000], [17, 11], 1.0, 0.015);
    let after = Site { cell: Some([17, 11]), sags: 1, shortfall: 12000000, parts: [0, 0, 12000000], ..site(5, 2, 3) };
    let each_half = around([2, 1, 8000000, 8000000, 5000000], [2, 1, 8000000, 8000000, 2000000]);
    known(&dip_of([1000, 1000, 500]), &each_half, &[sag], after);
}

/// Over the three half-cycles, a channel at 500 lacks 3, 6 and 3 million, one at 600 lacks 2.56, 5.12 and 2.56, and one at 700
/// lacks 2.04, 4.08 and 2.04.
#[test]
fn each_channel_has_its_own_shortfall() {
    let sag = scored([1, 1, 4, 3, 2000000, 500, 30400000, 2, 12000000, 10240000, 8160000], [17, 11], 1.0, 0.038);
    let parts = [12000000, 10240000, 8160000];
    let after = Site { cell: Some([17, 11]), sags: 1, shortfall: 30400000, parts, ..site(5, 2, 3) };
    let each_half = around([2, 1, 5000000, 5440000, 5960000], [2, 1, 2000000, 2880000, 3920000]);
    known(&dip_of([500, 600, 700]), &each_half, &[sag], after);
}

/// A channel in a swell or in the hysteresis band has no shortfall, and takes none away from the others. The swell has none.
#[test]
fn a_surplus_is_no_shortfall() {
    let sag = scored([1, 1, 4, 3, 2000000, 500, 12000000, 2, 12000000, 0, 0], [17, 11], 1.0, 0.015);
    let swell = unscored([3, 1, 4, 3, 13520000, 1300, 0, 0, 0, 0, 0], 4);
    let after = Site {
        cell: Some([17, 11]),
        sags: 1,
        swells: 1,
        shortfall: 12000000,
        parts: [12000000, 0, 0],
        ..site(5, 2, 3)
    };
    let each_half = around([2, 5, 5000000, 7312400, 10760000], [2, 5, 2000000, 6624800, 13520000]);
    known(&dip_of([500, 910, 1300]), &each_half, &[sag, swell], after);
}

/// A sag of so many half-cycles at 600 on all channels; of the first and the last of them, half is at 1000.
fn lasting(half_cycles: u64) -> Vec<i32> {
    let mut levels = vec![600; half_cycles as usize + 3];
    let last = levels.len() - 2;
    levels[..2].fill(1000);
    levels[last..].fill(1000);
    blocks(&levels)
}

/// 20 f half-cycles are 10 s. Up to there the curve stands at 800, after it at 900: from samples at 50 Hz, and by words alone.
#[test]
fn the_last_step_of_the_curve() {
    for (h, shortfall, severity, energy) in [(1000, 15344640000, 2.0, 19.18), (1001, 15360000000, 4.0, 19.2)] {
        let part = shortfall / 3;
        let sag = scored([1, 1, 1 + h, 3, 2880000, 600, shortfall, 0, part, part, part], [21, 14], severity, energy);
        let mut each_half = vec![in_sag(2880000); h as usize + 2];
        (each_half[0], each_half[1]) = (HEALTHY, in_sag(5440000));
        (each_half[h as usize], each_half[h as usize + 1]) = (in_sag(5440000), HEALTHY);
        known(
            &lasting(h),
            &each_half,
            &[sag],
            Site { cell: Some([21, 14]), sags: 1, shortfall, parts: [part; 3], ..site(h + 2, 2, h) },
        );
    }
    let sixty = Settings { f: 60, ..SETTINGS };
    let at_899 = |h: u64| [1, 7, 7 + h, 3, 6465608, 899, 4603176 * h, 0, 1534392 * h, 1534392 * h, 1534392 * h];
    asked(&SETTINGS, &scored(at_899(1000), [37, 24], 0.505, 5.753));
    asked(&SETTINGS, &scored(at_899(1001), [37, 24], 1.01, 5.759));
    asked(&sixty, &scored(at_899(1200), [37, 24], 0.505, 5.753));
    asked(&sixty, &scored(at_899(1201), [37, 24], 1.01, 5.758));
}

/// Four samples, the same on all channels.
fn block(four: [i32; 4]) -> Vec<i32> {
    four.iter().flat_map(|sample| [*sample; 3]).collect()
}

/// 201 squared, twice, is 80802: exactly 100.5, which goes upward. 200 and 20 squared are one unit less, and 100 is the nearest.
#[test]
fn a_retained_half_goes_upward() {
    let on_it = block([201, 0, 0, 0]);
    let below = block([200, 20, 0, 0]);
    for (second, extreme, after_it, retained, part, severity) in
        [(&on_it, 80802, 4040401, 101, 15838396, 1.798), (&below, 80801, 4040400, 100, 15838398, 1.8)]
    {
        let shortfall = 3 * part;
        let samples = [&blocks(&[1000, 1000]), &on_it, second, &blocks(&[1000, 1000])].map(|part| &part[..]).concat();
        let sag = scored([1, 1, 4, 3, extreme, retained, shortfall, 0, part, part, part], [9, 6], severity, 0.059);
        let after = Site { cell: Some([9, 6]), sags: 1, shortfall, parts: [part; 3], ..site(5, 2, 3) };
        let each_half = [HEALTHY, in_sag(4040401), in_sag(extreme), in_sag(after_it), HEALTHY];
        known(&samples, &each_half, &[sag], after);
    }
}

/// Words whose retained value is not the nearest are not an event; one unit of S below the threshold is a sag all the same.
#[test]
fn another_retained_value_is_not_an_event() {
    let sag = |extreme: u64, retained: u64| [1, 1, 4, 3, extreme, retained, 4560003, 0, 1520001, 1520001, 1520001];
    for (extreme, retained) in [(80802, 100), (80802, 102), (80801, 101), (80804, 100), (6479999, 899)] {
        asked(&SETTINGS, &unscored(sag(extreme, retained), 5));
    }
    asked(&SETTINGS, &scored(sag(6479999, 900), [33, 21], 0.2, 0.005));
}

/// A sag by its words and, where there are samples, as the only one of a fresh table: one cell of either set takes it.
fn placed(s: &Settings, words: Event, samples: &[i32], cells: [u64; 2]) {
    for (set, at) in SETS.into_iter().zip(cells) {
        assert_eq!((reason(s, set, &words), cell(s, set, &words)), (0, at), "set {set}: {words:?}");
        if !samples.is_empty() {
            let mut table = fresh(s, set).1;
            assert_eq!(add(&mut table, samples), Ok(()));
            let mut want = [0; 40];
            want[at as usize] = 1;
            assert_eq!((table[7], &table[12..52]), (set, &want[..]), "set {set}: {words:?}");
        }
    }
}

/// Eight samples at v are on the border at a tenth of v percent: the deeper row. Four of them as 2 v, 1, 0, 0 make one unit of S
/// more: the next row of a set that has this border. The sags at 800 last two half-cycles, those at 850 one, the others three.
#[test]
fn both_sides_of_each_row_border() {
    for (v, h, extreme, on_it, above) in [
        (100, 3, 80000, [1, 1], [9, 6]),
        (400, 3, 1280000, [9, 6], [17, 11]),
        (700, 3, 3920000, [17, 11], [25, 16]),
        (800, 2, 5120000, [25, 16], [25, 21]),
        (850, 1, 5780000, [24, 20], [32, 20]),
    ] {
        let sag = |extreme: u64| [1, 1, 1 + h, 3, extreme, v as u64, 0, 0, 0, 0, 0];
        let one_more = block([2 * v, 1, 0, 0]);
        let samples = [&blocks(&[1000, 1000, v]), &one_more, &blocks(&[1000, 1000])].map(|part| &part[..]).concat();
        placed(&SETTINGS, sag(extreme), &dip(v), on_it);
        placed(&SETTINGS, sag(extreme + 1), &samples, above);
    }
}

/// In row 2, one half-cycle below each border and on it, where the longer column takes it. Sags of one and two half-cycles are
/// placed by their words alone.
#[test]
fn both_sides_of_each_column_border() {
    let fifty = [
        [(1, [16, 10]), (2, [17, 11])],
        [(9, [17, 11]), (10, [18, 11])],
        [(19, [18, 11]), (20, [18, 12])],
        [(49, [18, 12]), (50, [19, 13])],
        [(99, [19, 13]), (100, [20, 13])],
        [(299, [20, 13]), (300, [21, 13])],
        [(499, [21, 13]), (500, [21, 14])],
        [(1999, [21, 14]), (2000, [22, 14])],
        [(5999, [22, 14]), (6000, [23, 14])],
    ];
    let sixty = [
        [(1, [16, 10]), (2, [17, 11])],
        [(11, [17, 11]), (12, [18, 11])],
        [(23, [18, 11]), (24, [18, 12])],
        [(59, [18, 12]), (60, [19, 13])],
        [(119, [19, 13]), (120, [20, 13])],
        [(359, [20, 13]), (360, [21, 13])],
        [(599, [21, 13]), (600, [21, 14])],
        [(2399, [21, 14]), (2400, [22, 14])],
        [(7199, [22, 14]), (7200, [23, 14])],
    ];
    for (f, borders) in [(50, fifty), (60, sixty)] {
        for (h, cells) in borders.into_iter().flatten() {
            let samples = if h < 3 { vec![] } else { lasting(h) };
            let words = [1, 1, 1 + h, 3, 2880000, 600, 0, 0, 0, 0, 0];
            placed(&Settings { f, ..SETTINGS }, words, &samples, cells);
        }
    }
}

/// One table of each set, by turns: each keeps its own.
#[test]
fn recordings_add_up() {
    let mut tables = SETS.map(|set| fresh(&SETTINGS, set).1);
    for v in [500, 0] {
        for table in &mut tables {
            assert_eq!(add(table, &dip(v)), Ok(()));
        }
    }
    for (set, cells) in [(0, [17, 1]), (1, [11, 1])] {
        let table = &mut tables[set];
        assert_eq!(table[7..12], [set as u64, 10, 4, 6, 0]);
        assert_eq!(cells.map(|cell: usize| table[12 + cell]), [1, 1]);
        assert_eq!(table[52..], [0, 2, 1, 0, 84000000, 28000000, 28000000, 28000000]);
        assert_eq!(add(table, &dip_of([1000, 500, 700])), Ok(()));
        assert_eq!(table[52..], [0, 3, 1, 0, 104160000, 28000000, 40000000, 36160000]);
        assert_eq!((table[7], table[12 + cells[0]]), (set as u64, 2));
    }
}

/// K2 added to a table that has sags in all cells of its set, 1 + 2 + .. + 40 or 1 + 2 + .. + 25: nothing grows but what K2 adds to.
#[test]
fn a_table_with_sags_in_every_cell() {
    for (set, cells, sags, at) in [(0, 40, 820, 17), (1, 25, 325, 11)] {
        let mut table = fresh(&SETTINGS, set).1;
        (table[8], table[10], table[53]) = (1000, 1000, sags);
        for cell in 0..cells {
            table[12 + cell] = 1 + cell as u64;
        }
        let mut want = table;
        assert_eq!(add(&mut table, &dip(500)), Ok(()));
        want[8..11].copy_from_slice(&[1005, 2, 1003]);
        want[12 + at] += 1;
        want[53..].copy_from_slice(&[sags + 1, 0, 0, 36000000, 12000000, 12000000, 12000000]);
        assert_eq!(table, want);
    }
}
