//! `explain`: launch, peak, landing and score of each event in words that hold of the data.
mod common;
use common::{blocks, csv, says, Folder, KNOWN, MISSING};
use std::f64::consts::TAU;

/// What `explain` says of a recording under the settings of the known answers, each sentence on one line.
fn explained(name: &str, samples: &[i32]) -> String {
    let folder = Folder::new(name);
    folder.write("k.csv", csv(samples));
    folder.accepted(&[&["explain", "k.csv"][..], &KNOWN].concat()).replace("\n             ", " ")
}

/// Channel a stands at these levels, b and c at 1000.
fn a_alone(levels: &[i32]) -> Vec<i32> {
    levels.iter().flat_map(|a| [[*a, 1000, 1000]; 4]).flatten().collect()
}

/// K2: launch, curve and division, energy.
#[test]
fn the_score_is_worked_out() {
    let told = explained("explain-k2", &blocks(&[1000, 1000, 500, 500, 1000, 1000]));
    says(
        &told,
        &[
            "launch   half-cycle 1 (at 0.010 s): a, b and c are below 90 % of R (a 79.1 %, b 79.1 %, c 79.1 %); \
             half-cycle 0 before it is known, so the start is seen.",
            "severity (1000 - 500) / (1000 - 500) = 1.000: retained 500, and 500 is the curve's value for 3 half-cycles",
            "energy 0.045 s: shortfall 36000000 / (8 x 1000 x 1000 x 2 x 50), rounded down to milliseconds",
            "cell 17 (UNIPEDE): row 2 (40 to 70 %), column 1 (< 0.1 s).",
        ],
    );
}

/// The curve's value for each duration: at 50 Hz it steps at 3, 21, 51 and 1001 half-cycles.
#[test]
fn the_curve_is_the_rules() {
    for (lasts, curve, severity) in [
        (2, 0, "0.400"),
        (3, 500, "0.800"),
        (20, 500, "0.800"),
        (21, 700, "1.333"),
        (50, 700, "1.333"),
        (51, 800, "2.000"),
        (1000, 800, "2.000"),
        (1001, 900, "4.000"),
    ] {
        // Half-cycles that are half in the sag are at 82 percent, and belong to it: one more than blocks.
        let mut levels = vec![1000; 4];
        levels.extend(vec![600; lasts - 1]);
        levels.extend([1000; 4]);
        let told = explained("explain-curve", &blocks(&levels));
        if lasts == 2 {
            // One block alone never fills a window.
            says(&told, &["/ (1000 - 0) = 0.175: retained 825, and 0 is the curve's value for 2 half-cycles"]);
            continue;
        }
        let wanted = format!(
            "severity (1000 - 600) / (1000 - {curve}) = {severity}: retained 600, and {curve} is the curve's value for {lasts} half-cycles"
        );
        says(&told, &[&wanted]);
    }
}

/// K5: the sag goes on until all channels are back at 92 percent, and a value on the border is told as that.
#[test]
fn the_landing_has_its_hysteresis() {
    let told = explained("explain-k5", &blocks(&[1000, 899, 899, 919, 919, 920, 920]));
    says(
        &told,
        &[
            "half-cycle 1 (at 0.010 s): a, b and c are below 90 % of R (a 89.9 %, b 89.9 %, c 89.9 %)",
            "peak     half-cycle 1 (at 0.010 s): the smallest sum of squares, 6465608, on a, b and c; retained 899 = 89.9 % of R, \
             rounded to the nearest, halves upward; type A",
            "landing  half-cycle 5 (at 0.050 s): all channels are back at 92 % of R or more (90 + hysteresis 2): a 92.0 %, \
             b 92.0 %, c 92.0 %; it is known, so the end is seen. Lasted 4 half-cycles = 0.040 s.",
            "severity (1000 - 899) / (1000 - 500) = 0.202",
            "cell 33 (UNIPEDE): row 4 (above 85 %), column 1 (< 0.1 s)",
        ],
    );
}

/// Between blocks of 1000, a block of these four samples on all channels, and another.
fn amid(first: [i32; 4], second: [i32; 4]) -> Vec<i32> {
    let healthy = blocks(&[1000, 1000]);
    let low: Vec<i32> = [first, second].concat().iter().flat_map(|sample| [*sample; 3]).collect();
    [&healthy[..], &low, &healthy].concat()
}

/// 201 squared, twice, is 80802, which is 100.5 exactly: upward. One unit of S less has 100, and the row goes by the exact sum,
/// where the rounded figure would say a deeper one. K7 has 100.501, which is 101, and there the two agree.
#[test]
fn the_row_goes_by_exact_sums() {
    let k7 = explained("explain-k7", &blocks(&[1000, 1000, 100, 101, 1000, 1000]));
    says(
        &k7,
        &["80804, on a, b and c; retained 101 = 10.1 %", "cell 9 (UNIPEDE): row 1 (10 to 40 %), column 1 (< 0.1 s)."],
    );
    let half = explained("explain-half", &amid([201, 0, 0, 0], [0, 201, 0, 0]));
    says(
        &half,
        &["80802, on a, b and c; retained 101 = 10.1 %", "cell 9 (UNIPEDE): row 1 (10 to 40 %), column 1 (< 0.1 s)."],
    );
    says(
        &explained("explain-below-half", &amid([201, 0, 0, 0], [200, 20, 0, 0])),
        &[
            "80801, on a, b and c; retained 100 = 10.0 % of R, rounded to the nearest, halves upward; type A",
            "cell 9 (UNIPEDE): row 1 (10 to 40 %) and not row 0 (at most 10 %), as the rounded 100 would have it: the exact \
             10000 x 80801 = 808010000 is more than 10 x 10 x 8 x 1000 x 1000 = 800000000, column 1 (< 0.1 s).",
        ],
    );
    let on_the_border = explained("explain-row-border", &blocks(&[1000, 1000, 100, 100, 1000, 1000]));
    says(&on_the_border, &["cell 1 (UNIPEDE): row 0 (at most 10 %), column 1 (< 0.1 s)."]);
}

/// A value beside a border is never shown as if it were on it: one sample of 899 among 900 makes 899.9, which is 900 to the
/// nearest, and a sag; one of 1101 among 1100 makes 1100.1, and a swell.
#[test]
fn rounding_does_not_hide_which_side_it_is() {
    let mut samples = blocks(&[1000, 1000, 900, 900, 1000, 1000]);
    samples[24] = 899;
    says(
        &explained("explain-digits", &samples),
        &[
            "a is below 90 % of R (a 89.99 %, b 90.0 %, c 90.0 %)",
            "6478201, on a; retained 900 = 90.0 % of R, rounded to the nearest, halves upward, and still below 90 %: the exact \
             10000 x 6478201 = 64782010000 is less than 90 x 90 x 8 x 1000 x 1000 = 64800000000; type Ca",
        ],
    );
    let mut samples = blocks(&[1000, 1000, 1100, 1100, 1000, 1000]);
    samples[24] = 1101;
    says(
        &explained("explain-above", &samples),
        &["9682201, on a; retained 1100 = 110.0 % of R, rounded to the nearest, halves upward, and still above 110 %: the \
             exact 10000 x 9682201 = 96822010000 is more than 110 x 110 x 8 x 1000 x 1000 = 96800000000."],
    );
}

/// K12: only a drops. Nothing that is said is false of it.
#[test]
fn one_channel_is_named() {
    let told = explained("explain-k12", &a_alone(&[1000, 1000, 500, 500, 1000, 1000]));
    says(
        &told,
        &[
            "half-cycle 1 (at 0.010 s): a is below 90 % of R (a 79.1 %, b 100.0 %, c 100.0 %)",
            "the smallest sum of squares, 2000000, on a; retained 500",
            "type Ca: of six voltages (each channel against the mean of the three, and each two channels against each other \
             over root 3) the smallest is b against c.",
        ],
    );
    assert!(!told.contains("drop"), "{told}");
}

/// Each type's words name what is smallest in the data: the six voltages are worked out here, straight from the samples.
#[test]
fn the_words_for_each_type_hold() {
    let folder = Folder::new("explain-types");
    let names =
        ["a against the mean", "b against the mean", "c against the mean", "b against c", "c against a", "a against b"];
    let mut met = [false; 7];
    // Type D: one phase drops. Type C: two phases draw together. Turned by one channel each time.
    for (turn, shape) in (0..3).flat_map(|turn| [(turn, 'D'), (turn, 'C'), (turn, 'A')]) {
        let sample = |at: usize, channel: usize, sag: bool| {
            let angle = TAU * at as f64 / 64.0;
            let third = TAU / 3.0;
            let (own, depth) = ((channel + 3 - turn) % 3, if sag { 0.5 } else { 1.0 });
            let value = match (shape, own) {
                ('D', 0) => depth * angle.sin(),
                ('C', 0) | ('D', _) => (angle - own as f64 * third).sin(),
                ('A', _) => depth * (angle - own as f64 * third).sin(),
                // The parts of b and c across a's shrink.
                (_, own) => -0.5 * angle.sin() + if own == 1 { -1.0 } else { 1.0 } * depth * third.sin() * angle.cos(),
            };
            (value * 10_000.0 * 2f64.sqrt()).round() as i32
        };
        let blocks = 0..40 * 32;
        let samples: Vec<i32> =
            blocks.flat_map(|at| [0, 1, 2].map(|channel| sample(at, channel, (320..640).contains(&at)))).collect();
        folder.write("k.csv", csv(&samples));
        let told = folder.accepted(&["explain", "k.csv", "--json", "--n", "64", "--r", "10000", "--f", "50"]);
        let six = six_voltages(&samples[3 * 384..3 * 448]);
        let (least, most) = (six.iter().copied().fold(f64::MAX, f64::min), six.iter().copied().fold(0.0, f64::max));
        let class = told.split("\"type\":").nth(1).unwrap().split(',').next().unwrap().parse::<usize>().unwrap();
        met[class] = true;
        if class == 0 {
            assert!(
                told.contains("the smallest is at least nine tenths of the largest") && least >= 0.9 * most,
                "{told}"
            );
        } else {
            assert!(told.contains(&format!("the smallest is {}.", names[class - 1])), "{told}");
            assert!(six[class - 1] <= least * 1.000_001 && least < 0.9 * most, "{six:?}: {told}");
        }
    }
    assert_eq!(met, [true; 7]);
}

/// The rms of each channel against the mean of the three, and of each two channels against each other over root 3.
fn six_voltages(window: &[i32]) -> [f64; 6] {
    let mut six = [0.0; 6];
    for three in window.chunks(3) {
        let [a, b, c] = [three[0], three[1], three[2]].map(f64::from);
        let mean = (a + b + c) / 3.0;
        let root = 3f64.sqrt();
        for (sum, v) in
            six.iter_mut().zip([a - mean, b - mean, c - mean, (b - c) / root, (c - a) / root, (a - b) / root])
        {
            *sum += v * v;
        }
    }
    six.map(f64::sqrt)
}

/// An interruption ends where one channel is back, and that one is named; a swell where all are.
#[test]
fn the_condition_that_ended_it_is_named() {
    let mut samples = blocks(&[1000, 1000, 0, 0, 0, 0]);
    samples.extend(a_alone(&[150; 4]).iter().enumerate().map(|(at, v)| if at % 3 == 0 { *v } else { 0 }));
    samples.extend(blocks(&[1000, 1000, 1200, 1200, 1000, 1000]));
    let told = explained("explain-ended", &samples);
    says(
        &told,
        &[
            "a is back at 12 % of R or more (10 + hysteresis 2), and one is enough: a 15.0 %, b 0.0 %, c 0.0 %",
            "a, b and c are above 110 % of R (a 110.5 %, b 110.5 %, c 110.5 %)",
            "all channels are back at 108 % of R or less (110 - hysteresis 2): a 100.0 %, b 100.0 %, c 100.0 %",
        ],
    );
}

/// K9: a gap in a sag leaves two, each with an end that nobody saw.
#[test]
fn why_there_is_no_score() {
    let mut samples = blocks(&[1000, 1000, 500, 500, 500, 500, 1000, 1000]);
    samples[48] = MISSING;
    let told = explained("explain-k9", &samples);
    says(
        &told,
        &[
            "half-cycle 3 (at 0.030 s): it is unknown (it misses 1 sample of a), so the end is unseen",
            "half-cycle 4 before it is unknown (it misses 1 sample of a), so the start is unseen",
            "none, reason 2: only the end unseen",
            "none, reason 1: only the start unseen",
        ],
    );
    let told = explained("explain-k11", &blocks(&[500, 500]));
    says(&told, &["the recording begins there", "the recording ends there", "none, reason 3: both ends unseen"]);
}

#[test]
fn the_peak_of_each_kind() {
    let told =
        explained("explain-peaks", &blocks(&[1000, 1000, 80, 80, 20, 20, 1000, 1000, 1200, 1300, 1300, 1000, 1000]));
    says(
        &told,
        &[
            "peak     half-cycle 4 (at 0.040 s): the smallest sum of squares, 3200, on a, b and c; retained 20",
            "peak     half-cycle 9 (at 0.090 s): the largest sum of squares, 13520000, on a, b and c; retained 1300",
        ],
    );
    assert_eq!(told.matches("the smallest sum of squares, 3200").count(), 2, "sag and interruption: {told}");
}

/// For programs the same sentences, one to a field.
#[test]
fn sentences_in_json_and_csv() {
    let folder = Folder::new("explain-programs");
    folder.write("k.csv", csv(&blocks(&[1000, 1000, 500, 500, 1000, 1000])));
    let json = folder.accepted(&[&["explain", "k.csv", "--json"][..], &KNOWN].concat());
    assert!(json.contains("\"score\":\"severity (1000 - 500) / (1000 - 500) = 1.000: "), "{json}");
    let csv = folder.accepted(&[&["explain", "k.csv", "--csv"][..], &KNOWN].concat());
    assert!(csv.lines().next().unwrap().contains(",energy,launch,peak,landing,score,loss,"), "{csv}");
    assert!(csv.contains(",\"half-cycle 1 (at 0.010 s): a, b and c are below 90 % of R"), "{csv}");
}
