//! `check`: what is wrong with the settings or with a channel is told before anything is added, and `add` warns.
mod common;
use common::{blocks, csv, k2, raw, rows, says, Folder, KNOWN, MISSING};
use std::f64::consts::TAU;

/// Forty half cycles of three sines: samples per cycle, and the peak of each channel.
fn sines(n: usize, peaks: [f64; 3]) -> Vec<i32> {
    let sample = |at: usize, channel: usize| {
        let angle = TAU * (at as f64 / n as f64 - channel as f64 / 3.0);
        (peaks[channel] * angle.sin()).round() as i32
    };
    (0..20 * n).flat_map(|at| [0, 1, 2].map(|channel| sample(at, channel))).collect()
}

/// Three sines of 10,000 rms with 64 samples to a cycle.
fn good() -> Vec<i32> {
    sines(64, [10_000.0 * 2f64.sqrt(); 3])
}

const FIT: [&str; 6] = ["--n", "64", "--r", "10000", "--f", "50"];

/// What `check` says of a recording under settings that fit the good one, on one line.
fn checked(folder: &Folder, samples: &[i32], settings: &[&str]) -> String {
    folder.write("k.i32", raw(samples));
    let ran = folder.run(&[&["check", "k.i32"][..], settings].concat());
    assert!(ran.status == 0 && ran.err.is_empty(), "{ran:?}");
    ran.out.split_whitespace().collect::<Vec<_>>().join(" ")
}

#[test]
fn a_good_recording_fits() {
    let folder = Folder::new("check-good");
    let told = checked(&folder, &good(), &FIT);
    says(
        &told,
        &[
            "k.i32: 1280 samples of each channel = 39 half-cycles (0.390 s)",
            "a 100.0 100.0 100.0 0 0 1 64.0 b 100.0 100.0 100.0 0 0",
            "N 64 fits the period of a, b and c.",
            "The length fits: a whole number of half cycles of 32 samples.",
            "It would be accepted.",
        ],
    );
    assert!(!told.contains("Warning"), "{told}");
    folder.accepted(&[&["new", "x.site"][..], &FIT].concat());
    assert_eq!(checked(&folder, &good(), &["--site", "x.site"]), told, "the settings of a site");
}

/// R given as the peak: everything stands at 70.7 percent.
#[test]
fn a_wrong_reference_is_told() {
    let folder = Folder::new("check-reference");
    let told = checked(&folder, &good(), &["--n", "64", "--r", "14142", "--f", "50"]);
    says(
        &told,
        &[
            "Warning: the median rms lies outside 80 to 120 % of R (70.7 % on a, 70.7 % on b and 70.7 % on c): is R 14142 the rms \
             value in sample units, and not the peak? 10000 would make a 100 %.",
        ],
    );
    let low = sines(64, [10_000.0 * 2f64.sqrt(), 7_990.0 * 2f64.sqrt(), 8_010.0 * 2f64.sqrt()]);
    let told = checked(&folder, &low, &FIT);
    says(&told, &["Warning: the median rms lies outside 80 to 120 % of R (79.9 % on b): is R"]);
    assert_eq!(told.matches("Warning").count(), 1, "{told}");
}

/// A sag leaves the median alone, and shows in the range.
#[test]
fn the_median_and_the_range() {
    let folder = Folder::new("check-range");
    let mut samples = good();
    samples[600..1_560].iter_mut().for_each(|sample| *sample /= 2);
    let told = checked(&folder, &samples, &FIT);
    says(&told, &["a 100.0 50.0 100.0 0 0", "N 64 fits the period"]);
    assert!(!told.contains("Warning"), "{told}");
}

#[test]
fn missing_dead_stuck_and_unseen_channels_are_told() {
    let folder = Folder::new("check-channels");
    let mut samples = good();
    for at in 0..1280 {
        samples[3 * at + 1] = if at % 2 == 0 { 3 } else { -3 };
        if (200..328).contains(&at) {
            samples[3 * at + 2] = 1234;
        }
        if (700..707).contains(&at) {
            samples[3 * at] = MISSING;
        }
    }
    let told = checked(&folder, &samples, &FIT);
    says(
        &told,
        &[
            "a 100.0 100.0 100.0 7 0 1 64.0",
            "b 0.0 0.0 0.0 0 0 1 2.0",
            "Warning: dead, never at 5 % of R: b.",
            "Warning: stuck: 128 samples of c in a row are 1234 (2.0 cycles), from its sample 200 on.",
        ],
    );
    assert_eq!(told.matches("Warning").count(), 2, "{told}");
    samples.iter_mut().step_by(3).for_each(|a| *a = MISSING);
    let told = checked(&folder, &samples, &FIT);
    says(&told, &["a unseen unseen unseen 1280 0 0 none", "Warning: nobody saw a: no half-cycle there is whole."]);
    // The known answers' blocks don't swing, and a channel that stands still is stuck.
    let told = checked(&folder, &blocks(&[1000; 6]), &KNOWN);
    says(
        &told,
        &[
            "Whether N 8 fits can't be told: no channel that is alive shows a whole cycle.",
            "stuck: 24 samples of a in a row are 1000",
        ],
    );
}

/// The period is seen through noise, harmonics, an offset and a gap, for any N.
#[test]
fn an_n_that_is_not_the_period_is_told() {
    let folder = Folder::new("check-period");
    let told = checked(&folder, &good(), &["--n", "128", "--r", "10000", "--f", "50"]);
    says(
        &told,
        &[
            "N 128 does not fit the period of the samples.",
            "Warning: N 128 does not fit: in samples a cycle is 64.0 on a, 64.0 on b and 64.0 on c.",
        ],
    );
    let told = checked(&folder, &sines(256, [14_142.0; 3]), &FIT);
    says(&told, &["256.0 on c."]);
    // Sampling is locked to the mains: one sample off is another N.
    for (period, n) in [(65, 64), (130, 128), (252, 256), (504, 512)] {
        let (samples, n_text) = (sines(period, [14_142.0; 3]), n.to_string());
        let whole = &samples[..18 * 3 * n];
        let told = checked(&folder, whole, &["--n", &n_text, "--r", "10000", "--f", "50"]);
        says(&told, &[&format!("Warning: N {n} does not fit: in samples a cycle is {period}.0 on a")]);
    }
    for n in [8, 10, 60, 512] {
        let mut samples = sines(n, [14_142.0; 3]);
        for (at, sample) in samples.iter_mut().enumerate() {
            let angle = TAU * (at / 3) as f64 / n as f64;
            *sample += (900.0 * (3.0 * angle).sin()) as i32 + (at as i32 * 7_919 % 601 - 300) + 2_000;
        }
        samples[300..340].fill(MISSING);
        let n = n.to_string();
        let told = checked(&folder, &samples, &["--n", &n, "--r", "10000", "--f", "50"]);
        says(&told, &[&format!("N {n} fits the period of a, b and c.")]);
    }
}

/// What the library would turn away is measured all the same, told with its refusal, and ends with status 1.
#[test]
fn what_would_be_refused_is_told() {
    let folder = Folder::new("check-refused");
    let cases: [(Vec<i32>, u64, u64, &str); 5] = [
        (
            good()[..3 * 1277].to_vec(),
            4,
            0,
            "the length does not fit: each channel has 29 samples over after the last whole half",
        ),
        (good()[..3 * 63].to_vec(), 3, 0, "63 samples of each channel"),
        (good()[..3 * 1280 - 1].to_vec(), 2, 0, "1279 samples of each channel"),
        ([&good()[..], &[100_001; 96]].concat(), 6, 3840, "a 100.0 100.0 100.0 0 32"),
        (blocks(&vec![100; 100_100]), 5, 0, "half-cycles ("),
    ];
    for (samples, number, place, words) in cases {
        folder.write("k.i32", raw(&samples));
        let settings = if number == 5 { KNOWN } else { FIT };
        let ran = folder.refused(&[&["check", "k.i32"][..], &settings].concat(), number, place);
        let told = ran.out.split_whitespace().collect::<Vec<_>>().join(" ");
        says(&told, &[words, &format!("It would be refused: refusal {number}, place {place}: ")]);
        let json = folder.refused(&[&["check", "k.i32", "--json"][..], &settings].concat(), number, place).out;
        let refused = format!("\"refused\":{{\"what\":\"k.i32\",\"number\":{number},\"place\":{place},");
        assert!(json.contains(&refused), "{json}");
    }
    folder.write("bad.csv", csv(&[&k2()[..], &[100_001; 12]].concat()));
    let ran = folder.refused(&[&["check", "bad.csv"][..], &KNOWN].concat(), 6, 72);
    assert!(ran.err.contains("line 26, channel a, 100001") && ran.out.contains("line 26, channel a"), "{ran:?}");
    folder.write("none.csv", "");
    let none = folder.refused(&[&["check", "none.csv"][..], &KNOWN].concat(), 3, 0).out;
    assert!(!none.contains("The length fits"), "{none}");
    let ran = folder.refused(&[&["check", "k.i32"][..], &KNOWN].concat(), 5, 0);
    assert!(ran.err.contains("--cut cuts it into parts"), "{ran:?}");
    let told = folder.accepted(&[&["check", "k.i32", "--cut"][..], &KNOWN].concat());
    assert!(told.contains("It would be accepted."), "{told}");
    folder.refused(&["check", "k.i32", "--n", "9", "--r", "10000", "--f", "50"], 1, 1);
    folder.bad(&["check", "nowhere.csv", "--n", "8", "--r", "1000", "--f", "50"], "nowhere.csv: ");
    folder.bad(&["check", "k.i32"], "--n is wanting");
}

#[test]
fn check_for_programs() {
    let folder = Folder::new("check-programs");
    let mut samples = good();
    samples[300] = MISSING;
    folder.write("k.i32", raw(&samples));
    let csv = folder.accepted(&[&["check", "k.i32", "--csv"][..], &FIT].concat());
    let rows = rows(&csv);
    assert_eq!(rows.len(), 3, "{csv}");
    let channels: Vec<&str> = rows.iter().map(|row| row.field("channel")).collect();
    assert_eq!(channels, ["a", "b", "c"]);
    assert_eq!((rows[0].number("missing"), rows[1].number("missing"), rows[0].number("half_cycles")), (1, 0, 39));
    let near = |name: &str, wanted: f64| (rows[2].field(name).parse::<f64>().unwrap() - wanted).abs() < 0.01;
    assert!(near("median_percent", 100.0) && near("period", 64.0), "{csv}");
    assert_eq!(rows[2].field("warnings"), "0");
    let json = folder.accepted(&[&["check", "k.i32", "--json"][..], &FIT].concat());
    assert!(json.contains("\"recording\":\"k.i32\",\"samples\":1280,\"half_cycles\":39,\"seconds\":0.39,\"over\":0,\"channels\":[{\"channel\":\"a\",\"median_percent\":"), "{json}");
    assert!(json.ends_with("\"warnings\":[],\"refused\":null}]}\n"), "{json}");
}

/// A dead channel's noise has no say in whether N fits.
#[test]
fn a_dead_channel_does_not_fit() {
    let folder = Folder::new("check-dead");
    let mut samples = good();
    samples.iter_mut().skip(2).step_by(3).enumerate().for_each(|(at, c)| *c = at as i32 * 7_919 % 41 - 20);
    let told = checked(&folder, &samples, &FIT);
    says(&told, &["N 64 fits the period of a and b.", "Warning: dead, never at 5 % of R: c."]);
    samples.iter_mut().for_each(|sample| *sample /= 300);
    let told = checked(&folder, &samples, &FIT);
    says(&told, &["Whether N 64 fits can't be told", "dead, never at 5 % of R: a, b and c."]);
}

/// A value beside a border is not told as if it were on it.
#[test]
fn a_median_beside_the_border() {
    let folder = Folder::new("check-border");
    let told = checked(&folder, &sines(64, [7_996.0 * 2f64.sqrt(); 3]), &FIT);
    says(&told, &["(79.96 % on a, 79.96 % on b and 79.96 % on c)"]);
    folder.accepted(&[&["new", "x.site"][..], &FIT].concat());
    let ran = folder.run(&["add", "x.site", "k.i32"]);
    assert!(ran.err.contains("a 79.96 %, b 79.96 %, c 79.96 %"), "{ran:?}");
    // In the table too; a value on the border is told as that.
    let levels = |a: i32, b: i32, c: i32| (0..6 * 4).flat_map(|_| [a, b, c]).collect::<Vec<_>>();
    let told = checked(&folder, &levels(39_999, 40_000, 2_499), &["--n", "8", "--r", "50000", "--f", "50"]);
    says(
        &told,
        &[
            "a 79.998 79.998 79.998",
            "b 80.0 80.0 80.0",
            "c 4.998 4.998 4.998",
            "(79.998 % on a)",
            "dead, never at 5 % of R: c.",
        ],
    );
}

/// What cutting would do to events is told before they are added.
#[test]
fn what_a_cut_would_split_is_told() {
    let folder = Folder::new("check-split");
    let mut levels = vec![1000; 150_020];
    levels[11..150_001].fill(500);
    folder.write("long.i32", raw(&blocks(&levels)));
    let told = folder.accepted(&[&["check", "long.i32", "--cut"][..], &KNOWN].concat());
    let told = told.split_whitespace().collect::<Vec<_>>().join(" ");
    says(
        &told,
        &["Warning: No place between events was left for the cut at half-cycle 100009", "It would be accepted."],
    );
    let json = folder.accepted(&[&["check", "long.i32", "--cut", "--json"][..], &KNOWN].concat());
    assert!(json.contains("it splits the sag from half-cycle 10 to 150001"), "{json}");
}

/// With a site, what its table has no room for is told before it is added, and how much room there is.
#[test]
fn a_full_site_is_told() {
    let folder = Folder::new("check-full");
    folder.site("x.site");
    let full = folder.read("x.site").replace("total 0", "total 3999990").replace("healthy 0", "healthy 3999990");
    folder.write("x.site", &full);
    folder.write("k.csv", csv(&k2()));
    folder.accepted(&["check", "k.csv", "--site", "x.site"]);
    let ran = folder.refused(&["add", "x.site", "k.csv", "k.csv", "k.csv"], 8, 0);
    assert!(
        ran.err.contains("k.csv: refusal 8") && ran.err.contains("after 10 that came before it; the site has 10 left"),
        "{ran:?}"
    );
    let json = folder.refused(&["add", "x.site", "k.csv", "k.csv", "k.csv", "--json"], 8, 0).out;
    assert!(json.contains("0 half-cycles are left (after 10 that came before it; the site has 10 left"), "{json}");
    let ran = folder.refused(&["check", "k.csv", "k.csv", "k.csv", "--site", "x.site"], 8, 0);
    assert_eq!(ran.out.matches("It would be accepted.").count(), 2, "one after another: {ran:?}");
    folder.write("long.csv", csv(&blocks(&[1000; 13])));
    let ran = folder.refused(&["check", "long.csv", "--site", "x.site"], 8, 10);
    assert!(ran.out.contains("It would be refused: refusal 8, place 10:"), "{ran:?}");
    assert_eq!(folder.read("x.site"), full);
}

/// `check` adds nothing; `add` adds, and says on standard error where the median lies outside 80 to 120 percent of R.
#[test]
fn add_warns_of_a_wrong_reference() {
    let folder = Folder::new("check-add");
    folder.accepted(&["new", "peak.site", "--n", "64", "--r", "14142", "--f", "50"]);
    folder.accepted(&[&["new", "fit.site"][..], &FIT].concat());
    folder.write("k.i32", raw(&good()));
    let before = folder.read("peak.site");
    folder.accepted(&["check", "k.i32", "--site", "peak.site"]);
    assert_eq!(folder.read("peak.site"), before);
    let ran = folder.run(&["add", "peak.site", "k.i32", "--json"]);
    let wanted =
        "burrcradle: warning: k.i32: the median rms lies outside 80 to 120 % of R: a 70.7 %, b 70.7 %, c 70.7 %.";
    assert!(ran.status == 0 && ran.err.starts_with(wanted) && ran.err.lines().count() == 1, "{ran:?}");
    assert_eq!(folder.counted("peak.site", "total"), 39);
    let ran = folder.run(&["add", "fit.site", "k.i32"]);
    assert_eq!((ran.status, ran.err.as_str()), (0, ""));
    // One channel is enough, and a channel that nobody saw does not hide the others.
    let mut samples = good();
    samples.iter_mut().step_by(3).for_each(|a| *a = MISSING);
    samples.iter_mut().skip(2).step_by(3).for_each(|c| *c *= 2);
    folder.write("k.i32", raw(&samples));
    let ran = folder.run(&["add", "fit.site", "k.i32"]);
    assert!(ran.status == 0 && ran.err.contains("a unseen, b 100.0 %, c 200.0 %"), "{ran:?}");
    folder.write("k.csv", csv(&[MISSING; 3 * 640]));
    let ran = folder.run(&["add", "fit.site", "k.csv"]);
    assert!(ran.status == 0 && ran.err.contains("warning: k.csv: nobody saw any of it"), "{ran:?}");
    // A refused recording is refused and no more.
    folder.write("bad.csv", csv(&k2()[..27]));
    assert!(!folder.refused(&["add", "fit.site", "bad.csv"], 3, 0).err.contains("warning"));
}
