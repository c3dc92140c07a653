//! `trace`: each half-cycle with its time, class, kinds, S and rms, as text, CSV and JSON. What is unknown is that word everywhere.
mod common;
use common::{blocks, csv, k2, raw, rows, says, Folder, Row, KNOWN, MISSING};
use oracle::{plain, random::Random, recording, Settings};
use std::{
    io::{BufRead, BufReader, Read},
    process::Stdio,
};

const S: Settings = Settings { n: 8, r: 1000, f: 50, sag: 90, interruption: 10, swell: 110, hysteresis: 2 };

/// The fields that tell something only where the half-cycle is known.
const KNOWN_ONLY: [&str; 7] = ["kinds", "sum_a", "sum_b", "sum_c", "rms_percent_a", "rms_percent_b", "rms_percent_c"];

fn trace<'a>(file: &'a str, more: &[&'a str]) -> Vec<&'a str> {
    [&["trace", file][..], &KNOWN, more].concat()
}

/// The numbers of the half-cycles that are shown.
fn shown(csv: &str) -> Vec<u64> {
    rows(csv).iter().map(|row| row.number("half_cycle")).collect()
}

/// K9: one sample of the fifth block is missing.
fn gap() -> Vec<i32> {
    let mut samples = blocks(&[1000, 1000, 500, 500, 500, 500, 1000, 1000]);
    samples[4 * 12 + 7] = MISSING;
    samples
}

/// Over 1000 and 500 S is 4 x 1,000,000 + 4 x 250,000, and the root of 5/8 is 0.790569.
#[test]
fn text_is_aligned_and_ends_with_its_counts() {
    let folder = Folder::new("trace-text");
    folder.write("k.csv", csv(&gap()));
    let wanted = "\
k.csv: 7 half-cycles (0.070 s): 2 healthy, 3 disturbed, 2 unknown; 2 events
  half-cycle  begins at  class      kinds     S of a   S of b   S of c  a % of R  b % of R  c % of R
           0    0.000 s  healthy    -        8000000  8000000  8000000    100.00    100.00    100.00
           1    0.010 s  disturbed  sag      5000000  5000000  5000000     79.06     79.06     79.06
           2    0.020 s  disturbed  sag      2000000  2000000  2000000     50.00     50.00     50.00
           3    0.030 s  unknown    unknown  unknown  unknown  unknown   unknown   unknown   unknown
           4    0.040 s  unknown    unknown  unknown  unknown  unknown   unknown   unknown   unknown
           5    0.050 s  disturbed  sag      5000000  5000000  5000000     79.06     79.06     79.06
           6    0.060 s  healthy    -        8000000  8000000  8000000    100.00    100.00    100.00
  7 of 7 half-cycles: 2 healthy, 3 disturbed, 2 unknown
";
    assert_eq!(folder.accepted(&trace("k.csv", &[])), wanted);
    let part = folder.accepted(&trace("k.csv", &["--from", "0.02", "--to", "0.04"]));
    assert!(part.starts_with(wanted.lines().next().unwrap()), "the whole recording's head: {part}");
    assert!(part.ends_with("\n  2 of 7 half-cycles: 0 healthy, 1 disturbed, 1 unknown\n"), "{part}");
    assert_eq!(part.lines().count(), 5, "{part}");
}

#[test]
fn rows_for_spreadsheets() {
    let folder = Folder::new("trace-csv");
    folder.write("k.csv", csv(&gap()));
    let wanted = "\
part,half_cycle,seconds,class,kinds,sum_a,sum_b,sum_c,rms_percent_a,rms_percent_b,rms_percent_c
1,0,0,healthy,none,8000000,8000000,8000000,100.00,100.00,100.00
1,1,0.01,disturbed,sag,5000000,5000000,5000000,79.06,79.06,79.06
1,2,0.02,disturbed,sag,2000000,2000000,2000000,50.00,50.00,50.00
1,3,0.03,unknown,unknown,unknown,unknown,unknown,unknown,unknown,unknown
1,4,0.04,unknown,unknown,unknown,unknown,unknown,unknown,unknown,unknown
1,5,0.05,disturbed,sag,5000000,5000000,5000000,79.06,79.06,79.06
1,6,0.06,healthy,none,8000000,8000000,8000000,100.00,100.00,100.00
";
    assert_eq!(folder.accepted(&trace("k.csv", &["--csv"])), wanted);
    folder.site("x.site");
    assert_eq!(folder.accepted(&["trace", "k.csv", "--site", "x.site", "--csv"]), wanted, "a site's settings");
    let ran = folder.run_with(&trace("-", &["--csv", "--raw"]), &raw(&gap()));
    assert_eq!((ran.status, ran.out.as_str()), (0, wanted), "standard input");
}

#[test]
fn objects_for_programs() {
    let folder = Folder::new("trace-json");
    folder.write("k.csv", csv(&gap()));
    let wanted =
        "{\"settings\":{\"n\":8,\"r\":1000,\"f\":50,\"sag\":90,\"interruption\":10,\"swell\":110,\"hysteresis\":2},\
        \"recording\":\"k.csv\",\"half_cycles\":{\"total\":7,\"healthy\":2,\"disturbed\":3,\"unknown\":2},\"cuts\":[],\
        \"shown\":{\"total\":3,\"healthy\":0,\"disturbed\":2,\"unknown\":1},\"trace\":[\
        {\"part\":1,\"half_cycle\":1,\"seconds\":0.01,\"class\":\"disturbed\",\"kinds\":[\"sag\"],\
        \"sum_a\":5000000,\"sum_b\":5000000,\"sum_c\":5000000,\
        \"rms_percent_a\":79.06,\"rms_percent_b\":79.06,\"rms_percent_c\":79.06},\
        {\"part\":1,\"half_cycle\":2,\"seconds\":0.02,\"class\":\"disturbed\",\"kinds\":[\"sag\"],\
        \"sum_a\":2000000,\"sum_b\":2000000,\"sum_c\":2000000,\
        \"rms_percent_a\":50.00,\"rms_percent_b\":50.00,\"rms_percent_c\":50.00},\
        {\"part\":1,\"half_cycle\":3,\"seconds\":0.03,\"class\":\"unknown\",\"kinds\":\"unknown\",\
        \"sum_a\":\"unknown\",\"sum_b\":\"unknown\",\"sum_c\":\"unknown\",\
        \"rms_percent_a\":\"unknown\",\"rms_percent_b\":\"unknown\",\"rms_percent_c\":\"unknown\"}]}\n";
    assert_eq!(folder.accepted(&trace("k.csv", &["--json", "--from", "0.01", "--to", "0.04"])), wanted);
    let healthy = folder.accepted(&trace("k.csv", &["--json", "--to", "0.01"]));
    assert!(healthy.contains("\"class\":\"healthy\",\"kinds\":[],\"sum_a\":8000000,"), "{healthy}");
}

/// K6 and K10: a half-cycle may lie in two events, and no voltage is a 0 that somebody saw.
#[test]
fn kinds_and_a_seen_0() {
    let folder = Folder::new("trace-kinds");
    folder.write("k6.csv", csv(&blocks(&[1000, 1000, 0, 0, 1000, 1000])));
    folder.write("k10.csv", csv(&blocks(&[1000, 1000, 1200, 1200, 1000, 1000])));
    let told = folder.accepted(&trace("k6.csv", &["--csv"]));
    assert!(told.contains("\n1,2,0.02,disturbed,sag+interruption,0,0,0,0.00,0.00,0.00\n"), "{told}");
    let told = folder.accepted(&trace("k6.csv", &["--json"]));
    assert!(told.contains("\"kinds\":[\"sag\",\"interruption\"],\"sum_a\":0,"), "{told}");
    let told = folder.accepted(&trace("k10.csv", &["--csv"]));
    assert!(told.contains("\n1,2,0.02,disturbed,swell,11520000,11520000,11520000,120.00,120.00,120.00\n"), "{told}");
}

/// At R 10,000 one sample of 8999 among 9000 makes 89.99875 percent, which reads 90.00 and is below: a sag. 9000 throughout reads
/// the same and is none.
#[test]
fn thresholds_go_by_s_and_not_by_what_is_printed() {
    let folder = Folder::new("trace-rounded");
    let mut samples = blocks(&[10_000, 10_000, 9_000, 9_000, 9_000, 10_000, 10_000]);
    samples[24] = 8_999;
    folder.write("k.csv", csv(&samples));
    let told =
        folder.accepted(&["trace", "k.csv", "--csv", "--n", "8", "--r", "10000", "--f", "50", "--hysteresis", "0"]);
    says(
        &told,
        &[
            "\n1,2,0.02,disturbed,sag,647982001,648000000,648000000,90.00,90.00,90.00\n",
            "\n1,3,0.03,healthy,none,648000000,648000000,648000000,90.00,90.00,90.00\n",
        ],
    );
}

/// Blocks at levels on and beside the thresholds, each channel by itself or all alike, single samples turned, with gaps.
fn drawn(random: &mut Random) -> Vec<i32> {
    let mut samples = Vec::new();
    for _ in 0..random.between(2, 60) {
        let mut level =
            || random.pick(&[0, 30, 99, 100, 120, 500, 880, 899, 900, 919, 920, 1000, 1079, 1100, 1101, 1300]);
        let (one, three) = (level(), [level(), level(), level()]);
        let three = if random.once_in(2) { [one; 3] } else { three };
        (0..4 * random.between(1, 4)).for_each(|_| samples.extend(three));
    }
    for _ in 0..random.below(20) {
        let at = random.below(samples.len() as u64) as usize;
        samples[at] = if random.once_in(3) { MISSING } else { random.signed(-1300, 1300) };
    }
    samples
}

/// Two places, to the nearest, halves upward: h - 1/2 is at most 10,000 V / R, and that is below h + 1/2; squared.
fn is_nearest(s: &Settings, sum: u64, written: &str) -> bool {
    let (whole, part) = written.split_once('.').unwrap();
    let h = format!("{whole}{part}").parse::<u128>().unwrap();
    let (exact, reference) = (400_000_000 * u128::from(sum), u128::from(s.n * s.r * s.r));
    part.len() == 2 && (h == 0 || (2 * h - 1).pow(2) * reference <= exact) && exact < (2 * h + 1).pow(2) * reference
}

/// A row is what the second program says of its half-cycle, whose events these are.
fn assert_told(s: &Settings, row: &Row, k: u64, half: recording::Half, events: &[oracle::Event]) {
    assert_eq!((row.number("half_cycle"), row.whole()), (k, true));
    assert_eq!(row.field("seconds").parse::<f64>().unwrap(), k as f64 / (2 * s.f) as f64, "{k}");
    let Some(sums) = half else {
        assert_eq!(row.field("class"), "unknown", "{k}");
        assert!(KNOWN_ONLY.iter().all(|name| row.field(name) == "unknown"), "{k}");
        return;
    };
    let names = [(1, "sag"), (2, "interruption"), (3, "swell")];
    let lies = |kind: u64| events.iter().any(|e| e[0] == kind && (e[1]..e[2]).contains(&k));
    let kinds: Vec<&str> = names.iter().filter(|(kind, _)| lies(*kind)).map(|(_, name)| *name).collect();
    let (class, kinds) = if kinds.is_empty() { ("healthy", "none".into()) } else { ("disturbed", kinds.join("+")) };
    assert_eq!((row.field("class"), row.field("kinds")), (class, kinds.as_str()), "{k}");
    for (sum, channel) in sums.into_iter().zip(["a", "b", "c"]) {
        assert_eq!(row.number(&format!("sum_{channel}")), sum, "{k}");
        let written = row.field(&format!("rms_percent_{channel}"));
        assert!(is_nearest(s, sum, written), "{k}: {sum} {written}");
    }
}

#[test]
fn each_half_cycle_is_the_second_programs() {
    let folder = Folder::new("trace-second");
    let random = &mut Random::new(21);
    let mut met = [0; 3];
    for round in 0..40 {
        let s = Settings { f: random.pick(&[50, 60]), hysteresis: random.below(6), ..S };
        let samples = drawn(random);
        folder.write("k.i32", raw(&samples));
        let (f, hysteresis) = (s.f.to_string(), s.hysteresis.to_string());
        let args = ["trace", "k.i32", "--csv", "--n", "8", "--r", "1000", "--f", &f, "--hysteresis", &hysteresis];
        let (told, halves) = (rows(&folder.accepted(&args)), recording::halves(&s, &samples));
        let events = plain::walk(&s, &samples).events;
        assert_eq!(told.len(), halves.len(), "{round}");
        for ((k, half), row) in (0..).zip(&halves).zip(&told) {
            assert_told(&s, row, k, *half, &events);
            met[["healthy", "disturbed", "unknown"].iter().position(|class| *class == row.field("class")).unwrap()] +=
                1;
        }
    }
    assert!(met.iter().all(|count| *count > 100), "{met:?}");
}

/// A half-cycle is shown that begins at --from or later and before --to. As floats 0.07 x 100 is above 7, and 0.29 x 100 below 29.
#[test]
fn a_window_has_exact_edges() {
    let folder = Folder::new("trace-window");
    folder.write("k.i32", raw(&blocks(&[1000; 41])));
    let all: Vec<u64> = (0..40).collect();
    let cases: [(&str, &[&str], &[u64]); 13] = [
        ("50", &["--from", "0.07", "--to", "0.08"], &all[7..8]),
        ("50", &["--from", "0.29"], &all[29..]),
        ("50", &["--to", "0.29"], &all[..29]),
        ("50", &["--from", "0.070000000000000001"], &all[8..]),
        ("50", &["--from", "0.069999999999999999"], &all[7..]),
        ("50", &["--to", "0.070000000000000001"], &all[..8]),
        ("50", &["--from=.07", "--to=0.070000000000000001"], &all[7..8]),
        ("50", &["--from", "0", "--to", "0.4"], &all),
        ("50", &["--from", "000.390", "--to", "00.40"], &all[39..]),
        ("60", &["--from", "0.05", "--to", "0.0583333"], &all[6..7]),
        ("60", &["--from", "0.05", "--to", "0.0583334"], &all[6..8]),
        ("60", &["--from", "0.325"], &all[39..]),
        ("60", &["--from", "0.", "--to", "0.333333333333333333"], &all),
    ];
    for (f, window, wanted) in cases {
        let args = [&["trace", "k.i32", "--csv", "--n", "8", "--r", "1000", "--f", f][..], window].concat();
        assert_eq!(shown(&folder.accepted(&args)), wanted, "{f} Hz {window:?}");
    }
}

#[test]
fn a_window_that_makes_no_sense_is_told() {
    let folder = Folder::new("trace-window-bad");
    folder.write("k.csv", csv(&blocks(&[1000; 41])));
    for word in [
        "x",
        "",
        ".",
        "-1",
        "-0.1",
        "+1",
        "nan",
        "NaN",
        "inf",
        "1e3",
        "0,5",
        "1.2.3",
        " 1",
        "0.5s",
        "1234567890123456789",
    ] {
        for option in ["--from", "--to"] {
            let ran =
                folder.bad(&trace("k.csv", &[option, word]), &format!("{option} wants seconds from 0 on in digits"));
            assert!(ran.err.contains(&format!("and {word:?} is none")), "{ran:?}");
        }
    }
    let long = format!("0.{}", "1".repeat(19));
    let cases: [(&[&str], &str); 11] = [
        (&["--from", &long], "at most 18 before and after the point"),
        (&["--from", "0.2", "--from", "0.3"], "--from is given twice"),
        (&["--from", "0.3", "--to", "0.2"], "--from 0.3 lies after --to 0.2"),
        (
            &["--from", "0.4"],
            "--from 0.4: no half-cycle of k.csv begins then or later; the last, 39, begins at 0.390 s",
        ),
        (&["--from", "0.391"], "--from 0.391: no half-cycle of k.csv begins then or later"),
        (&["--from", "123456789012345678"], "no half-cycle of k.csv begins then or later"),
        (
            &["--to", "0.400000000000000001"],
            "--to 0.400000000000000001 lies beyond the end of k.csv, which has 40 half-cycles (0.400 s)",
        ),
        (&["--from", "0.1", "--to", "999999999999999999.9"], "lies beyond the end of k.csv"),
        (
            &["--from", "0.071", "--to", "0.079"],
            "no half-cycle begins from 0.071 s on and before 0.079 s: half-cycle k begins at k / 100 s",
        ),
        (&["--from", "0.07", "--to", "0.07"], "no half-cycle begins from 0.07 s on and before 0.07 s"),
        (&["--to", "0"], "no half-cycle begins from 0 s on and before 0 s"),
    ];
    for (window, words) in cases {
        for format in [&[][..], &["--json"], &["--csv"]] {
            folder.bad(&trace("k.csv", &[window, format].concat()), words);
        }
    }
    for (more, words) in [
        (&["k.csv"][..], "one file too many"),
        (&["--from"], "--from wants a value"),
        (&["--room", "5"], "--room is no option of this command"),
        (&["--borders", "4-11"], "--borders is no option of this command"),
        (&["--json", "--csv"], "exclude each other"),
    ] {
        folder.bad(&trace("k.csv", more), words);
    }
}

/// What the rules turn away is turned away as in a list: number, place, words, and JSON for programs.
#[test]
fn refusals_are_those_of_the_list() {
    let folder = Folder::new("trace-refused");
    let mut bad = k2();
    bad[40] = 100_001;
    let files = [
        ("no-three.i32", raw(&k2()[1..]), 2, 0),
        ("few.i32", raw(&k2()[..21]), 3, 0),
        ("ragged.i32", raw(&k2()[..27]), 4, 0),
        ("long.i32", raw(&blocks(&vec![1000; 100_002])), 5, 0),
        ("bad.i32", raw(&bad), 6, 40),
    ];
    for (file, bytes, number, place) in files {
        folder.write(file, bytes);
        let ran = folder.refused(&trace(file, &["--json"]), number, place);
        let list = folder.refused(&[&["list", file, "--json"][..], &KNOWN].concat(), number, place);
        assert_eq!((ran.out, ran.err), (list.out, list.err), "{file}");
    }
    folder.write("k.csv", csv(&k2()));
    let settings = folder.refused(&["trace", "k.csv", "--json", "--n", "8", "--r", "1000", "--f", "55"], 1, 3);
    assert!(settings.out.starts_with("{\"refused\":{\"what\":\"k.csv\",\"number\":1,\"place\":3,"), "{settings:?}");
}

/// Parts, numbers and times of a long recording are those of a list, and between events nothing is told otherwise than of the whole.
#[test]
fn a_long_recording_is_cut_as_in_a_list() {
    let folder = Folder::new("trace-cut");
    let mut levels = vec![1000; 100_200];
    levels[99_990..99_995].fill(0);
    levels[100_051..100_061].fill(500);
    let mut samples = blocks(&levels);
    samples[100_100 * 12] = MISSING;
    folder.write("long.i32", raw(&samples));
    let (told, events) =
        (rows(&folder.accepted(&trace("long.i32", &["--cut", "--csv"]))), plain::walk(&S, &samples).events);
    assert_eq!(told.len(), 100_199);
    for (k, row) in (0..).zip(&told) {
        assert_told(&S, row, k, recording::half(&S, &samples, k), &events);
        assert_eq!(row.number("part"), 1 + u64::from(k >= 100_000), "{k}");
    }
    let window = ["--cut", "--from", "999.99", "--to", "1000.01"];
    let text = folder.accepted(&trace("long.i32", &window));
    says(
        &text,
        &[
            "long.i32 is cut into 2 parts.\n",
            "long.i32, part 1 of 2: 100000 half-cycles (1000.000 s), from half-cycle 0 (0.000 s) on: ",
            "\n       99999  999.990 s  healthy  - ",
            "long.i32, part 2 of 2: 199 half-cycles (1.990 s), from half-cycle 100000 (1000.000 s) on: ",
            "\n      100000  1000.000 s  healthy  - ",
            "\n  2 of 100199 half-cycles: 2 healthy, 0 disturbed, 0 unknown\n",
        ],
    );
    let later = folder.accepted(&trace("long.i32", &["--cut", "--from", "1000.98", "--to", "1001"]));
    assert!(!later.contains("part 1 of 2"), "a part of which nothing is shown has no head: {later}");
    assert!(later.ends_with("\n  2 of 100199 half-cycles: 1 healthy, 0 disturbed, 1 unknown\n"), "{later}");
}

/// A sag that stands between its threshold and the hysteresis at a cut is told as in none after it, and that is said: in text, in
/// JSON, and beside the rows of CSV, which have no place for it.
#[test]
fn what_a_cut_hides_is_said() {
    let folder = Folder::new("trace-split");
    let mut levels = vec![1000; 100_200];
    levels[50..100_100].fill(910);
    levels[50..60].fill(500);
    folder.write("long.i32", raw(&blocks(&levels)));
    let window = ["--cut", "--from", "1000.47", "--to", "1000.49"];
    let wanted = "it splits the sag from half-cycle 49 to 100099.";
    let band = "Half-cycles 100048 to 100098 of the sag lie between its threshold and the hysteresis, and are told as in no sag.";
    let text = folder.accepted(&trace("long.i32", &window)).replace('\n', " ");
    says(&text, &[wanted, band, "100047  1000.470 s  disturbed  sag ", "100048  1000.480 s  healthy  - "]);
    let json = folder.accepted(&trace("long.i32", &[&window[..], &["--json"]].concat()));
    says(&json, &["\"start\":49,\"end\":100099,\"untold\":51}]}],\"shown\":{\"total\":2,\"healthy\":1,\"disturbed\":1,\"unknown\":0}"]);
    let ran = folder.run(&trace("long.i32", &[&window[..], &["--csv"]].concat()));
    assert!(ran.status == 0 && ran.err.contains(wanted) && ran.err.contains(band), "{ran:?}");
    assert_eq!(rows(&ran.out).iter().map(|row| row.field("kinds").to_string()).collect::<Vec<_>>(), ["sag", "none"]);
}

/// Nobody saw any of it: no field of any row could pass for voltage, and the counts say so.
#[test]
fn what_nobody_saw_is_told_in_words() {
    let folder = Folder::new("trace-unseen");
    folder.write("k.csv", csv(&[MISSING; 72]));
    let text = folder.accepted(&trace("k.csv", &[]));
    says(
        &text,
        &[
            "Nobody saw it: all 5 half-cycles are unknown.",
            "\n  5 of 5 half-cycles: 0 healthy, 0 disturbed, 5 unknown\n",
        ],
    );
    let told = rows(&folder.accepted(&trace("k.csv", &["--csv"])));
    assert!(told.len() == 5 && told.iter().all(|row| KNOWN_ONLY.iter().all(|name| row.field(name) == "unknown")));
    let json = folder.accepted(&trace("k.csv", &["--json"]));
    assert!(!json.contains("null") && !json.contains("\"sum_a\":0") && !json.contains("[]}"), "{json}");
    assert_eq!(
        json.matches("\"unknown\"").count(),
        5 * 8 + 2,
        "class, kinds, six fields; and the name of two counts: {json}"
    );
}

/// A reader that stops early is no error.
#[test]
fn a_pipe_may_be_closed() {
    let folder = Folder::new("trace-pipe");
    folder.write("k.i32", raw(&blocks(&vec![1000; 50_000])));
    for format in [&[][..], &["--csv"], &["--json"]] {
        let mut command = folder.command(&trace("k.i32", format));
        let mut child = command.stdout(Stdio::piped()).stderr(Stdio::piped()).spawn().unwrap();
        let mut out = BufReader::with_capacity(64, child.stdout.take().unwrap());
        assert!(out.fill_buf().is_ok_and(|first| !first.is_empty()));
        drop(out);
        let (ended, mut err) = (child.wait().unwrap(), String::new());
        child.stderr.unwrap().read_to_string(&mut err).unwrap();
        assert_eq!((ended.code(), err.as_str()), (Some(0), ""), "{format:?}");
    }
}
