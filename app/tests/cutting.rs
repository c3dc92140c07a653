//! Cutting: between events wherever that can be had, so that the parts' events, moved back, are those of the whole run, which
//! the second program lists without cutting.
mod common;
use common::{blocks, csv, k2, raw, rows, Folder, EVENT, KNOWN, MISSING};
use oracle::{plain, random::Random, Event, Settings};

const S: Settings = Settings { n: 8, r: 1000, f: 50, sag: 90, interruption: 10, swell: 110, hysteresis: 2 };

fn list<'a>(file: &'a str, more: &[&'a str]) -> Vec<&'a str> {
    [&["list", file][..], &KNOWN, more].concat()
}

/// The parts of a cut recording: the half-cycle at which each begins.
fn parts(folder: &Folder, file: &str) -> Vec<u64> {
    let told = folder.accepted(&list(file, &["--cut", "--json"]));
    let numbers = told.split("\"first_half_cycle\":").skip(1);
    numbers.map(|rest| rest.split(',').next().unwrap().parse().unwrap()).collect()
}

/// The events of a cut recording as they are listed, and the recording's total, healthy, disturbed and unknown half-cycles.
fn listed(folder: &Folder, file: &str) -> (Vec<Event>, [u64; 4]) {
    let rows = rows(&folder.accepted(&list(file, &["--cut", "--csv"])));
    let events = rows.iter().filter(|row| row.field("kind") != "0").map(|row| EVENT.map(|name| row.number(name)));
    (events.collect(), ["total", "healthy", "disturbed", "unknown"].map(|name| rows[0].number(name)))
}

/// What the second program says of the whole run.
fn whole(samples: &[i32]) -> (Vec<Event>, [u64; 4]) {
    let (walked, total) = (plain::walk(&S, samples), samples.len() as u64 / 12 - 1);
    (walked.events, [total, total - walked.disturbed - walked.unknown, walked.disturbed, walked.unknown])
}

/// Many events of all kinds at any distance from the cuts, with gaps: nothing is lost, nothing loses an end.
#[test]
fn events_of_the_parts_are_those_of_the_whole() {
    let folder = Folder::new("cut-whole");
    let random = &mut Random::new(8);
    for round in 0..6 {
        let (mut levels, blocks_wanted) = (Vec::new(), 100_001 + random.between(1, 170_000) as usize);
        // Dense rounds leave few places between events, sparse ones many.
        let quiet = random.pick(&[3, 6, 40, 4_000]);
        while levels.len() < blocks_wanted {
            levels.extend(vec![1000; random.between(1, quiet) as usize]);
            let level = random.pick(&[0, 50, 100, 300, 700, 880, 899, 910, 919, 1101, 1200]);
            levels.extend(vec![level; random.between(1, 12) as usize]);
        }
        levels.truncate(blocks_wanted);
        let mut samples = blocks(&levels);
        // One channel goes its own way for a while, so that the shortfalls of the three differ.
        samples[12_000..].iter_mut().skip(2).step_by(3).take(40_000).for_each(|c| *c = 700);
        for _ in 0..random.below(60) {
            // Gaps, most of them where a cut may lie.
            let near = random.pick(&[99_990, 100_000, 199_990]) * 12;
            let at = if random.once_in(3) { random.below(samples.len() as u64) } else { near + random.below(240) };
            if let Some(sample) = samples.get_mut(at as usize) {
                *sample = MISSING;
            }
        }
        folder.write("long.i32", raw(&samples));
        let told = folder.accepted(&list("long.i32", &["--cut"])).replace('\n', " ");
        assert!(
            told.contains("No event reaches over the cut") && !told.contains("splits"),
            "{round}: {}",
            &told[..400]
        );
        assert_eq!(listed(&folder, "long.i32"), whole(&samples), "{round}");
        let site = format!("{round}.site");
        folder.site(&site);
        folder.accepted(&["add", &site, "long.i32", "--cut"]);
        let (events, halves) = whole(&samples);
        for (name, count) in ["total", "healthy", "disturbed", "unknown"].iter().zip(halves) {
            assert_eq!(folder.counted(&site, name), count, "{round}: {name}");
        }
        let of =
            |kind: u64, seen: u64| events.iter().filter(|e| e[0] == kind && (e[3] == 3) == (seen == 3)).count() as u64;
        assert_eq!(folder.counted(&site, "unplaced"), of(1, 0), "{round}");
        for (name, kind) in [("sags", 1), ("interruptions", 2), ("swells", 3)] {
            assert_eq!(folder.counted(&site, name), of(kind, 0) + of(kind, 3), "{round}: {name}");
        }
        let shortfalls = [("shortfall", 6), ("shortfall-a", 8), ("shortfall-b", 9), ("shortfall-c", 10)];
        for (name, at) in shortfalls {
            assert_eq!(folder.counted(&site, name), events.iter().map(|e| e[at]).sum::<u64>(), "{round}: {name}");
        }
    }
}

/// The cut is at the last place, at most 100,000 half-cycles on, before and after which a half-cycle is in no event.
#[test]
fn the_last_place_is_taken() {
    let folder = Folder::new("cut-place");
    // A sag in blocks from..to is in half-cycles from - 1 to to - 1, both with.
    for (sag, second) in [
        (None, 100_000),
        (Some(99_996..100_006), 99_994),
        (Some(100_001..100_006), 99_999),
        (Some(100_002..100_006), 100_000),
        (Some(99_990..99_999), 100_000),
        (Some(99_990..100_000), 99_988),
    ] {
        let mut levels = vec![1000; 100_100];
        if let Some(blocks) = sag.clone() {
            levels[blocks].fill(500);
        }
        let samples = blocks(&levels);
        folder.write("long.i32", raw(&samples));
        assert_eq!(parts(&folder, "long.i32"), [0, second], "{sag:?}");
        assert_eq!(listed(&folder, "long.i32"), whole(&samples), "{sag:?}");
    }
    // An unknown half-cycle lies in no event, and two of them are a place.
    let mut samples = blocks(&vec![500; 100_100]);
    samples[50_000 * 12] = MISSING;
    folder.write("long.i32", raw(&samples));
    assert_eq!(parts(&folder, "long.i32"), [0, 50_000], "half-cycles 49999 and 50000 are unknown");
    assert_eq!(listed(&folder, "long.i32"), whole(&samples));
}

/// A sag longer than a part is split, and named in text, JSON and on the page.
#[test]
fn what_a_cut_splits_is_named() {
    let folder = Folder::new("cut-split");
    let mut levels = vec![1000; 150_020];
    levels[11..150_001].fill(500);
    let samples = blocks(&levels);
    assert_eq!(whole(&samples).0[0][..4], [1, 10, 150_001, 3]);
    folder.write("long.i32", raw(&samples));
    assert_eq!(parts(&folder, "long.i32"), [0, 9, 100_009]);
    let wanted =
        "No place between events was left for the cut at half-cycle 100009 (1000.090 s): it splits the sag from \
                  half-cycle 10 to 150001.";
    for command in ["list", "explain"] {
        let told = folder.accepted(&[&[command, "long.i32", "--cut"][..], &KNOWN].concat()).replace('\n', " ");
        assert!(told.contains("No event reaches over the cut at half-cycle 9 (0.090 s)."), "{told}");
        assert!(told.contains(wanted), "{told}");
    }
    let json = folder.accepted(&list("long.i32", &["--cut", "--json"]));
    let cuts =
        "\"cuts\":[{\"half_cycle\":9,\"seconds\":0.09,\"splits\":[]},{\"half_cycle\":100009,\"seconds\":1000.09,\
                \"splits\":[{\"kind\":1,\"kind_word\":\"sag\",\"start\":10,\"end\":150001,\"untold\":0}]}]";
    assert!(json.contains(cuts), "{}", &json[..600]);
    let lost = rows(&folder.accepted(&list("long.i32", &["--cut", "--csv"])));
    assert_eq!(lost.iter().map(|row| row.number("cut")).collect::<Vec<_>>(), [2, 1], "the end, the start");
    let (events, halves) = listed(&folder, "long.i32");
    let short: Vec<_> = events.iter().map(|e| (e[1], e[2], e[3])).collect();
    assert_eq!(short, [(10, 100_009, 1), (100_009, 150_001, 2)]);
    assert_eq!(halves, whole(&samples).1);
    folder.site("x.site");
    let told = folder.accepted(&["add", "x.site", "long.i32", "--cut"]).replace('\n', " ");
    assert!(told.contains(wanted) && told.contains("long.i32, part 3 of 3"), "{told}");
    assert_eq!((folder.counted("x.site", "sags"), folder.counted("x.site", "unplaced")), (2, 2));
    let ran = folder.run(&["add", "x.site", "long.i32", "--cut", "--csv"]);
    assert!(ran.status == 0 && ran.err.contains(&format!("burrcradle: warning: long.i32: {wanted}")), "{ran:?}");
    let json = folder.accepted(&["add", "x.site", "long.i32", "--cut", "--json"]);
    assert!(json.contains(&format!("\"cut\":[{{\"recording\":\"long.i32\",{cuts}}}]")), "{json}");
    folder.accepted(&["report", "x.site", "long.i32", "--cut", "-o", "x.html"]);
    let page = folder.read("x.html");
    assert_eq!(
        page.matches("it splits the sag from half-cycle 10 to 150001.").count(),
        2,
        "in the two parts that it parts"
    );
}

/// An event over several cuts is named at each with its own start and end, and so is one that stands between the threshold and
/// its hysteresis there: the next part's list has forgotten it.
#[test]
fn a_long_event_is_named_at_each_cut() {
    let folder = Folder::new("cut-long");
    let mut levels = vec![1000; 250_001];
    levels[50..249_000].fill(500);
    folder.write("deep.i32", raw(&blocks(&levels)));
    assert_eq!(parts(&folder, "deep.i32"), [0, 48, 100_048, 200_048]);
    let told = folder.accepted(&list("deep.i32", &["--cut"])).replace('\n', " ");
    for at in ["half-cycle 100048 (1000.480 s)", "half-cycle 200048 (2000.480 s)"] {
        let wanted =
            format!("for the cut at {at}: it splits the sag from half-cycle 49 to 249000. An end at the cut is unseen");
        assert!(told.contains(&wanted), "{told}");
    }
    assert!(!told.contains("told as in no"), "{told}");
    // Launched at 49, and then at 91 percent for most of its time.
    levels[55..249_000].fill(910);
    levels[220_000..220_003].fill(500);
    let samples = blocks(&levels);
    folder.write("band.i32", raw(&samples));
    assert_eq!(whole(&samples).0.iter().map(|e| (e[1], e[2], e[3])).collect::<Vec<_>>(), [(49, 248_999, 3)]);
    assert_eq!(parts(&folder, "band.i32"), [0, 48, 100_048, 200_048], "no cut within the sag is called a place");
    let told = folder.accepted(&list("band.i32", &["--cut"])).replace('\n', " ");
    for (at, untold) in
        [("half-cycle 100048 (1000.480 s)", "100048 to 200047"), ("half-cycle 200048 (2000.480 s)", "200048 to 219998")]
    {
        assert!(
            told.contains(&format!("for the cut at {at}: it splits the sag from half-cycle 49 to 248999.")),
            "{told}"
        );
        let wanted = format!(
            "Half-cycles {untold} of the sag lie between its threshold and the hysteresis, and are told as in no sag."
        );
        assert!(told.contains(&wanted), "{told}");
    }
    assert!(told.contains("No event reaches over the cut at half-cycle 48 (0.480 s)."), "{told}");
    // The piece after the third cut has both ends seen and a score of its own: it is told as a piece everywhere.
    let rows = rows(&folder.accepted(&list("band.i32", &["--cut", "--csv"])));
    let pieces: Vec<_> =
        rows.iter().map(|r| (r.number("start"), r.number("end"), r.number("seen"), r.number("cut"))).collect();
    assert_eq!(pieces, [(49, 100_048, 1, 2), (219_999, 248_999, 3, 1)]);
    assert_eq!(told.matches("(a piece: cut)").count(), 2, "{told}");
    let told =
        folder.accepted(&[&["explain", "band.i32", "--cut"][..], &KNOWN].concat()).replace("\n             ", " ");
    for words in [
        "this is a piece of the sag that a cut has split, so the end is not told.",
        "none, reason 2: only the end unseen; the recording is cut there, so neither severity nor cell is given",
        "this is a piece of the sag that a cut has split, so the start is not told.",
        "of this piece alone: severity (1000 - 500) / (1000 - 900) = 5.000",
        // Over 1000 and 500 a channel is 3,000,000 short, over 500 and 500 6,000,000, over 500 and 910 3,687,600: 3 + 4 x 6 +
        // 3.6876 millions in the first piece, 2 x 3.6876 + 2 x 6 in the last; 800,000 make a millisecond.
        "of this piece alone: channel a lost at least 0.038 s, b at least 0.038 s, c at least 0.038 s: 30687600 + 30687600 + \
         30687600 = shortfall 92062800,",
        "of this piece alone: channel a lost 0.024 s, b 0.024 s, c 0.024 s: 19375200 + 19375200 + 19375200 = shortfall 58125600,",
    ] {
        assert!(told.contains(words), "{words}: {told}");
    }
}

/// An event that begins just after a cut loses its start, one that ends just before it its end; an unknown half-cycle there
/// would have hidden them all the same.
#[test]
fn events_beside_a_cut_are_named_too() {
    let folder = Folder::new("cut-beside");
    // Half-cycles in no event are single: (1000, 1000), then two of a sag. 99,999 is in none, 100,000 begins a sag.
    let pattern: Vec<i32> = (0..100_100).map(|k| if k % 3 == 2 { 0 } else { 1000 }).collect();
    folder.write("long.i32", raw(&blocks(&pattern)));
    assert_eq!(parts(&folder, "long.i32"), [0, 100_000]);
    let cut = |file: &str| folder.accepted(&list(file, &["--cut"])).replace('\n', " ");
    let told = cut("long.i32");
    assert!(
        told.contains("(1000.000 s): it hides the start of the sag from half-cycle 100000 to 100002."),
        "{}",
        &told[..600]
    );
    // One block on: 99,999 begins a sag that 100,000 is in.
    folder.write("long.i32", raw(&blocks(&pattern[1..])));
    let told = cut("long.i32");
    assert!(told.contains("it splits the sag from half-cycle 99999 to 100001."), "{}", &told[..600]);
    folder.write("long.i32", raw(&blocks(&pattern[2..])));
    let told = cut("long.i32");
    assert!(told.contains("it hides the end of the sag from half-cycle 99998 to 100000."), "{}", &told[..600]);
    // The half-cycle after the cut is unknown, and the one after that: that sag's end was never to be seen.
    let mut samples = blocks(&pattern[2..]);
    samples[100_001 * 12] = MISSING;
    folder.write("long.i32", raw(&samples));
    let told = cut("long.i32");
    assert!(!told.contains("splits") && !told.contains("hides"), "{}", &told[..600]);
    assert_eq!(listed(&folder, "long.i32"), whole(&samples));
    // Nor does explain blame the cut for it.
    let mut levels = vec![1000; 150_001];
    levels[1..100_200].fill(500);
    let mut samples = blocks(&levels);
    samples[100_001 * 12 + 1] = MISSING;
    folder.write("gap.i32", raw(&samples));
    let told =
        folder.accepted(&[&["explain", "gap.i32", "--cut"][..], &KNOWN].concat()).replace("\n             ", " ");
    assert!(
        told.contains("half-cycle 100000 (at 1000.000 s): it is unknown (it misses 1 sample of b), so the end"),
        "{told}"
    );
    assert!(!told.contains("piece"), "{told}");
}

/// What a cut hides is kept apart from what it splits and from what a gap or the recording's start hides; and of half-cycles
/// in the band of an interruption nothing is said but that they are told as in no interruption: a sag covers them.
#[test]
fn a_cut_is_not_blamed_for_a_gap() {
    let folder = Folder::new("cut-blame");
    let explained = |levels: &[i32], missing: Option<usize>| {
        let mut samples = blocks(levels);
        missing.into_iter().for_each(|at| samples[at] = MISSING);
        folder.write("long.i32", raw(&samples));
        folder.accepted(&[&["explain", "long.i32", "--cut"][..], &KNOWN].concat()).replace("\n             ", " ")
    };
    // From the first half-cycle on and up to the cut, where it ends by itself.
    let mut levels = vec![1000; 150_001];
    levels[..100_000].fill(500);
    let told = explained(&levels, None);
    for words in [
        "it hides the end of the sag from half-cycle 0 to 100000.",
        "the recording begins there, so the start is unseen",
        "half-cycle 100000 (at 1000.000 s): the recording is cut there, so the end is unseen.",
        "reason 3: both ends unseen; what happened at one end is not known, and at the other the recording is cut",
    ] {
        assert!(told.replace('\n', " ").contains(words), "{words}: {told}");
    }
    assert!(!told.contains("piece"), "{told}");
    let list = folder.accepted(&list("long.i32", &["--cut"]));
    assert!(list.contains("none: both ends unseen (cut there)\n"), "{list}");
    // Over the cut, and then into a gap.
    let mut levels = vec![1000; 150_001];
    levels[50..130_000].fill(500);
    let told = explained(&levels, Some(120_060 * 12));
    let last = told.rsplit("event 1: sag").next().unwrap();
    assert!(last.contains("this is a piece of the sag that a cut has split, so the start is not told."), "{last}");
    assert!(last.contains("it is unknown (it misses 1 sample of a), so the end is unseen"), "{last}");
    assert!(
        last.contains("reason 3: both ends unseen; what happened at one end is not known, and at the other"),
        "{last}"
    );
    // An interruption in its band over the cut, in a sag.
    let mut levels = vec![1000; 150_001];
    levels[50..120_000].fill(110);
    levels[50..60].fill(0);
    let told = explained(&levels, None).replace('\n', " ");
    assert!(
        told.contains(
            "of the interruption lie between its threshold and the hysteresis, and are told as in no interruption."
        ),
        "{told}"
    );
    assert!(!told.contains("in no event"), "{told}");
}

/// All times and half-cycles are those of the whole recording, in words, in numbers and on the page.
#[test]
fn times_are_those_of_the_whole_recording() {
    let folder = Folder::new("cut-times");
    let mut levels = vec![1000; 100_200];
    levels[100_051..100_061].fill(500);
    let mut samples = blocks(&levels);
    samples[100_100 * 12] = MISSING;
    folder.write("long.i32", raw(&samples));
    let told = folder.accepted(&list("long.i32", &["--cut"]));
    assert!(told.contains("   1  sag   100050  100061  1000.500 s  0.110 s  both "), "{told}");
    assert!(
        told.contains("part 2 of 2: 199 half-cycles (1.990 s), from half-cycle 100000 (1000.000 s) on: "),
        "{told}"
    );
    let told = folder.accepted(&[&["explain", "long.i32", "--cut"][..], &KNOWN].concat());
    for words in
        ["half-cycle 100050 (at 1000.500 s)", "half-cycle 100051 (at 1000.510 s)", "half-cycle 100061 (at 1000.610 s)"]
    {
        assert!(told.contains(words), "{words}: {told}");
    }
    let json = folder.accepted(&list("long.i32", &["--cut", "--json"]));
    assert!(json.contains("\"start\":100050,\"end\":100061,\"start_seconds\":1000.5,"), "{json}");
    folder.site("x.site");
    folder.accepted(&["report", "x.site", "long.i32", "--cut", "-o", "x.html"]);
    let page = folder.read("x.html");
    for words in [
        "<td>100050<i>1000.500 s</i></td><td>100061<i>1000.610 s</i></td>",
        "half-cycles 100099 to 100100 (1000.990 s to 1001.010 s)",
        ">unknown 100099-100100</text>",
        ">1001.5</text>",
    ] {
        assert!(page.contains(words), "{words}");
    }
}

#[test]
fn a_short_recording_stays_whole() {
    let folder = Folder::new("cut-short");
    folder.write("k.csv", csv(&k2()));
    let whole = folder.accepted(&list("k.csv", &[]));
    assert_eq!(folder.accepted(&list("k.csv", &["--cut"])), whole);
    assert!(!whole.contains("is cut into"), "{whole}");
}

/// A bad sample in a long recording is told with its place in the whole of it, and nothing is added.
#[test]
fn a_bad_sample_has_its_place_in_the_whole() {
    let folder = Folder::new("cut-refused");
    let mut samples = blocks(&vec![1000; 100_011]);
    samples[100_001 * 12 + 1] = 100_001;
    folder.write("long.i32", raw(&samples));
    let ran = folder.refused(&list("long.i32", &["--cut"]), 6, 1_200_013);
    assert!(ran.err.contains("long.i32: refusal 6") && ran.err.contains("byte 4800052, channel b, 100001"), "{ran:?}");
    folder.site("x.site");
    folder.refused(&["add", "x.site", "long.i32", "--cut"], 6, 1_200_013);
    assert_eq!(folder.counted("x.site", "total"), 0, "the first part is not added either");
}

/// A fixed room is for each part.
#[test]
fn room_is_asked_part_by_part() {
    let folder = Folder::new("cut-room");
    let mut levels = vec![1000; 100_200];
    levels[100_051..100_061].fill(500);
    folder.write("long.i32", raw(&blocks(&levels)));
    let ran = folder.refused(&list("long.i32", &["--cut", "--room", "10"]), 7, 1);
    assert!(ran.err.contains("long.i32, part 2 of 2: refusal 7"), "{ran:?}");
    assert_eq!(folder.events("long.i32", &["--cut", "--room", "11"]).len(), 1);
}
