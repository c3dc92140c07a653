//! What each channel lost: in the list, in sentences, in JSON and CSV, in the table and on the page. `nothing` is said only of what
//! is nothing and was seen whole.
//!
//! The numbers are worked out by hand. N x R x R is 8,000,000, so 800,000 make a millisecond at 50 Hz, and a channel's sum counts
//! where it is below 6,480,000, the 90 percent, or 7,220,000, the 95 percent.
mod common;
use common::{blocks, csv, dip, levels, rows, says, Folder, KNOWN, MISSING};

/// What a command says of a recording under the settings of the known answers, and more.
fn said(folder: &Folder, command: &str, samples: &[i32], more: &[&str]) -> String {
    folder.write("k.csv", csv(samples));
    folder.accepted(&[&[command, "k.csv"][..], &KNOWN, more].concat())
}

/// The sentences of `explain`, each on one line.
fn explained(folder: &Folder, samples: &[i32], more: &[&str]) -> String {
    said(folder, "explain", samples, more).replace("\n             ", " ")
}

/// Three channels that go to 500, 600 and 880.
/// a is short by 3, 6 and 3 millions: 12,000,000 = 15 ms.
/// b has 5,440,000 over 1000 and 600 and 2,880,000 over 600 and 600: 2 x 2,560,000 + 5,120,000 = 10,240,000 = 12.8 ms.
/// c has 7,097,600 over 1000 and 880, which is not below, and 6,195,200 over 880 and 880: 1,804,800 = 2.256 ms.
/// Together 24,044,800 = 30.056 ms. Of the six sums at the deepest half-cycle that of a against b is the smallest: type Cc.
fn three() -> Vec<i32> {
    dip([500, 600, 880])
}

/// Only c drops, to 949, and only under 95 percent is that a sag: 8,000,000 - 8 x 900,601 = 795,192, which is not a millisecond.
/// Over 1000 and 949 it has 7,602,404, at which the sag has ended.
fn shallow(a: i32) -> Vec<i32> {
    dip([a, 1000, 949])
}

/// The gap of K9 in a sag of a alone: 3 and 6 millions before it, 3 millions after it, 11.25 and 3.75 ms.
fn gap() -> Vec<i32> {
    let (good, low) = ([1000; 3], [500, 1000, 1000]);
    let mut samples = levels(&[good, good, low, low, low, low, good, good]);
    samples[4 * 12 + 7] = MISSING;
    samples
}

/// 15 + 12 + 2 is not 30: the list says why.
#[test]
fn the_list_has_a_figure_for_each_channel() {
    let folder = Folder::new("channels-list");
    let wanted = "\
k.csv: 5 half-cycles (0.050 s): 2 healthy, 3 disturbed, 0 unknown; 1 event
  no  kind  start  end       at   lasted  seen  extreme  retained  shortfall  type  ms lost a / b / c  severity   energy  cell (UNIPEDE)
   1  sag       1    4  0.010 s  0.030 s  both  2000000       500   24044800  Cc          15 / 12 / 2     1.000  0.030 s  17: 40 to 70 %, < 0.1 s
  What a, b and c lost is rounded down each by itself: together it may be less than the energy.
";
    assert_eq!(said(&folder, "list", &three(), &[]), wanted);
    let even = said(&folder, "list", &dip([500, 1000, 1000]), &[]);
    says(&even, &["  15 / 0 / 0     1.000  0.015 s  17: 40 to 70 %, < 0.1 s\n"]);
    assert!(!even.contains("rounded"), "where they make up the energy nothing is said: {even}");
}

/// Kinds that have no shortfall have none of a channel either.
#[test]
fn interruptions_and_swells_have_no_parts() {
    let folder = Folder::new("channels-kinds");
    let samples = blocks(&[1000, 1000, 0, 0, 1000, 1000, 1200, 1200, 1000, 1000]);
    let told = said(&folder, "list", &samples, &[]);
    assert_eq!(told.matches("  -  -                     -  none: not a sag\n").count(), 2, "{told}");
    let rows = rows(&said(&folder, "list", &samples, &["--csv"]));
    let parts = |at: usize| ["kind", "shortfall_a", "shortfall_b", "shortfall_c"].map(|name| rows[at].number(name));
    // 4,000,000, 8,000,000 and 4,000,000 short on each.
    assert_eq!([0, 1, 2].map(parts), [[1, 16_000_000, 16_000_000, 16_000_000], [2, 0, 0, 0], [3, 0, 0, 0]]);
    let told = explained(&folder, &samples, &[]);
    assert_eq!(told.matches("    loss     not counted: only a sag has a shortfall.\n").count(), 2, "{told}");
}

#[test]
fn explain_says_which_channel_lost_what() {
    let folder = Folder::new("channels-explain");
    says(
        &explained(&folder, &three(), &[]),
        &["    loss     channel a lost 0.015 s, b 0.012 s, c 0.002 s: 12000000 + 10240000 + 1804800 = shortfall 24044800, each / \
           (8 x 1000 x 1000 x 2 x 50), rounded down to milliseconds by itself.\n"],
    );
    says(
        &explained(&folder, &dip([1000, 500, 1000]), &[]),
        &["channel a lost nothing, b 0.015 s, c nothing: 0 + 12000000 + 0 = shortfall 12000000, each"],
    );
    let json = said(&folder, "explain", &three(), &["--json"]);
    says(&json, &["\"loss\":\"channel a lost 0.015 s, b 0.012 s, c 0.002 s: ", "\"shortfall_c\":1804800}"]);
}

/// What is not a millisecond is not nothing, in a sag or in a table.
#[test]
fn less_than_a_millisecond_is_not_nothing() {
    let (folder, low) = (Folder::new("channels-short"), ["--sag", "95"]);
    let told = said(&folder, "list", &shallow(500), &low);
    says(&told, &["  15 / 0 / <1     1.000  0.015 s  17: 40 to 70 %, < 0.1 s\n"]);
    says(
        &explained(&folder, &shallow(500), &low),
        &["channel a lost 0.015 s, b nothing, c less than 0.001 s: 12000000 + 0 + 795192 = shortfall 12795192, each"],
    );
    folder.accepted(&[&["new", "x.site"][..], &KNOWN, &low].concat());
    folder.write("k.csv", csv(&shallow(1000)));
    folder.accepted(&["add", "x.site", "k.csv"]);
    says(
        &folder.accepted(&["show", "x.site"]),
        &["  shortfall      795192 = less than 0.001 s\n    channel a    0 = 0.000 s\n    channel b    0 = 0.000 s\n    \
           channel c    795192 = less than 0.001 s\n"],
    );
    folder.accepted(&["report", "x.site", "k.csv", "-o", "x.html"]);
    says(
        &folder.read("x.html"),
        &[
            "<i>a nothing</i><i>b nothing</i><i>c less than 0.001 s</i>",
            "<b>less than 0.001 s</b><span>channel c</span><i>795192</i>",
        ],
    );
}

/// Nobody saw all of it: a channel that was seen to lose nothing is not said to have lost nothing.
#[test]
fn of_what_nobody_saw_nothing_good_is_said() {
    let folder = Folder::new("channels-unseen");
    let list = said(&folder, "list", &gap(), &[]);
    says(
        &list,
        &["  >=11 / >=0 / >=0  none: only the end unseen\n", "   >=3 / >=0 / >=0  none: only the start unseen\n"],
    );
    let told = explained(&folder, &gap(), &[]);
    let counted =
        "each / (8 x 1000 x 1000 x 2 x 50), rounded down to milliseconds by itself; only what was seen is counted.\n";
    for (seconds, part) in [("0.011 s", "9000000"), ("0.003 s", "3000000")] {
        let wanted = format!(
            "channel a lost at least {seconds}, b at least 0 s, c at least 0 s: {part} + 0 + 0 = shortfall {part}, {counted}"
        );
        says(&told, &[&wanted]);
    }
    folder.site("x.site");
    folder.accepted(&["report", "x.site", "k.csv", "-o", "x.html"]);
    let page = folder.read("x.html");
    says(
        &page,
        &[
            "<td>none</td><td>none</td><td><i>a at least 0.011 s</i><i>b at least 0 s</i><i>c at least 0 s</i></td>",
            "<i>a at least 0.003 s</i><i>b at least 0 s</i><i>c at least 0 s</i>",
        ],
    );
    assert!(!list.contains("nothing") && !told.contains("nothing") && !page.contains(" nothing</i>"), "{list}{told}");
    // The recording begins in the sag: c lost something, and who knows how much.
    let (low, good) = ([1000, 1000, 949], [1000; 3]);
    let begun = levels(&[low, low, good, good]);
    says(&said(&folder, "list", &begun, &["--sag", "95"]), &["  >=0 / >=0 / >0  none: only the start unseen\n"]);
    says(
        &explained(&folder, &begun, &["--sag", "95"]),
        &[
            "channel a lost at least 0 s, b at least 0 s, c more than 0 s: 0 + 0 + 795192 = shortfall 795192, each",
            "neither severity nor cell is given (shortfall 795192 = less than 0.001 s is what was seen).",
        ],
    );
}

/// Exact numbers, behind all that was there before: no column and no field has moved.
#[test]
fn programs_read_the_exact_parts() {
    let folder = Folder::new("channels-programs");
    let json = said(&folder, "list", &three(), &["--json"]);
    let last = "\"energy\":0.03,\"shortfall_a\":12000000,\"shortfall_b\":10240000,\"shortfall_c\":1804800}]}]}],\"borders\":\"unipede\"}\n";
    assert!(json.ends_with(last), "{json}");
    let list = said(&folder, "list", &three(), &["--csv"]);
    let lines: Vec<&str> = list.lines().collect();
    assert!(lines[0].ends_with(",cell,severity,energy,shortfall_a,shortfall_b,shortfall_c,borders"), "{list}");
    assert!(lines[1].ends_with(",17,1,0.03,12000000,10240000,1804800,unipede"), "{list}");
    let explain = said(&folder, "explain", &three(), &["--csv"]);
    let ends = ",energy,launch,peak,landing,score,loss,shortfall_a,shortfall_b,shortfall_c,borders";
    assert!(explain.lines().next().unwrap().ends_with(ends), "{explain}");
    assert!(explain.trim_end().ends_with("by itself.\",12000000,10240000,1804800,unipede"), "{explain}");
    let none = said(&folder, "list", &blocks(&[1000; 6]), &["--csv"]);
    let row = &rows(&none)[0];
    assert!(row.whole() && row.field("kind") == "0" && row.field("shortfall_a").is_empty(), "{none}");
}

#[test]
fn the_table_has_three_figures() {
    let folder = Folder::new("channels-table");
    folder.site("x.site");
    folder.write("k.csv", csv(&three()));
    folder.write("gap.csv", csv(&gap()));
    let json = folder.accepted(&["add", "x.site", "k.csv", "gap.csv", "--json"]);
    // What each recording added, and then the table: a has 9 + 3 millions of the second besides.
    for (whole, seconds, [a, b, c]) in [
        (24_044_800, "0.030", [12_000_000, 10_240_000, 1_804_800]),
        (12_000_000, "0.015", [12_000_000, 0, 0]),
        (36_044_800, "0.045", [24_000_000, 10_240_000, 1_804_800]),
    ] {
        let wanted = format!(
            "\"shortfall\":{whole},\"shortfall_seconds\":{seconds},\"shortfall_a\":{a},\"shortfall_b\":{b},\"shortfall_c\":{c},"
        );
        assert_eq!(json.matches(&wanted).count(), 1, "{wanted}: {json}");
    }
    says(
        &folder.accepted(&["show", "x.site"]),
        &["  shortfall      36044800 = 0.045 s\n    channel a    24000000 = 0.030 s\n    channel b    10240000 = 0.012 s\n    \
           channel c    1804800 = 0.002 s\n                 only what was seen is counted\n\n"],
    );
    let csv = folder.accepted(&["show", "x.site", "--csv"]);
    assert!(
        csv.contains("\nshortfall,36044800\nshortfall-a,24000000\nshortfall-b,10240000\nshortfall-c,1804800\n"),
        "{csv}"
    );
}

/// b and c show 0 where a sample was lost or an end unseen: nobody saw that they lost nothing, and table and page say so.
#[test]
fn a_table_says_that_it_counts_only_what_was_seen() {
    let folder = Folder::new("channels-table-unseen");
    let said = |name: &str, samples: &[i32]| {
        let (site, page) = (format!("{name}.site"), format!("{name}.html"));
        folder.site(&site);
        folder.write("k.csv", csv(samples));
        folder.accepted(&["add", &site, "k.csv"]);
        folder.accepted(&["report", &site, "k.csv", "-o", &page]);
        let shown = folder.accepted(&["show", &site]).matches("only what was seen is counted").count();
        (shown, folder.read(&page).matches("Of the shortfalls only what was seen is counted.").count())
    };
    let mut lost = blocks(&[1000; 6]);
    assert_eq!(said("whole", &lost), (0, 0));
    assert_eq!(said("sag", &three()), (0, 0));
    lost[7] = MISSING;
    assert_eq!(said("lost", &lost), (1, 1), "unknown half-cycles and no sag");
    assert_eq!(said("begun", &blocks(&[500, 500, 1000, 1000])), (1, 1), "a sag without a start, and all known");
    assert_eq!(said("gap", &gap()), (1, 1));
}

/// Sags of all lengths below each other: the strokes line up, and so does what follows.
#[test]
fn the_figures_line_up() {
    let folder = Folder::new("channels-lines");
    let (good, low) = ([1000; 3], [500, 1000, 880]);
    let mut runs = vec![[800, 700, 0]; 4];
    runs.extend([good; 3]);
    runs.extend([low; 90]);
    runs.extend([good; 3]);
    runs.extend(vec![[1200, 1000, 1000]; 3]);
    runs.extend([good; 3]);
    runs.extend([[1000, 1000, 870]; 2]);
    runs.extend([good; 3]);
    let told = said(&folder, "list", &levels(&runs), &[]);
    let places = |line: &str| line.match_indices(" / ").map(|(at, _)| at).collect::<Vec<_>>();
    let sags: Vec<&str> = told.lines().filter(|line| line.contains("  sag ")).collect();
    assert_eq!(sags.len(), 3, "{told}");
    assert!(sags.iter().all(|sag| places(sag).len() == 2 && places(sag) == places(sags[0])), "{told}");
    let lines: Vec<&str> = told.lines().collect();
    let severity = lines[1].find("severity").unwrap();
    let unscored: Vec<&&str> = lines.iter().filter(|line| line.contains("none: ")).collect();
    assert!(unscored.len() == 2 && unscored.iter().all(|line| line.find("none: ") == Some(severity)), "{told}");
    let scored = sags[1..].iter().all(|sag| sag[severity..severity + 8].trim().parse::<f64>().is_ok());
    assert!(scored, "{told}");
}

/// Beyond 2^53, where a double would lose a unit, every digit is told.
#[test]
fn large_parts_are_exact() {
    let folder = Folder::new("channels-large");
    folder.accepted(&["new", "x.site", "--n", "512", "--r", "50000", "--f", "50"]);
    let mut text = folder.read("x.site").replace("total 0", "total 4000000").replace("healthy 0", "healthy 4000000");
    for (name, number) in [("", "9007199254740997"), ("-a", "9007199254740993"), ("-b", "3"), ("-c", "1")] {
        text = text.replace(&format!("\nshortfall{name} 0\n"), &format!("\nshortfall{name} {number}\n"));
    }
    folder.write("x.site", text);
    let json = folder.accepted(&["show", "x.site", "--json"]);
    assert!(json.contains("\"shortfall_a\":9007199254740993,\"shortfall_b\":3,\"shortfall_c\":1,"), "{json}");
}

#[test]
fn the_page_shows_which_channel_lost_what() {
    let folder = Folder::new("channels-page");
    folder.site("x.site");
    folder.write("k.csv", csv(&three()));
    folder.write("swell.csv", csv(&blocks(&[1000, 1000, 1200, 1200, 1000, 1000])));
    folder.accepted(&["add", "x.site", "k.csv", "swell.csv"]);
    folder.accepted(&["report", "x.site", "k.csv", "swell.csv", "-o", "x.html"]);
    let page = folder.read("x.html");
    let tile = |name: &str, seconds: &str, part: &str| {
        format!("<div class=\"tile {name}\"><b>{seconds}</b><span>channel {name}</span><i>{part}</i></div>")
    };
    let tiles = [tile("a", "0.015 s", "12000000"), tile("b", "0.012 s", "10240000"), tile("c", "0.002 s", "1804800")];
    says(
        &page,
        &[
            &format!("<h3>Shortfall by channel</h3><div class=\"tiles\">{}</div>", tiles.concat()),
            "<th>energy</th><th>lost</th><th>cell, or why no score</th>",
            "<td>1.000</td><td>0.030 s</td><td><i>a 0.015 s</i><i>b 0.012 s</i><i>c 0.002 s</i></td><td>cell 17<i>",
            "<td>none</td><td>none</td><td>-</td><td>no score<i>reason 4: not a sag</i>",
            "What a channel lost is its part of the shortfall, rounded down by itself: the three together may be less than the whole.",
        ],
    );
}

/// The help tells what the columns and the fields are, and why three figures may not make up the fourth.
#[test]
fn the_help_tells_of_the_parts() {
    let folder = Folder::new("channels-help");
    let help = |command: &str| folder.accepted(&[command, "--help"]).replace('\n', " ");
    says(
        &help("list"),
        &[
            "eleven to an event",
            "all eleven numbers of each event",
            "shortfall_a, shortfall_b and shortfall_c, are exact and add up to shortfall",
            "Each is rounded down by itself, so together they may be less than the energy.",
            "0 only where it is exactly that and the sag was seen whole, <1 where it is less than one,",
        ],
    );
    says(
        &help("show"),
        &["The exact shortfalls of a, b and c add up to the whole; their seconds, each rounded down by itself,"],
    );
    says(&help("explain"), &["what each channel lost"]);
}
