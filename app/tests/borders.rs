//! The other table: a site is made for one of two sets of borders and keeps it, and every answer that has a cell names its set.
mod common;
use common::{blocks, csv, k2, listed, rows, says, Folder, KNOWN};

/// A folder with K2, and a site for the borders of IEC 61000-4-11 that holds it.
fn with_k2(name: &str) -> Folder {
    let folder = Folder::new(name);
    folder.write("k.csv", csv(&k2()));
    folder.accepted(&[&["new", "x.site", "--borders", "4-11"][..], &KNOWN].concat());
    folder.accepted(&["add", "x.site", "k.csv"]);
    folder
}

/// The file has the set's number after the settings, and an `add` keeps it.
#[test]
fn new_makes_a_table_for_the_set() {
    let folder = Folder::new("borders-new");
    folder.write("k.csv", csv(&k2()));
    for (site, options, number) in [
        ("none.site", &[][..], "0"),
        ("first.site", &["--borders", "unipede"], "0"),
        ("other.site", &["--borders", "4-11"], "1"),
        ("joined.site", &["--borders=4-11"], "1"),
    ] {
        folder.accepted(&[&["new", site][..], &KNOWN, options].concat());
        let line = format!("\nhysteresis 2\nborders {number}\ntotal ");
        says(&folder.read(site), &[&line]);
        folder.accepted(&["add", site, "k.csv"]);
        says(&folder.read(site), &[&line]);
    }
    // But for the set and the cell the two tables are one.
    let moved = folder.read("other.site").replace("borders 1", "borders 0").replace("cell-11 1", "cell-11 0");
    assert_eq!(moved.replace("cell-17 0", "cell-17 1"), folder.read("first.site"));
}

/// Any other word is bad usage, told with the two that there are, and nothing is made. A site has its borders, as it has its settings.
#[test]
fn other_words_and_places_are_bad_usage() {
    let folder = with_k2("borders-usage");
    for word in ["iec", "UNIPEDE", "4-12", "411", "0", "1", "", "unipede ", "unipede,4-11"] {
        let told = format!("--borders wants unipede or 4-11, and {word:?} is none of these");
        for args in [&["new", "y.site"][..], &["list", "k.csv"], &["explain", "k.csv"]] {
            folder.bad(&[args, &KNOWN, &["--borders", word]].concat(), &told);
        }
        folder.bad(&["demo", "--borders", word], &told);
    }
    assert!(!folder.path("y.site").exists() && !folder.path("demo.html").exists());
    for command in ["list", "explain"] {
        for word in ["unipede", "4-11", "iec"] {
            let args = [command, "k.csv", "--site", "x.site", "--borders", word];
            folder.bad(&args, "--site has its borders already: leave out --borders");
        }
    }
    let taken: [&[&str]; 4] = [
        &["show", "x.site"],
        &["add", "x.site", "k.csv"],
        &["report", "x.site", "k.csv", "-o", "x.html"],
        &["check", "k.csv", "--site", "x.site"],
    ];
    for args in taken {
        folder.bad(&[args, &["--borders", "4-11"]].concat(), "--borders is no option of this command");
    }
    folder.bad(&["new", "y.site", "--borders"], "--borders wants a value");
    folder.bad(&["new", "y.site", "--borders", "4-11", "--borders", "unipede"], "--borders is given twice");
}

/// Five columns under their own names, and a row above 80 percent.
#[test]
fn show_draws_the_grid_of_the_set() {
    let folder = with_k2("borders-show");
    folder.write("shallow.csv", csv(&blocks(&[1000, 1000, 899, 899, 1000, 1000])));
    folder.accepted(&["add", "x.site", "k.csv", "shallow.csv"]);
    let wanted = "
    channel c    25534392 = 0.031 s

  borders        IEC 61000-4-11
  sags by depth  < 1 cycle  < 200 ms  200-500 ms  0.5-5 s  5 s up
  at most 10 %           .         .           .        .       .
  10 to 40 %             .         .           .        .       .
  40 to 70 %             .         2           .        .       .
  70 to 80 %             .         .           .        .       .
  above 80 %             1         .           .        .       .
";
    let told = folder.accepted(&["show", "x.site"]);
    assert!(told.ends_with(wanted), "{told}");
    assert!(folder.accepted(&["add", "x.site", "k.csv"]).contains("\n  borders        IEC 61000-4-11\n"));
}

/// For programs: the word of the set, behind all else, and no cell that the set has not.
#[test]
fn programs_read_the_grid_and_the_word() {
    let folder = with_k2("borders-programs");
    let cells = "\"cells\":[[0,0,0,0,0],[0,0,0,0,0],[0,1,0,0,0],[0,0,0,0,0],[0,0,0,0,0]],\"unplaced\":0";
    let last = "\"shortfall_c\":12000000,\"borders\":\"4-11\"}";
    let json = folder.accepted(&["show", "x.site", "--json"]);
    assert!(json.contains(cells) && json.ends_with(&format!("{last}\n")), "{json}");
    let added = folder.accepted(&["add", "x.site", "k.csv", "--json"]);
    assert_eq!((added.matches(cells).count(), added.matches(last).count()), (1, 1), "what was added: {added}");
    says(&added, &["[0,2,0,0,0]", "\"shortfall_c\":24000000,\"borders\":\"4-11\"}}\n"]);
    let table = folder.accepted(&["show", "x.site", "--csv"]);
    assert_eq!((table.lines().count(), table.matches("\ncell-").count()), (46, 25), "{table}");
    assert!(table.contains("\nhysteresis,2\ntotal,10\n") && table.contains("\ncell-24,0\nunplaced,0\n"), "{table}");
    assert!(table.ends_with("\nshortfall-c,24000000\nborders,4-11\n"), "{table}");
    let empty = folder.accepted(&[&["new", "y.site", "--borders", "4-11", "--csv"][..], &KNOWN].concat());
    assert!(empty.ends_with("\nborders,4-11\n"), "{empty}");
}

/// A list goes by the site's set or by `--borders`, says by which, and names a sag's row and column by it. A row without an event
/// says by which, too.
#[test]
fn list_names_the_set() {
    let folder = with_k2("borders-list");
    folder.write("none.csv", csv(&blocks(&[1000; 6])));
    let by_site =
        |more: &[&str]| folder.accepted(&[&["list", "k.csv", "none.csv", "--site", "x.site"][..], more].concat());
    let by_word = |word: &str, more: &[&str]| {
        folder.accepted(&[&["list", "k.csv", "none.csv", "--borders", word][..], &KNOWN, more].concat())
    };
    for format in [&[][..], &["--json"], &["--csv"]] {
        assert_eq!(by_site(format), by_word("4-11", format));
        assert_eq!(
            by_word("unipede", format),
            folder.accepted(&[&["list", "k.csv", "none.csv"][..], &KNOWN, format].concat())
        );
    }
    says(
        &by_site(&[]),
        &["severity   energy  cell (IEC 61000-4-11)\n", "    1.000  0.045 s  11: 40 to 70 %, < 200 ms\n"],
    );
    says(
        &by_word("unipede", &[]),
        &["severity   energy  cell (UNIPEDE)\n", "    1.000  0.045 s  17: 40 to 70 %, < 0.1 s\n"],
    );
    let json = by_site(&["--json"]);
    assert!(json.contains("\"cell\":11,") && json.ends_with("]}],\"borders\":\"4-11\"}\n"), "{json}");
    for (word, cell) in [("unipede", "17"), ("4-11", "11")] {
        let rows = rows(&by_word(word, &["--csv"]));
        let told: Vec<_> = rows.iter().map(|row| (row.whole(), row.field("cell"), row.field("borders"))).collect();
        assert_eq!(told, [(true, cell, word), (true, "", word)]);
    }
}

/// Where there is no score the cell is one above the last of the set.
#[test]
fn what_is_not_scored_is_one_above_the_last() {
    let folder = Folder::new("borders-none");
    folder.write("k.csv", csv(&blocks(&[500, 500, 1000, 1000, 1200, 1200, 1000, 1000])));
    for (word, none) in [("unipede", 40), ("4-11", 25)] {
        let events = folder.events("k.csv", &["--borders", word]);
        let cells: Vec<_> = events.iter().map(|(e, score)| (e[11], e[12], score.as_str())).collect();
        assert_eq!(cells, [(1, none, " "), (4, none, " ")], "{word}");
        let json = folder.accepted(&[&["list", "k.csv", "--json", "--borders", word][..], &KNOWN].concat());
        assert_eq!(json.matches(&format!("\"cell\":{none},\"severity\":null")).count(), 2, "{json}");
        let text = folder.accepted(&[&["list", "k.csv", "--borders", word][..], &KNOWN].concat());
        says(&text, &["none: only the start unseen\n", "none: not a sag\n"]);
    }
}

/// What `explain` says of the cell of a recording's only event, by a set.
fn cell_told(folder: &Folder, samples: &[i32], word: &str, f: &str) -> String {
    folder.write("k.csv", csv(samples));
    let args = ["explain", "k.csv", "--n", "8", "--r", "1000", "--f", f, "--borders", word];
    let told = folder.accepted(&args).replace("\n             ", " ");
    let (_, cell) = told.split_once("milliseconds; cell ").unwrap_or_else(|| panic!("{told}"));
    cell.split_once("\n    loss").unwrap().0.to_string()
}

/// A sag that lasts so many half-cycles, at 60 percent: those that are half in it are at 82 percent, and belong to it.
fn lasting(halves: usize) -> Vec<i32> {
    let mut levels = vec![1000; halves + 7];
    levels[4..halves + 3].fill(600);
    blocks(&levels)
}

/// Each column on both sides of its border, by hand: 5h < 2f is below 0.2 s, h < f below 0.5 s, h < 10f below 5 s; a duration on a
/// border goes to the longer column. By UNIPEDE 5h < f is below 0.1 s, then 0.5, 1, 3, 20 and 60 s.
#[test]
fn columns_have_the_names_of_the_set() {
    let folder = Folder::new("borders-columns");
    let by_411 = ["column 1 (< 200 ms)", "column 2 (200-500 ms)", "column 3 (0.5-5 s)", "column 4 (5 s up)"];
    let at_50 = [(3, 0), (19, 0), (20, 1), (49, 1), (50, 2), (499, 2), (500, 3), (5_000, 3)];
    let at_60 = [(23, 0), (24, 1), (59, 1), (60, 2), (599, 2), (600, 3)];
    for (f, halves, column) in at_50.map(|(h, at)| ("50", h, at)).into_iter().chain(at_60.map(|(h, at)| ("60", h, at)))
    {
        let wanted = format!("{} (IEC 61000-4-11): row 2 (40 to 70 %), {}.", 11 + column, by_411[column]);
        assert_eq!(cell_told(&folder, &lasting(halves), "4-11", f), wanted, "{halves} at {f} Hz");
    }
    let by_unipede = [
        "column 1 (< 0.1 s)",
        "column 2 (0.1-0.5 s)",
        "column 3 (0.5-1 s)",
        "column 4 (1-3 s)",
        "column 5 (3-20 s)",
        "column 6 (20-60 s)",
        "column 7 (60 s up)",
    ];
    let borders = [10, 50, 100, 300, 2_000, 6_000];
    let sides = (0..).zip(borders).flat_map(|(column, border)| [(border - 1, column), (border, column + 1)]);
    for (halves, column) in sides {
        let wanted = format!("{} (UNIPEDE): row 2 (40 to 70 %), {}.", 17 + column, by_unipede[column]);
        assert_eq!(cell_told(&folder, &lasting(halves), "unipede", "50"), wanted, "{halves}");
    }
    for (word, title, cell) in [("4-11", "IEC 61000-4-11", 20), ("unipede", "UNIPEDE", 32)] {
        // One half-cycle below 90 percent, at 89.9.
        let told = cell_told(&folder, &blocks(&[1000, 1000, 899, 899, 1000, 1000]), word, "50");
        let above = if word == "4-11" { 80 } else { 85 };
        assert_eq!(told, format!("{cell} ({title}): row 4 (above {above} %), column 0 (< 1 cycle)."));
    }
}

/// Each row on both sides of its border: a voltage on a border goes to the deeper row. From 850 on the half-cycles that are half in
/// the sag are above 92 percent, so it lasts one half-cycle, in column 0; before that two or three, in column 1.
#[test]
fn rows_have_the_names_of_the_set() {
    let folder = Folder::new("borders-rows");
    let cases = [
        (0, "1 (UNIPEDE): row 0 (at most 10 %)", "1 (IEC 61000-4-11): row 0 (at most 10 %)"),
        (100, "1 (UNIPEDE): row 0 (at most 10 %)", "1 (IEC 61000-4-11): row 0 (at most 10 %)"),
        (101, "9 (UNIPEDE): row 1 (10 to 40 %)", "6 (IEC 61000-4-11): row 1 (10 to 40 %)"),
        (400, "9 (UNIPEDE): row 1 (10 to 40 %)", "6 (IEC 61000-4-11): row 1 (10 to 40 %)"),
        (401, "17 (UNIPEDE): row 2 (40 to 70 %)", "11 (IEC 61000-4-11): row 2 (40 to 70 %)"),
        (700, "17 (UNIPEDE): row 2 (40 to 70 %)", "11 (IEC 61000-4-11): row 2 (40 to 70 %)"),
        (701, "25 (UNIPEDE): row 3 (70 to 85 %)", "16 (IEC 61000-4-11): row 3 (70 to 80 %)"),
        (800, "25 (UNIPEDE): row 3 (70 to 85 %)", "16 (IEC 61000-4-11): row 3 (70 to 80 %)"),
        (801, "25 (UNIPEDE): row 3 (70 to 85 %)", "21 (IEC 61000-4-11): row 4 (above 80 %)"),
        (850, "24 (UNIPEDE): row 3 (70 to 85 %)", "20 (IEC 61000-4-11): row 4 (above 80 %)"),
        (851, "32 (UNIPEDE): row 4 (above 85 %)", "20 (IEC 61000-4-11): row 4 (above 80 %)"),
    ];
    for (level, first, other) in cases {
        for (word, wanted) in [("unipede", first), ("4-11", other)] {
            let told = cell_told(&folder, &blocks(&[1000, 1000, level, level, 1000, 1000]), word, "50");
            assert!(told.starts_with(&format!("{wanted}, column ")), "{level} by {word}: {told}");
        }
    }
}

/// 801 once among 800 is above 80 percent, and 800 to the nearest: by the one set the exact sums decide a row, by the other they
/// need not be told. 801 squared and seven times 640,000 are 5,121,601.
#[test]
fn exact_sums_are_told_at_the_sets_own_borders() {
    let folder = Folder::new("borders-exact");
    let healthy = blocks(&[1000, 1000]);
    let low: Vec<i32> = [801, 800, 800, 800, 800, 800, 800, 800].iter().flat_map(|sample| [*sample; 3]).collect();
    let samples = [&healthy[..], &low, &healthy].concat();
    assert_eq!(
        cell_told(&folder, &samples, "4-11", "50"),
        "21 (IEC 61000-4-11): row 4 (above 80 %) and not row 3 (70 to 80 %), as the rounded 800 would have it: the exact 10000 x \
         5121601 = 51216010000 is more than 80 x 80 x 8 x 1000 x 1000 = 51200000000, column 1 (< 200 ms)."
    );
    assert_eq!(cell_told(&folder, &samples, "unipede", "50"), "25 (UNIPEDE): row 3 (70 to 85 %), column 1 (< 0.1 s).");
}

/// `explain` takes the site's set, and for programs it has the set as `list` does.
#[test]
fn explain_goes_by_the_set() {
    let folder = with_k2("borders-explain");
    let told = folder.accepted(&["explain", "k.csv", "--site", "x.site"]).replace("\n             ", " ");
    says(&told, &["cell 11 (IEC 61000-4-11): row 2 (40 to 70 %), column 1 (< 200 ms).\n"]);
    let json = folder.accepted(&["explain", "k.csv", "--site", "x.site", "--json"]);
    assert!(
        json.contains("cell 11 (IEC 61000-4-11): row 2") && json.ends_with("]}],\"borders\":\"4-11\"}\n"),
        "{json}"
    );
    let csv = folder.accepted(&["explain", "k.csv", "--site", "x.site", "--csv"]);
    assert!(
        csv.lines().next().unwrap().ends_with(",shortfall_c,borders") && csv.ends_with(",12000000,4-11\n"),
        "{csv}"
    );
}

/// The counts of a page's cells, in their order.
fn counts(page: &str) -> Vec<&str> {
    let cells = page.split("class=\"count heat").skip(1);
    cells.map(|rest| rest.split_once('>').unwrap().1.split('<').next().unwrap()).collect()
}

/// The page: header, grid and events by the site's own set, its columns over the whole width of the drawing.
#[test]
fn the_page_draws_the_grid_of_the_set() {
    let folder = with_k2("borders-page");
    folder.write("shallow.csv", csv(&blocks(&[1000, 1000, 899, 899, 1000, 1000])));
    folder.accepted(&["add", "x.site", "k.csv", "shallow.csv"]);
    folder.accepted(&["report", "x.site", "k.csv", "shallow.csv", "-o", "x.html"]);
    let page = folder.read("x.html");
    let mut wanted = vec!["0"; 25];
    (wanted[11], wanted[20]) = ("2", "1");
    assert_eq!(counts(&page), wanted);
    says(
        &page,
        &[
            "hysteresis 2 %; borders <span class=\"whole\">IEC 61000-4-11</span></p>",
            "aria-label=\"sags by depth and duration, borders IEC 61000-4-11\"",
            "columns by duration, with the borders of <span class=\"whole\">IEC 61000-4-11</span>.",
            "<td>cell 11<i>row 2 (40 to 70 %), column 1 (&lt; 200 ms)</i>",
            "<td>cell 20<i>row 4 (above 80 %), column 0 (&lt; 1 cycle)</i>",
        ],
    );
    // From 130 to 960 in five: each 166 wide, its name over its middle.
    for (x, name) in
        [(213, "&lt; 1 cycle"), (379, "&lt; 200 ms"), (545, "200-500 ms"), (711, "0.5-5 s"), (877, "5 s up")]
    {
        says(&page, &[&format!("<text class=\"tick\" text-anchor=\"middle\" x=\"{x}\" y=\"15\">{name}</text>")]);
    }
    for name in ["at most 10 %", "10 to 40 %", "40 to 70 %", "70 to 80 %", "above 80 %"] {
        says(&page, &[&format!(">{name}</text>")]);
    }
    assert!(!page.contains("UNIPEDE") && !page.contains("85 %"), "nothing of the other set");
}

/// The same by the first set, which is there without a word.
#[test]
fn the_page_of_a_site_without_a_word() {
    let folder = with_k2("borders-page-first");
    folder.site("first.site");
    folder.accepted(&["report", "first.site", "k.csv", "-o", "first.html"]);
    let page = folder.read("first.html");
    assert_eq!(counts(&page), ["0"; 40]);
    says(
        &page,
        &[
            "hysteresis 2 %; borders <span class=\"whole\">UNIPEDE</span></p>",
            "columns by duration, with the borders of <span class=\"whole\">UNIPEDE</span>.",
            ">70 to 85 %</text>",
            "<td>cell 17<i>row 2 (40 to 70 %), column 1 (&lt; 0.1 s)</i>",
        ],
    );
    assert!(!page.contains("4-11"), "nothing of the other set");
}

/// Where the recordings can't all be in the table, the cell is told by the set too.
#[test]
fn the_page_counts_by_the_set() {
    let folder = with_k2("borders-page-cells");
    folder.write("deeper.csv", csv(&blocks(&[1000, 1000, 300, 300, 1000, 1000])));
    folder.accepted(&["report", "x.site", "deeper.csv", "-o", "x.html"]);
    says(&folder.read("x.html"), &["They are not all in it: sags in cell 6, 0 in the table and 1 in them."]);
}

/// `check` asks for no set, and judges a recording for a site of any.
#[test]
fn check_needs_no_set() {
    let folder = with_k2("borders-check");
    let told = folder.accepted(&["check", "k.csv", "--site", "x.site"]);
    assert_eq!(told, folder.accepted(&[&["check", "k.csv"][..], &KNOWN].concat()));
    says(&told, &["It would be accepted."]);
    assert!(!told.contains("borders"), "{told}");
    let full = folder.read("x.site").replace("total 5", "total 3999999").replace("healthy 2", "healthy 3999996");
    folder.write("x.site", full);
    folder.refused(&["check", "k.csv", "--site", "x.site"], 8, 1);
}

/// Demo-1's sag lasts 40 half-cycles, 0.4 s, at 60 percent. Demo-3's lasts 17, from 17 to 34, and goes down to 3 percent. By the
/// first set both are in the column up to 0.5 s; by the other 5 x 17 is below 100, and 0.17 s below 200 ms.
#[test]
fn the_demo_by_the_other_borders() {
    let folder = Folder::new("borders-demo");
    let told = folder.accepted(&["demo", "--borders", "4-11", "--save"]);
    says(
        &told,
        &[
            "     1.333  0.052 s  12: 40 to 70 %, 200-500 ms\n",
            "  borders        IEC 61000-4-11\n",
            "  at most 10 %           .         1           .        .       .\n",
            "  40 to 70 %             .         .           1        .       .\n",
            "    burrcradle new depot.site --n 64 --r 23000 --f 50 --borders 4-11\n",
        ],
    );
    assert_eq!(counts(&folder.read("demo.html")).len(), 25);
    let first = folder.accepted(&["demo"]);
    says(&first, &["     1.333  0.052 s  18: 40 to 70 %, 0.1-0.5 s\n", "  borders        UNIPEDE\n"]);
    assert!(!first.contains("4-11"), "{first}");
    assert_eq!(first, folder.accepted(&["demo", "--borders", "unipede"]));
    // What it says to go on with gives the same table.
    folder.accepted(&["new", "demo", "--n", "64", "--r", "23000", "--f", "50", "--borders", "4-11"]);
    let files = ["demo-1-slow-recovery.csv", "demo-2-gap.csv", "demo-3-blackout.csv"];
    folder.accepted(&[&["add", "demo"][..], &files].concat());
    assert!(told.contains(&folder.accepted(&["show", "demo"])), "{told}");
    assert_eq!(listed(&folder.accepted(&["list", files[0], "--site", "demo", "--csv"]))[0].0[12], 12);
}

/// The help of each command that takes the option names both words, and that of no other command.
#[test]
fn the_help_names_the_words() {
    let folder = Folder::new("borders-help");
    for command in ["demo", "new", "check", "add", "list", "show", "report", "explain"] {
        let help = folder.accepted(&[command, "--help"]);
        let takes = ["demo", "new", "list", "explain"].contains(&command);
        assert_eq!(help.contains("[--borders unipede | 4-11]"), takes, "{help}");
    }
    says(&folder.accepted(&["show", "--help"]).replace('\n', " "), &["the next add writes it as version 4."]);
}
