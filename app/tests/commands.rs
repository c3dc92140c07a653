//! Each command as people and programs use it.
mod common;
use common::{blocks, csv, k2, listed, rows, Folder, KNOWN, MISSING};

const COMMANDS: [&str; 9] = ["demo", "new", "check", "add", "list", "show", "report", "explain", "trace"];

#[test]
fn help_has_an_example_for_each_command() {
    let folder = Folder::new("help");
    let all = folder.accepted(&["--help"]);
    for command in COMMANDS {
        assert!(all.contains(&format!("burrcradle {command}")), "{all}");
        let help = folder.accepted(&[command, "--help"]);
        let (_, example) = help.split_once("Example:\n").unwrap_or_else(|| panic!("{command}: {help}"));
        assert!(example.contains(&format!("burrcradle {command}")), "{help}");
        assert_eq!(folder.accepted(&["help", command]), help);
    }
    assert_eq!(folder.accepted(&["help"]), all);
    folder.bad(&["help", "tell"], "\"tell\" is no command");
}

#[test]
fn bad_usage_ends_with_2() {
    let folder = Folder::new("usage");
    folder.write("k.csv", csv(&k2()));
    folder.site("x.site");
    let cases: [(&[&str], &str); 20] = [
        (&[], "a command is wanting"),
        (&["tell"], "\"tell\" is no command"),
        (&["show"], "SITE is wanting"),
        (&["add", "x.site"], "RECORDING is wanting"),
        (&["show", "x.site", "k.csv"], "one file too many"),
        (&["show", "x.site", "--cut"], "--cut is no option of this command"),
        (&["show", "x.site", "--json", "--csv"], "exclude each other"),
        (&["show", "x.site", "--json=yes"], "--json takes no value"),
        (&["list", "k.csv"], "--n is wanting"),
        (&["list", "k.csv", "--n", "8", "--r", "1000"], "--f is wanting"),
        (&["list", "k.csv", "--n", "8", "--n", "8"], "--n is given twice"),
        (&["list", "k.csv", "--n"], "--n wants a value"),
        (&["list", "k.csv", "--n", "8.5", "--r", "1000", "--f", "50"], "--n wants a whole number"),
        (&["list", "k.csv", "--n", "-8", "--r", "1000", "--f", "50"], "--n wants a whole number"),
        (&["list", "k.csv", "--site", "x.site", "--f", "50"], "--site has its settings already"),
        (&["list", "-", "-", "--site", "x.site"], "only once"),
        (&["report", "x.site", "k.csv"], "-o FILE.html is wanting"),
        (&["report", "-", "k.csv", "-o", "x.html"], "a site is a file, and standard input (-) is none"),
        (&["list", "k.csv", "--site", "-"], "a site is a file, and standard input (-) is none"),
        (&["show", "--", "--help"], "--help: No such file"),
    ];
    for (args, words) in cases {
        folder.bad(args, words);
    }
}

#[test]
fn list_is_aligned_and_plain() {
    let folder = Folder::new("list-text");
    folder.write("k.csv", csv(&k2()));
    let wanted = "\
k.csv: 5 half-cycles (0.050 s): 2 healthy, 3 disturbed, 0 unknown; 1 event
  no  kind  start  end       at   lasted  seen  extreme  retained  shortfall  type  ms lost a / b / c  severity   energy  cell (UNIPEDE)
   1  sag       1    4  0.010 s  0.030 s  both  2000000       500   36000000  A          15 / 15 / 15     1.000  0.045 s  17: 40 to 70 %, < 0.1 s
";
    assert_eq!(folder.accepted(&[&["list", "k.csv"][..], &KNOWN].concat()), wanted);
}

#[test]
fn list_in_json() {
    let folder = Folder::new("list-json");
    folder.write("k.csv", csv(&k2()));
    let wanted = "{\"settings\":{\"n\":8,\"r\":1000,\"f\":50,\"sag\":90,\"interruption\":10,\"swell\":110,\"hysteresis\":2},\
        \"recordings\":[{\"recording\":\"k.csv\",\"half_cycles\":{\"total\":5,\"healthy\":2,\"disturbed\":3,\"unknown\":0},\
        \"cuts\":[],\"parts\":[{\"part\":1,\"first_half_cycle\":0,\"half_cycles\":\
        {\"total\":5,\"healthy\":2,\"disturbed\":3,\"unknown\":0},\"events\":[{\"kind\":1,\"kind_word\":\"sag\",\"start\":1,\
        \"end\":4,\"start_seconds\":0.01,\"seen\":3,\"cut\":0,\"extreme\":2000000,\"retained\":500,\"shortfall\":36000000,\"type\":0,\"type_word\":\"A\",\
        \"reason\":0,\"reason_words\":\"scored\",\"cell\":17,\"severity\":1,\"energy\":0.045,\
        \"shortfall_a\":12000000,\"shortfall_b\":12000000,\"shortfall_c\":12000000}]}]}],\"borders\":\"unipede\"}\n";
    assert_eq!(folder.accepted(&[&["list", "k.csv", "--json"][..], &KNOWN].concat()), wanted);
    let swell = csv(&blocks(&[1000, 1000, 1200, 1200, 1000, 1000]));
    folder.write("k.csv", swell);
    let told = folder.accepted(&[&["list", "k.csv", "--json"][..], &KNOWN].concat());
    let none = "\"cell\":40,\"severity\":null,\"energy\":null,\"shortfall_a\":0,\"shortfall_b\":0,\"shortfall_c\":0}";
    assert!(told.contains(none), "{told}");
}

#[test]
fn list_takes_the_settings_of_a_site() {
    let folder = Folder::new("list-site");
    folder.write("k.csv", csv(&blocks(&[1000, 1000, 800, 800, 1000, 1000])));
    folder.site("x.site");
    folder.accepted(&[&["new", "low.site", "--sag", "70"][..], &KNOWN].concat());
    let count = |site: &str| listed(&folder.accepted(&["list", "k.csv", "--csv", "--site", site])).len();
    assert_eq!((count("x.site"), count("low.site")), (1, 0));
}

#[test]
fn list_takes_several_recordings() {
    let folder = Folder::new("list-several");
    folder.write("one, two.csv", csv(&k2()));
    folder.write("b.csv", csv(&blocks(&[500, 500])));
    let told = folder.accepted(&[&["list", "one, two.csv", "b.csv", "--csv"][..], &KNOWN].concat());
    let lines: Vec<&str> = told.lines().collect();
    assert_eq!(lines.len(), 3, "{told}");
    assert!(lines[1].starts_with("\"one, two.csv\",5,2,3,0,1,0,1,1,sag,1,4,0.01,3,0,"), "{told}");
    assert!(lines[2].starts_with("b.csv,1,0,1,0,1,0,1,1,sag,0,1,0,0,0,"), "{told}");
}

/// What nobody saw must not vanish: a recording without events has a row too, and every row its recording's half-cycles.
#[test]
fn a_recording_without_events_has_a_row() {
    let folder = Folder::new("list-none");
    folder.write("unseen.csv", csv(&[MISSING; 72]));
    folder.write("healthy.csv", csv(&blocks(&[1000; 6])));
    let mut gap = blocks(&[1000, 1000, 500, 500, 500, 500, 1000, 1000]);
    gap[48] = MISSING;
    folder.write("gap.csv", csv(&gap));
    let files = ["unseen.csv", "healthy.csv", "gap.csv"];
    for command in ["list", "explain"] {
        let rows = rows(&folder.accepted(&[&[command, "--csv"][..], &files, &KNOWN].concat()).replace(", ", "; "));
        let told: Vec<_> = rows
            .iter()
            .map(|row| {
                let halves = ["total", "healthy", "disturbed", "unknown"].map(|name| row.number(name));
                (row.field("recording"), halves, row.field("kind"), row.field("kind_word"), row.field("seen"))
            })
            .collect();
        let wanted = [
            ("unseen.csv", [5, 0, 0, 5], "0", "none", ""),
            ("healthy.csv", [5, 5, 0, 0], "0", "none", ""),
            ("gap.csv", [7, 2, 3, 2], "1", "sag", "1"),
            ("gap.csv", [7, 2, 3, 2], "1", "sag", "2"),
        ];
        assert_eq!(told, wanted, "{command}");
        assert!(rows.iter().all(|row| row.whole()), "{command}");
        let text = folder.accepted(&[&[command][..], &files, &KNOWN].concat());
        assert!(text.contains("5 unknown; 0 events\n  Nobody saw it: all 5 half-cycles are unknown."), "{text}");
        assert_eq!(text.matches("Nobody saw").count(), 1, "{text}");
    }
    let json = folder.accepted(&[&["list", "unseen.csv", "--json"][..], &KNOWN].concat());
    let halves = "\"half_cycles\":{\"total\":5,\"healthy\":0,\"disturbed\":0,\"unknown\":5}";
    assert!(json.contains(&format!("\"recording\":\"unseen.csv\",{halves}")), "{json}");
}

#[test]
fn show_tells_the_table() {
    let folder = Folder::new("show");
    folder.site("x.site");
    folder.write("k.csv", csv(&k2()));
    folder.accepted(&["add", "x.site", "k.csv", "k.csv"]);
    let wanted = "\
x.site: N 8, R 1000, 50 Hz; sag 90 %, interruption 10 %, swell 110 %, hysteresis 2 %
  half-cycles    10 (0.100 s)
                 4 healthy, 6 disturbed, 0 unknown
  sags           2 (0 unplaced)
  interruptions  0
  swells         0
  shortfall      72000000 = 0.090 s
    channel a    24000000 = 0.030 s
    channel b    24000000 = 0.030 s
    channel c    24000000 = 0.030 s

  borders        UNIPEDE
  sags by depth  < 1 cycle  < 0.1 s  0.1-0.5 s  0.5-1 s  1-3 s  3-20 s  20-60 s  60 s up
  at most 10 %           .        .          .        .      .       .        .        .
  10 to 40 %             .        .          .        .      .       .        .        .
  40 to 70 %             .        2          .        .      .       .        .        .
  70 to 85 %             .        .          .        .      .       .        .        .
  above 85 %             .        .          .        .      .       .        .        .
";
    assert_eq!(folder.accepted(&["show", "x.site"]), wanted);
    let json = folder.accepted(&["show", "x.site", "--json"]);
    let cells = "\"cells\":[[0,0,0,0,0,0,0,0],[0,0,0,0,0,0,0,0],[0,2,0,0,0,0,0,0],[0,0,0,0,0,0,0,0],[0,0,0,0,0,0,0,0]]";
    let shortfalls = "\"shortfall\":72000000,\"shortfall_seconds\":0.090,\
        \"shortfall_a\":24000000,\"shortfall_b\":24000000,\"shortfall_c\":24000000,\"borders\":\"unipede\"}\n";
    assert!(json.contains(cells) && json.ends_with(shortfalls), "{json}");
    let csv = folder.accepted(&["show", "x.site", "--csv"]);
    assert_eq!(csv.lines().count(), 61);
    let numbers = folder.read("x.site").replace("burrcradle site 4\n", "name value\n").replace("borders 0\n", "");
    assert_eq!(
        csv.replace(',', " "),
        numbers + "borders unipede\n",
        "all that the file has, and the borders' word last"
    );
}

#[test]
fn add_tells_what_each_recording_added() {
    let folder = Folder::new("add");
    folder.site("x.site");
    folder.write("k.csv", csv(&k2()));
    folder.write("b.csv", csv(&blocks(&[500, 500])));
    let told = folder.accepted(&["add", "x.site", "k.csv", "b.csv"]);
    assert!(told.contains("\n  k.csv            5  0.050 s        2          3        0     1         0 "), "{told}");
    assert!(told.contains("\n  b.csv            1  0.010 s        0          1        0     1         1 "), "{told}");
    let json = folder.accepted(&["add", "x.site", "k.csv", "--json"]);
    assert!(json.starts_with("{\"added\":[{\"recording\":\"k.csv\",\"table\":{"), "{json}");
    assert!(json.contains("}}],\"cut\":[],\"table\":{"), "{json}");
    assert_eq!(folder.counted("x.site", "total"), 11);
    let ran = folder.run_with(&["add", "x.site", "-"], csv(&k2()).as_bytes());
    assert_eq!((ran.status, folder.counted("x.site", "total")), (0, 16));
}

#[test]
fn demo_lists_tables_and_writes_its_page() {
    let folder = Folder::new("demo");
    let told = folder.accepted(&["demo"]);
    for words in [
        "   1  sag      19   59  0.190 s  0.400 s  both  12188262852       600  176251862040  Da           52 / 0 / 0     1.333  0.052 s  18: 40 to 70 %, 0.1-0.5 s\n",
        "none: only the end unseen\n",
        "none: only the start unseen\n",
        "   2  interruption     20   29  0.200 s  0.090 s  both",
        "   3  swell            60   74  0.600 s  0.140 s  both",
        "  sags           4 (2 unplaced)\n",
        "185 healthy, 103 disturbed, 9 unknown\n",
    ] {
        assert!(told.contains(words), "{words}: {told}");
    }
    assert!(!told.contains('\x1b'), "no colours but on a terminal");
    assert!(folder.read("demo.html").starts_with("<!DOCTYPE html>"));
    assert_eq!(std::fs::read_dir(&folder.0).unwrap().count(), 1, "nothing else is written");
}

/// What the demo saves can be listed and added, and gives the demo's table.
#[test]
fn demo_saves_what_it_carries() {
    let folder = Folder::new("demo-save");
    let told = folder.accepted(&["demo", "--save"]);
    let files = ["demo-1-slow-recovery.csv", "demo-2-gap.csv", "demo-3-blackout.csv"];
    folder.accepted(&["new", "demo", "--n", "64", "--r", "23000", "--f", "50"]);
    folder.accepted(&[&["add", "demo"][..], &files].concat());
    assert!(told.contains(&folder.accepted(&["show", "demo"])), "{told}");
    let args = ["list", files[0], "--csv", "--n", "64", "--r", "23000", "--f", "50"];
    let end = |more: &[&str]| listed(&folder.accepted(&[&args[..], more].concat()))[0].0[2];
    assert_eq!((end(&[]), end(&["--hysteresis", "0"])), (59, 28), "ending at 90 % is the error");
}
