//! A site's file: damage is told and never written over, a kill leaves a whole table, two adds at once lose nothing.
mod common;
use common::{blocks, csv, k2, Folder, KNOWN};
use std::{
    fs::{self, File},
    process::Stdio,
    thread,
    time::{Duration, Instant},
};

fn with_k2(name: &str) -> Folder {
    let folder = Folder::new(name);
    folder.site("x.site");
    folder.write("k.csv", csv(&k2()));
    folder
}

#[test]
fn the_file_is_60_names_and_numbers() {
    let folder = with_k2("site-file");
    folder.accepted(&["add", "x.site", "k.csv"]);
    let text = folder.read("x.site");
    let lines: Vec<&str> = text.lines().collect();
    assert_eq!(lines.len(), 61);
    assert_eq!(lines[0], "burrcradle site 4");
    assert_eq!(
        lines[1..13],
        [
            "n 8",
            "r 1000",
            "f 50",
            "sag 90",
            "interruption 10",
            "swell 110",
            "hysteresis 2",
            "borders 0",
            "total 5",
            "healthy 2",
            "disturbed 3",
            "unknown 0",
        ]
    );
    assert_eq!((lines[13], lines[30], lines[52]), ("cell-0 0", "cell-17 1", "cell-39 0"));
    assert_eq!(lines[53..58], ["unplaced 0", "sags 1", "interruptions 0", "swells 0", "shortfall 36000000"]);
    assert_eq!(lines[58..], ["shortfall-a 12000000", "shortfall-b 12000000", "shortfall-c 12000000"]);
}

/// A file cut short anywhere is a parse error, and `add` leaves it as it is.
#[test]
fn a_file_cut_short_is_told() {
    let folder = with_k2("site-short");
    folder.accepted(&["add", "x.site", "k.csv"]);
    let whole = folder.read("x.site");
    for length in 0..whole.len() {
        folder.write("x.site", &whole[..length]);
        let ran = folder.run(&["show", "x.site"]);
        assert_eq!(ran.status, 2, "{length}: {ran:?}");
        assert!(ran.err.contains("x.site: line ") || ran.err.contains("x.site: the file ends where "), "{ran:?}");
    }
    let short = &whole[..whole.len() - 3];
    folder.write("x.site", short);
    folder.bad(&["add", "x.site", "k.csv"], "line 61 is cut short");
    assert_eq!(folder.read("x.site"), short);
}

#[test]
fn an_edited_file_is_told_with_its_line() {
    let folder = with_k2("site-edited");
    let good = folder.read("x.site");
    let cases = [
        (
            good.replace("burrcradle site 4\n", ""),
            "line 1: \"n 8\" where \"burrcradle site 4\" is wanted: no site's file, or",
        ),
        (good.replace("\nr 1000\n", "\nr 1e3\n"), "line 3: \"1e3\" is no whole number"),
        (good.replace("\nr 1000\n", "\nr -1000\n"), "line 3: "),
        (good.replace("\nr 1000\n", "\nr 01000\n"), "line 3: "),
        (good.replace("\nr 1000\n", "\nr  1000\n"), "line 3: "),
        (good.replace("\nr 1000\n", "\nr 18446744073709551616\n"), "line 3: "),
        (good.replace("\nr 1000\n", "\nr\n"), "line 3: "),
        (good.replace("\nr 1000\n", "\n"), "line 3: \"f 50\" where \"r\""),
        (good.replace("\nborders 0\n", "\n"), "line 9: \"total 0\" where \"borders\" and its number are wanted"),
        (good.replace("\nborders 0\n", "\nborders unipede\n"), "line 9: \"unipede\" is no whole number"),
        (good.replace("\nborders 0\n", "\nborders 4-11\n"), "line 9: \"4-11\" is no whole number"),
        (good.replace("\ntotal 0\n", "\ntotals 0\n"), "line 10: "),
        (good.replace('\n', "\r\n"), "line 1: "),
        (format!("{good}\n"), "line 62: "),
        (format!("{good}cell-40 0\n"), "line 62: "),
        (format!("{good}x"), "line 62 is cut short"),
        (good.replace("sags", "s\u{fffd}gs"), "line 55: "),
        (good.replace("\nshortfall-b 0\n", "\n"), "line 60: \"shortfall-c 0\" where \"shortfall-b\""),
        (good.replace("\nshortfall-c 0\n", "\n"), "the file ends where shortfall-c is wanted"),
        (good.replace("\nshortfall-a 0\n", "\nshortfall-a -1\n"), "line 59: \"-1\" is no whole number"),
    ];
    for (text, words) in cases {
        folder.write("x.site", &text);
        for args in [&["show", "x.site"][..], &["add", "x.site", "k.csv"]] {
            let ran = folder.bad(args, words);
            assert!(ran.err.contains("x.site: "), "{ran:?}");
        }
        assert_eq!(folder.read("x.site"), text, "left as it is");
    }
}

/// Site's files as program 0.2.0 kept them, in version 1, and program 0.5.0, in version 2: a fresh site to which the recording of
/// `with_k6` was added.
const EARLIER: [(u32, &str); 2] = [(1, include_str!("version-1.site")), (2, include_str!("version-2.site"))];

/// A sag with an interruption in it.
fn with_k6(name: &str) -> Folder {
    let folder = Folder::new(name);
    folder.write("k.csv", csv(&blocks(&[1000, 1000, 0, 0, 1000, 1000])));
    folder
}

fn told_of(version: u32) -> String {
    format!(
        "burrcradle: x.site: line 1: a site's file of version {version}, kept before shortfalls were counted by channel. What each \
         channel lost can't be worked out from it, and it is left as it is: `burrcradle new`, under another name, and `burrcradle \
         add` make the site anew from its recordings\n"
    )
}

/// The names of all files in a folder, hidden ones too.
fn names(folder: &Folder) -> Vec<String> {
    let entries = fs::read_dir(&folder.0).unwrap().map(|entry| entry.unwrap().file_name().into_string().unwrap());
    let mut names: Vec<String> = entries.collect();
    names.sort();
    names
}

/// Every command that reads a site says so, with status 2, and none writes anything.
#[test]
fn a_file_of_an_earlier_version_is_told_and_left() {
    let folder = with_k6("site-earlier");
    let commands: [&[&str]; 10] = [
        &["show", "x.site"],
        &["show", "x.site", "--json"],
        &["show", "x.site", "--csv"],
        &["add", "x.site", "k.csv"],
        &["add", "x.site", "k.csv", "--json"],
        &["list", "k.csv", "--site", "x.site"],
        &["explain", "k.csv", "--site", "x.site"],
        &["check", "k.csv", "--site", "x.site"],
        &["report", "x.site", "k.csv", "-o", "x.html"],
        &["report", "x.site", "k.csv", "-o", "x.html", "--force"],
    ];
    for (version, kept) in EARLIER {
        folder.write("x.site", kept);
        for args in commands {
            assert_eq!(folder.bad(args, "").err, told_of(version), "{args:?}");
            assert_eq!(fs::read(folder.path("x.site")).unwrap(), kept.as_bytes(), "{args:?}");
            assert_eq!(names(&folder), ["k.csv", "x.site"], "{args:?}");
        }
        folder.bad(&[&["new", "x.site"][..], &KNOWN].concat(), "x.site: there is such a file already");
        assert_eq!(fs::read(folder.path("x.site")).unwrap(), kept.as_bytes());
        assert_eq!(names(&folder), ["k.csv", "x.site"]);
    }
}

/// What the sentence says can be done: the new file has each number of the old one, and those of the channels besides. K6 is
/// 4,000,000, 8,000,000 and 4,000,000 short on each channel.
#[test]
fn an_earlier_site_is_made_anew_from_its_recordings() {
    let folder = with_k6("site-anew");
    folder.site("anew.site");
    folder.accepted(&["add", "anew.site", "k.csv"]);
    let anew = folder.read("anew.site");
    for (_, kept) in EARLIER {
        let numbers = kept.lines().skip(1).filter(|line| *line != "stray 0").collect::<Vec<_>>();
        assert_eq!(numbers.len(), 56);
        let parts = ["shortfall-a 16000000", "shortfall-b 16000000", "shortfall-c 16000000"];
        let wanted = [&numbers[..7], &["borders 0"], &numbers[7..], &parts].concat();
        assert_eq!(anew.lines().skip(1).collect::<Vec<_>>(), wanted);
    }
}

/// The version line alone tells, whatever follows it; and an earlier file under the line of a version that is read is a parse
/// error.
#[test]
fn an_earlier_version_is_told_by_its_line() {
    let folder = with_k6("site-earlier-line");
    for (version, kept) in EARLIER {
        let first = kept.find('\n').unwrap() + 1;
        for length in 0..kept.len() {
            folder.write("x.site", &kept[..length]);
            let err = folder.bad(&["show", "x.site"], "x.site: ").err;
            assert_eq!(err == told_of(version), length >= first, "{length}: {err}");
        }
    }
    let relabelled = |at: usize, version: &str| {
        let (was, kept) = EARLIER[at];
        kept.replacen(&format!("site {was}"), &format!("site {version}"), 1)
    };
    for (text, words) in [
        (relabelled(0, "3"), "line 57: \"stray 0\" where \"shortfall\" and its number are wanted"),
        (relabelled(1, "3"), "the file ends where shortfall-a is wanted"),
        (relabelled(0, "4"), "line 9: \"total 5\" where \"borders\" and its number are wanted"),
        (relabelled(1, "4"), "line 9: \"total 5\" where \"borders\" and its number are wanted"),
    ] {
        folder.write("x.site", &text);
        for args in [&["show", "x.site"][..], &["add", "x.site", "k.csv"]] {
            folder.bad(args, words);
        }
        assert_eq!(folder.read("x.site"), text, "left as it is");
    }
}

/// The same site as program 0.6.0 kept it, in version 3: all but the set of borders.
const VERSION_3: &str = include_str!("version-3.site");

/// The file that has all of version 3's and the set.
fn as_version_4(kept: &str) -> String {
    kept.replacen("site 3\n", "site 4\n", 1).replacen("\nhysteresis 2\n", "\nhysteresis 2\nborders 0\n", 1)
}

/// Every command takes it for a site with the first set of borders, and says of it what it says of the same site in this version.
#[test]
fn a_file_of_version_3_is_read_as_the_first_set() {
    let folder = with_k6("site-3-read");
    let commands: [&[&str]; 9] = [
        &["show", "x.site"],
        &["show", "x.site", "--json"],
        &["show", "x.site", "--csv"],
        &["list", "k.csv", "--site", "x.site"],
        &["list", "k.csv", "--site", "x.site", "--csv"],
        &["explain", "k.csv", "--site", "x.site"],
        &["check", "k.csv", "--site", "x.site"],
        &["check", "k.csv", "--site", "x.site", "--json"],
        &["report", "x.site", "k.csv", "-o", "-"],
    ];
    let made = |page: &str| page.lines().filter(|line| !line.contains("Made on")).collect::<String>();
    for args in commands {
        let [told, wanted] = [VERSION_3, &as_version_4(VERSION_3)].map(|kept| {
            folder.write("x.site", kept);
            let told = folder.accepted(args);
            assert_eq!(folder.read("x.site"), kept, "{args:?}");
            made(&told)
        });
        assert_eq!(told, wanted, "{args:?}");
    }
    folder.write("x.site", VERSION_3);
    let table = folder.accepted(&["show", "x.site"]);
    assert!(
        table.contains("  borders        UNIPEDE\n") && table.contains("\n  at most 10 %           .        1  "),
        "{table}"
    );
    folder.bad(&[&["new", "x.site"][..], &KNOWN].concat(), "x.site: there is such a file already");
    assert_eq!((folder.read("x.site"), names(&folder)), (VERSION_3.into(), vec!["k.csv".to_string(), "x.site".into()]));
}

/// K6 once more: each count twice what it was, a version line of this version, and the set.
#[test]
fn an_add_makes_version_3_version_4() {
    let folder = with_k6("site-3-add");
    folder.write("x.site", VERSION_3);
    let told = folder.accepted(&["add", "x.site", "k.csv", "--json"]);
    let kept = folder.read("x.site");
    let settings =
        "burrcradle site 4\nn 8\nr 1000\nf 50\nsag 90\ninterruption 10\nswell 110\nhysteresis 2\nborders 0\n";
    assert!(
        kept.starts_with(&format!("{settings}total 10\nhealthy 4\ndisturbed 6\nunknown 0\ncell-0 0\ncell-1 2\n")),
        "{kept}"
    );
    let sums = "shortfall 96000000\nshortfall-a 32000000\nshortfall-b 32000000\nshortfall-c 32000000\n";
    assert!(kept.ends_with(&format!("\nunplaced 0\nsags 2\ninterruptions 2\nswells 0\n{sums}")), "{kept}");
    assert_eq!((kept.lines().count(), kept.matches(" 0\n").count()), (61, 1 + 1 + 39 + 2), "and nothing else");
    assert_eq!(told.matches("\"borders\":\"unipede\"").count(), 2, "what was added, and the table: {told}");
    // As if it had been of this version all along.
    folder.write("y.site", as_version_4(VERSION_3));
    folder.accepted(&["add", "y.site", "k.csv"]);
    assert_eq!(folder.read("y.site"), kept);
    folder.accepted(&["add", "x.site", "k.csv"]);
    assert_eq!(folder.counted("x.site", "cell-1"), 3, "and it goes on");
}

/// Whatever is wrong, a file of version 3 stays that, byte for byte.
#[test]
fn a_failed_add_leaves_version_3() {
    let folder = with_k6("site-3-failed");
    folder.write("bad.csv", csv(&k2()[..27]));
    folder.write("x.site", VERSION_3);
    folder.refused(&["add", "x.site", "bad.csv"], 4, 0);
    folder.refused(&["add", "x.site", "k.csv", "bad.csv"], 4, 0);
    folder.bad(&["add", "x.site", "k.csv", "none.csv"], "none.csv: ");
    folder.bad(&["add", "x.site", "k.csv", "--borders", "unipede"], "--borders is no option of this command");
    assert_eq!(folder.read("x.site"), VERSION_3);
    // Damage is told as in any other file, and left.
    let unsound = VERSION_3.replace("cell-1 1\n", "cell-1 2\n");
    folder.write("x.site", &unsound);
    folder.refused(&["add", "x.site", "k.csv"], 9, 0);
    assert_eq!(folder.read("x.site"), unsound);
    for (text, words) in [
        (VERSION_3.replace("\nr 1000\n", "\nr 1e3\n"), "line 3: \"1e3\" is no whole number"),
        (
            VERSION_3.replace("\ntotal 5\n", "\nborders 0\ntotal 5\n"),
            "line 9: \"borders 0\" where \"total\" and its number",
        ),
        (VERSION_3.replace("site 3\n", "site 4\n"), "line 9: \"total 5\" where \"borders\" and its number are wanted"),
        (VERSION_3.replace("\nshortfall-c 16000000\n", "\n"), "the file ends where shortfall-c is wanted"),
        (format!("{VERSION_3}\n"), "line 61: \"\" after the last number"),
        (VERSION_3[..VERSION_3.len() - 1].into(), "line 60 is cut short"),
    ] {
        folder.write("x.site", &text);
        for args in [&["show", "x.site"][..], &["add", "x.site", "k.csv"]] {
            folder.bad(args, words);
        }
        assert_eq!(folder.read("x.site"), text, "left as it is");
    }
}

/// A later version, or one that never was, is not taken for an earlier one.
#[test]
fn another_version_is_told_as_that() {
    let folder = with_k2("site-version");
    let good = folder.read("x.site");
    for version in ["5", "99", "0", "12", "21", "34", "01", "3 ", "03", "2 ", "-1", "", "four"] {
        let text = good.replacen("burrcradle site 4", &format!("burrcradle site {version}"), 1);
        folder.write("x.site", &text);
        let words = format!(
            "x.site: line 1: \"burrcradle site {version}\" where \"burrcradle site 4\" is wanted: no site's file, or of another \
             version\n"
        );
        for args in [&["show", "x.site"][..], &["add", "x.site", "k.csv"]] {
            folder.bad(args, &words);
        }
        assert_eq!(folder.read("x.site"), text, "left as it is");
    }
}

#[test]
fn new_leaves_what_is_there() {
    let folder = with_k2("site-there");
    folder.accepted(&["add", "x.site", "k.csv"]);
    let before = folder.read("x.site");
    folder.bad(&["new", "x.site", "--n", "8", "--r", "1000", "--f", "50"], "there is such a file already");
    assert_eq!(folder.read("x.site"), before);
    folder.bad(&["new", "no/such/folder.site", "--n", "8", "--r", "1000", "--f", "50"], "no/such/folder.site: ");
    folder.bad(&["add", "none.site", "k.csv"], "none.site: ");
    assert!(!folder.path("none.site").exists());
}

/// All recordings of an `add`, or none: a second try after a refusal counts nothing twice.
#[test]
fn a_refused_recording_holds_back_the_others() {
    let folder = with_k2("site-all-or-none");
    folder.write("bad.csv", csv(&k2()[..27]));
    let before = folder.read("x.site");
    folder.refused(&["add", "x.site", "k.csv", "bad.csv"], 4, 0);
    assert_eq!(folder.read("x.site"), before);
    folder.bad(&["add", "x.site", "k.csv", "none.csv"], "none.csv: ");
    assert_eq!(folder.read("x.site"), before);
}

/// Adds that are killed at all moments of their run: the table is the old or the new one each time.
#[test]
fn kills_leave_the_old_or_the_new_table() {
    const ROUNDS: u32 = 120;
    let folder = with_k2("site-killed");
    let began = Instant::now();
    folder.accepted(&["add", "x.site", "k.csv"]);
    let full = began.elapsed();
    let (mut total, mut killed, mut ended) = (5, 0, 0);
    for round in 0..ROUNDS {
        let mut command = folder.command(&["add", "x.site", "k.csv"]);
        let mut child = command.stdin(Stdio::null()).stdout(Stdio::null()).stderr(Stdio::null()).spawn().unwrap();
        thread::sleep(full * round * 3 / 2 / ROUNDS);
        let _ = child.kill();
        match child.wait().unwrap().code() {
            Some(code) => {
                assert_eq!(code, 0);
                ended += 1;
            }
            None => killed += 1,
        }
        let now = folder.counted("x.site", "total");
        assert!(now == total || now == total + 5, "round {round}: from {total} to {now}");
        assert_eq!(now, 5 * folder.counted("x.site", "cell-17"), "round {round}");
        total = now;
    }
    assert!(killed > 0, "no run was killed, {ended} ended");
    folder.accepted(&["add", "x.site", "k.csv"]);
    assert_eq!(folder.counted("x.site", "total"), total + 5, "no lock outlives its process");
}

#[test]
fn adds_at_once_lose_nothing() {
    let folder = with_k2("site-at-once");
    thread::scope(|scope| {
        for _ in 0..6 {
            scope.spawn(|| (0..5).for_each(|_| drop(folder.accepted(&["add", "x.site", "k.csv"]))));
        }
    });
    for (name, count) in [("total", 150), ("healthy", 60), ("disturbed", 90), ("sags", 30), ("cell-17", 30)] {
        assert_eq!(folder.counted("x.site", name), count, "{name}");
    }
}

#[test]
fn an_add_waits_for_another_and_says_so_when_it_gives_up() {
    let folder = with_k2("site-lock");
    let lock = File::open(folder.path("x.site")).unwrap();
    lock.lock().unwrap();
    folder.bad(&["add", "x.site", "k.csv", "--wait", "0"], "x.site: another burrcradle is writing to this site");
    assert_eq!(folder.counted("x.site", "total"), 0, "reading needs no lock");
    thread::scope(|scope| {
        let waiting = scope.spawn(|| folder.accepted(&["add", "x.site", "k.csv", "--wait", "60"]));
        thread::sleep(Duration::from_millis(300));
        assert!(!waiting.is_finished(), "it waits");
        lock.unlock().unwrap();
        waiting.join().unwrap();
    });
    assert_eq!(folder.counted("x.site", "total"), 5);
}

#[cfg(unix)]
#[test]
fn a_link_to_a_site_is_that_site() {
    let folder = with_k2("site-link");
    std::os::unix::fs::symlink("x.site", folder.path("link.site")).unwrap();
    folder.accepted(&["add", "link.site", "k.csv"]);
    assert_eq!(folder.counted("x.site", "total"), 5);
    assert!(fs::symlink_metadata(folder.path("link.site")).unwrap().is_symlink());
}
