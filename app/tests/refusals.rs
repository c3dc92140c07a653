//! Each refusal, 1 to 9, reached from the command line: its number, its place, its words, status 1, and nothing written.
mod common;
use common::{blocks, csv, k2, raw, Folder, KNOWN};
use std::fs;

fn list<'a>(file: &'a str, more: &[&'a str]) -> Vec<&'a str> {
    [&["list", file][..], &KNOWN, more].concat()
}

#[test]
fn refusal_1_names_the_first_setting_outside_its_range() {
    let folder = Folder::new("refusal-1");
    let good = ["8", "1000", "50", "90", "10", "110", "2"];
    let options = ["--n", "--r", "--f", "--sag", "--interruption", "--swell", "--hysteresis"];
    let bad = ["9", "999", "55", "96", "0", "151", "6"];
    for at in 0..7 {
        let mut args = vec!["new", "x.site"];
        for (i, option) in options.iter().enumerate() {
            // From this setting on all are bad: the first one is told.
            args.extend([*option, if i < at { good[i] } else { bad[i] }]);
        }
        let ran = folder.refused(&args, 1, at as u64 + 1);
        assert!(ran.err.contains("a setting is outside its range"), "{ran:?}");
        assert!(
            ran.err.contains(&format!("({},", options[at])) || ran.err.contains(&format!("({})", options[at])),
            "{ran:?}"
        );
    }
    assert_eq!(fs::read_dir(&folder.0).unwrap().count(), 0, "a refused site leaves no file");
    folder.write("k.csv", csv(&k2()));
    folder.refused(&["list", "k.csv", "--n", "8", "--r", "1000", "--f", "50", "--sag", "49"], 1, 4);
}

#[test]
fn refusal_2_a_length_that_is_no_multiple_of_3() {
    let folder = Folder::new("refusal-2");
    folder.write("k.i32", raw(&k2()[1..]));
    let ran = folder.refused(&list("k.i32", &[]), 2, 0);
    assert!(ran.err.contains("k.i32: refusal 2, place 0: the length is not a multiple of 3"), "{ran:?}");
}

#[test]
fn refusal_3_too_few_samples() {
    let folder = Folder::new("refusal-3");
    folder.write("none.csv", "");
    folder.write("head.csv", "a,b,c\n");
    folder.write("none.i32", "");
    folder.write("few.i32", raw(&k2()[..21]));
    for file in ["none.csv", "head.csv", "none.i32", "few.i32"] {
        let ran = folder.refused(&list(file, &[]), 3, 0);
        assert!(ran.err.contains("fewer than N samples per channel"), "{ran:?}");
    }
}

#[test]
fn refusal_4_no_multiple_of_half_a_cycle() {
    let folder = Folder::new("refusal-4");
    folder.write("k.csv", csv(&k2()[..27]));
    let ran = folder.refused(&list("k.csv", &[]), 4, 0);
    assert!(ran.err.contains("not a multiple of N/2"), "{ran:?}");
}

#[test]
fn refusal_5_too_long_and_not_cut() {
    let folder = Folder::new("refusal-5");
    folder.write("most.i32", raw(&blocks(&vec![1000; 100_001])));
    folder.write("long.i32", raw(&blocks(&vec![1000; 100_002])));
    assert_eq!(folder.events("most.i32", &[]), []);
    let ran = folder.refused(&list("long.i32", &[]), 5, 0);
    assert!(ran.err.contains("above 100,000") && ran.err.contains("--cut"), "{ran:?}");
    folder.site("x.site");
    folder.refused(&["add", "x.site", "long.i32"], 5, 0);
    assert_eq!(folder.counted("x.site", "total"), 0);
}

#[test]
fn refusal_6_a_sample_out_of_range() {
    let folder = Folder::new("refusal-6");
    for (value, at) in [(100_001, 0), (-100_001, 71), (i32::MIN + 1, 40), (i32::MAX, 40)] {
        let mut samples = k2();
        samples[at] = value;
        folder.write("k.csv", csv(&samples));
        folder.write("k.i32", raw(&samples));
        let ran = folder.refused(&list("k.csv", &[]), 6, at as u64);
        let spot = format!("line {}, channel {}, {value}", at / 3 + 2, ["a", "b", "c"][at % 3]);
        assert!(ran.err.contains("a sample is out of range") && ran.err.contains(&spot), "{ran:?}");
        folder.refused(&list("k.i32", &[]), 6, at as u64);
    }
    folder.write("k.csv", csv(&blocks(&[100_000, -100_000])));
    assert_eq!(folder.events("k.csv", &[]).len(), 1, "the largest samples are taken");
}

/// `list` makes the room that the library asks for, so that only `--room` can be too little.
#[test]
fn refusal_7_too_little_room() {
    let folder = Folder::new("refusal-7");
    folder.write("k.csv", csv(&k2()));
    for room in ["7", "8", "10"] {
        let ran = folder.refused(&list("k.csv", &["--room", room]), 7, 1);
        assert!(ran.err.contains("the room is below 11 x the number of events, which is 1"), "{ran:?}");
    }
    assert_eq!(folder.events("k.csv", &["--room", "11"]).len(), 1);
    folder.write("k6.csv", csv(&blocks(&[1000, 1000, 0, 0, 1000, 1000])));
    folder.refused(&list("k6.csv", &["--room", "21"]), 7, 2);
    assert_eq!(folder.events("k6.csv", &["--room", "22"]).len(), 2);
}

#[test]
fn refusal_8_a_table_that_is_full() {
    let folder = Folder::new("refusal-8");
    folder.site("x.site");
    folder.write("k.csv", csv(&k2()));
    let full = folder.read("x.site").replace("total 0", "total 3999996").replace("healthy 0", "healthy 3999996");
    folder.write("x.site", &full);
    let ran = folder.refused(&["add", "x.site", "k.csv"], 8, 4);
    assert!(ran.err.contains("total + H is above 4,000,000"), "{ran:?}");
    assert_eq!(folder.read("x.site"), full);
    folder.write("x.site", full.replace("3999996", "3999995"));
    folder.accepted(&["add", "x.site", "k.csv"]);
    assert_eq!(folder.counted("x.site", "total"), 4_000_000);
    folder.refused(&["add", "x.site", "k.csv"], 8, 0);
}

#[test]
fn refusal_9_comes_before_all_others() {
    let folder = Folder::new("refusal-9");
    folder.site("x.site");
    folder.write("none.csv", "");
    folder.write("k.csv", csv(&k2()));
    let edited = folder.read("x.site").replace("healthy 0", "healthy 1");
    folder.write("x.site", &edited);
    let commands: [&[&str]; 5] = [
        &["show", "x.site"],
        &["add", "x.site", "k.csv"],
        &["add", "x.site", "none.csv"],
        &["list", "k.csv", "--site", "x.site"],
        &["report", "x.site", "k.csv", "-o", "x.html"],
    ];
    for args in commands {
        let ran = folder.refused(args, 9, 0);
        assert!(ran.err.contains("x.site: refusal 9, place 0: the table offered is unsound"), "{ran:?}");
    }
    assert_eq!(folder.read("x.site"), edited);
    assert!(!folder.path("x.html").exists());
}

/// What makes a table unsound, each in a table that is sound otherwise.
#[test]
fn refusal_9_finds_each_kind_of_damage() {
    let folder = Folder::new("refusal-9-kinds");
    folder.site("x.site");
    folder.write("k.csv", csv(&blocks(&[1000, 1000, 0, 0, 1000, 1000])));
    folder.accepted(&["add", "x.site", "k.csv"]);
    let good = folder.read("x.site");
    let damage = [
        ("hysteresis 2", "hysteresis 6"),
        ("borders 0", "borders 2"),
        ("borders 0", "borders 18446744073709551615"),
        ("unknown 0", "unknown 1"),
        ("cell-1 1", "cell-1 2"),
        ("unplaced 0", "unplaced 1"),
        ("swells 0", "swells 6"),
        ("interruptions 1", "interruptions 6"),
        ("shortfall 48000000", "shortfall 48000001"),
        ("shortfall-a 16000000", "shortfall-a 16000001"),
        ("shortfall-b 16000000", "shortfall-b 15999999"),
        ("shortfall-c 16000000", "shortfall-c 0"),
    ];
    for (was, is) in damage {
        assert!(good.contains(&format!("\n{was}\n")), "{was}");
        folder.write("x.site", good.replace(&format!("\n{was}\n"), &format!("\n{is}\n")));
        folder.refused(&["show", "x.site"], 9, 0);
    }
    let long = good.replace("total 5", "total 4000001").replace("healthy 2", "healthy 3999998");
    folder.write("x.site", &long);
    folder.refused(&["show", "x.site"], 9, 0);
    // At the border itself each is sound.
    folder.write("x.site", long.replace("4000001", "4000000").replace("3999998", "3999997"));
    folder.accepted(&["show", "x.site"]);
    // The parts add up, and the whole is at most 3 x 8 x 1000 x 1000 x 5.
    let parts = |whole: &str, [a, b, c]: [&str; 3]| {
        let numbers = format!("shortfall {whole}\nshortfall-a {a}\nshortfall-b {b}\nshortfall-c {c}\n");
        format!("{}\n{numbers}", good.split_once("\nshortfall ").unwrap().0)
    };
    folder.write("x.site", parts("120000000", ["40000000", "40000000", "40000000"]));
    folder.accepted(&["show", "x.site"]);
    folder.write("x.site", parts("120000001", ["40000000", "40000000", "40000001"]));
    folder.refused(&["show", "x.site"], 9, 0);
    // One channel may have lost it all. A sum that wraps at 64 bits does not add up.
    folder.write("x.site", parts("48000000", ["0", "0", "48000000"]));
    folder.accepted(&["show", "x.site"]);
    folder.write("x.site", parts("48000000", ["18446744073709551615", "48000001", "0"]));
    folder.refused(&["show", "x.site"], 9, 0);
}

/// A set that there is not, and a sag in a cell that the set has not: told by every command, and left. That the counts add up does
/// not help.
#[test]
fn refusal_9_for_borders_that_do_not_fit() {
    let folder = Folder::new("refusal-9-borders");
    folder.accepted(&[&["new", "x.site", "--borders", "4-11"][..], &KNOWN].concat());
    folder.write("k.csv", csv(&k2()));
    folder.accepted(&["add", "x.site", "k.csv"]);
    let good = folder.read("x.site");
    assert!(good.contains("\nborders 1\n") && good.contains("\ncell-11 1\n"), "{good}");
    let moved = |cell: &str| {
        good.replace("\ncell-11 1\n", "\ncell-11 0\n").replace(&format!("\n{cell} 0\n"), &format!("\n{cell} 1\n"))
    };
    for text in [good.replace("\nborders 1\n", "\nborders 2\n"), moved("cell-25"), moved("cell-39")] {
        folder.write("x.site", &text);
        every_command_tells_it(&folder);
        assert_eq!(folder.read("x.site"), text);
    }
    // The last cell of the set is one, and by the other set the same cells are.
    for text in [moved("cell-24"), moved("cell-39").replace("\nborders 1\n", "\nborders 0\n")] {
        folder.write("x.site", &text);
        folder.accepted(&["show", "x.site"]);
    }
}

/// Every command that reads the site x.site, with a recording where it takes one, tells refusal 9, and writes no page.
fn every_command_tells_it(folder: &Folder) {
    let commands: [&[&str]; 7] = [
        &["show", "x.site"],
        &["add", "x.site", "k.csv"],
        &["list", "k.csv", "--site", "x.site"],
        &["explain", "k.csv", "--site", "x.site"],
        &["trace", "k.csv", "--site", "x.site"],
        &["check", "k.csv", "--site", "x.site"],
        &["report", "x.site", "k.csv", "-o", "x.html"],
    ];
    for args in commands {
        let ran = folder.refused(args, 9, 0);
        let words = "x.site: refusal 9, place 0: the table offered is unsound (the file is damaged or was edited, and is left as it is)";
        assert!(ran.err.contains(words), "{ran:?}");
    }
    assert!(!folder.path("x.html").exists());
}

/// Parts that don't add up are told as any other damage, by every command, and left.
#[test]
fn refusal_9_for_parts_that_do_not_add_up() {
    let folder = Folder::new("refusal-9-parts");
    folder.site("x.site");
    folder.write("k.csv", csv(&k2()));
    folder.accepted(&["add", "x.site", "k.csv"]);
    let edited = folder.read("x.site").replace("shortfall-a 12000000", "shortfall-a 12000001");
    folder.write("x.site", &edited);
    every_command_tells_it(&folder);
    assert_eq!(folder.read("x.site"), edited);
}

#[test]
fn where_several_apply_the_first_is_given() {
    let folder = Folder::new("refusal-order");
    let mut samples = k2();
    samples[5] = 100_001;
    samples.pop();
    folder.write("k.i32", raw(&samples));
    folder.refused(&["list", "k.i32", "--n", "8", "--r", "1", "--f", "50"], 1, 2);
    folder.refused(&list("k.i32", &["--room", "0"]), 2, 0);
    folder.write("k.i32", raw(&samples[..69]));
    folder.refused(&list("k.i32", &["--room", "0"]), 4, 0);
    folder.write("k.i32", raw(&samples[..60]));
    folder.refused(&list("k.i32", &["--room", "0"]), 6, 5);
}

#[test]
fn a_refusal_is_json_for_programs() {
    let folder = Folder::new("refusal-json");
    folder.write("k.csv", csv(&k2()));
    let ran = folder.refused(&list("k.csv", &["--json", "--room", "0"]), 7, 1);
    let wanted = "{\"refused\":{\"what\":\"k.csv\",\"number\":7,\"place\":1,\
                  \"sentence\":\"the room is below 11 x the number of events, which is 1\"}}\n";
    assert_eq!(ran.out, wanted);
    assert_eq!(folder.refused(&list("k.csv", &["--csv", "--room", "0"]), 7, 1).out, "");
}
