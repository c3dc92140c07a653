//! How recordings are read: what a field may be, and what is never taken for voltage.
mod common;
use common::{blocks, csv, k2, raw, Folder, KNOWN, MISSING};

fn list<'a>(file: &'a str, more: &[&'a str]) -> Vec<&'a str> {
    [&["list", file][..], &KNOWN, more].concat()
}

/// The half-cycles of a recording: total, healthy, disturbed, unknown.
fn halves(folder: &Folder, file: &str) -> String {
    let told = folder.accepted(&list(file, &["--json"]));
    let (_, rest) = told.split_once("\"half_cycles\":{").unwrap();
    rest.split_once('}').unwrap().0.to_string()
}

#[test]
fn ways_to_write_the_same_csv() {
    let folder = Folder::new("csv-ways");
    let plain = csv(&k2());
    let bare = plain.strip_prefix("a,b,c\n").unwrap();
    let ways = [
        ("bare", bare.to_string()),
        ("windows", plain.replace('\n', "\r\n")),
        ("marked", format!("\u{feff}{plain}")),
        ("marked and bare", format!("\u{feff}{bare}")),
        ("spaced", plain.replace(',', " , ")),
        ("quoted", plain.replace("a,b,c", "\"Ua\",\"Ub\",\"Uc\"")),
        ("blank lines at the end", format!("{plain}\n\r\n  \n")),
        ("no last line end", plain.trim_end().to_string()),
        ("signs", plain.replace("1000", "+1000")),
    ];
    folder.write("k.csv", &plain);
    let wanted = folder.events("k.csv", &[]);
    assert_eq!(wanted.len(), 1);
    for (way, text) in ways {
        folder.write("k.csv", text);
        assert_eq!(folder.events("k.csv", &[]), wanted, "{way}");
    }
}

/// The old tool's error: an empty field must never pass for good voltage.
#[test]
fn a_missing_sample_is_unknown_and_never_healthy() {
    let folder = Folder::new("csv-missing");
    let mut samples = blocks(&[1000; 6]);
    samples[3 * 12 + 5] = MISSING;
    let text = csv(&samples);
    let wanted = "\"total\":5,\"healthy\":3,\"disturbed\":0,\"unknown\":2";
    for (way, word) in
        [("empty", ""), ("space", "  "), ("word", "missing"), ("loud", "MISSING"), ("number", "-2147483648")]
    {
        folder.write("k.csv", text.replace("1000,1000,\n", &format!("1000,1000,{word}\n")));
        assert_eq!(halves(&folder, "k.csv"), wanted, "{way}");
    }
    let first = csv(&blocks(&[1000; 6])).replacen("a,b,c\n1000,1000,1000", "missing,missing,missing", 1);
    folder.write("k.csv", first);
    assert_eq!(halves(&folder, "k.csv"), "\"total\":5,\"healthy\":4,\"disturbed\":0,\"unknown\":1", "no header");
    folder.write("k.i32", raw(&samples));
    assert_eq!(halves(&folder, "k.i32"), wanted, "raw");
}

#[test]
fn a_bad_field_is_told_with_its_place() {
    let folder = Folder::new("csv-bad");
    let plain = csv(&k2());
    let line = |at: usize, with: &str| {
        let mut lines: Vec<&str> = plain.lines().collect();
        lines[at - 1] = with;
        lines.join("\n") + "\n"
    };
    let cases = [
        (line(3, "1000,x12,1000"), "k.csv: line 3, column 2: \"x12\" is no whole number"),
        (line(3, "1000,1000.5,1000"), "line 3, column 2: \"1000.5\" is no whole number"),
        (line(4, "1e3,1000,1000"), "line 4, column 1: \"1e3\" is no whole number"),
        (line(4, "1000,1000,nan"), "line 4, column 3: \"nan\" is no whole number"),
        (line(4, "1000,1000,-"), "line 4, column 3: \"-\" is no whole number"),
        (line(4, "1000,1000,3000000000"), "line 4, column 3: 3000000000 does not fit"),
        (line(5, "1000,1000"), "line 5: 2 fields"),
        (line(5, "1000,1000,1000,1000"), "line 5: 4 fields"),
        (line(5, "1000;1000;1000"), "line 5, column 1"),
        (line(6, ""), "line 6 is blank"),
        (line(1, "1000.5,1000.5,1000.5"), "line 1, column 1: \"1000.5\" is no whole number"),
        (line(1, "nan,nan,nan"), "line 1, column 1: \"nan\" is no whole number"),
        (line(1, "a,b,1000"), "line 1, column 1: \"a\" is no whole number"),
        (line(2, "a,b,c"), "line 2, column 1: \"a\" is no whole number"),
    ];
    for (text, words) in cases {
        folder.write("k.csv", text);
        folder.bad(&list("k.csv", &[]), words);
    }
}

#[test]
fn a_raw_file_is_whole_samples() {
    let folder = Folder::new("raw-bad");
    let bytes = raw(&k2());
    folder.write("k.i32", &bytes[..bytes.len() - 1]);
    folder.bad(&list("k.i32", &[]), "k.i32: 287 bytes are no whole number of 32-bit samples");
    folder.write("K.I32", &bytes);
    assert_eq!(folder.events("K.I32", &[]).len(), 1);
    folder.write("k.bin", &bytes);
    assert_eq!(folder.events("k.bin", &["--raw"]).len(), 1);
    folder.bad(&list("nowhere.csv", &[]), "nowhere.csv: ");
}
