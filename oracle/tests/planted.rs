//! The planted wrong programs and definitions are what the texts say: each must-fail edit is named, each name has its edit, and the
//! list that the gate does not try still fits the definitions.
use std::collections::{BTreeMap, BTreeSet};
use std::fs;
use std::path::{Path, PathBuf};

fn root() -> PathBuf {
    Path::new(env!("CARGO_MANIFEST_DIR")).parent().unwrap().to_path_buf()
}

fn read(file: &str) -> String {
    fs::read_to_string(root().join(file)).unwrap_or_else(|error| panic!("{file}: {error}"))
}

/// The must-fail edits, as crate and label.
fn edits() -> BTreeSet<(String, String)> {
    let mut edits = BTreeSet::new();
    for folder in fs::read_dir(root().join("crates")).unwrap() {
        let folder = folder.unwrap();
        let Ok(files) = fs::read_dir(folder.path().join("must-fail")) else { continue };
        for file in files {
            let label = file.unwrap().path().file_stem().unwrap().to_str().unwrap().to_string();
            edits.insert((folder.file_name().into_string().unwrap(), label));
        }
    }
    edits
}

/// The wrong definitions that the gate does not try: a label, and the text of the edit.
fn faults() -> Vec<(String, String)> {
    let list = read("docs/planted/faults.txt");
    let blocks = list.split("\n\n").map(|block| block.trim_matches('\n'));
    let blocks = blocks.map(|block| block.lines().skip_while(|line| line.starts_with('#')).collect::<Vec<&str>>());
    blocks.filter(|lines| !lines.is_empty()).map(|lines| (lines[0].to_string(), lines[1..].join("\n"))).collect()
}

/// Whether a label stands in a text as a name.
fn names(text: &str, label: &str) -> bool {
    text.contains(&format!("`{label}`"))
}

#[test]
fn every_edit_is_named() {
    let (statements, planted) = (read("docs/STATEMENTS.md"), read("docs/PLANTED.md"));
    for (crate_name, label) in edits() {
        let starred = planted.contains(&format!("| `{label}` * |"));
        let named = if crate_name == "rules" { starred } else { names(&statements, &label) };
        assert!(named, "no text names {crate_name}/{label}");
    }
}

#[test]
fn every_planted_definition_is_told_and_there() {
    let planted = read("docs/PLANTED.md");
    let of_rules: BTreeSet<String> =
        edits().into_iter().filter(|(name, _)| name == "rules").map(|edit| edit.1).collect();
    let listed: Vec<String> = faults().into_iter().map(|fault| fault.0).collect();
    let mut labels = of_rules.clone();
    for label in &listed {
        assert!(labels.insert(label.clone()), "{label} is there twice");
        assert!(names(&planted, label), "PLANTED.md does not name {label}");
    }
    // A row's second cell is a label; of an equal one it is the third.
    for row in planted.lines().filter(|line| line.starts_with("| ")) {
        let label = row.split('|').map(str::trim).find_map(|cell| cell.strip_prefix('`')?.split('`').next());
        let label = label.filter(|label| label.contains('_'));
        assert!(label.is_none_or(|label| labels.contains(label)), "there is no {label:?}");
    }
}

/// Each text to be turned stands in its file exactly once, so that the list can still be tried.
#[test]
fn every_planted_definition_still_fits() {
    for (label, edit) in faults() {
        let mut files: BTreeMap<String, String> = BTreeMap::new();
        let (mut file, mut old) = (String::new(), "");
        let mut pairs = 0;
        for line in edit.lines() {
            if let Some(name) = line.strip_prefix("file: ") {
                file = format!("crates/rules/{name}");
            } else if let Some(text) = line.strip_prefix("old: ") {
                old = text;
            } else if let Some(new) = line.strip_prefix("new:") {
                let text = files.entry(file.clone()).or_insert_with(|| read(&file));
                assert_eq!(text.matches(old).count(), 1, "{label}: in {file}: {old}");
                *text = text.replacen(old, new.strip_prefix(' ').unwrap_or(new), 1);
                pairs += 1;
            }
        }
        assert!(pairs > 0, "{label} turns nothing");
    }
}
