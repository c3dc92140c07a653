//! The house of the program: data goes one way. No file of `src` uses one that uses it, however far round, and a module uses
//! only those that stand before it.
use std::{
    collections::{BTreeMap, BTreeSet},
    fs,
    path::Path,
};

/// The modules from the ground up.
const ORDER: [&str; 9] =
    ["failure", "answered", "reading", "keeping", "asking", "showing", "terminal", "commands", "main"];

/// Each file by its module's path, with its text: `asking/cut.rs` is `asking::cut`, `asking/mod.rs` is `asking`.
fn files(folder: &Path, module: &str, found: &mut BTreeMap<String, String>) {
    for entry in fs::read_dir(folder).unwrap().map(Result::unwrap) {
        let (path, name) = (entry.path(), entry.file_name().into_string().unwrap());
        let inner = |name: &str| if module.is_empty() { name.to_string() } else { format!("{module}::{name}") };
        if path.is_dir() {
            files(&path, &inner(&name), found);
        } else if let Some(stem) = name.strip_suffix(".rs") {
            let own = if stem == "mod" { module.to_string() } else { inner(stem) };
            found.insert(own, fs::read_to_string(path).unwrap());
        }
    }
}

/// The paths that a file names after `crate`, `super` or `self`, and after its own inner modules, with braces spread out.
fn named(own: &str, text: &str, is_mod: bool) -> Vec<String> {
    // A file's own tests stand at its end and use it.
    let text = text.split("#[cfg(test)]").next().unwrap();
    let code: String = text.lines().filter(|line| !line.trim_start().starts_with("//")).collect::<Vec<_>>().join("\n");
    let parent = own.rsplit_once("::").map_or("", |(parent, _)| parent);
    let inner: Vec<&str> =
        code.lines().filter_map(|l| l.trim_start_matches("pub ").strip_prefix("mod ")?.strip_suffix(';')).collect();
    let mut roots = vec![("crate::".to_string(), String::new()), ("super::".to_string(), format!("{parent}::"))];
    if is_mod || own == "main" {
        let prefix = if own == "main" { String::new() } else { format!("{own}::") };
        roots.extend(inner.iter().map(|name| (format!("{name}::"), format!("{prefix}{name}::"))));
    }
    let mut paths = Vec::new();
    for (root, stands_for) in &roots {
        for (at, _) in code.match_indices(root.as_str()) {
            let before = code[..at].chars().next_back();
            if before.is_some_and(|c| c.is_alphanumeric() || c == '_' || c == ':') {
                continue;
            }
            spread(stands_for.trim_start_matches("::"), &code[at + root.len()..], &mut paths);
        }
    }
    paths
}

/// Spreads `a::{b, c::{d, e}}` into the paths a::b, a::c::d and a::c::e.
fn spread(prefix: &str, rest: &str, paths: &mut Vec<String>) -> usize {
    let end = rest.find(|c: char| !(c.is_alphanumeric() || c == '_' || c == ':')).unwrap_or(rest.len());
    let path = format!("{prefix}{}", &rest[..end]);
    if !rest[end..].starts_with('{') || !(path.is_empty() || path.ends_with("::")) {
        paths.push(path);
        return end;
    }
    let mut at = end + 1;
    loop {
        at += rest[at..].find(|c: char| !c.is_whitespace() && c != ',').unwrap();
        if rest[at..].starts_with('}') {
            return at + 1;
        }
        at += spread(&path, &rest[at..], paths).max(1);
        if let Some(renamed) = rest[at..].strip_prefix(" as ") {
            at += 4 + renamed.find([',', '}']).unwrap();
        }
    }
}

/// Which files each file uses.
fn uses() -> BTreeMap<String, BTreeSet<String>> {
    let src = Path::new(env!("CARGO_MANIFEST_DIR")).join("src");
    let mut found = BTreeMap::new();
    files(&src, "", &mut found);
    assert!(found.len() > 15 && found.contains_key("main"), "{:?}", found.keys());
    let file_of = |path: &str| {
        let parts: Vec<&str> = path.split("::").collect();
        (1..=parts.len()).rev().map(|n| parts[..n].join("::")).find(|module| found.contains_key(module))
    };
    let uses = found.iter().map(|(own, text)| {
        let is_mod = found.keys().any(|other| other.starts_with(&format!("{own}::")));
        let used =
            named(own, text, is_mod).iter().filter_map(|path| file_of(path)).filter(|used| used != own).collect();
        (own.clone(), used)
    });
    uses.collect()
}

#[test]
fn no_file_uses_one_that_uses_it() {
    let uses = uses();
    for start in uses.keys() {
        let (mut reached, mut open) = (BTreeSet::new(), vec![start]);
        while let Some(file) = open.pop() {
            for used in &uses[file] {
                assert_ne!(used, start, "{start} uses itself by way of {file}");
                if reached.insert(used) {
                    open.push(used);
                }
            }
        }
    }
}

#[test]
fn a_module_uses_only_those_before_it() {
    let place = |file: &str| {
        let module = file.split("::").next().unwrap();
        ORDER.iter().position(|name| *name == module).unwrap_or_else(|| panic!("{file} has no place in the house"))
    };
    for (file, used) in uses() {
        for other in used {
            assert!(place(&other) <= place(&file), "{file} uses {other}, which stands above it");
        }
    }
}

/// The reader of the two tests above sees what it should: a few uses that are there.
#[test]
fn uses_are_seen() {
    let uses = uses();
    for (file, used) in [
        ("asking", "answered"),
        ("asking", "asking::cut"),
        ("asking::cut", "asking::trace"),
        ("reading::csv", "failure"),
        ("commands::report", "showing::page::contents"),
        ("showing::page::sections", "showing::page::table"),
        ("main", "commands"),
    ] {
        assert!(uses[file].contains(used), "{file}: {:?}", uses[file]);
    }
}
