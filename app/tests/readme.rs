//! README's example, command by command: what it shows is what the program says.
mod common;
use common::Folder;

const README: &str = include_str!("../../README.md");

/// The commands of the example, in their order.
const COMMANDS: [&str; 11] = [
    "new depot.site --n 64 --r 23000 --f 50",
    "check demo-1-slow-recovery.csv --site depot.site",
    "add depot.site demo-1-slow-recovery.csv demo-2-gap.csv",
    "list demo-2-gap.csv --site depot.site",
    "explain demo-1-slow-recovery.csv --site depot.site",
    "trace demo-1-slow-recovery.csv --site depot.site --from 0.17 --to 0.22",
    "show depot.site",
    "new maker.site --n 64 --r 23000 --f 50 --borders 4-11",
    "add maker.site demo-1-slow-recovery.csv demo-2-gap.csv",
    "show maker.site",
    "report depot.site demo-2-gap.csv -o gap.html",
];

/// Whether README shows what the program said, but for what a line of two points stands for.
fn is_shown(told: &str) -> bool {
    README.split("```\n").skip(1).step_by(2).any(|shown| match shown.split_once("\n..\n") {
        Some((first, last)) => told.starts_with(first) && told.ends_with(last),
        None => told == shown,
    })
}

#[test]
fn the_example_is_what_the_program_says() {
    let folder = Folder::new("readme");
    let demo = folder.accepted(&["demo"]);
    assert!(is_shown(&demo), "{demo}");
    folder.accepted(&["demo", "--save"]);
    for command in COMMANDS {
        assert!(README.contains(&format!("burrcradle {command}")), "{command}");
        let told = folder.accepted(&command.split(' ').collect::<Vec<_>>());
        if ["list", "explain", "trace", "show"].iter().any(|shown| command.starts_with(shown)) {
            assert!(is_shown(&told), "{command}: {told}");
        }
    }
}

/// Each command and each exit status is told in README and in the help alike.
#[test]
fn commands_and_statuses_are_told() {
    let help = Folder::new("readme-help").accepted(&["--help"]);
    for command in ["demo", "new", "check", "add", "list", "show", "report", "explain", "trace"] {
        assert!(README.contains(&format!("| `burrcradle {command}")), "{command}");
        assert!(help.contains(&format!("    burrcradle {command} ")), "{command}");
    }
    let exit = README.split_once("**Exit status.**").unwrap().1.split_once("\n\n").unwrap().0.replace('\n', " ");
    for told in [
        " 0: accepted.",
        " 1: refused by the rules;",
        " 2: bad usage,",
        " 3: done, but the answer could not be printed:",
    ] {
        assert!(exit.contains(told), "{told}: {exit}");
    }
}
