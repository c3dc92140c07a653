//! The commands: each reads what it was given, asks the library and hands back what is to be said.
mod args;
mod check;
mod demo;
mod events;
mod help;
mod report;
mod table;
mod trace;
mod window;

use crate::{failure::Failure, terminal::Said};
use args::{Args, Takes};
use std::ffi::OsString;

/// A command: its name, what it takes, its help, and what it does.
type Command = (&'static str, Takes, &'static str, fn(&Args) -> Result<Said, Failure>);

const COMMANDS: [Command; 9] = [
    ("demo", demo::TAKES, help::DEMO, demo::run),
    ("new", table::NEW, help::NEW, table::new),
    ("check", check::TAKES, help::CHECK, check::run),
    ("add", table::ADD, help::ADD, table::add),
    ("list", events::LIST, help::LIST, events::list),
    ("show", table::SHOW, help::SHOW, table::show),
    ("report", report::TAKES, help::REPORT, report::run),
    ("explain", events::EXPLAIN, help::EXPLAIN, events::explain),
    ("trace", trace::TAKES, help::TRACE, trace::run),
];

/// Runs what the command line says.
pub fn run(given: &[OsString]) -> Result<Said, Failure> {
    let Some((first, rest)) = given.split_first() else {
        return Err(Failure::Usage("a command is wanting".into()));
    };
    let help_wanted = |word: &OsString| word == "--help" || word == "-h";
    match rest.first() {
        _ if first == "--version" => return Ok(format!("burrcradle {}\n", env!("CARGO_PKG_VERSION")).into()),
        _ if help_wanted(first) => return Ok(help::ALL.to_string().into()),
        None if first == "help" => return Ok(help::ALL.to_string().into()),
        Some(name) if first == "help" => return Ok(command(name)?.2.to_string().into()),
        _ => {}
    }
    let (_, takes, help, run) = command(first)?;
    if rest.iter().take_while(|word| *word != "--").any(help_wanted) {
        return Ok(help.to_string().into());
    }
    run(&Args::parse(rest, takes)?)
}

/// The command of that name.
fn command(name: &OsString) -> Result<&'static Command, Failure> {
    let found = COMMANDS.iter().find(|(command, ..)| name == command);
    found.ok_or_else(|| Failure::Usage(format!("{:?} is no command", name.to_string_lossy())))
}
