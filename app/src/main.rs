//! `burrcradle`: reads recordings, asks the proved library, and shows its answers as text, JSON, CSV or a page.
//! Every event, score, reason, cell, count and half-cycle comes from the library, through `host`.
//!
//! Data goes one way, and a module uses only those before it:
//! `failure`, `answered` (what is known of a recording), `reading` (recordings), `keeping` (the program's own files), `asking`
//! (the library), `showing` (text, JSON, CSV, page), `terminal`, `commands`. `tests/layout.rs` holds them to it.
mod answered;
mod asking;
mod commands;
mod failure;
mod keeping;
mod reading;
mod showing;
mod terminal;

use failure::Failure;
use showing::complaint;
use std::{ffi::OsString, process::ExitCode};
use terminal::{complain, say, BAD, REFUSED};

fn main() -> ExitCode {
    let given: Vec<OsString> = std::env::args_os().skip(1).collect();
    match commands::run(&given) {
        Ok(said) => {
            said.refused.iter().for_each(|failure| complain(&complaint::sentence(failure)));
            say(&said)
        }
        Err(failure) => told(&failure, given.iter().any(|word| word == "--json")),
    }
}

/// Tells a failure on standard error, a refusal also as JSON on standard output where programs asked for JSON.
fn told(failure: &Failure, as_json: bool) -> ExitCode {
    complain(&complaint::sentence(failure));
    if let Some(json) = complaint::json(failure).filter(|_| as_json) {
        say(&format!("{json}\n").into());
    }
    ExitCode::from(if matches!(failure, Failure::Refused(_)) { REFUSED } else { BAD })
}
