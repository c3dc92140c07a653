//! Compares the proved library with the second program: `compare [--seed N] [--cases N] [--minutes M] [--first N]`.
//! The last line tells how many cases and differences, the one before it how many blocks of their recordings met the level
//! drawn for them only nearly. A difference is printed and makes the exit code 1.
use oracle::compare::{run, Until};
use std::process::ExitCode;
use std::time::{Duration, Instant};

const USAGE: &str = "usage: compare [--seed N] [--cases N] [--minutes M] [--first N]";

fn main() -> ExitCode {
    let (seed, first, until) = match arguments() {
        Ok(asked) => asked,
        Err(wrong) => {
            eprintln!("{wrong}\n{USAGE}");
            return ExitCode::from(2);
        }
    };
    let began = Instant::now();
    let report = run(seed, first, until);
    if let Some(difference) = &report.difference {
        println!("{difference}");
    }
    println!("seed {seed}, from case {first}, {:.1} s", began.elapsed().as_secs_f64());
    println!("{report}");
    ExitCode::from(report.differences())
}

fn arguments() -> Result<(u64, u64, Until), String> {
    let (mut seed, mut first, mut until) = (1, 0, Until::Cases(200_000));
    let mut words = std::env::args().skip(1);
    while let Some(word) = words.next() {
        let value = words.next().ok_or(format!("{word} wants a number"))?;
        let number = value.parse::<u64>().map_err(|_| format!("{word} wants a number, not {value}"))?;
        match word.as_str() {
            "--seed" => seed = number,
            "--first" => first = number,
            "--cases" => until = Until::Cases(number),
            "--minutes" => until = Until::Elapsed(Duration::from_secs(60 * number)),
            _ => return Err(format!("no such option: {word}")),
        }
    }
    Ok((seed, first, until))
}
