//! Writes `crates/answers/specs/Cases.antt`, the second table of cases with the second program's answers, or the same to a file
//! that is named.
use oracle::cases::{text, FILE, SECOND};

fn main() -> std::io::Result<()> {
    let file = std::env::args().nth(1).unwrap_or(FILE.to_string());
    std::fs::write(file, text(&SECOND))
}
