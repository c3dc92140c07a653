//! What can go wrong. The words and the exit status that it is told with are above, in `showing` and `terminal`.
use host::Refused;
use std::fmt::Display;

/// A command's end without an answer.
pub enum Failure {
    /// The command line makes no sense.
    Usage(String),
    /// A file can't be read, written or understood.
    File(String),
    /// The library turned something away.
    Refused(Refusal),
}

/// A refusal of the library, and what was turned away.
pub struct Refusal {
    /// The file, with its part where it was cut.
    pub what: String,
    pub refused: Refused,
    /// What the place means in that file, or what to do about it; may be empty.
    pub more: String,
}

impl Failure {
    /// A file, and why it can't be read, written or understood.
    pub fn file(name: impl Display, why: impl Display) -> Failure {
        Failure::File(format!("{name}: {why}"))
    }
}
