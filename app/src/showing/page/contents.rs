//! What a page is made of.
use crate::answered::Answer;
use host::Table;

pub struct Contents<'a> {
    /// The site, or what else the table is of.
    pub name: &'a str,
    pub table: &'a Table,
    /// Whether the table is known to hold the recordings and nothing else.
    pub holds: bool,
    pub recordings: &'a [Shown],
    /// The severity curve: the first duration of each step, in half-cycles, and its value.
    pub curve: &'a [(u64, u64)],
    /// When the page was made.
    pub made: String,
}

/// A recording on the page; its samples are no longer needed.
pub struct Shown {
    pub answer: Answer,
    /// The length of its file in bytes, and the file's SHA-256.
    pub fingerprint: Option<(u64, String)>,
    /// What there is to say about it besides the answers; may be empty.
    pub note: String,
}
