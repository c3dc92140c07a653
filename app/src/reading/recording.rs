//! A recording, wherever it came from.

/// The one value that means "missing".
pub const MISSING: i32 = i32::MIN;

/// A recording's samples, three channels interleaved.
pub struct Recording {
    pub name: String,
    pub samples: Vec<i32>,
    /// The line that holds the first three samples; none in a raw file.
    pub first_line: Option<usize>,
    /// The file's length in bytes and its SHA-256, where they were asked for.
    pub fingerprint: Option<(u64, String)>,
}

impl Recording {
    /// Where the file has the sample of that index.
    pub fn spot(&self, index: usize) -> String {
        let channel = ["a", "b", "c"][index % 3];
        let value = self.samples.get(index).map_or(String::new(), |v| format!(", {v}"));
        match self.first_line {
            Some(first) => format!("line {}, channel {channel}{value}", first + index / 3),
            None => format!("byte {}, channel {channel}{value}", index * 4),
        }
    }
}
