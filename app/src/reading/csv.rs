//! CSV: three columns a, b, c to a line. What is no whole number is told with its place, and never taken for voltage.
use super::recording::{Recording, MISSING};
use crate::failure::Failure;
use std::io::{BufRead, BufReader, Read};

/// Words that stand for a hole in other tools' files. On the first line they are a bad field, and never a header.
const HOLES: [&str; 7] = ["missing", "nan", "na", "n/a", "null", "none", "inf"];

pub fn samples(name: &str, input: impl Read) -> Result<Recording, Failure> {
    let mut input = BufReader::new(input);
    let mut made = Recording { name: name.to_string(), samples: Vec::new(), first_line: Some(1), fingerprint: None };
    let (mut line, mut number, mut blank) = (Vec::new(), 0, None);
    loop {
        line.clear();
        if input.read_until(b'\n', &mut line).map_err(|e| Failure::file(name, e))? == 0 {
            return Ok(made);
        }
        number += 1;
        let text = String::from_utf8_lossy(&line);
        let text = text.strip_prefix('\u{feff}').unwrap_or(&text).trim_end_matches(['\n', '\r']);
        if text.trim().is_empty() {
            blank.get_or_insert(number);
            continue;
        }
        // A blank line inside is a hole of unknown length; only at the end does it say nothing.
        if let Some(at) = blank {
            return Err(Failure::file(name, format!("line {at} is blank, and samples follow it")));
        }
        if number == 1 && is_header(text) {
            made.first_line = Some(2);
        } else {
            take(text, &mut made.samples).map_err(|why| Failure::file(name, format!("line {number}{why}")))?;
        }
    }
}

/// Takes the three samples of a line.
fn take(text: &str, samples: &mut Vec<i32>) -> Result<(), String> {
    let before = samples.len();
    for (column, field) in text.split(',').enumerate() {
        samples.push(sample(bare(field)).map_err(|why| format!(", column {}: {why}", column + 1))?);
    }
    match samples.len() - before {
        3 => Ok(()),
        found => Err(format!(": {found} fields, where three are wanted: a, b and c, parted by commas")),
    }
}

fn sample(field: &str) -> Result<i32, String> {
    if field.is_empty() || field.eq_ignore_ascii_case("missing") {
        return Ok(MISSING);
    }
    let digits = field.strip_prefix(['-', '+']).unwrap_or(field);
    if digits.is_empty() || !digits.bytes().all(|b| b.is_ascii_digit()) {
        return Err(format!("{field:?} is no whole number"));
    }
    field.parse().map_err(|_| format!("{field} does not fit a 32-bit sample"))
}

/// A field without the spaces and the quotes around it.
fn bare(field: &str) -> &str {
    let field = field.trim();
    field.strip_prefix('"').and_then(|f| f.strip_suffix('"')).unwrap_or(field).trim()
}

/// A header names three columns: each begins with a letter and is no other tool's word for a hole.
fn is_header(text: &str) -> bool {
    let names: Vec<String> = text.split(',').map(|field| bare(field).to_lowercase()).collect();
    let name = |n: &String| n.starts_with(char::is_alphabetic) && !HOLES.contains(&n.as_str());
    names.len() == 3 && names.iter().all(name)
}
