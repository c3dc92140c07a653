//! The report: one HTML page with inline SVG, no script, readable in light and dark, on a phone and on A4.
pub mod contents;
mod rms;
mod scatter;
mod sections;
mod svg;
mod table;

pub use rms::COLUMNS;
pub use sections::{page, MARK};
