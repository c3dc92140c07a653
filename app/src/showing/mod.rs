//! Answers as they are shown: text and sentences for people, JSON and CSV for programs, a page for the browser. Nothing
//! below knows of it.
pub mod check;
pub mod complaint;
pub mod csv;
pub mod explain;
pub mod json;
pub mod page;
pub mod paint;
pub mod text;
pub mod trace;
pub mod words;
