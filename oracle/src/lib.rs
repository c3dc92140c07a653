//! The second program: the rules, written from the document alone and as plainly as it reads. It takes what the proved
//! library takes and answers what that answers, so that the two can be compared number for number.
//!
//! Nothing here is clever: each window is summed anew, "in a sag at k" tries every j, the events are the longest runs of
//! such half-cycles, sorted. `plain` is the same in linear time, as one would ordinarily write it, and `swift` is written
//! for speed: two yardsticks. `compare` hunts for differences from the proved library.
pub mod borders;
pub mod cases;
pub mod compare;
pub mod kinds;
pub mod list;
pub mod plain;
pub mod random;
pub mod recording;
pub mod score;
pub mod settings;
pub mod site;
pub mod straight;
pub mod swift;
pub mod told;

pub use host::{Event, Refused, Score, Settings, Table, HALF, TABLE, WORDS};
pub use list::list;
pub use score::{cell, reason, score};
pub use site::fresh;
pub use straight::straight;
pub use tally::add;
pub use told::halves;

mod tally;
