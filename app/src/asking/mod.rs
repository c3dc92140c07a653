//! Asking the library about a recording. Every event, score, reason, cell and count is its answer, and so is every half-cycle that
//! is told, drawn or explained.
mod close;
pub mod curve;
mod cut;
mod list;
pub mod measure;
mod picture;
mod trace;

use crate::{
    answered::{grid, table, Answer, Close, Found, Part},
    failure::{Failure, Refusal},
    reading::recording::Recording,
};
use close::Look;
use cut::{Cutting, Stretch};
use host::{Event, Refused, Settings, Table};

/// What is wanted of a recording besides its events.
#[derive(Clone, Copy, Default)]
pub struct Wish {
    /// Cut a recording that is too long.
    pub cut: bool,
    /// Room for so many numbers of the event list; without it the library's own answer sizes it.
    pub room: Option<usize>,
    /// Each event looked at closely.
    pub close: bool,
    /// A picture of at most so many columns.
    pub picture: Option<usize>,
    /// Its half-cycles themselves.
    pub halves: bool,
}

/// All about a recording; its cells are those of the set of borders.
pub fn about(s: &Settings, set: u64, recording: &Recording, wish: Wish) -> Result<Answer, Failure> {
    part_by_part(s, recording, wish.cut, |number, stretch| {
        let events = match (&stretch.events, wish.room) {
            (Some(events), None) => events.clone(),
            (_, room) => list::list(s, stretch.samples, room)?,
        };
        let first = stretch.first_half as u64;
        let halves = match wish.close || wish.picture.is_some() || wish.halves {
            true => trace::trace(s, stretch.samples)?,
            false => Vec::new(),
        };
        let look = wish.close.then_some(Look { s, samples: &recording.samples, first, halves: &halves });
        let close = |event| look.as_ref().map(|look| look.at(event));
        let events = events.iter().map(|event| found(s, set, first, event, close(event))).collect();
        let own = alone(s, set, stretch.samples)?;
        let picture = wish.picture.map(|columns| picture::picture(s, first, &halves, columns));
        let halves = if wish.halves { halves } else { Vec::new() };
        Ok(Part { number, first_half: first, events, own, halves, picture })
    })
}

/// Adds a recording, or its parts, to the table: what each adds, without its events. After a refusal the table may hold
/// some of the parts, and is not to be kept.
pub fn add(table: &mut Table, recording: &Recording, cut: bool) -> Result<Answer, Failure> {
    let s = table::settings(table);
    part_by_part(&s, recording, cut, |number, stretch| {
        let before = *table;
        host::add(table, stretch.samples)?;
        let own = table::growth(&before, table);
        let (first_half, events, halves) = (stretch.first_half as u64, Vec::new(), Vec::new());
        Ok(Part { number, first_half, events, own, halves, picture: None })
    })
}

/// A refusal for want of room in a table that has grown from `before` half-cycles on the way: what that means for the site.
pub fn told_of_room(failure: Failure, before: &Table, grown: &Table) -> Failure {
    let more = table::counts(grown).total - table::counts(before).total;
    match failure {
        Failure::Refused(Refusal { what, refused, .. }) if refused.number == 8 && more > 0 => {
            let left = refused.place + more;
            let more = format!("after {more} that came before it; the site has {left} left, and stays as it is");
            Failure::Refused(Refusal { what, refused, more })
        }
        failure => failure,
    }
}

/// Asks about each part of a recording; a refusal is told with the part and with what its place means in the file.
fn part_by_part(
    s: &Settings,
    recording: &Recording,
    cut: bool,
    mut ask: impl FnMut(usize, &Stretch) -> Result<Part, Refused>,
) -> Result<Answer, Failure> {
    let Cutting { stretches, cuts } = cut::cutting(s, &recording.samples, cut).map_err(|r| refusal(recording, r))?;
    let mut answer = Answer { name: recording.name.clone(), parts: Vec::new(), cuts };
    for (at, stretch) in stretches.iter().enumerate() {
        let part = ask(at + 1, stretch).map_err(|refused| match stretches.len() {
            1 => refusal(recording, refused),
            of => Failure::Refused(Refusal {
                what: format!("{}, part {} of {of}", recording.name, at + 1),
                refused,
                more: String::new(),
            }),
        });
        answer.parts.push(part?);
    }
    Ok(answer)
}

/// An event's numbers by name, with what the library says of them, moved to where it lies in the whole recording.
fn found(s: &Settings, set: u64, first: u64, event: &Event, close: Option<Close>) -> Found {
    let [kind, start, end, seen, extreme, retained, shortfall, class, by_channel @ ..] = *event;
    let (reason, score) = (host::reason(s, set, event), host::score(s, set, event).ok());
    let (cell, grid) = (host::cell(s, set, event), grid::of(set));
    let (start, end) = (first + start, first + end);
    Found { kind, start, end, seen, extreme, retained, shortfall, class, by_channel, reason, cell, grid, score, close }
}

/// The table of these samples alone.
fn alone(s: &Settings, set: u64, samples: &[i32]) -> Result<Table, Refused> {
    let (made, mut table) = host::fresh(s, set);
    made?;
    host::add(&mut table, samples)?;
    Ok(table)
}

/// A refusal of a whole recording, with what its place means in the file.
fn refusal(recording: &Recording, refused: Refused) -> Failure {
    let more = match refused.number {
        5 => "--cut cuts it into parts".to_string(),
        6 => recording.spot(refused.place as usize),
        _ => String::new(),
    };
    Failure::Refused(Refusal { what: recording.name.clone(), refused, more })
}
