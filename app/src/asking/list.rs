//! The library's list of a run of samples.
use host::{Event, Refused, Settings, WORDS};

/// Room that is enough for most recordings, so that the library is asked once only.
const FIRST_ROOM: usize = 64 * WORDS;

/// The events of a run of samples, with room for so many numbers or, where nothing is said, for all of them.
pub fn list(s: &Settings, samples: &[i32], room: Option<usize>) -> Result<Vec<Event>, Refused> {
    match (try_list(s, samples, room.unwrap_or(FIRST_ROOM)), room) {
        // The place of refusal 7 is the number of events.
        (Err(Refused { number: 7, place }), None) => try_list(s, samples, place as usize * WORDS),
        (listed, _) => listed,
    }
}

fn try_list(s: &Settings, samples: &[i32], room: usize) -> Result<Vec<Event>, Refused> {
    let mut words = vec![0; room];
    let count = host::list(s, samples, &mut words)? as usize;
    Ok(words.as_chunks::<WORDS>().0[..count].to_vec())
}
