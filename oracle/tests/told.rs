//! Each half-cycle told, held to the list and the table of the same program and to the samples: the second program, its linear and
//! its swift form, and the proved library.
use oracle::compare::draw_recordings;
use oracle::recording::{self, MISSING};
use oracle::site::at;
use oracle::{fresh, plain, swift, Event, Refused, Settings, Table, HALF, WORDS};

type Half = [u64; HALF];

/// Goes over a recording and writes into a lent run.
type Runner = fn(&Settings, &[i32], &mut [u64]) -> Result<u64, Refused>;

struct Program {
    name: &'static str,
    list: Runner,
    halves: Runner,
    add: fn(&mut Table, &[i32]) -> Result<(), Refused>,
}

const PROGRAMS: [Program; 4] = [
    Program { name: "second program", list: oracle::list, halves: oracle::halves, add: oracle::add },
    Program { name: "linear form", list: plain::list, halves: plain::halves, add: plain::add },
    Program { name: "swift form", list: swift::list, halves: swift::halves, add: swift::add },
    Program { name: "proved library", list: host::list, halves: host::halves, add: host::add },
];

impl Program {
    fn events(&self, s: &Settings, samples: &[i32]) -> Vec<Event> {
        numbers(self.list, s, samples)
    }

    fn halves(&self, s: &Settings, samples: &[i32]) -> Vec<Half> {
        numbers(self.halves, s, samples)
    }

    /// What a fresh table holds after the recording.
    fn table(&self, s: &Settings, set: u64, samples: &[i32]) -> Table {
        let mut table = fresh(s, set).1;
        (self.add)(&mut table, samples).expect("an accepted recording");
        table
    }
}

/// What a program writes of an accepted recording. No list or telling is longer: three kinds of event begin at most at each half-cycle.
fn numbers<const SIZE: usize>(run: Runner, s: &Settings, samples: &[i32]) -> Vec<[u64; SIZE]> {
    let mut words = vec![77; 3 * WORDS * recording::half_cycles(s, samples) as usize];
    let count = run(s, samples, &mut words).expect("an accepted recording");
    words.as_chunks().0[..count as usize].to_vec()
}

/// Drawn recordings that are accepted, with what they are called.
fn accepted() -> impl Iterator<Item = (Settings, Vec<i32>, String)> {
    (0..2_000).flat_map(|number| {
        let (s, recordings) = draw_recordings(20_261, number);
        let numbered = recordings.into_iter().enumerate();
        let good = numbered.filter(move |(_, samples)| recording::check(&s, samples).is_ok());
        good.map(move |(i, samples)| (s, samples, format!("recording {i} of sequence {number}")))
    })
}

/// As many half-cycles are told with each class as the table counts of it, by either set of borders.
#[test]
fn classes_are_those_that_the_table_counts() {
    let mut told = [0; 3];
    for (s, samples, what) in accepted() {
        for program in &PROGRAMS {
            let halves = program.halves(&s, &samples);
            let counts = [1, 2, 3].map(|class| halves.iter().filter(|half| half[0] == class).count() as u64);
            for table in [0, 1].map(|set| program.table(&s, set, &samples)) {
                assert_eq!(table[at::HEALTHY..=at::UNKNOWN], counts, "{}, {what}", program.name);
                assert_eq!(table[at::TOTAL], halves.len() as u64, "{}, {what}", program.name);
            }
            told.iter_mut().zip(counts).for_each(|(sum, count)| *sum += count);
        }
    }
    assert!(told.iter().all(|&half_cycles| half_cycles > 10_000), "{told:?}");
}

/// A kind's bit is set exactly where an event of that kind in the list has the half-cycle.
#[test]
fn kinds_are_those_of_the_list() {
    for (s, samples, what) in accepted() {
        for program in &PROGRAMS {
            let events = program.events(&s, &samples);
            for (k, half) in (0..).zip(program.halves(&s, &samples)) {
                let lies_in = |kind: u64| events.iter().any(|event| event[0] == kind && event[1] <= k && k < event[2]);
                let [sag, interruption, swell] = [1, 2, 3].map(|kind| u64::from(lies_in(kind)));
                assert_eq!(half[1], sag + 2 * interruption + 4 * swell, "{}, half-cycle {k}, {what}", program.name);
            }
        }
    }
}

/// An interruption lies in a sag always, and never in a swell: 2, 6 and 7 are not told. What is in no event is healthy or unknown.
#[test]
fn kinds_that_go_together() {
    let mut told = [0; 8];
    for (s, samples, what) in accepted() {
        for program in &PROGRAMS {
            for (k, half) in program.halves(&s, &samples).into_iter().enumerate() {
                let [class, kinds, ..] = half;
                assert_eq!(class == 2, kinds > 0, "{}, half-cycle {k}, {what}", program.name);
                told[kinds as usize] += 1;
            }
        }
    }
    assert!([0, 1, 3, 4, 5].iter().all(|&kinds| told[kinds] > 1_000), "{told:?}");
    assert_eq!([told[2], told[6], told[7]], [0; 3]);
}

/// Unknown exactly where a sample of the window is missing, with sums of 0; elsewhere each channel's own squares.
#[test]
fn sums_are_those_of_the_samples() {
    let square = |sample: &i32| u64::from(sample.unsigned_abs()).pow(2);
    let mut unequal = [0; 3];
    for (s, samples, what) in accepted() {
        for program in &PROGRAMS {
            for (k, half) in program.halves(&s, &samples).into_iter().enumerate() {
                let window = &samples[3 * k * s.n as usize / 2..][..3 * s.n as usize];
                let lost = window.contains(&MISSING);
                let own = |channel: usize| window.iter().skip(channel).step_by(3).map(square).sum::<u64>();
                let [a, b, c] = [0, 1, 2].map(|channel| if lost { 0 } else { own(channel) });
                assert_eq!((half[0] == 3, half[2..].to_vec()), (lost, vec![a, b, c]), "{}, {k}, {what}", program.name);
                unequal.iter_mut().zip([a != b, b != c, c != a]).for_each(|(sum, differ)| *sum += u64::from(differ));
            }
        }
    }
    assert!(unequal.iter().all(|&half_cycles| half_cycles > 10_000), "{unequal:?}");
}

/// With room for either, what a list refuses is refused here, too, with the same place; and with no room at all, what is refused before
/// it.
#[test]
fn refusals_are_those_of_the_list() {
    let mut refused = 0;
    for number in 0..2_000 {
        let (s, recordings) = draw_recordings(20_262, number);
        let settings = [s, Settings { hysteresis: 6, ..s }];
        for (s, samples) in settings.iter().flat_map(|s| recordings.iter().map(move |samples| (s, samples))) {
            for program in &PROGRAMS {
                let mut room = vec![0; 11 * samples.len()];
                let told = (program.list)(s, samples, &mut room).err();
                assert_eq!((program.halves)(s, samples, &mut room).err(), told, "{}, {number}", program.name);
                if told.is_some() {
                    assert_eq!((program.halves)(s, samples, &mut []).err(), told, "{}, {number}", program.name);
                    refused += 1;
                }
            }
        }
    }
    assert!(refused > 10_000, "{refused}");
}
