//! Figures for docs/BENCH.md, as the markdown that it holds: nanoseconds per sample of `list`, `add` and `halves`; peak
//! memory; how the cost grows; and how many turns the search for a root takes (`roots`). Three programs over the same
//! recordings: the proved library, the plain program, which is the yardstick of request 14, and the swift one, which says
//! what the proof costs. They take turns: each round runs every call of every program once, and the next round begins with
//! the next program, so that what else the machine does meets all alike. The best round of each is kept, and the median. On
//! every recording the three have to agree.
//!
//! `bench [--half-cycles N] [--part N] [--best N]`; without options one hour at 50 Hz in parts of 100,000 half-cycles, the
//! best of seven rounds. `bench --half-cycles 20000 --part 10000 --best 3` takes seconds.
use oracle::compare::{three_phase, Phasors};
use oracle::random::Random;
use oracle::recording::MISSING;
use oracle::site::at;
use oracle::{plain, swift, Refused, Settings, Table};
use std::hint::black_box;
use std::process::{Command, ExitCode};
use std::time::Instant;

mod roots;

/// Goes over a recording and writes into a lent run.
type Runner = fn(&Settings, &[i32], &mut [u64]) -> Result<u64, Refused>;
type Adder = fn(&mut Table, &[i32]) -> Result<(), Refused>;

/// A program under the watch: its three calls.
struct Program {
    name: &'static str,
    list: Runner,
    add: Adder,
    halves: Runner,
}

/// The proved library, and the two that it is measured by.
const PROGRAMS: [Program; 3] = [
    Program { name: "product", list: host::list, add: host::add, halves: host::halves },
    Program { name: "plain", list: plain::list, add: plain::add, halves: plain::halves },
    Program { name: "swift", list: swift::list, add: swift::add, halves: swift::halves },
];

/// Numbers for the half-cycles of the longest part, which are more than its events take.
const ROOM: usize = oracle::HALF * 100_000;

/// How much is measured.
#[derive(Clone, Copy)]
struct Size {
    half_cycles: u64,
    part: u64,
    rounds: usize,
}

/// What a recording has in it: how many half-cycles are disturbed, and how many samples are missing, evenly spread.
#[derive(Clone, Copy)]
struct Course {
    per_mille: u64,
    missing: u64,
}

fn main() -> ExitCode {
    let words: Vec<String> = std::env::args().skip(1).collect();
    if words.first().is_some_and(|word| word == "--growth-of") {
        let grown = answer_growth(&words[1..]);
        println!("{}", grown.map_or("nothing to measure".into(), |grown| grown.to_string()));
        return ExitCode::SUCCESS;
    }
    let Some(size) = arguments() else {
        eprintln!("usage: bench [--half-cycles N] [--part N, at most 100000] [--best N]");
        return ExitCode::from(2);
    };
    an_hour(size);
    println!("\n## How the cost grows\n\nNanoseconds per sample, the best of {} rounds as above.", size.rounds);
    by_length(size);
    by_samples_per_cycle(size);
    by_events(size);
    println!("\nPeak memory of the whole run (VmHWM): {} MiB.", status("VmHWM:") / 1024);
    roots::print();
    ExitCode::SUCCESS
}

fn arguments() -> Option<Size> {
    let mut size = Size { half_cycles: 360_000, part: 100_000, rounds: 7 };
    let mut words = std::env::args().skip(1);
    while let Some(word) = words.next() {
        let number = words.next()?.parse().ok().filter(|&number: &u64| number > 0)?;
        match word.as_str() {
            "--half-cycles" => size.half_cycles = number,
            "--part" if number <= 100_000 => size.part = number,
            "--best" => size.rounds = number as usize,
            _ => return None,
        }
    }
    Some(size)
}

fn settings(n: u64) -> Settings {
    Settings { n, r: 10_000, f: 50, sag: 90, interruption: 10, swell: 110, hysteresis: 2 }
}

/// Three-phase sines with events of 10 half-cycles, so many that about `per_mille` of the half-cycles are disturbed.
fn recording(s: &Settings, half_cycles: u64, Course { per_mille, missing }: Course, seed: u64) -> Vec<i32> {
    let healthy = cycle(s, 1.0);
    let disturbed = [0.5, 0.7, 0.8, 0.05, 1.2].map(|level| cycle(s, level));
    let random = &mut Random::new(seed);
    let block = 3 * s.n as usize / 2;
    let mut samples = Vec::with_capacity((half_cycles as usize + 1) * block);
    let (mut dipped, mut kind) = (0, 0);
    for k in 0..=half_cycles as usize {
        if dipped == 0 && random.below(10 * 1000) < per_mille * 1000 / (1000 - per_mille) {
            // Nine blocks: windows that reach over either end make it ten half-cycles.
            (dipped, kind) = (9, random.below(5) as usize);
        }
        let source = if dipped > 0 { &disturbed[kind] } else { &healthy };
        dipped = u64::saturating_sub(dipped, 1);
        samples.extend_from_slice(&source[k % 2 * block..][..block]);
    }
    let length = samples.len();
    for i in 1..=missing {
        samples[i as usize * length / (missing as usize + 1)] = MISSING;
    }
    samples
}

fn cycle(s: &Settings, level: f64) -> Vec<i32> {
    let half_root = 3f64.sqrt() / 2.0;
    let phasors: Phasors = [(level, 0.0), (-0.5 * level, -half_root * level), (-0.5 * level, half_root * level)];
    three_phase(s, &[phasors; 2])
}

/// What one call takes, in seconds or in nanoseconds per sample: the best of the rounds and their median.
#[derive(Clone, Copy, Default)]
struct Time {
    best: f64,
    median: f64,
}

impl Time {
    fn of(mut rounds: Vec<f64>) -> Time {
        rounds.sort_by(f64::total_cmp);
        let middle = (rounds[(rounds.len() - 1) / 2] + rounds[rounds.len() / 2]) / 2.0;
        Time { best: rounds[0], median: middle }
    }

    fn plus(self, other: Time) -> Time {
        Time { best: self.best + other.best, median: self.median + other.median }
    }

    fn per_sample(self, samples: usize) -> Time {
        let nanoseconds = 1e9 / samples as f64;
        Time { best: self.best * nanoseconds, median: self.median * nanoseconds }
    }
}

/// What list, add and halves take, program by program.
#[derive(Clone, Copy, Default)]
struct Times {
    list: [Time; 3],
    add: [Time; 3],
    halves: [Time; 3],
}

impl Times {
    fn plus(self, other: Times) -> Times {
        let each = |one: [Time; 3], other: [Time; 3]| [0, 1, 2].map(|i: usize| one[i].plus(other[i]));
        Times {
            list: each(self.list, other.list),
            add: each(self.add, other.add),
            halves: each(self.halves, other.halves),
        }
    }

    fn per_sample(self, samples: usize) -> Times {
        let each = |times: [Time; 3]| times.map(|time| time.per_sample(samples));
        Times { list: each(self.list), add: each(self.add), halves: each(self.halves) }
    }

    /// How the library's half-cycles stand to its own addition of the same recording: by the best rounds, and by the medians.
    fn beside_add(self) -> [f64; 2] {
        let ([halves, ..], [add, ..]) = (self.halves, self.add);
        [halves.best / add.best, halves.median / add.median]
    }
}

/// Times the three calls with each program in turn, round after round; the next round begins with the next program.
fn rounds(size: Size, s: &Settings, samples: &[i32], room: &mut [u64]) -> Times {
    let fresh = oracle::fresh(s, 0).1;
    let [mut list, mut add, mut halves]: [[Vec<f64>; 3]; 3] = Default::default();
    for round in 0..size.rounds {
        for turn in 0..PROGRAMS.len() {
            let i = (round + turn) % PROGRAMS.len();
            let program = &PROGRAMS[i];
            list[i].push(seconds(|| (program.list)(s, black_box(samples), room)));
            let mut grown = fresh;
            add[i].push(seconds(|| (program.add)(black_box(&mut grown), black_box(samples))));
            halves[i].push(seconds(|| (program.halves)(s, black_box(samples), room)));
        }
    }
    Times { list: list.map(Time::of), add: add.map(Time::of), halves: halves.map(Time::of) }
}

fn seconds<T>(call: impl FnOnce() -> T) -> f64 {
    let began = Instant::now();
    black_box(call());
    began.elapsed().as_secs_f64()
}

/// What a program answers to one recording: events and their words, each half-cycle, and a fresh table that it was added to.
fn answer(program: &Program, s: &Settings, samples: &[i32], room: &mut [u64]) -> (u64, Vec<u64>, Vec<u64>, Table) {
    let mut table = oracle::fresh(s, 0).1;
    room.fill(0);
    let halves = (program.halves)(s, samples, room).expect("an accepted recording");
    let told = room[..oracle::HALF * halves as usize].to_vec();
    let events = (program.list)(s, samples, room).expect("an accepted recording");
    (program.add)(&mut table, samples).expect("an accepted recording");
    (events, room[..oracle::WORDS * events as usize].to_vec(), told, table)
}

/// All programs over one recording; they have to agree, else the figures mean nothing. Being asked warms the buffers.
fn measure(size: Size, s: &Settings, samples: &[i32]) -> (u64, Table, Times) {
    let mut room = vec![0; ROOM];
    let [first, others @ ..] = PROGRAMS.each_ref().map(|program| answer(program, s, samples, &mut room));
    assert!(others.iter().all(|other| *other == first), "the programs do not agree");
    let (events, _, _, table) = first;
    (events, table, rounds(size, s, samples, &mut room))
}

/// A number of kilobytes from the process's own status.
fn status(name: &str) -> u64 {
    let text = std::fs::read_to_string("/proc/self/status").unwrap_or_default();
    let line = text.lines().find_map(|line| line.strip_prefix(name));
    line.and_then(|line| line.split_whitespace().next()?.parse().ok()).unwrap_or(0)
}

/// By how many KiB the peak rises above what is held already while a program goes over a recording: while it lists and adds it, or
/// while it tells its half-cycles. Asked of a process of its own: in this one, memory that an earlier call freed would be used again
/// and not show.
fn growth(program: &Program, told: bool, s: &Settings, half_cycles: u64, course: Course) -> u64 {
    let asked = [u64::from(told), s.n, half_cycles, course.per_mille, course.missing].map(|number| number.to_string());
    let myself = std::env::current_exe().expect("the path of this program");
    let ran =
        Command::new(myself).arg("--growth-of").arg(program.name).args(asked).output().expect("this program again");
    let answer = String::from_utf8_lossy(&ran.stdout);
    answer.trim().parse().expect("a number of KiB")
}

/// The other side of `growth`: `--growth-of product|plain|swift told N half-cycles per-mille missing`, where told is 1 or 0.
fn answer_growth(words: &[String]) -> Option<u64> {
    let program = PROGRAMS.iter().find(|program| words.first().is_some_and(|word| word == program.name))?;
    let number = |i: usize| words.get(i)?.parse::<u64>().ok();
    let s = settings(number(2)?);
    let samples = recording(&s, number(3)?, Course { per_mille: number(4)?, missing: number(5)? }, 1);
    let (mut room, mut table) = (vec![1; ROOM], oracle::fresh(&s, 0).1);
    let before = status("VmHWM:");
    if number(1)? == 1 {
        (program.halves)(&s, &samples, &mut room).ok()?;
    } else {
        (program.list)(&s, &samples, &mut room).ok()?;
        (program.add)(&mut table, &samples).ok()?;
    }
    Some(status("VmHWM:") - before)
}

/// What the hour's recordings have in them.
const COURSES: [Course; 4] = [
    Course { per_mille: 0, missing: 0 },
    Course { per_mille: 10, missing: 0 },
    Course { per_mille: 300, missing: 0 },
    Course { per_mille: 10, missing: 2 },
];

/// One hour with one N and one course, all its parts together.
struct Hour {
    /// N, disturbed half-cycles and events, as the tables begin.
    name: String,
    times: Times,
    /// While it is listed and added, program by program, and while its half-cycles are told.
    memory: [[u64; 3]; 2],
}

fn an_hour(size: Size) {
    let hours = [256, 16].map(|n| COURSES.map(|course| hour(size, &settings(n), course)));
    let hours = hours.as_flattened();
    println!("## One hour\n");
    println!(
        "{} half-cycles at 50 Hz in parts of {}. Nanoseconds per sample, the best of {} rounds in which the three \
         programs took turns;\nthe ratios are of these, and once of the medians of the rounds. \"Two missing\": each part \
         lacks a sample at a third and one\nat two thirds.",
        size.half_cycles, size.part, size.rounds
    );
    print_calls("list", hours, |times| times.list);
    print_calls("add", hours, |times| times.add);
    print_calls("halves", hours, |times| times.halves);
    println!("\nEach half-cycle told beside adding the same recording, in the same rounds:\n");
    println!("| N | disturbed | events | halves | add | halves/add | medians |\n|---|---|---|---|---|---|---|");
    for Hour { name, times, .. } in hours {
        let [best, median] = times.beside_add();
        println!("{name} {:.2} | {:.2} | {best:.2} | {median:.2} |", times.halves[0].best, times.add[0].best);
    }
    println!(
        "\nBy how many KiB the peak of memory rises while one part is listed and added, in a process of its own, and while its \
         half-cycles\nare told, in another:\n"
    );
    println!("| N | disturbed | events | memory | plain's | swift's | halves | plain's | swift's |");
    println!("|---|---|---|---|---|---|---|---|---|");
    for Hour { name, memory, .. } in hours {
        println!("{name} {} |", memory.as_flattened().iter().map(u64::to_string).collect::<Vec<_>>().join(" | "));
    }
}

/// The table of one call: the three programs, and how the proved library stands to the others.
fn print_calls(call: &str, hours: &[Hour], of: fn(&Times) -> [Time; 3]) {
    let columns = ["{}", "plain {}", "swift {}", "{}/plain", "{}/plain, medians", "{}/swift"];
    let columns = columns.map(|column| column.replace("{}", call)).join(" | ");
    println!("\n| N | disturbed | events | {columns} |\n|---|---|---|---|---|---|---|---|---|");
    for hour in hours {
        let [product, plain, swift] = of(&hour.times);
        let ratios = [product.best / plain.best, product.median / plain.median, product.best / swift.best];
        let figures = [[product.best, plain.best, swift.best], ratios];
        let cells: Vec<String> = figures.as_flattened().iter().map(|figure| format!("{figure:.2}")).collect();
        println!("{} {} |", hour.name, cells.join(" | "));
    }
}

/// All parts of the hour, one after the other, so that only one is held at a time.
fn hour(size: Size, s: &Settings, course: Course) -> Hour {
    let (mut left, mut count, mut events, mut disturbed) = (size.half_cycles, 0, 0, 0);
    let mut times = Times::default();
    while left > 0 {
        let half_cycles = left.min(size.part);
        let samples = recording(s, half_cycles, course, left);
        let (events_here, table, times_here) = measure(size, s, &samples);
        times = times.plus(times_here);
        count += samples.len();
        events += events_here;
        disturbed += table[at::DISTURBED];
        left -= half_cycles;
    }
    let percent = 100.0 * disturbed as f64 / size.half_cycles as f64;
    let missing = if course.missing > 0 { ", two missing" } else { "" };
    Hour {
        name: format!("| {} | {percent:.1} %{missing} | {events} |", s.n),
        times: times.per_sample(count),
        memory: [false, true]
            .map(|told| PROGRAMS.each_ref().map(|program| growth(program, told, s, size.part, course))),
    }
}

/// A line of the tables of growth: list, add and halves of the three programs, in ns per sample, and the library's halves beside its
/// add.
fn growth_line(size: Size, name: u64, s: &Settings, samples: &[i32]) {
    let (events, _, times) = measure(size, s, samples);
    let [ratio, _] = times.beside_add();
    let Times { list, add, halves } = times.per_sample(samples.len());
    let best = [list, add, halves].as_flattened().iter().map(|time| time.best).collect::<Vec<f64>>();
    let cells: Vec<String> = best.iter().chain([&ratio]).map(|figure| format!("{figure:.2}")).collect();
    println!("| {name} | {events} | {} |", cells.join(" | "));
}

fn heading(what: &str) {
    println!(
        "\n| {what} | events | list | plain list | swift list | add | plain add | swift add \
         | halves | plain halves | swift halves | halves/add |"
    );
    println!("|---|---|---|---|---|---|---|---|---|---|---|---|");
}

/// So many half-cycles in a thousand disturbed, nothing missing.
fn disturbed(per_mille: u64) -> Course {
    Course { per_mille, missing: 0 }
}

fn by_length(size: Size) {
    heading("half-cycles (N 16, 1 % disturbed)");
    for length in [100, 1_000, 10_000, 100_000] {
        if length <= size.part {
            growth_line(size, length, &settings(16), &recording(&settings(16), length, disturbed(10), length));
        }
    }
}

fn by_samples_per_cycle(size: Size) {
    heading("N (10,000 half-cycles, 1 % disturbed)");
    for n in [8, 16, 32, 64, 128, 256, 512] {
        growth_line(size, n, &settings(n), &recording(&settings(n), size.part.min(10_000), disturbed(10), n));
    }
}

fn by_events(size: Size) {
    heading("per mille disturbed (N 16)");
    for per_mille in [0, 1, 10, 100, 300, 600] {
        growth_line(size, per_mille, &settings(16), &recording(&settings(16), size.part, disturbed(per_mille), 7));
    }
}
