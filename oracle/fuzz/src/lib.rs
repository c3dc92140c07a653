//! libFuzzer's entry: bytes become a case, and the second program judges the proved library on it. The instrumentation
//! sits in the second program, so the fuzzer looks for bytes that take a new way through the rules.
use oracle::borders::{all_columns, all_rows, SETS};
use oracle::compare::{differs, explain, words_of_halves, Case};
use oracle::recording::MISSING;
use oracle::score::{beside_the_steps, retained, sum_at};
use oracle::site::at;
use oracle::{Event, Settings, Table, WORDS};

/// The bytes, read from the front; past the end they are zeros.
struct Bytes<'a>(&'a [u8]);

impl Bytes<'_> {
    fn take<const LENGTH: usize>(&mut self) -> [u8; LENGTH] {
        let (mut taken, length) = ([0; LENGTH], LENGTH.min(self.0.len()));
        taken[..length].copy_from_slice(&self.0[..length]);
        self.0 = &self.0[length..];
        taken
    }

    fn byte(&mut self) -> u64 {
        u64::from(self.take::<1>()[0])
    }

    fn half_word(&mut self) -> u64 {
        u64::from(u16::from_le_bytes(self.take()))
    }

    fn word(&mut self) -> u64 {
        u64::from_le_bytes(self.take())
    }
}

/// One input.
///
/// # Safety
/// The fuzzer hands over a pointer and the length of what it points to.
#[no_mangle]
pub unsafe extern "C" fn LLVMFuzzerTestOneInput(data: *const u8, length: usize) -> i32 {
    let bytes = if length == 0 { &[] } else { std::slice::from_raw_parts(data, length) };
    let case = case(&mut Bytes(bytes));
    if differs(&case) {
        println!("difference: {}", explain(&case));
        std::process::abort();
    }
    0
}

fn case(bytes: &mut Bytes) -> Case {
    let asked = bytes.byte();
    let settings = settings(bytes);
    match asked % 4 {
        0 => {
            let room = bytes.byte() as usize;
            Case::List { settings, samples: samples(bytes, &settings), room }
        }
        1 => {
            let choice = bytes.byte() as usize;
            let samples = samples(bytes, &settings);
            let room = room_for_halves(choice, words_of_halves(&settings, &samples));
            Case::Halves { settings, samples, room }
        }
        2 => {
            let set = set(bytes);
            let table = table(bytes, &settings, set);
            Case::Add { table, samples: samples(bytes, &settings) }
        }
        _ => {
            // Among any words an event is found by chance once in a while only.
            let likely = asked >= 128 && oracle::settings::first_bad(&settings).is_none();
            let event = if likely { near_event(bytes, &settings) } else { [0; WORDS].map(|_: u64| bytes.word()) };
            Case::Score { settings, set: set(bytes), event }
        }
    }
}

/// A room beside what the half-cycles take, which would seldom be met by chance, or a small one.
fn room_for_halves(choice: usize, needed: usize) -> usize {
    match choice {
        0..=63 => choice,
        _ => (needed + choice).saturating_sub(128),
    }
}

/// A set of borders: from one byte, mostly such as there are.
fn set(bytes: &mut Bytes) -> u64 {
    match bytes.byte() {
        byte @ 0..=223 => byte % SETS.len() as u64,
        byte @ 224..=239 => byte - 224 + SETS.len() as u64,
        _ => bytes.word(),
    }
}

/// Numbers that are an event or nearly one: each within its bounds or one beyond, the end beside a step of the curve or a
/// column's border, or anywhere, the extreme beside a whole thousandth or a half, beside a row's border, or anywhere.
fn near_event(bytes: &mut Bytes, s: &Settings) -> Event {
    let kind = [1, 1, 1, 1, 2, 3, 0, 4][bytes.byte() as usize % 8];
    let seen = [3, 3, 3, 3, 0, 1, 2, 4][bytes.byte() as usize % 8];
    let choice = bytes.byte() as usize;
    let columns = all_columns(s.f).into_iter().flat_map(|first| [first - 1, first]);
    let lasts: Vec<u64> = columns.chain(beside_the_steps(s.f)).collect();
    let h = if choice < 128 { lasts[bytes.byte() as usize % lasts.len()] } else { bytes.half_word() };
    let start = bytes.half_word();
    let most = s.n * 10_000_000_000;
    let extreme = match choice / 8 % 5 {
        0 => bytes.word() % (s.n * s.r * s.r),
        1 => bytes.word() % (most + 2),
        4 => row(bytes, s),
        beside => (sum_at(s, bytes.word() % (200_000_000 / s.r + 1)) + beside as u64).saturating_sub(3).min(most),
    };
    let most = 3 * s.n * s.r * s.r * h + 2;
    let shortfall = if kind == 1 || choice == 255 { bytes.word() % most } else { 0 };
    let class = if kind == 1 || choice == 254 { bytes.byte() % 8 } else { 0 };
    let retained = match choice {
        252 => retained(s, extreme).wrapping_sub(1),
        253 => retained(s, extreme) + 1,
        _ => retained(s, extreme),
    };
    let [a, b, c] = parts(bytes, shortfall);
    [kind, start, start + h, seen, extreme, retained, shortfall, class, a, b, c]
}

/// A sum on a row's border, one unit below it or one above.
fn row(bytes: &mut Bytes, s: &Settings) -> u64 {
    let (rows, choice) = (all_rows(), bytes.byte() as usize);
    (sum_at(s, 20 * rows[choice % rows.len()]) + choice as u64 / 8 % 3).saturating_sub(1)
}

/// Three parts of a shortfall, from a few bytes: mostly such as make it up, else one unit off, or right only modulo 2^64.
fn parts(bytes: &mut Bytes, whole: u64) -> [u64; 3] {
    let manner = bytes.byte();
    let mut share = |of: u64| (u128::from(of) * u128::from(bytes.byte()) / 255) as u64;
    let a = share(whole);
    let b = share(whole - a);
    let mut parts = [a, b, whole - a - b];
    let (one, next) = (manner as usize % 3, (manner as usize + 1) % 3);
    match manner / 16 {
        14 => parts[one] = parts[one].wrapping_add([1, u64::MAX][manner as usize / 3 % 2]),
        15 => {
            let large = [1 << 63, u64::MAX][manner as usize / 3 % 2];
            parts[one] = parts[one].wrapping_add(large);
            parts[next] = parts[next].wrapping_sub(large);
        }
        _ => {}
    }
    parts
}

/// Good settings, unless the first byte says that they are any words.
fn settings(bytes: &mut Bytes) -> Settings {
    if bytes.byte() == 255 {
        let [n, r, f, sag, interruption, swell, hysteresis] = [0; 7].map(|_: u64| bytes.word());
        return Settings { n, r, f, sag, interruption, swell, hysteresis };
    }
    Settings {
        n: 8 + 2 * (bytes.byte() % 32),
        r: 100 * (10 + bytes.byte() % 250),
        f: 50 + 10 * (bytes.byte() % 2),
        sag: 50 + bytes.byte() % 46,
        interruption: 1 + bytes.byte() % 20,
        swell: 105 + bytes.byte() % 46,
        hysteresis: bytes.byte() % 6,
    }
}

/// A fresh table, or one with half-cycles, sags in one cell and a shortfall in three parts, and then a few words overwritten. Words
/// that add up to another would hardly be met by chance. The set may be unknown.
fn table(bytes: &mut Bytes, s: &Settings, set: u64) -> Table {
    let mut table = oracle::fresh(s, 0).1;
    table[at::SET] = set;
    let manner = bytes.byte();
    if manner >= 128 && oracle::settings::first_bad(s).is_none() {
        let total = bytes.half_word();
        let whole = bytes.word() % (3 * s.n * s.r * s.r * total + 2);
        (table[at::TOTAL], table[at::HEALTHY], table[at::SHORTFALL]) = (total, total, whole);
        table[at::PARTS..].copy_from_slice(&parts(bytes, whole));
        let (cell, sags) = (bytes.byte() as usize % (at::UNPLACED - at::CELLS + 1), bytes.byte());
        (table[at::CELLS + cell], table[at::SAGS]) = (sags, sags);
    }
    for _ in 0..manner % 16 {
        let i = bytes.byte() as usize % table.len();
        table[i] = bytes.word();
    }
    table
}

/// A level: any two bytes, or from one byte a percentage that some rule compares with, or one unit beside it. Such levels
/// would hardly be met by chance.
fn level(bytes: &mut Bytes, s: &Settings, any: bool) -> i32 {
    if any {
        let number = bytes.half_word();
        return if number == 0xffff { MISSING } else { number as i32 };
    }
    let (sag, interruption, swell) = (s.sag % 256, s.interruption % 256, s.swell % 256);
    let h = s.hysteresis % 8;
    let percentages = [
        sag,
        sag + h,
        interruption,
        interruption + h,
        swell,
        swell.saturating_sub(h),
        100,
        100,
        0,
        10,
        40,
        70,
        80,
        85,
        50,
        120,
    ];
    let choice = bytes.byte();
    let beside = [0, 0, -1, 1][choice as usize / 16 % 4];
    (s.r % 65_536 * percentages[choice as usize % 16] / 100) as i32 + beside
}

/// Some samples anywhere, then blocks of half a cycle, a level for all channels or for each held for a few of them.
fn samples(bytes: &mut Bytes, s: &Settings) -> Vec<i32> {
    let strewn: Vec<(u64, i32)> =
        (0..bytes.byte() % 4).map(|_| (bytes.half_word(), i32::from_le_bytes(bytes.take()))).collect();
    let ragged = bytes.byte();
    let per_block = (s.n / 2).clamp(1, 256) as usize;
    let mut samples = Vec::new();
    while !bytes.0.is_empty() && samples.len() < 3 * 64 * per_block {
        let manner = bytes.byte();
        let any = manner >= 192;
        let a = level(bytes, s, any);
        let levels = if manner % 2 == 0 { [a; 3] } else { [a, level(bytes, s, any), level(bytes, s, any)] };
        let held = 1 + manner as usize / 2 % 4;
        samples.extend(levels.repeat(held * per_block));
    }
    samples.truncate(samples.len().saturating_sub(if ragged < 8 { ragged as usize } else { 0 }));
    for (index, sample) in strewn {
        let length = samples.len().max(1);
        if let Some(place) = samples.get_mut(index as usize % length) {
            *place = sample;
        }
    }
    samples
}
