//! What the page draws and `explain` says of single half-cycles is what the second program says of them: the curves, what is
//! unknown, launch, peak and landing.
mod common;
use common::{blocks, raw, Folder, KNOWN, MISSING};
use oracle::{
    plain,
    random::Random,
    recording::{self, Half},
    Event, Settings,
};

const S: Settings = Settings { n: 8, r: 1000, f: 50, sag: 90, interruption: 10, swell: 110, hysteresis: 2 };

/// Up to sixty stretches at levels on and beside the thresholds, on one channel or on all, with gaps.
fn drawn(random: &mut Random) -> Vec<i32> {
    let mut samples = Vec::new();
    for _ in 0..random.between(2, 60) {
        let level =
            random.pick(&[0, 50, 99, 110, 300, 700, 880, 899, 910, 920, 1000, 1000, 1000, 1000, 1090, 1101, 1300]);
        let three = if random.once_in(3) { [1000, level, 1000] } else { [level, level, level + 1] };
        (0..4 * random.between(1, 5)).for_each(|_| samples.extend(three));
    }
    for _ in 0..random.below(8) {
        let at = random.below(samples.len() as u64) as usize;
        samples[at..].iter_mut().take(random.between(1, 30) as usize).for_each(|sample| *sample = MISSING);
    }
    samples
}

/// The rms of a sum of squares in percent of R.
fn percent(sum: u64) -> f64 {
    (sum as f64 / 8.0).sqrt() / 10.0
}

/// The earliest half-cycle of an event at which its extreme occurs, and the channels that it is on.
fn peak(halves: &[Half], event: &Event) -> (u64, Vec<usize>) {
    let on = |k: u64| {
        let sums = halves[k as usize].unwrap();
        (0..3).filter(|channel| sums[*channel] == event[4]).collect::<Vec<_>>()
    };
    (event[1]..event[2]).map(|k| (k, on(k))).find(|(_, on)| !on.is_empty()).unwrap()
}

/// The values of an attribute in each tag that begins so.
fn numbers(page: &str, tag: &str, name: &str) -> Vec<f64> {
    let tags = page.split(tag).skip(1).map(|rest| rest.split_once('>').unwrap().0);
    tags.map(|rest| rest.split_once(&format!(" {name}=\"")).unwrap().1.split('"').next().unwrap().parse().unwrap())
        .collect()
}

/// The level strokes of a path: from, to and height of each.
fn strokes(path: &str) -> Vec<[f64; 3]> {
    let (mut strokes, mut x, mut y) = (Vec::new(), 0.0, 0.0);
    let commands = path.match_indices(['M', 'H', 'V']).map(|(at, _)| at).chain([path.len()]).collect::<Vec<_>>();
    for ends in commands.windows(2) {
        let (letter, rest) = path[ends[0]..ends[1]].split_at(1);
        let numbers: Vec<f64> = rest.split(' ').map(|number| number.parse().unwrap()).collect();
        match letter {
            "M" => (x, y) = (numbers[0], numbers[1]),
            "H" => {
                strokes.push([x, numbers[0], y]);
                x = numbers[0];
            }
            _ => y = numbers[0],
        }
    }
    strokes
}

/// The drawing is 732 wide from 92 on, and 220 high from 24 down; its top is ten percent above what it has to show.
struct Drawing<'a> {
    page: &'a str,
    halves: &'a [Half],
    top: f64,
}

impl Drawing<'_> {
    fn x(&self, k: f64) -> f64 {
        92.0 + 732.0 * k / self.halves.len() as f64
    }

    fn y(&self, percent: f64) -> f64 {
        24.0 + 220.0 * (1.0 - percent / self.top)
    }

    /// In the middle of each half-cycle the curve stands at its rms; over one that is unknown there is none.
    fn assert_curve(&self, channel: usize, name: &str) {
        let tag = format!("<path class=\"curve {name}\" d=\"");
        let mut paths = self.page.split(&tag).skip(1).map(|rest| rest.split('"').next().unwrap());
        let path = paths.find(|path| *path != "M0 4H30").expect("another path than the key's");
        let strokes = strokes(path);
        for (k, half) in self.halves.iter().enumerate() {
            let middle = self.x(k as f64 + 0.5);
            let drawn = strokes.iter().find(|[from, to, _]| (*from..=*to).contains(&middle)).map(|[.., y]| *y);
            let wanted = half.map(|sums| self.y(percent(sums[channel])));
            let same = match (drawn, wanted) {
                (Some(drawn), Some(wanted)) => (drawn - wanted).abs() < 0.06,
                (drawn, wanted) => drawn == wanted,
            };
            assert!(same, "{name}, half-cycle {k}: {drawn:?}, wanted {wanted:?}");
        }
    }

    /// A ring at the peak of each sag and swell, but for those that would lie on another; the first is the key's.
    fn assert_peaks(&self, events: &[Event]) {
        let mut wanted: Vec<(f64, f64)> = Vec::new();
        for event in events.iter().filter(|event| event[0] != 2) {
            let (x, y) = (self.x(peak(self.halves, event).0 as f64 + 0.5), self.y(event[5] as f64 / 10.0));
            if wanted.last().is_none_or(|(last, _)| x >= last + 3.0) {
                wanted.push((x, y));
            }
        }
        let ring = |name: &str| numbers(self.page, "<circle class=\"peak ", name);
        let drawn: Vec<(f64, f64)> = ring("cx").into_iter().zip(ring("cy")).skip(1).collect();
        assert_eq!(drawn.len(), wanted.len());
        for ((x, y), (wanted_x, wanted_y)) in drawn.iter().zip(&wanted) {
            assert!((x - wanted_x).abs() < 0.06 && (y - wanted_y).abs() < 0.06, "{drawn:?}, wanted {wanted:?}");
        }
    }
}

/// The unknown stretches, each with its first and last half-cycle.
fn unknown(halves: &[Half]) -> Vec<(usize, usize)> {
    let is = |k: usize| halves.get(k).is_some_and(Option::is_none);
    let begins = (0..halves.len()).filter(|k| is(*k) && (*k == 0 || !is(k - 1)));
    begins.map(|first| (first, (first..).find(|k| !is(k + 1)).unwrap())).collect()
}

/// The unknown stretches that the page names one by one.
fn named(page: &str) -> Vec<(usize, usize)> {
    let stretch = |rest: &str| {
        let (first, rest) = rest.split_once(" to ")?;
        Some((first.parse().ok()?, rest.split_once(" (")?.0.parse().ok()?))
    };
    page.split("half-cycles ").skip(1).filter_map(stretch).collect()
}

#[test]
fn the_page_draws_what_the_second_program_says() {
    let folder = Folder::new("half-cycles-page");
    folder.site("x.site");
    let random = &mut Random::new(31);
    for _ in 0..40 {
        let samples = drawn(random);
        folder.write("k.i32", raw(&samples));
        let page = folder.accepted(&["report", "x.site", "k.i32", "-o", "-"]);
        let (halves, events) = (recording::halves(&S, &samples), plain::walk(&S, &samples).events);
        let highest = halves.iter().flatten().flatten().map(|sum| percent(*sum)).fold(110.0, f64::max);
        let drawing = Drawing { page: &page, halves: &halves, top: (highest / 10.0).floor() * 10.0 + 10.0 };
        (0..).zip(["a", "b", "c"]).for_each(|(channel, name)| drawing.assert_curve(channel, name));
        drawing.assert_peaks(&events);
        assert_eq!(named(&page), unknown(&halves));
    }
}

/// What `explain` says of a half-cycle beside an event that nobody saw all of: `misses 1 sample of a and 3 samples of b`.
fn misses(samples: &[i32], k: u64) -> String {
    let window = recording::window(&S, samples, k);
    let missing = |channel: usize| window.iter().skip(channel).step_by(3).filter(|x| **x == MISSING).count();
    let told = |(channel, name): (usize, &str)| match missing(channel) {
        0 => None,
        1 => Some(format!("1 sample of {name}")),
        many => Some(format!("{many} samples of {name}")),
    };
    let told: Vec<String> = (0..).zip(["a", "b", "c"]).filter_map(told).collect();
    let (last, first) = told.split_last().unwrap();
    if first.is_empty() {
        format!("misses {last}")
    } else {
        format!("misses {} and {last}", first.join(", "))
    }
}

/// The percentages of a sentence: `(a 79.1 %, b 100.0 %, c 100.0 %)`.
fn stands(sentence: &str) -> [f64; 3] {
    ["a ", "b ", "c "].map(|name| {
        let found =
            sentence.match_indices(name).find_map(|(at, _)| sentence[at + 2..].split_once(" %")?.0.parse().ok());
        found.unwrap_or_else(|| panic!("{name}: {sentence}"))
    })
}

/// Launch, peak and landing of an event, as `explain` tells them.
fn assert_explained(samples: &[i32], halves: &[Half], event: &Event, [launch, at_peak, landing]: [&str; 3]) {
    let near =
        |told: [f64; 3], sums: [u64; 3]| told.iter().zip(sums).all(|(told, sum)| (told - percent(sum)).abs() < 0.051);
    let [_, start, end, ..] = *event;
    assert!(near(stands(launch), halves[start as usize].unwrap()), "{launch}");
    let before = match start.checked_sub(1).map(|k| (k, halves[k as usize])) {
        None => "the recording begins there".into(),
        Some((k, None)) => misses(samples, k),
        Some((k, Some(_))) => format!("half-cycle {k} before it is known"),
    };
    assert!(launch.contains(&before), "{before}: {launch}");
    let (k, on) = peak(halves, event);
    let wanted = format!("half-cycle {k} (at {:.3} s): the ", k as f64 / 100.0);
    assert!(at_peak.starts_with(&wanted), "{wanted}: {at_peak}");
    let channels = at_peak.split_once(", on ").unwrap().1.split(';').next().unwrap().replace(" and ", ", ");
    assert_eq!(
        channels,
        on.iter().map(|channel| ["a", "b", "c"][*channel]).collect::<Vec<_>>().join(", "),
        "{at_peak}"
    );
    match halves.get(end as usize) {
        None => assert!(landing.contains("the recording ends there"), "{landing}"),
        Some(None) => assert!(landing.contains(&misses(samples, end)), "{landing}"),
        Some(Some(sums)) => assert!(near(stands(landing.rsplit_once("): ").unwrap().1), *sums), "{landing}"),
    }
}

/// Each event of a recording that `explain` is asked about, held to the second program: how many there are.
fn explained(folder: &Folder, samples: &[i32], more: &[&str]) -> usize {
    folder.write("k.i32", raw(samples));
    let told = folder.accepted(&[&["explain", "k.i32"][..], &KNOWN, more].concat()).replace("\n             ", " ");
    let sentences = |label: &str| {
        let label = format!("    {label:<8} ");
        told.lines().filter_map(|line| line.strip_prefix(label.as_str())).map(String::from).collect::<Vec<_>>()
    };
    let [launch, peak, landing] = ["launch", "peak", "landing"].map(sentences);
    let (halves, events) = (recording::halves(&S, samples), plain::walk(&S, samples).events);
    assert_eq!([launch.len(), peak.len(), landing.len()], [events.len(); 3], "{told}");
    for (at, event) in events.iter().enumerate() {
        assert_explained(samples, &halves, event, [&launch[at], &peak[at], &landing[at]]);
    }
    events.len()
}

#[test]
fn explain_says_what_the_second_program_says() {
    let folder = Folder::new("half-cycles-explain");
    let random = &mut Random::new(32);
    let events: usize = (0..60).map(|_| explained(&folder, &drawn(random), &[])).sum();
    assert!(events > 300, "{events}");
}

/// A part that begins early and is long: half-cycle 90,000, at which its first sag lands, stands at another place in it, and the one
/// that is 90,000 after its own beginning has another voltage.
#[test]
fn explain_says_it_of_a_part_too() {
    let folder = Folder::new("half-cycles-part");
    let mut levels = vec![1000; 150_100];
    levels[60_000..100_200].fill(500);
    levels[90_000..90_002].fill(1000);
    levels[100_200..].fill(950);
    assert_eq!(explained(&folder, &blocks(&levels), &["--cut"]), 2);
}
