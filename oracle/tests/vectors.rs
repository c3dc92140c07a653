//! Numbers that others published, read from `vectors/`, held against the second program and the proved library.
use oracle::compare::{three_phase, Phasors};
use oracle::{Event, Refused, Score, Settings, WORDS};

const SETTINGS: Settings = Settings { n: 128, r: 10_000, f: 50, sag: 90, interruption: 10, swell: 110, hysteresis: 2 };

type Lister = fn(&Settings, &[i32], &mut [u64]) -> Result<u64, Refused>;
type Scorer = fn(&Settings, u64, &Event) -> Result<Score, u64>;

const LISTERS: [(&str, Lister); 4] = [
    ("second program", oracle::list),
    ("linear form", oracle::plain::list),
    ("swift form", oracle::swift::list),
    ("proved library", host::list),
];

/// A score is the same by either set of borders.
const SCORERS: [(&str, u64, Scorer); 4] = [
    ("second program", 0, oracle::score),
    ("second program", 1, oracle::score),
    ("proved library", 0, host::score),
    ("proved library", 1, host::score),
];

/// The lines of a file of vectors, in words, without its comments.
fn lines(file: &str) -> Vec<Vec<&str>> {
    let lines = file.lines().filter(|line| !line.is_empty() && !line.starts_with('#'));
    lines.map(|line| line.split_whitespace().collect()).collect()
}

fn ieee_1564(what: &str) -> Vec<Vec<&'static str>> {
    let lines = lines(include_str!("../vectors/ieee-1564.txt"));
    lines.into_iter().filter(|words| words[0] == what).collect()
}

fn number(word: &str) -> f64 {
    word.parse().unwrap()
}

/// A sag of h half-cycles at one level on all channels.
fn sag(s: &Settings, h: u64, pu: f64) -> Event {
    let thousandths = (pu * 1000.0).round() as u64;
    let extreme = s.n * s.r * s.r / 1_000_000 * thousandths * thousandths;
    [1, 10, 10 + h, 3, extreme, thousandths, 0, 0, 0, 0, 0]
}

#[test]
fn severities_of_the_guide() {
    let vectors = ieee_1564("severity");
    assert_eq!(vectors.len(), 8);
    for words in vectors {
        let milliseconds: u64 = words[1].parse().unwrap();
        let (pu, printed) = (number(words[2]), number(words[3]));
        for h in [milliseconds / 10, milliseconds.div_ceil(10)] {
            for (program, set, score) in SCORERS {
                let score = score(&SETTINGS, set, &sag(&SETTINGS, h, pu));
                match words[4..] {
                    ["same"] => assert_near(score, printed, 0.005, program, &words),
                    ["reason", why] => assert_eq!(score, Err(why.parse().unwrap()), "{program} {words:?}"),
                    _ => panic!("no such line: {words:?}"),
                }
            }
        }
    }
}

fn assert_near(score: Result<Score, u64>, severity: f64, allowed: f64, program: &str, vector: &[&str]) {
    let found = score.unwrap_or_else(|why| panic!("{program}: reason {why} for {vector:?}")).severity;
    assert!((found - severity).abs() <= allowed, "{program}: {found} for {vector:?}");
}

/// The example on one channel: the two windows that reach over an end of the sag each lack half, so that whole cycles at
/// one level have exactly the energy that the guide works out.
#[test]
fn energy_of_the_guide() {
    let vectors = ieee_1564("energy");
    assert_eq!(vectors.len(), 1);
    for words in vectors {
        let s = Settings { n: 8, r: 1_000, f: words[1].parse().unwrap(), ..SETTINGS };
        let low = (number(words[2]) * 1000.0).round() as i32;
        let half_cycles = 2 * words[3].parse::<usize>().unwrap();
        let mut samples = [1000; 12].repeat(4 + half_cycles);
        for a in samples[2 * 12..][..half_cycles * 12].iter_mut().step_by(3) {
            *a = low;
        }
        for (lister, list) in LISTERS {
            let mut event = [0; WORDS];
            assert_eq!(list(&s, &samples, &mut event), Ok(1), "{lister}");
            for (program, set, score) in SCORERS {
                let energy = score(&s, set, &event).unwrap().energy;
                assert_eq!(energy, number(words[4]).floor() / 1000.0, "{lister}, {program}");
            }
        }
    }
}

/// The phasors of a sag type at a characteristic voltage: equations 2.13 and 2.14 of the thesis with F = 1, and their turns.
fn phasors(name: &str, v: f64) -> Phasors {
    let half_root = 3f64.sqrt() / 2.0;
    let first = match &name[..1] {
        "A" => [(v, 0.0), (-0.5 * v, -half_root * v), (-0.5 * v, half_root * v)],
        "D" => [(v, 0.0), (-0.5 * v, -half_root), (-0.5 * v, half_root)],
        "C" => [(1.0, 0.0), (-0.5, -half_root * v), (-0.5, half_root * v)],
        _ => panic!("no such type: {name}"),
    };
    // As in appendix A.2, each turn hands every phase on to the next and multiplies by a squared.
    let turn = |[a, b, c]: Phasors| [c, a, b].map(|(re, im)| (-0.5 * re + half_root * im, -half_root * re - 0.5 * im));
    match &name[1..] {
        "b" => turn(first),
        "c" => turn(turn(first)),
        _ => first,
    }
}

#[test]
fn types_of_the_synthetic_sags() {
    let names = ["A", "Da", "Db", "Dc", "Ca", "Cb", "Cc"];
    let vectors = lines(include_str!("../vectors/synthetic-sags.txt"));
    assert_eq!(vectors.len(), 7 * 8);
    for words in vectors {
        let class = names.iter().position(|name| *name == words[0]).unwrap() as u64;
        let v = number(words[1]);
        let healthy = phasors("A", 1.0);
        let course = [vec![healthy; 4], vec![phasors(words[0], v); 10], vec![healthy; 4]].concat();
        let samples = three_phase(&SETTINGS, &course);
        for (program, list) in LISTERS {
            let mut room = [0; 40];
            let events = list(&SETTINGS, &samples, &mut room).unwrap() as usize;
            let sags: Vec<&[u64]> = room[..WORDS * events].chunks(WORDS).filter(|event| event[0] == 1).collect();
            assert_eq!(sags.len(), 1, "{program} {words:?}");
            assert_eq!(sags[0][7], class, "{program}: type of {words:?}");
            assert_sag_of(sags[0].try_into().unwrap(), &words, program);
        }
    }
}

/// Retained voltage and severity: the printed ones for types A and D, the lowest phasor's magnitude for type C. The nearest
/// thousandth is half of one off at most, and the severity twice that; samples are whole numbers, which adds a little.
fn assert_sag_of(sag: Event, words: &[&str], program: &str) {
    let v = number(words[1]);
    let is_c = words[0].starts_with('C');
    let retained = if is_c { (0.25 + 0.75 * v * v).sqrt() } else { number(words[2]) };
    let severity = if is_c { 2.0 * (1.0 - retained) } else { number(words[3]) };
    assert!((sag[5] as f64 / 1000.0 - retained).abs() < 0.00051, "{program}: retained {} of {words:?}", sag[5]);
    for (scorer, set, score) in SCORERS {
        assert_near(score(&SETTINGS, set, &sag), severity, 0.00102, scorer, words);
    }
}
