//! Three training recordings that the program carries with it, each made for an error that trainees make.
use super::{
    args::{Args, Takes},
    report::{now, wish},
};
use crate::{
    answered::grid,
    asking::{self, curve},
    failure::Failure,
    keeping::page as kept,
    reading::{
        self,
        recording::{Recording, MISSING},
    },
    showing::{
        page::{
            self,
            contents::{Contents, Shown},
        },
        paint::Paint,
        text, words,
    },
    terminal::Said,
};
use host::Settings;
use std::{f64::consts::TAU, path::Path};

pub const TAKES: Takes =
    Takes { files: &[], many: false, settings: false, values: &["--borders"], flags: &["--save", "--force"] };

const SETTINGS: Settings = Settings { n: 64, r: 23_000, f: 50, sag: 90, interruption: 10, swell: 110, hysteresis: 2 };

/// Half cycles of samples in each recording.
const BLOCKS: usize = 100;

/// A recording and the error that it is for.
struct Lesson {
    file: &'static str,
    error: &'static str,
    /// Stretches of half cycles, from and up to, in which a, b and c stand at these percents of R; 100 elsewhere.
    levels: &'static [(usize, usize, [f64; 3])],
    /// Samples that are missing, from and up to, on channel b.
    missing: (usize, usize),
}

const LESSONS: [Lesson; 3] = [
    Lesson {
        file: "demo-1-slow-recovery.csv",
        error:
            "The error: ending the sag at 90 %. It lands only where all channels are back at 92 %, the threshold plus \
                the hysteresis, so the half-cycles at 91 % belong to it and make it longer. They add no shortfall. \
                (--hysteresis 0 shows what the error would give.)",
        levels: &[(20, 28, [60.0, 97.0, 97.0]), (28, 60, [91.0, 100.0, 100.0])],
        missing: (0, 0),
    },
    Lesson {
        file: "demo-2-gap.csv",
        error:
            "The error: taking a gap for good voltage, or for more of the sag. Nobody saw the sag end or begin there: \
                that makes two sags, each with an unseen end, without a score and unplaced.",
        levels: &[(25, 65, [55.0, 56.0, 55.0])],
        missing: (1250, 1500),
    },
    Lesson {
        file: "demo-3-blackout.csv",
        error:
            "The error: scoring the interruption. The sag around it takes the score and the cell, and the interruption \
                is counted beside it. The swell on channel b alone is an event of its own.",
        levels: &[
            (18, 20, [48.0, 50.0, 49.0]),
            (20, 30, [3.0, 3.0, 3.0]),
            (30, 34, [82.0, 80.0, 83.0]),
            (60, 74, [100.0, 117.0, 100.0]),
        ],
        missing: (0, 0),
    },
];

/// A lesson's samples: three sines a third of a cycle apart.
fn recording(lesson: &Lesson) -> Recording {
    let n = SETTINGS.n as usize;
    let mut samples = Vec::with_capacity(3 * BLOCKS * n / 2);
    for at in 0..BLOCKS * n / 2 {
        let block = at / (n / 2);
        let level = lesson.levels.iter().find(|(from, to, _)| (*from..*to).contains(&block));
        let percents = level.map_or([100.0; 3], |(_, _, percents)| *percents);
        for (channel, percent) in percents.iter().enumerate() {
            let angle = TAU * (at as f64 / n as f64 - channel as f64 / 3.0);
            let peak = SETTINGS.r as f64 * 2f64.sqrt() * percent / 100.0;
            let lost = channel == 1 && (lesson.missing.0..lesson.missing.1).contains(&at);
            samples.push(if lost { MISSING } else { (peak * angle.sin()).round() as i32 });
        }
    }
    Recording { name: lesson.file.to_string(), samples, first_line: Some(2), fingerprint: None }
}

/// The `demo` command.
pub fn run(args: &Args) -> Result<Said, Failure> {
    let (s, paint, out) = (&SETTINGS, Paint::stdout(), Path::new("demo.html"));
    let (set, save, force) = (args.borders()?, args.flag("--save"), args.flag("--force"));
    let made: Vec<(&Lesson, Recording)> = LESSONS.iter().map(|lesson| (lesson, recording(lesson))).collect();
    // All that is to be written is held against what is there before any of it is written.
    kept::may_go(out, page::MARK, force)?;
    for (lesson, recording) in made.iter().filter(|_| save) {
        kept::may_go_as(Path::new(lesson.file), as_csv(recording).as_bytes())?;
    }
    let (_, mut table) = host::fresh(s, set);
    let (mut said, mut recordings) = (format!("Settings: {}\n", words::settings(s)), Vec::new());
    for (lesson, recording) in &made {
        let answer = asking::about(s, set, recording, wish(false))?;
        said += &format!("\n{}{}\n", text::list(s, &answer, &paint), text::wrapped(lesson.error, "  "));
        asking::add(&mut table, recording, false)?;
        let bytes = as_csv(recording);
        let fingerprint = Some(reading::fingerprint(bytes.as_bytes()));
        recordings.push(Shown { answer, fingerprint, note: lesson.error.to_string() });
        if save {
            kept::write_as(Path::new(lesson.file), bytes.as_bytes())?;
        }
    }
    said += &format!("\n{}", text::table("demo", &table, &paint));
    let curve = curve::steps(s);
    let contents =
        Contents { name: "demo", table: &table, holds: true, recordings: &recordings, curve: &curve, made: now() };
    kept::write(out, &page::page(&contents), page::MARK, force)?;
    said += "\ndemo.html: written, the same as a page for the browser or the printer\n";
    Ok(Said::after("demo.html: the page was written".into(), said + &saved(save, set)))
}

fn saved(save: bool, set: u64) -> String {
    if !save {
        return String::new();
    }
    let files: Vec<&str> = LESSONS.iter().map(|lesson| lesson.file).collect();
    let borders = if set == grid::FIRST { String::new() } else { format!(" --borders {}", grid::of(set).word) };
    format!(
        "{}: written. To go on:\n    burrcradle new depot.site --n {} --r {} --f {}{borders}\n    burrcradle add depot.site demo-*.csv\n",
        files.join(", "),
        SETTINGS.n,
        SETTINGS.r,
        SETTINGS.f
    )
}

fn as_csv(recording: &Recording) -> String {
    let field = |sample: &i32| if *sample == MISSING { String::new() } else { sample.to_string() };
    let line = |three: &[i32]| three.iter().map(field).collect::<Vec<_>>().join(",") + "\n";
    "a,b,c\n".to_string() + &recording.samples.chunks(3).map(line).collect::<String>()
}
