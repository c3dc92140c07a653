//! Retained value against duration, on a logarithmic axis, with the severity curve.
use super::{
    contents::Contents,
    svg::{at, esc, line, step, text, whole, wide, WIDTH},
};
use crate::{
    answered::{Found, Part},
    showing::words,
};
use host::Settings;
use std::collections::BTreeSet;

const LEFT: f64 = 60.0;
const RIGHT: f64 = 24.0;
const TOP: f64 = 14.0;
const HEIGHT: f64 = 250.0;
/// More points than this have no numbers beside them.
const NAMED: usize = 40;

/// Where durations and retained values lie in the drawing.
struct Frame {
    /// Half-cycles in a second.
    pace: f64,
    /// The powers of ten, in seconds, at which the axis begins and ends.
    decades: (f64, f64),
    top: f64,
}

impl Frame {
    fn x(&self, halves: f64) -> f64 {
        let (first, last) = self.decades;
        LEFT + (WIDTH - LEFT - RIGHT) * ((halves / self.pace).log10() - first) / (last - first)
    }

    fn y(&self, thousandths: f64) -> f64 {
        TOP + HEIGHT * (1.0 - thousandths.min(self.top) / self.top)
    }
}

/// The whole drawing: the events of all recordings, each named by its recording and its number there.
pub fn chart(s: &Settings, contents: &Contents) -> String {
    let parts: Vec<&Part> = contents.recordings.iter().flat_map(|shown| &shown.answer.parts).collect();
    let events = || parts.iter().flat_map(|part| part.events.iter());
    let longest = events().map(Found::halves).max().unwrap_or(1) as f64 / (2 * s.f) as f64;
    let highest = events().map(|event| event.retained).max().unwrap_or(0).max(s.swell * 10) as f64;
    let frame = Frame {
        pace: (2 * s.f) as f64,
        // To 100 s at least, so that the curve's last step is seen.
        decades: (-2.3, longest.log10().floor().max(1.0) + 1.0),
        top: (highest / 100.0).floor() * 100.0 + 100.0,
    };
    let inner = grid(&frame) + &curve(&frame, contents.curve) + &points(&frame, &parts) + &legend(TOP + HEIGHT + 50.0);
    whole(WIDTH, TOP + HEIGHT + 60.0, "retained value against duration, with the severity curve", &inner)
}

fn grid(frame: &Frame) -> String {
    let mut out = String::new();
    let apart = step(frame.top, 8.0);
    for tick in 0..=(frame.top / apart) as usize {
        let y = frame.y(tick as f64 * apart);
        out += &line("grid", LEFT, y, WIDTH - RIGHT, y);
        out += &text("tick", "end", LEFT - 8.0, y + 4.0, &format!("{} %", tick as f64 * apart / 10.0));
    }
    let (first, last) = (frame.decades.0.ceil() as i32, frame.decades.1 as i32);
    for power in first..=last {
        let x = frame.x(frame.pace * 10f64.powi(power));
        let (said, anchor) = match power {
            -2 => ("0.01 s".to_string(), "middle"),
            -1 => ("0.1 s".to_string(), "middle"),
            power if power == last => (format!("{} s", 10i64.pow(power as u32)), "end"),
            power => (format!("{} s", 10i64.pow(power as u32)), "middle"),
        };
        out += &line("grid", x, TOP, x, TOP + HEIGHT);
        out += &text("tick", anchor, x, TOP + HEIGHT + 16.0, &said);
    }
    out
}

/// The curve, and the field under it, where severity is above 1.
fn curve(frame: &Frame, steps: &[(u64, u64)]) -> String {
    let mut path = String::new();
    for (halves, value) in steps {
        // The first step reaches back to the axis, and what lies beyond the drawing is left out.
        let x = if path.is_empty() { LEFT } else { frame.x(*halves as f64) };
        let y = at(frame.y(*value as f64));
        match x {
            x if x >= WIDTH - RIGHT => break,
            x if path.is_empty() => path = format!("M{} {y}", at(x)),
            x => path += &format!("H{}V{y}", at(x)),
        }
    }
    path += &format!("H{}", at(WIDTH - RIGHT));
    let (bottom, left) = (at(TOP + HEIGHT), at(LEFT));
    let mut out = format!(r#"<path class="under" d="{path}V{bottom}H{left}Z"/><path class="severity" d="{path}"/>"#);
    let said = "under this curve, severity is above 1";
    out += &text("name severity", "end", WIDTH - RIGHT - 8.0, TOP + HEIGHT - 10.0, said);
    out
}

fn points(frame: &Frame, parts: &[&Part]) -> String {
    let count: usize = parts.iter().map(|part| part.events.len()).sum();
    let (mut shapes, mut taken, mut names) = ([String::new(), String::new()], BTreeSet::new(), Vec::new());
    for (recording, part) in parts.iter().enumerate() {
        for (number, event) in part.events.iter().enumerate() {
            let (x, y) = (frame.x(event.halves() as f64), frame.y(event.retained as f64));
            let scored = event.reason == 0;
            // Points on top of each other look like one: the first of them is enough, and the page stays small.
            if count > NAMED && !taken.insert((x as i64, y as i64, event.kind, scored)) {
                continue;
            }
            let name = format!("{}.{}", recording + 1, number + 1);
            let title = format!("{name}: {}, {}", words::kind(event.kind), words::reason(event.reason));
            let shape = format!("<g><title>{}</title>{}</g>", esc(&title), mark(event.kind, scored, x, y));
            shapes[usize::from(scored)] += &shape;
            names.push((x, y, name));
        }
    }
    // Those with a score on top.
    let mut out = shapes.concat();
    if count <= NAMED {
        out += &named(&names);
    }
    out
}

/// The points' names, each beside, above or below its point, where it stays in the drawing and meets no other point and no
/// other name.
fn named(points: &[(f64, f64, String)]) -> String {
    let mut boxes: Vec<(f64, f64, f64)> = points.iter().map(|(x, y, _)| (*x, *y, 7.0)).collect();
    let mut out = String::new();
    for (x, y, name) in points {
        let half = wide(name) / 2.0;
        let spots = [(x + 9.0 + half, *y), (*x, y - 14.0), (*x, y + 15.0), (x - 9.0 - half, *y)];
        let inside = |(nx, _): &&(f64, f64)| nx + half < WIDTH;
        let free = |(nx, ny): &&(f64, f64)| {
            let meets = |(bx, by, wide): &(f64, f64, f64)| (nx - bx).abs() < wide + half && (ny - by).abs() < 13.0;
            !boxes.iter().any(meets)
        };
        let spot = spots.iter().filter(inside).find(free).or(spots.iter().find(inside));
        let (nx, ny) = spot.copied().unwrap_or(spots[0]);
        boxes.push((nx, ny, half));
        out += &text("tick halo", "middle", nx, ny + 4.0, name);
    }
    out
}

/// A shape for each kind, filled where the event has a score.
fn mark(kind: u64, scored: bool, x: f64, y: f64) -> String {
    let class = format!("{} {}", words::kind(kind), if scored { "scored" } else { "unscored" });
    let shape = |points: &[(f64, f64)]| {
        let points: Vec<String> = points.iter().map(|(dx, dy)| format!("{},{}", at(x + dx), at(y + dy))).collect();
        format!(r#"<polygon class="mark {class}" points="{}"/>"#, points.join(" "))
    };
    match kind {
        1 => format!(r#"<circle class="mark {class}" cx="{}" cy="{}" r="5"/>"#, at(x), at(y)),
        2 => shape(&[(-5.0, -5.0), (5.0, -5.0), (5.0, 5.0), (-5.0, 5.0)]),
        _ => shape(&[(0.0, -6.0), (6.0, 5.0), (-6.0, 5.0)]),
    }
}

fn legend(y: f64) -> String {
    let mut x = LEFT + 6.0;
    let mut out = String::new();
    let entries =
        [(1, true, "sag, scored"), (1, false, "sag without a score"), (2, false, "interruption"), (3, false, "swell")];
    for (kind, scored, said) in entries {
        out += &mark(kind, scored, x, y - 4.0);
        out += &text("tick", "start", x + 11.0, y, said);
        x += wide(said) + 42.0;
    }
    out + &text("tick", "end", WIDTH - RIGHT, y, "numbers: recording.event")
}
