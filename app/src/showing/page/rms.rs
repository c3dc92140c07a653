//! The curves of a recording: rms of each channel over time with the thresholds, its unknown stretches and its events.
//! The sums that the curves are drawn from are the library's, and so are the events, their peaks and what is unknown.
use super::svg::{at, esc, line, rect, step, text, whole, wide, WIDTH};
use crate::{
    answered::{Answer, Curve, Found, Part},
    showing::words,
};
use host::Settings;

const LEFT: f64 = 92.0;
const RIGHT: f64 = 136.0;
const TOP: f64 = 24.0;
const HEIGHT: f64 = 220.0;
const LANE: f64 = 22.0;
/// Columns of a long recording's curve: each is drawn from its least to its greatest value.
pub const COLUMNS: usize = (WIDTH - LEFT - RIGHT) as usize;
/// More events than this are drawn as plain bars, without ends, numbers and peaks: they are too close to tell apart.
const CROWD: usize = 200;

/// Where half-cycles of the whole recording and percents lie in the drawing.
struct Frame {
    first: f64,
    halves: f64,
    top: f64,
}

impl Frame {
    fn x(&self, k: f64) -> f64 {
        LEFT + (WIDTH - LEFT - RIGHT) * (k - self.first) / self.halves
    }

    fn y(&self, percent: f64) -> f64 {
        TOP + HEIGHT * (1.0 - percent.min(self.top) / self.top)
    }
}

/// The whole drawing.
pub fn chart(s: &Settings, answer: &Answer, part: &Part) -> String {
    let Some(picture) = &part.picture else { return String::new() };
    let highest = picture.curves.iter().flatten().flatten().map(|(_, most)| *most).fold(0.0, f64::max);
    let top = (highest.max(s.swell as f64) / 10.0).floor() * 10.0 + 10.0;
    let frame = Frame { first: part.first_half as f64, halves: (part.end() - part.first_half) as f64, top };
    let lanes = lanes(part);
    let mut inner = bands(&frame, &part.events) + &grid(&frame, s) + &thresholds(&frame, s);
    inner += &holes(&frame, &picture.unknown);
    for (curve, class) in picture.curves.iter().zip(words::CHANNELS) {
        inner += &format!(r#"<path class="curve {class}" d="{}"/>"#, path(&frame, curve));
    }
    if part.events.len() <= CROWD {
        inner += &peaks(&frame, &part.events);
    }
    for (at, kind) in lanes.iter().enumerate() {
        inner += &lane(&frame, *kind, at, &part.events);
    }
    let bottom = TOP + HEIGHT + LANE * lanes.len() as f64;
    inner += &time_axis(&frame, s, bottom + 8.0);
    whole(WIDTH, bottom + 44.0, &format!("rms of channels a, b and c over time: {}", answer.named(part)), &inner)
}

/// The kinds that the part has events of.
fn lanes(part: &Part) -> Vec<u64> {
    (1..=3).filter(|kind| part.events.iter().any(|event| event.kind == *kind)).collect()
}

/// A curve's path: each value held over its column, and in a long recording a stroke from the least to the greatest.
fn path(frame: &Frame, curve: &Curve) -> String {
    let mut path = String::new();
    let mut height = String::new();
    let wide = frame.halves / curve.len() as f64;
    for (column, value) in curve.iter().enumerate() {
        let Some((least, most)) = value else {
            height.clear();
            continue;
        };
        let x = |column: usize| frame.x(frame.first + column as f64 * wide);
        let (from, to) = (x(column), x(column + 1));
        let (low, high) = (at(frame.y(*least)), at(frame.y(*most)));
        if height.is_empty() {
            path += &format!("M{} {low}", at(from));
        } else if height != low {
            path += &format!("H{}V{low}", at(from));
        }
        if high != low {
            path += &format!("V{high}");
        }
        height = high;
        // A level stretch is one stroke: its end is written only where something follows that differs.
        let next = curve.get(column + 1).copied().flatten();
        if next.is_none_or(|(least, _)| at(frame.y(least)) != height) {
            path += &format!("H{}", at(to));
        }
    }
    path
}

fn grid(frame: &Frame, s: &Settings) -> String {
    let mut out = String::new();
    let apart = step(frame.top, 7.0);
    let mut percent = 0.0;
    while percent <= frame.top {
        let y = frame.y(percent);
        out += &line("grid", LEFT, y, WIDTH - RIGHT, y);
        out += &text("tick", "end", LEFT - 8.0, y + 4.0, &format!("{percent} %"));
        percent += apart;
    }
    for time in ticks(frame, s).0 {
        let x = frame.x(time * (2 * s.f) as f64);
        out += &line("grid", x, TOP, x, TOP + HEIGHT);
    }
    out
}

/// The times in seconds at which the axis has a tick, and how far they are apart.
fn ticks(frame: &Frame, s: &Settings) -> (Vec<f64>, f64) {
    let pace = (2 * s.f) as f64;
    let apart = step(frame.halves / pace, 9.0);
    let (first, last) = (frame.first / pace / apart, (frame.first + frame.halves) / pace / apart);
    let ticks = (first - 1e-9).ceil() as u64..=(last + 1e-9) as u64;
    (ticks.map(|tick| tick as f64 * apart).collect(), apart)
}

fn time_axis(frame: &Frame, s: &Settings, y: f64) -> String {
    let (times, apart) = ticks(frame, s);
    let digits = match apart {
        apart if apart < 0.01 => 3,
        apart if apart < 0.1 => 2,
        apart if apart < 1.0 => 1,
        _ => 0,
    };
    let label =
        |time: f64| text("tick", "middle", frame.x(time * (2 * s.f) as f64), y + 12.0, &format!("{time:.digits$}"));
    let labels: String = times.into_iter().map(label).collect();
    labels + &text("tick", "middle", frame.x(frame.first + frame.halves / 2.0), y + 28.0, "seconds")
}

/// A line at each threshold, and the band of its hysteresis.
fn thresholds(frame: &Frame, s: &Settings) -> String {
    let mut out = String::new();
    let kinds = [
        ("swell", s.swell, s.swell - s.hysteresis, format!("swell > {} %", s.swell)),
        ("sag", s.sag, s.sag + s.hysteresis, format!("sag < {} %", s.sag)),
        ("interruption", s.interruption, s.interruption + s.hysteresis, format!("interruption < {} %", s.interruption)),
    ];
    // From the top down: with a large swell the thresholds draw together, and their names must not lie on each other.
    let mut free = f64::MIN;
    for (class, begins, ends, said) in kinds {
        let (y, back) = (frame.y(begins as f64), frame.y(ends as f64));
        out += &rect(&format!("back {class}"), LEFT, y.min(back), WIDTH - LEFT - RIGHT, (y - back).abs());
        out += &line(&format!("threshold {class}"), LEFT, y, WIDTH - RIGHT, y);
        let word = if ends > begins { y + 9.0 } else { y - 1.0 }.max(free);
        out += &text(&format!("name {class}"), "start", WIDTH - RIGHT + 6.0, word, &said);
        free = word + 13.0;
    }
    out
}

/// Unknown stretches, hatched over the whole height and named where the name finds room.
fn holes(frame: &Frame, unknown: &[(u64, u64)]) -> String {
    let (mut out, mut drawn, mut named) = (String::new(), f64::MIN, f64::MIN);
    for (start, end) in unknown {
        let (from, to) = (frame.x(*start as f64), frame.x(*end as f64));
        if to < drawn + 0.5 {
            continue;
        }
        out += &rect("hole", from, TOP, (to - from).max(1.0), HEIGHT);
        drawn = to;
        let said = format!("unknown {start}-{}", end - 1);
        // Bold letters, which are wider.
        let half = 1.2 * wide(&said) / 2.0;
        let middle = ((from + to) / 2.0).clamp(LEFT + half, WIDTH - RIGHT - half);
        if middle - half > named {
            out += &text("name unknown", "middle", middle, TOP - 8.0, &said);
            named = middle + half + 8.0;
        }
    }
    out
}

/// A tint behind the curves from launch to landing.
fn bands(frame: &Frame, events: &[Found]) -> String {
    let (mut out, mut drawn) = (String::new(), [f64::MIN; 4]);
    for event in events {
        let (from, to) = (frame.x(event.start as f64), frame.x(event.end as f64));
        let drawn = &mut drawn[event.kind.min(3) as usize];
        if to >= *drawn + 1.0 {
            out += &rect(&format!("band {}", words::kind(event.kind)), from, TOP, (to - from).max(1.0), HEIGHT);
            *drawn = to;
        }
    }
    out
}

/// A ring where an event's extreme occurs, at its retained value.
fn peaks(frame: &Frame, events: &[Found]) -> String {
    let (mut out, mut last) = (String::new(), f64::MIN);
    for event in events.iter().filter(|event| event.kind != 2) {
        let Some((k, _)) = event.close.as_ref().and_then(|close| close.peak) else { continue };
        let (x, y) = (frame.x(k as f64 + 0.5), frame.y(event.retained as f64 / 10.0));
        if x >= last + 3.0 {
            out +=
                &format!(r#"<circle class="peak {}" cx="{}" cy="{}" r="4"/>"#, words::kind(event.kind), at(x), at(y));
            last = x;
        }
    }
    out
}

/// The events of one kind, each a bar from launch to landing with its number; a seen end is a post, an unseen one is open.
fn lane(frame: &Frame, kind: u64, place: usize, events: &[Found]) -> String {
    let name = words::kind(kind);
    let top = TOP + HEIGHT + LANE * place as f64 + 9.0;
    let mut out = text(&format!("name {name}"), "end", LEFT - 8.0, top + 12.0, name);
    let (mut drawn, mut named) = (f64::MIN, f64::MIN);
    for (number, event) in events.iter().enumerate().filter(|(_, event)| event.kind == kind) {
        let (from, to) = (frame.x(event.start as f64), frame.x(event.end as f64));
        if to < drawn + 1.0 {
            continue;
        }
        drawn = to;
        if events.len() > CROWD {
            out += &rect(&format!("bar {name}"), from, top + 4.0, (to - from).max(1.0), 8.0);
            continue;
        }
        out += &bar(name, from, to, top, event, number + 1);
        let said = (number + 1).to_string();
        if to + 4.0 > named {
            out += &text(&format!("name {name}"), "start", to + 5.0, top + 12.0, &said);
            named = to + 10.0 + wide(&said);
        }
    }
    out
}

fn bar(name: &str, from: f64, to: f64, top: f64, event: &Found, number: usize) -> String {
    let title = format!("event {number}: {name}, half-cycles {} to {}", event.start, event.end);
    let mut out = format!("<g><title>{}</title>", esc(&title));
    out += &rect(&format!("bar {name}"), from, top + 4.0, (to - from).max(1.5), 8.0);
    for (x, seen) in [(from, event.seen & 1), (to, event.seen & 2)] {
        let class = if seen == 0 { "open" } else { "post" };
        out += &line(&format!("{class} {name}"), x, top, x, top + 16.0);
    }
    out + "</g>"
}
