//! Pieces of SVG.

/// The width of every drawing.
pub const WIDTH: f64 = 960.0;

/// Text that may hold any character, for HTML and SVG.
pub fn esc(text: &str) -> String {
    text.replace('&', "&amp;").replace('<', "&lt;").replace('>', "&gt;").replace('"', "&quot;")
}

/// A coordinate, to a tenth: finer is not seen, and the page stays small.
pub fn at(x: f64) -> String {
    let text = format!("{x:.1}");
    text.strip_suffix(".0").map_or(text.clone(), String::from)
}

pub fn rect(class: &str, x: f64, y: f64, width: f64, height: f64) -> String {
    format!(
        r#"<rect class="{class}" x="{}" y="{}" width="{}" height="{}"/>"#,
        at(x),
        at(y),
        at(width.max(0.0)),
        at(height.max(0.0))
    )
}

pub fn line(class: &str, x1: f64, y1: f64, x2: f64, y2: f64) -> String {
    format!(r#"<line class="{class}" x1="{}" y1="{}" x2="{}" y2="{}"/>"#, at(x1), at(y1), at(x2), at(y2))
}

/// Text at a point: `anchor` is start, middle or end.
pub fn text(class: &str, anchor: &str, x: f64, y: f64, said: &str) -> String {
    format!(r#"<text class="{class}" text-anchor="{anchor}" x="{}" y="{}">{}</text>"#, at(x), at(y), esc(said))
}

/// A drawing of that size, with what it shows for those who don't see it.
pub fn whole(width: f64, height: f64, shows: &str, inner: &str) -> String {
    format!(r#"<svg viewBox="0 0 {} {}" role="img" aria-label="{}">{inner}</svg>"#, at(width), at(height), esc(shows))
}

/// About how wide a text of this many characters is, at the size of the drawings' labels.
pub fn wide(said: &str) -> f64 {
    6.2 * said.chars().count() as f64
}

/// A step of 1, 2 or 5 times a power of ten that cuts the span into at most that many pieces.
pub fn step(span: f64, pieces: f64) -> f64 {
    let least = (span / pieces).max(1e-9);
    let power = 10f64.powf(least.log10().floor());
    let factor = [1.0, 2.0, 5.0, 10.0].into_iter().find(|factor| factor * power >= least * 0.999_999);
    factor.unwrap_or(10.0) * power
}
