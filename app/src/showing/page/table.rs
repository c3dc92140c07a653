//! The site's table: its half-cycles as one bar, its sags as a heat map.
use super::svg::{esc, line, rect, text, whole, WIDTH};
use crate::answered::table::{cells, counts, grid};
use host::Table;

/// Healthy, disturbed and unknown half-cycles as one bar, which shrinks with the page. Unknown is hatched, has the colour of
/// neither, and is never too narrow to be seen.
pub fn bar(table: &Table) -> String {
    let c = counts(table);
    let classes = [("healthy", c.healthy), ("disturbed", c.disturbed), ("unknown", c.unknown)];
    let percent = |count: u64| if c.total == 0 { 0.0 } else { 100.0 * count as f64 / c.total as f64 };
    let share = |(class, count): (&str, u64)| match count {
        0 => String::new(),
        count => format!(r#"<i class="share {class}" style="flex-grow:{:.4}"></i>"#, percent(count)),
    };
    let key = |(class, count): (&str, u64)| {
        format!(r#"<span><i class="share {class}"></i>{class} {count} ({:.1} %)</span>"#, percent(count))
    };
    let shows = format!("{} healthy, {} disturbed, {} unknown half-cycles", c.healthy, c.disturbed, c.unknown);
    let (shares, keys) = (classes.map(share).concat(), classes.map(key).concat());
    format!(
        r#"<div class="shares" role="img" aria-label="{}">{shares}</div><p class="share-keys">{keys}</p>"#,
        esc(&shows)
    )
}

/// The sags by depth and duration in the grid of the table's own set, darker where there are more, each cell with its count.
pub fn heat(table: &Table) -> String {
    let grid = grid(table);
    let (left, top, wide, high) = (130.0, 24.0, (WIDTH - 130.0) / grid.columns.len() as f64, 34.0);
    let most = cells(table).iter().copied().max().unwrap_or(0);
    let mut out = String::new();
    for (column, said) in grid.columns.iter().enumerate() {
        out += &text("tick", "middle", left + (column as f64 + 0.5) * wide, top - 9.0, said);
    }
    for (cell, count) in (0..).zip(cells(table)) {
        let (row, column) = grid.place(cell);
        let (x, y) = (left + column as f64 * wide, top + row as f64 * high);
        let level = level(*count, most);
        out += &rect(&format!("cell heat{level}"), x + 1.0, y + 1.0, wide - 2.0, high - 2.0);
        out += &text(&format!("count heat{level}"), "middle", x + wide / 2.0, y + 22.0, &count.to_string());
    }
    for row in 0..grid.rows() {
        out += &text("tick", "end", left - 10.0, top + (row as f64 + 0.5) * high + 4.0, &grid.row(row));
    }
    let bottom = top + grid.rows() as f64 * high;
    out += &line("grid", left, bottom + 1.0, WIDTH, bottom + 1.0);
    whole(WIDTH, bottom + 4.0, &format!("sags by depth and duration, borders {}", grid.title), &out)
}

/// A shade from 0, for none, to 5, for the most, by the count's logarithm.
fn level(count: u64, most: u64) -> u32 {
    match (count, most) {
        (0, _) => 0,
        (_, 1) => 2,
        (count, most) => 1 + (4.0 * (count as f64).ln() / (most as f64).ln()).round() as u32,
    }
}
