//! The report: well formed, by itself, true to the library's answers, and small for long recordings.
mod common;
use common::{blocks, csv, k2, raw, Folder, MISSING};

/// A page over the recordings, for a site to which they were added.
fn page(folder: &Folder, files: &[&str]) -> String {
    folder.site("x.site");
    folder.accepted(&[&["add", "x.site"][..], files].concat());
    folder.accepted(&[&["report", "x.site"][..], files, &["-o", "x.html"]].concat());
    folder.read("x.html")
}

/// The names of the open tags at each point close in order, and none is left open.
fn assert_well_formed(page: &str) {
    let mut open: Vec<String> = Vec::new();
    let mut rest = page.split_once("<!DOCTYPE html>").expect("a doctype").1;
    while let Some((_, tag)) = rest.split_once('<') {
        let (tag, after) = tag.split_once('>').expect("a tag that ends");
        rest = after;
        let name: String = tag.trim_start_matches('/').chars().take_while(|c| c.is_alphanumeric()).collect();
        if let Some(closed) = tag.strip_prefix('/') {
            assert_eq!(open.pop().as_deref(), Some(closed), "closed out of order");
        } else if !tag.ends_with('/') && name != "meta" {
            open.push(name);
        }
    }
    assert_eq!(open, Vec::<String>::new());
}

fn gap() -> Vec<i32> {
    let mut samples = blocks(&[1000, 1000, 500, 500, 500, 500, 1000, 1000]);
    samples[48] = MISSING;
    samples
}

#[test]
fn one_file_without_scripts_or_links() {
    let folder = Folder::new("report-alone");
    folder.write("k.csv", csv(&gap()));
    folder.write("a<b>&\"c\".csv", csv(&k2()));
    let page = page(&folder, &["k.csv", "a<b>&\"c\".csv"]);
    assert_well_formed(&page);
    let low = page.to_lowercase();
    for foreign in ["<script", "javascript:", "http:", "https:", "src=", "href=", "@import", "onload", "<link"] {
        assert!(!low.contains(foreign), "{foreign}");
    }
    assert!(page.contains("a&lt;b&gt;&amp;&quot;c&quot;.csv"), "names are text, whatever they hold");
    for style in ["prefers-color-scheme: dark", "size: A4", "@media print"] {
        assert!(page.contains(style), "{style}");
    }
}

#[test]
fn unknown_is_hatched_named_and_never_green() {
    let folder = Folder::new("report-unknown");
    folder.write("k.csv", csv(&gap()));
    let page = page(&folder, &["k.csv"]);
    assert_eq!(page.matches("class=\"hole\"").count(), 1);
    assert!(page.contains(">unknown 3-4</text>"));
    assert!(page.contains("half-cycles 3 to 4 (0.030 s to 0.050 s)"));
    assert!(page.contains("unknown 2 (28.6 %)"));
    assert!(page.contains(".hole { fill: url(#hatch); }"));
    assert!(page.contains(
        ".share.unknown { background: repeating-linear-gradient(45deg, var(--hatch) 0 2px, var(--hatch-ground)"
    ));
    assert_eq!(page.matches(".share.unknown").count(), 1, "no second rule gives it a colour");
    let colour = |name: &str| page.split_once(&format!("--{name}: ")).unwrap().1.split(';').next().unwrap().to_string();
    let parts = |hex: String| [1, 3, 5].map(|at| i32::from_str_radix(&hex[at..at + 2], 16).unwrap());
    for name in ["hatch", "hatch-ground"] {
        let [red, green, blue] = parts(colour(name));
        assert!(green <= red.max(blue), "{name} is green: {red} {green} {blue}");
    }
}

#[test]
fn events_and_cells_are_the_librarys() {
    let folder = Folder::new("report-events");
    folder.write("k6.csv", csv(&blocks(&[1000, 1000, 0, 0, 1000, 1000])));
    folder.write("k9.csv", csv(&gap()));
    folder.write("k10.csv", csv(&blocks(&[1000, 1000, 1200, 1200, 1000, 1000])));
    let page = page(&folder, &["k6.csv", "k9.csv", "k10.csv"]);
    for (class, count) in [("bar sag", 3 + 3), ("bar interruption", 1), ("bar swell", 1)] {
        // The key of each of the three drawings has a bar too.
        assert_eq!(page.matches(&format!("class=\"{class}\"")).count(), count, "{class}");
    }
    // In the drawings: two sags without a score, one with it; and one of each in the key.
    assert_eq!(page.matches("class=\"mark sag scored\"").count(), 1 + 1);
    assert_eq!(page.matches("class=\"mark sag unscored\"").count(), 2 + 1);
    for words in ["reason 1: only the start unseen", "reason 2: only the end unseen", "reason 4: not a sag"] {
        assert!(page.contains(words), "{words}");
    }
    assert!(page.contains(
        "<td>2.000</td><td>0.060 s</td><td><i>a 0.020 s</i><i>b 0.020 s</i><i>c 0.020 s</i></td>\
         <td>cell 1<i>row 0 (at most 10 %), column 1 (&lt; 0.1 s)</i>"
    ));
    let counts: Vec<&str> = page
        .split("class=\"count heat")
        .skip(1)
        .map(|rest| rest.split_once('>').unwrap().1.split('<').next().unwrap())
        .collect();
    assert_eq!(counts.len(), 40);
    let told = folder.accepted(&["show", "x.site", "--csv"]);
    for (at, count) in counts.iter().enumerate() {
        assert!(told.contains(&format!("\ncell-{at},{count}\n")), "cell {at}: {count}");
    }
}

/// A sag one sample below 90 percent is 90.0 percent to the nearest tenth, K9's second one 79.1: the page says how it rounds, and
/// that nothing is decided by it.
#[test]
fn a_retained_value_has_its_tenth() {
    let folder = Folder::new("report-tenth");
    let mut samples = blocks(&[1000, 1000, 900, 900, 1000, 1000]);
    samples[24] = 899;
    folder.write("k.csv", csv(&samples));
    folder.write("k9.csv", csv(&gap()));
    let page = page(&folder, &["k.csv", "k9.csv"]);
    for retained in ["90.0 %", "50.0 %", "79.1 %"] {
        assert_eq!(page.matches(&format!("<td>{retained}</td>")).count(), 1, "{retained}");
    }
    assert!(
        page.contains("A retained value is the nearest tenth of a percent of R, halves upward; thresholds and rows")
    );
}

/// The drawing of depth against duration.
fn scatter(page: &str) -> &str {
    page.split_once("Depth against duration").unwrap().1.split_once("</svg>").unwrap().0
}

/// Where the drawing has so many half-cycles at 50 Hz: its axis goes from 10^-2.3 s to 10^last s, from 60 to 936.
fn x_of(half_cycles: f64, last: f64) -> f64 {
    60.0 + 876.0 * ((half_cycles / 100.0).log10() + 2.3) / (last + 2.3)
}

/// The curve comes from the library's scores: at 50 Hz it steps at 3, 21, 51 and 1001 half-cycles, to 50, 70, 80 and 90
/// percent, and the last step is in the drawing: that goes on to 100 s, though the one sag is short.
#[test]
fn the_severity_curve_has_five_levels() {
    let folder = Folder::new("report-curve");
    folder.write("k.csv", csv(&k2()));
    let page = page(&folder, &["k.csv"]);
    assert!(scatter(&page).contains("x=\"936\" y=\"280\">100 s</text>"), "{}", scatter(&page));
    let path = page.split_once("<path class=\"severity\" d=\"").unwrap().1.split('"').next().unwrap();
    let mut steps = path.strip_prefix("M60 264").unwrap_or_else(|| panic!("{path}")).split('H').skip(1);
    for (first, level) in [(3.0, 500.0), (21.0, 700.0), (51.0, 800.0), (1001.0, 900.0)] {
        let (x, y) = steps.next().and_then(|step| step.split_once('V')).unwrap_or_else(|| panic!("{path}"));
        let [x, y] = [x, y].map(|number| number.parse::<f64>().unwrap());
        // The drawing is 250 high for 120 percent, and has one digit after the point.
        assert!((x - x_of(first, 2.0)).abs() < 0.06 && (y - (264.0 - level * 250.0 / 1200.0)).abs() < 0.06, "{path}");
    }
    assert_eq!(steps.collect::<Vec<_>>(), ["936"], "{path}");
    let told = "The curve stands at 0 % up to 0.020 s, 50 % up to 0.200 s, 70 % up to 0.500 s, 80 % up to 10.000 s and 90 % beyond.";
    assert!(page.contains(told), "{page}");
}

/// The drawing goes as far as the longest sag, and its point and name stay in it: one of 60 s, one of a little more than 100 s,
/// and one that fills the longest recording but for a half-cycle at either end.
#[test]
fn a_long_sag_is_drawn_inside() {
    for (lasts, axis, last) in [(6_000, "100 s", 2.0), (10_010, "1000 s", 3.0), (99_998, "1000 s", 3.0)] {
        let folder = Folder::new("report-long-sag");
        let mut levels = vec![600; lasts + 3];
        levels[..2].fill(1000);
        levels[lasts + 1..].fill(1000);
        folder.write("k.i32", raw(&blocks(&levels)));
        let page = page(&folder, &["k.i32"]);
        let chart = scatter(&page);
        assert!(chart.contains(&format!("x=\"936\" y=\"280\">{axis}</text>")), "{chart}");
        let number = |after: &str, name: &str| {
            let rest = chart.split_once(after).unwrap_or_else(|| panic!("{after}: {chart}")).1;
            rest.split_once(&format!("{name}=\"")).unwrap().1.split('"').next().unwrap().parse::<f64>().unwrap()
        };
        let x = number("<circle class=\"mark sag scored\"", "cx");
        assert!((x - x_of(lasts as f64, last)).abs() < 0.06 && x <= 936.0, "{lasts}: {x}");
        // Its severity is the curve's last step's: (1000 - 600) / (1000 - 900).
        assert!(page.contains("<td>4.000</td>"), "{page}");
        let name = number("<text class=\"tick halo\"", "x");
        assert!((0.0..=960.0 - 3.0 * 6.2 / 2.0).contains(&name), "{lasts}: {name}");
    }
}

/// A wrong R makes swells of many times R: the axes stay readable.
#[test]
fn the_axis_of_depth_has_few_labels() {
    let folder = Folder::new("report-axis");
    folder.write("k.csv", csv(&blocks(&[1000, 1000, 23_000, 23_000, 1000, 1000])));
    let page = page(&folder, &["k.csv"]);
    let chart = scatter(&page);
    assert!(chart.matches(" %</text>").count() <= 10, "{chart}");
    assert!(chart.contains(">2000 %</text>"), "{chart}");
    // The names of the thresholds draw together, and don't lie on each other.
    let height = |name: &str| {
        let label = page.split(&format!("<text class=\"name {name}\" text-anchor=\"start\"")).nth(1).unwrap();
        label.split("y=\"").nth(1).unwrap().split('"').next().unwrap().parse::<f64>().unwrap()
    };
    let [swell, sag, interruption] = ["swell", "sag", "interruption"].map(height);
    assert!(swell + 12.0 < sag && sag + 12.0 < interruption, "{swell} {sag} {interruption}");
}

#[test]
fn a_long_recording_makes_a_small_page() {
    let folder = Folder::new("report-long");
    // Each half cycle at another level, with sags, swells and gaps all over.
    let level = |k: u64| 300 + (k * 7919 % 1000) as i32;
    let mut samples = blocks(&(0..100_001).map(level).collect::<Vec<_>>());
    samples.iter_mut().step_by(9973).for_each(|sample| *sample = MISSING);
    folder.write("long.i32", raw(&samples));
    let page = page(&folder, &["long.i32"]);
    assert_well_formed(&page);
    assert!(page.len() < 400_000, "{} bytes", page.len());
    assert!(page.contains("more events: <code>burrcradle list</code> has them all"));
}

#[test]
fn a_report_adds_nothing() {
    let folder = Folder::new("report-adds-nothing");
    folder.site("x.site");
    folder.write("k.csv", csv(&k2()));
    let before = (folder.read("x.site"), folder.read("k.csv"));
    folder.accepted(&["report", "x.site", "k.csv", "-o", "x.html"]);
    assert_eq!((folder.read("x.site"), folder.read("k.csv")), before);
}

#[test]
fn parts_are_drawn_each() {
    let folder = Folder::new("report-cut");
    folder.site("x.site");
    folder.write("long.i32", raw(&blocks(&vec![1000; 100_003])));
    folder.refused(&["report", "x.site", "long.i32", "-o", "x.html"], 5, 0);
    assert!(!folder.path("x.html").exists());
    folder.accepted(&["report", "x.site", "long.i32", "--cut", "-o", "x.html"]);
    let page = folder.read("x.html");
    assert_eq!(page.matches("long.i32, part 2 of 2</h2>").count(), 1);
    assert!(page.contains(
        "this part goes from half-cycle 100000 (1000.000 s) up to 100002 (1000.020 s). No event reaches over a cut."
    ));
}

/// "0 sags" above a sag: the page says that the table need not hold the recordings, and where it can't, that it does not.
#[test]
fn the_page_says_how_the_table_stands_to_the_recordings() {
    let folder = Folder::new("report-relation");
    folder.site("x.site");
    folder.write("k.csv", csv(&k2()));
    let page = || {
        folder.accepted(&["report", "x.site", "k.csv", "-o", "x.html"]);
        folder.read("x.html")
    };
    let (need_not, not) =
        ("adds nothing to it: they need not be in it.", "They are not all in it: sags, 0 in the table and 1 in them.");
    assert!(page().contains(need_not) && page().contains(not));
    folder.accepted(&["add", "x.site", "k.csv"]);
    assert!(page().contains(need_not) && !page().contains("not all in it"));
    folder.accepted(&["report", "x.site", "k.csv", "k.csv", "-o", "x.html"]);
    assert!(!folder.read("x.html").contains("not all in it"), "shown twice, it need not be in it twice");
    folder.write("deeper.csv", csv(&blocks(&[1000, 1000, 300, 300, 1000, 1000])));
    folder.accepted(&["report", "x.site", "deeper.csv", "-o", "x.html"]);
    assert!(folder.read("x.html").contains("They are not all in it: sags in cell 9, 0 in the table and 1 in them."));
    folder.accepted(&["demo"]);
    assert!(folder.read("demo.html").contains("The table holds the recordings below and nothing else."));
}

/// Date, version, settings, and a fingerprint of each recording that everybody's tools give too.
#[test]
fn the_page_says_what_it_was_made_from() {
    let folder = Folder::new("report-made");
    folder.site("x.site");
    folder.write("k.csv", csv(&k2()));
    folder.write("k.i32", raw(&blocks(&[1000; 6])));
    let day = || {
        String::from_utf8(std::process::Command::new("date").args(["-u", "+%Y-%m-%d"]).output().unwrap().stdout)
            .unwrap()
    };
    let before = day();
    folder.accepted(&["report", "x.site", "k.csv", "k.i32", "-o", "x.html"]);
    let (page, after) = (folder.read("x.html"), day());
    let made = |day: &str| page.contains(&format!("Made on {} ", day.trim()));
    assert!(made(&before) || made(&after));
    assert!(page.contains(&format!(" UTC by burrcradle {}.", env!("CARGO_PKG_VERSION"))));
    assert!(page.contains("N 8, R 1000, 50 Hz; sag 90 %, interruption 10 %, swell 110 %, hysteresis 2 %"));
    for (file, bytes) in [("k.csv", csv(&k2()).len()), ("k.i32", 288)] {
        let sum = std::process::Command::new("sha256sum").arg(folder.path(file)).output().unwrap();
        let sum = String::from_utf8(sum.stdout).unwrap();
        let wanted = format!("{bytes} bytes, SHA-256 {}<", sum.split(' ').next().unwrap());
        assert!(page.contains(&wanted), "{file}: {wanted}");
    }
}

/// Unknown time is a tile of its own wherever there is any, and a recording that nobody saw says so.
#[test]
fn what_nobody_saw_is_said_on_the_page() {
    let folder = Folder::new("report-unseen");
    folder.write("k.csv", csv(&[MISSING; 72]));
    let unseen = page(&folder, &["k.csv"]);
    let tile = "<b>0.050 s</b><span>unknown</span><i>nobody saw 5 half-cycles</i>";
    assert_eq!(unseen.matches(tile).count(), 2, "of the site and of the recording");
    folder.site("other.site");
    folder.accepted(&["report", "other.site", "k.csv", "-o", "other.html"]);
    assert_eq!(folder.read("other.html").matches(tile).count(), 1, "whether or not the table holds it");
    assert!(unseen.contains("<p class=\"unseen\">Nobody saw it: all 5 half-cycles are unknown."));
    assert!(!unseen.contains("No event."));
    let folder = Folder::new("report-seen");
    folder.write("k.csv", csv(&blocks(&[1000; 6])));
    let seen = page(&folder, &["k.csv"]);
    assert!(!seen.contains("<span>unknown</span>") && seen.contains("No event."));
    let folder = Folder::new("report-half-seen");
    let mut samples = blocks(&[1000; 6]);
    samples[0] = MISSING;
    folder.write("k.csv", csv(&samples));
    let half = page(&folder, &["k.csv"]);
    assert!(half.contains("<span>unknown</span><i>nobody saw 1 half-cycle</i>"));
    assert!(half.contains("No event in the 4 half-cycles that somebody saw; 1 is unknown."));
}

/// The bar of half-cycles is as wide as the page: no drawing of a fixed width, a part of it for each class that there is, each
/// in proportion and none too narrow to be seen.
#[test]
fn the_bar_shrinks_with_the_page() {
    let folder = Folder::new("report-bar");
    folder.write("k.csv", csv(&gap()));
    let page = page(&folder, &["k.csv"]);
    let bar = page.split_once("<h3>Half-cycles</h3>").unwrap().1.split_once("<h3>").unwrap().0;
    assert!(!bar.contains("<svg"), "{bar}");
    let wanted = "<div class=\"shares\" role=\"img\" aria-label=\"2 healthy, 3 disturbed, 2 unknown half-cycles\">\
        <i class=\"share healthy\" style=\"flex-grow:28.5714\"></i><i class=\"share disturbed\" style=\"flex-grow:42.8571\"></i>\
        <i class=\"share unknown\" style=\"flex-grow:28.5714\"></i></div>";
    assert!(bar.contains(wanted), "{bar}");
    assert!(
        page.contains(".shares { display: flex;") && page.contains(".shares .share { flex: 0 1 0; min-width: 4px; }")
    );
}
