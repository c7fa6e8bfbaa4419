//! The plot: bytes along, and up how much more than the crate the library costs, both by powers. One panel by time, one by instructions.
use crate::figures::Figures;
use crate::sides::{Case, PLOTTED};
use std::fmt::Write;

const WIDTH: f64 = 380.0;
const HEIGHT: f64 = 300.0;
const LEFT: f64 = 70.0;
const TOP: f64 = 76.0;
const BETWEEN: f64 = 84.0;

const BYTES: (f64, f64) = (6.0, 82_000.0);
const RATIOS: (f64, f64) = (0.4, 6.0);
const BYTE_TICKS: [(f64, &str); 7] = [
    (8.0, "8"),
    (64.0, "64"),
    (256.0, "256"),
    (1024.0, "1,024"),
    (4096.0, "4,096"),
    (16384.0, "16,384"),
    (61440.0, "61,440"),
];
const RATIO_TICKS: [(f64, &str); 7] = [
    (0.5, "0.5"),
    (0.7, "0.7"),
    (1.0, "1.0"),
    (1.5, "1.5"),
    (2.0, "2"),
    (3.0, "3"),
    (4.0, "4"),
];

// Dark enough for a light page and light enough for a dark one. Arrays are dashed.
const COLOURS: [&str; 6] = [
    "#2f80d0", "#d9572b", "#a35cc4", "#1f9e6e", "#b8860b", "#d04f86",
];

const STYLE: &str = "
text { font: 13px sans-serif; fill: #24292f } .small { font-size: 11px } .title { font-size: 15px } .panel { font-weight: bold }
.page { fill: #ffffff } .grid { stroke: #d8dee4 } .frame { fill: none; stroke: #8c959f } .one { stroke: #24292f; stroke-width: 1.5 }
@media (prefers-color-scheme: dark) {
text { fill: #e6edf3 } .page { fill: #0d1117 } .grid { stroke: #30363d } .one { stroke: #e6edf3 }
}
";

fn along(bytes: f64) -> f64 {
    (bytes / BYTES.0).ln() / (BYTES.1 / BYTES.0).ln() * WIDTH
}

// Up is down in SVG.
fn up(ratio: f64) -> f64 {
    HEIGHT - (ratio / RATIOS.0).ln() / (RATIOS.1 / RATIOS.0).ln() * HEIGHT
}

fn axes(title: &str) -> String {
    let mut s = format!("<text class='panel' x='0' y='-14'>{title}</text>\n");
    for (bytes, label) in BYTE_TICKS {
        let x = along(bytes);
        writeln!(
            s,
            "<line class='grid' x1='{x:.1}' y1='0' x2='{x:.1}' y2='{HEIGHT}'/>"
        )
        .unwrap();
        writeln!(
            s,
            "<text class='small' x='{x:.1}' y='{}' text-anchor='middle'>{label}</text>",
            HEIGHT + 18.0
        )
        .unwrap();
    }
    for (ratio, label) in RATIO_TICKS {
        let (y, class) = (up(ratio), if ratio == 1.0 { "one" } else { "grid" });
        writeln!(
            s,
            "<line class='{class}' x1='0' y1='{y:.1}' x2='{WIDTH}' y2='{y:.1}'/>"
        )
        .unwrap();
        writeln!(
            s,
            "<text class='small' x='-8' y='{:.1}' text-anchor='end'>{label}</text>",
            y + 4.0
        )
        .unwrap();
    }
    writeln!(s, "<rect class='frame' width='{WIDTH}' height='{HEIGHT}'/>").unwrap();
    writeln!(
        s,
        "<text x='{}' y='{}' text-anchor='middle'>bytes of the value</text>",
        WIDTH / 2.0,
        HEIGHT + 42.0
    )
    .unwrap();
    writeln!(s, "<text transform='translate(-44 {}) rotate(-90)' text-anchor='middle'>library / crate</text>", HEIGHT / 2.0).unwrap();
    s
}

fn dashes(k: usize) -> &'static str {
    if PLOTTED[k].starts_with('s') {
        "none"
    } else {
        "6 4"
    }
}

fn line(k: usize, points: &[(f64, f64)]) -> String {
    let colour = COLOURS[k];
    let places: Vec<String> = points
        .iter()
        .map(|(x, y)| format!("{x:.1},{y:.1}"))
        .collect();
    let mut s = format!("<polyline fill='none' stroke='{colour}' stroke-width='2' stroke-dasharray='{}' points='{}'/>\n", dashes(k), places.join(" "));
    for (x, y) in points {
        writeln!(s, "<circle cx='{x:.1}' cy='{y:.1}' r='3' fill='{colour}'/>").unwrap();
    }
    s
}

fn panel(place: f64, title: &str, cases: &[Case], figures: &Figures) -> String {
    let mut s = format!("<g transform='translate({place} {TOP})'>\n{}", axes(title));
    for (k, group) in PLOTTED.iter().enumerate() {
        let point = |case: &Case| {
            Some((
                along(case.bytes as f64),
                up(figures.ratio(case, "library", 0)?),
            ))
        };
        let points: Vec<(f64, f64)> = cases
            .iter()
            .filter(|case| case.group == *group)
            .filter_map(point)
            .collect();
        s += &line(k, &points);
    }
    s + "</g>\n"
}

fn legend(place: f64) -> String {
    let mut s = format!("<g transform='translate({place} {TOP})'>\n");
    for (k, group) in PLOTTED.iter().enumerate() {
        let y = 8 + 24 * k;
        let points = [(0.0, y as f64), (30.0, y as f64)];
        s += &line(k, &points);
        writeln!(s, "<text x='42' y='{}'>{group}</text>", y + 4).unwrap();
    }
    s + "</g>\n"
}

pub fn svg(cases: &[Case], times: &Figures, counts: &Figures) -> String {
    let second = LEFT + WIDTH + BETWEEN;
    let third = second + WIDTH + 24.0;
    let (width, height) = (third + 130.0, TOP + HEIGHT + 60.0);
    let mut s = format!("<svg xmlns='http://www.w3.org/2000/svg' viewBox='0 0 {width} {height}' width='{width}' height='{height}'>\n");
    writeln!(
        s,
        "<style>{STYLE}</style>\n<rect class='page' width='{width}' height='{height}'/>"
    )
    .unwrap();
    writeln!(s, "<text class='title' x='{LEFT}' y='24'>What the proved library costs to check a value, beside the crate (1.0: as much; below: less)</text>").unwrap();
    s += &panel(LEFT, "by time", cases, times);
    s += &panel(second, "by instructions", cases, counts);
    s += &legend(third);
    s + "</svg>\n"
}
