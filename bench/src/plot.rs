//! Growth as an SVG: two panels with logarithmic axes.

use std::fmt::Write;

/// One line of a panel: points of x, the judge's time and the Rust's.
pub struct Series {
    pub name: String,
    pub points: Vec<(f64, f64, f64)>,
}

pub struct Panel {
    pub title: &'static str,
    pub axis: &'static str,
    pub series: Vec<Series>,
}

const COLOURS: [&str; 10] =
    ["#1b6ca8", "#c0392b", "#1e8449", "#8e44ad", "#b9770e", "#34495e", "#17a589", "#e67e22", "#7f8c8d", "#d81b60"];
const WIDTH: f64 = 430.0;
const HEIGHT: f64 = 340.0;
const LEFT: f64 = 60.0;
const TOP: f64 = 40.0;
const PANEL: f64 = WIDTH + LEFT + 30.0;

/// A logarithmic axis over whole steps of `base`.
struct Axis {
    base: f64,
    low: f64,
    high: f64,
    length: f64,
}

impl Axis {
    fn over(values: impl Iterator<Item = f64> + Clone, base: f64, length: f64) -> Axis {
        let low = values.clone().fold(f64::INFINITY, f64::min).log(base).floor();
        let high = values.fold(0.0, f64::max).log(base).ceil().max(low + 1.0);
        Axis { base, low, high, length }
    }

    fn place(&self, value: f64) -> f64 {
        (value.log(self.base) - self.low) / (self.high - self.low) * self.length
    }

    fn ticks(&self) -> impl Iterator<Item = f64> + '_ {
        (self.low as i32..=self.high as i32).map(|step| self.base.powi(step))
    }
}

fn number(value: f64) -> String {
    if value >= 1.0 {
        format!("{}", value.round())
    } else {
        format!("{value}")
    }
}

fn panel(out: &mut String, panel: &Panel, left: f64) {
    let points = || panel.series.iter().flat_map(|s| s.points.iter());
    let x = Axis::over(points().map(|p| p.0), 2.0, WIDTH);
    let y = Axis::over(points().flat_map(|p| [p.1, p.2]), 10.0, HEIGHT);
    let across = |value: f64| left + LEFT + x.place(value);
    let down = |value: f64| TOP + HEIGHT - y.place(value);
    let (right, bottom) = (left + LEFT + WIDTH, TOP + HEIGHT);
    let _ = writeln!(out, r#"<text x="{}" y="22" font-size="15">{}</text>"#, left + LEFT, panel.title);
    for tick in x.ticks() {
        let at = across(tick);
        let _ = writeln!(out, r##"<path d="M{at:.1} {TOP}V{bottom}" stroke="#e4e4e4"/>"##);
        let _ =
            writeln!(out, r#"<text x="{at:.1}" y="{}" text-anchor="middle">{}</text>"#, bottom + 16.0, number(tick));
    }
    for tick in y.ticks() {
        let at = down(tick);
        let _ = writeln!(out, r##"<path d="M{} {at:.1}H{right}" stroke="#e4e4e4"/>"##, left + LEFT);
        let _ = writeln!(
            out,
            r#"<text x="{}" y="{:.1}" text-anchor="end">{}</text>"#,
            left + LEFT - 6.0,
            at + 4.0,
            number(tick)
        );
    }
    let _ = writeln!(
        out,
        r##"<rect x="{}" y="{TOP}" width="{WIDTH}" height="{HEIGHT}" fill="none" stroke="#888"/>"##,
        left + LEFT
    );
    let _ = writeln!(
        out,
        r#"<text x="{}" y="{}" text-anchor="middle">{}</text>"#,
        left + LEFT + WIDTH / 2.0,
        bottom + 36.0,
        panel.axis
    );
    for (i, series) in panel.series.iter().enumerate() {
        let colour = COLOURS[i % COLOURS.len()];
        let line = |value: fn(&(f64, f64, f64)) -> f64| {
            let points = series.points.iter().map(|p| format!("{:.1},{:.1}", across(p.0), down(value(p))));
            points.collect::<Vec<_>>().join(" ")
        };
        let ours = line(|p| p.1);
        let _ = writeln!(out, r#"<polyline points="{ours}" fill="none" stroke="{colour}" stroke-width="2"/>"#);
        for point in ours.split(' ') {
            let (at, height) = point.split_once(',').unwrap_or(("0", "0"));
            let _ = writeln!(out, r#"<circle cx="{at}" cy="{height}" r="3" fill="{colour}"/>"#);
        }
        let _ = writeln!(
            out,
            r#"<polyline points="{}" fill="none" stroke="{colour}" stroke-width="1.5" stroke-dasharray="5 4"/>"#,
            line(|p| p.2)
        );
        let at = bottom + 60.0 + 18.0 * i as f64;
        let from = left + LEFT;
        let _ = writeln!(out, r#"<path d="M{from} {}h22" stroke="{colour}" stroke-width="2"/>"#, at - 4.0);
        let _ = writeln!(out, r#"<text x="{}" y="{at}">{}</text>"#, from + 28.0, series.name);
    }
}

pub fn svg(panels: &[Panel]) -> String {
    let lines = panels.iter().map(|panel| panel.series.len()).max().unwrap_or(0);
    let (width, height) = (PANEL * panels.len() as f64 + 10.0, TOP + HEIGHT + 92.0 + 18.0 * lines as f64);
    let mut out = String::new();
    let _ = writeln!(
        out,
        r#"<svg xmlns="http://www.w3.org/2000/svg" viewBox="0 0 {width} {height}" width="{width}" height="{height}" font-family="sans-serif" font-size="12">"#
    );
    let _ = writeln!(out, r##"<rect width="{width}" height="{height}" fill="#fff"/>"##);
    for (i, p) in panels.iter().enumerate() {
        panel(&mut out, p, i as f64 * PANEL);
    }
    let _ = writeln!(
        out,
        r#"<text x="{LEFT}" y="{}">Microseconds. Solid: the judge, check and judgement. Dashed: the Rust, filling and methods.</text>"#,
        height - 10.0
    );
    out.push_str("</svg>\n");
    out
}
