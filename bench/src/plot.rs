//! The plot: time by T of the four programs, a panel for each kind of list, two in a row, both axes logarithmic.

use crate::timing::{ReplayRow, SHARES, SIZES};
use bench::lists::Kind;
use std::fmt::Write;

const SHARE: usize = 8;
const PANEL_WIDTH: f64 = 340.0;
const PANEL_HEIGHT: f64 = 300.0;
const LEFT: f64 = 80.0;
const TOP: f64 = 50.0;
const GAP: f64 = 60.0;
const ROW_GAP: f64 = 100.0;
const LEGEND: f64 = 190.0;
const COLUMNS: usize = 2;

struct Curve {
    name: &'static str,
    colour: &'static str,
    dash: &'static str,
    time: fn(&ReplayRow) -> f64,
}

fn share(times: &[crate::timing::Time]) -> f64 {
    let i = SHARES.iter().position(|&p| p == SHARE).unwrap();
    times[i].median
}

const CURVES: [Curve; 4] = [
    Curve {
        name: "search of all",
        colour: "#b2182b",
        dash: "2 3",
        time: |r| r.whole.median,
    },
    Curve {
        name: "search of the piece",
        colour: "#ef8a62",
        dash: "7 4",
        time: |r| r.piece.median,
    },
    Curve {
        name: "proved replay",
        colour: "#053061",
        dash: "none",
        time: |r| share(&r.proved),
    },
    Curve {
        name: "plain Rust replay",
        colour: "#4393c3",
        dash: "10 3 2 3",
        time: |r| share(&r.plain),
    },
];

/// A power of ten in microseconds, in words.
fn label(power: i32) -> String {
    match power {
        ..=2 => format!("{} µs", 10f64.powi(power)),
        3..=5 => format!("{} ms", 10f64.powi(power - 3)),
        _ => format!("{} s", 10f64.powi(power - 6)),
    }
}

pub fn svg(rows: &[ReplayRow]) -> String {
    let times = || {
        rows.iter()
            .flat_map(|r| CURVES.iter().map(move |c| (c.time)(r)))
    };
    let low = times().fold(f64::INFINITY, f64::min).log10().floor() as i32;
    let high = times().fold(0.0, f64::max).log10().ceil() as i32;
    let left_of = |panel: usize| LEFT + (panel % COLUMNS) as f64 * (PANEL_WIDTH + GAP);
    let top_of = |panel: usize| TOP + (panel / COLUMNS) as f64 * (PANEL_HEIGHT + ROW_GAP);
    let y = |panel: usize, t: f64| {
        top_of(panel) + PANEL_HEIGHT * (high as f64 - t.log10()) / (high - low) as f64
    };
    let x = |panel: usize, t: usize| {
        let (first, last) = (
            (SIZES[0] as f64).log2(),
            (SIZES[SIZES.len() - 1] as f64).log2(),
        );
        let part = ((t as f64).log2() - first) / (last - first);
        left_of(panel) + 20.0 + part * (PANEL_WIDTH - 40.0)
    };
    let right = LEFT + COLUMNS as f64 * (PANEL_WIDTH + GAP) - GAP;
    let width = right + LEGEND;
    let height = top_of(Kind::ALL.len() - 1) + PANEL_HEIGHT + 60.0;

    let mut out = String::new();
    let _ = writeln!(
        out,
        "<svg xmlns=\"http://www.w3.org/2000/svg\" width=\"{width}\" height=\"{height}\" viewBox=\"0 0 {width} {height}\" \
         font-family=\"sans-serif\" font-size=\"13\">\n<rect width=\"100%\" height=\"100%\" fill=\"white\"/>"
    );
    for (panel, kind) in Kind::ALL.into_iter().enumerate() {
        let (left, top) = (left_of(panel), top_of(panel));
        let bottom = top + PANEL_HEIGHT;
        let _ = writeln!(
            out,
            "<text x=\"{}\" y=\"{}\" text-anchor=\"middle\" font-size=\"15\">{} lists (p = {SHARE})</text>",
            left + PANEL_WIDTH / 2.0,
            top - 16.0,
            kind.name()
        );
        for power in low..=high {
            let y = y(panel, 10f64.powi(power));
            let _ = writeln!(
                out,
                "<line x1=\"{left}\" y1=\"{y:.1}\" x2=\"{}\" y2=\"{y:.1}\" stroke=\"#ddd\"/>\n\
                 <text x=\"{}\" y=\"{:.1}\" text-anchor=\"end\">{}</text>",
                left + PANEL_WIDTH,
                left - 6.0,
                y + 4.5,
                label(power)
            );
        }
        for t in SIZES {
            let x = x(panel, t);
            let _ = writeln!(
                out,
                "<line x1=\"{x:.1}\" y1=\"{bottom}\" x2=\"{x:.1}\" y2=\"{}\" stroke=\"black\"/>\n\
                 <text x=\"{x:.1}\" y=\"{}\" text-anchor=\"middle\">{t}</text>",
                bottom + 5.0,
                bottom + 20.0
            );
        }
        let _ = writeln!(
            out,
            "<text x=\"{}\" y=\"{}\" text-anchor=\"middle\">events T</text>\n\
             <rect x=\"{left}\" y=\"{top}\" width=\"{PANEL_WIDTH}\" height=\"{PANEL_HEIGHT}\" fill=\"none\" stroke=\"black\"/>",
            left + PANEL_WIDTH / 2.0,
            bottom + 42.0
        );
        for curve in &CURVES {
            let points: Vec<(f64, f64)> = rows
                .iter()
                .filter(|r| r.kind == kind)
                .map(|r| (x(panel, r.events), y(panel, (curve.time)(r))))
                .collect();
            let line: Vec<String> = points
                .iter()
                .map(|(x, y)| format!("{x:.1},{y:.1}"))
                .collect();
            let _ = writeln!(
                out,
                "<polyline points=\"{}\" fill=\"none\" stroke=\"{}\" stroke-width=\"2\" stroke-dasharray=\"{}\"/>",
                line.join(" "),
                curve.colour,
                curve.dash
            );
            for (x, y) in points {
                let _ = writeln!(
                    out,
                    "<circle cx=\"{x:.1}\" cy=\"{y:.1}\" r=\"3\" fill=\"{}\"/>",
                    curve.colour
                );
            }
        }
    }
    let _ = writeln!(
        out,
        "<text transform=\"translate(16 {}) rotate(-90)\" text-anchor=\"middle\">time of one list</text>",
        (TOP + height - 60.0) / 2.0
    );
    let left = right + 16.0;
    for (i, curve) in CURVES.iter().enumerate() {
        let y = TOP + 20.0 + 24.0 * i as f64;
        let _ = writeln!(
            out,
            "<line x1=\"{left}\" y1=\"{y}\" x2=\"{}\" y2=\"{y}\" stroke=\"{}\" stroke-width=\"2\" stroke-dasharray=\"{}\"/>\n\
             <text x=\"{}\" y=\"{}\">{}</text>",
            left + 34.0,
            curve.colour,
            curve.dash,
            left + 42.0,
            y + 4.5,
            curve.name
        );
    }
    out.push_str("</svg>\n");
    out
}
