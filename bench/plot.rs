//! A plot of times by the number of entries, both axes logarithmic, as SVG.

use crate::Figures;
use std::fmt::Write;

const WIDTH: f64 = 680.0;
const HEIGHT: f64 = 400.0;
const LEFT: f64 = 70.0;
const RIGHT: f64 = 190.0;
const TOP: f64 = 20.0;
const BOTTOM: f64 = 50.0;

/// A line: its name, its colour, and the time it takes from the figures.
type Line = (&'static str, &'static str, fn(&Figures) -> f64);

const LINES: [Line; 5] = [
    ("product", "#b02020", |figures| figures.call),
    ("product without check", "#e08030", Figures::unchecked),
    ("product's check", "#909090", |figures| figures.check),
    ("Rust, fresh", "#2050b0", |figures| figures.fresh),
    ("Rust, warm", "#50a0d0", |figures| figures.warm),
];

fn x(entries: f64) -> f64 {
    LEFT + (entries.log10() - 1.0) / 2.0 * (WIDTH - LEFT - RIGHT)
}

/// From 100 ns at the bottom to 100 µs at the top.
fn y(ns: f64) -> f64 {
    HEIGHT - BOTTOM - (ns.clamp(1e2, 1e5).log10() - 2.0) / 3.0 * (HEIGHT - TOP - BOTTOM)
}

fn axes(out: &mut String) {
    for (ns, words) in [(1e2, "100 ns"), (1e3, "1 µs"), (1e4, "10 µs"), (1e5, "100 µs")] {
        let (at, end) = (y(ns), WIDTH - RIGHT);
        let _ = writeln!(out, "<line x1=\"{LEFT}\" y1=\"{at:.1}\" x2=\"{end}\" y2=\"{at:.1}\" stroke=\"#ddd\"/>");
        let _ = writeln!(out, "<text x=\"{}\" y=\"{:.1}\" text-anchor=\"end\">{words}</text>", LEFT - 8.0, at + 4.0);
    }
    for entries in [10.0, 100.0, 300.0, 1000.0] {
        let (at, bottom) = (x(entries), HEIGHT - BOTTOM);
        let _ = writeln!(out, "<line x1=\"{at:.1}\" y1=\"{TOP}\" x2=\"{at:.1}\" y2=\"{bottom}\" stroke=\"#ddd\"/>");
        let _ = writeln!(out, "<text x=\"{at:.1}\" y=\"{}\" text-anchor=\"middle\">{entries}</text>", bottom + 18.0);
    }
    let middle = (LEFT + WIDTH - RIGHT) / 2.0;
    let _ = writeln!(
        out,
        "<text x=\"{middle}\" y=\"{}\" text-anchor=\"middle\">entries of the listing; time for one question</text>",
        HEIGHT - 12.0
    );
}

fn line(out: &mut String, number: usize, points: &[(usize, Figures)]) {
    let (name, colour, time) = LINES[number];
    if points.iter().any(|(_, figures)| time(figures) <= 0.0) {
        return;
    }
    let places: Vec<String> =
        points.iter().map(|(entries, figures)| format!("{:.1},{:.1}", x(*entries as f64), y(time(figures)))).collect();
    let _ = writeln!(out, "<polyline points=\"{}\" fill=\"none\" stroke=\"{colour}\" stroke-width=\"2\"/>", places.join(" "));
    for place in places {
        let (x, y) = place.split_once(',').unwrap_or(("0", "0"));
        let _ = writeln!(out, "<circle cx=\"{x}\" cy=\"{y}\" r=\"3\" fill=\"{colour}\"/>");
    }
    let (at, down) = (WIDTH - RIGHT + 15.0, TOP + 20.0 + 22.0 * number as f64);
    let _ = writeln!(out, "<line x1=\"{at}\" y1=\"{down}\" x2=\"{}\" y2=\"{down}\" stroke=\"{colour}\" stroke-width=\"2\"/>", at + 18.0);
    let _ = writeln!(out, "<text x=\"{}\" y=\"{}\">{name}</text>", at + 24.0, down + 4.0);
}

pub fn svg(points: &[(usize, Figures)]) -> String {
    let mut out = format!(
        "<svg xmlns=\"http://www.w3.org/2000/svg\" width=\"{WIDTH}\" height=\"{HEIGHT}\" font-family=\"sans-serif\" font-size=\"12\">\n"
    );
    out += "<rect width=\"100%\" height=\"100%\" fill=\"white\"/>\n";
    axes(&mut out);
    (0..LINES.len()).for_each(|number| line(&mut out, number, points));
    out + "</svg>\n"
}
