//! The growth as a drawing: the time of one full check against terms, both axes logarithmic, a panel for each shape.

use crate::growth::{Growth, Point};
use std::fmt::Write as _;

const RUST: &str = "#b5532a";
const LIBRARY: &str = "#1f6f8b";

const PANEL_WIDTH: f64 = 300.0;
const PANEL_HEIGHT: f64 = 230.0;
const LEFT: f64 = 70.0;
const TOP: f64 = 60.0;
const GAP: f64 = 80.0;

const TERMS: [f64; 5] = [64.0, 128.0, 256.0, 512.0, 1_024.0];

/// Where a panel's corner lies, and what its axes span.
struct Panel {
    x: f64,
    y: f64,
    least: f64,
    most: f64,
}

impl Panel {
    fn across(&self, terms: f64) -> f64 {
        let (from, to) = (TERMS[0].ln() - 0.1, TERMS[TERMS.len() - 1].ln() + 0.1);
        self.x + PANEL_WIDTH * (terms.ln() - from) / (to - from)
    }

    fn down(&self, seconds: f64) -> f64 {
        self.y + PANEL_HEIGHT * (self.most.ln() - seconds.ln()) / (self.most.ln() - self.least.ln())
    }
}

pub fn plot(grown: &[Growth]) -> String {
    let (least, most) = decades(grown);
    let rows = grown.len().div_ceil(2);
    let (width, height) = (LEFT + 2.0 * PANEL_WIDTH + GAP + 30.0, TOP + rows as f64 * (PANEL_HEIGHT + GAP));
    let mut text = format!(
        "<svg xmlns=\"http://www.w3.org/2000/svg\" viewBox=\"0 0 {width} {height}\" font-family=\"sans-serif\" \
         font-size=\"12\">\n<rect width=\"{width}\" height=\"{height}\" fill=\"white\"/>\n"
    );
    legend(&mut text);
    for (place, growth) in grown.iter().enumerate() {
        let (column, row) = ((place % 2) as f64, (place / 2) as f64);
        let (x, y) = (LEFT + column * (PANEL_WIDTH + GAP), TOP + row * (PANEL_HEIGHT + GAP));
        draw(&mut text, &Panel { x, y, least, most }, growth);
    }
    text += "</svg>\n";
    text
}

/// The powers of ten around all times.
fn decades(grown: &[Growth]) -> (f64, f64) {
    let times = || grown.iter().flat_map(|growth| &growth.points).flat_map(|point| [point.rust, point.library]);
    let (least, most) = (times().fold(f64::MAX, f64::min), times().fold(0.0, f64::max));
    (10f64.powf(least.log10().floor()), 10f64.powf(most.log10().ceil()))
}

fn legend(text: &mut String) {
    label(text, LEFT, 20.0, "start", "Time of one full check against the terms of the table, both axes logarithmic");
    for (x, colour, name) in [(LEFT, RUST, "published Rust"), (LEFT + 150.0, LIBRARY, "library")] {
        line(text, (x, 36.0), (x + 28.0, 36.0), colour, 2.0);
        label(text, x + 34.0, 40.0, "start", name);
    }
}

fn draw(text: &mut String, panel: &Panel, growth: &Growth) {
    grid(text, panel);
    label(text, panel.x + 6.0, panel.y - 6.0, "start", growth.name);
    let rust = places(panel, growth, |point| point.rust);
    let library = places(panel, growth, |point| point.library);
    curve(text, &rust, RUST);
    curve(text, &library, LIBRARY);
    let (last_of_rust, last_of_library) = (rust[rust.len() - 1], library[library.len() - 1]);
    let slower = last_of_rust.1 < last_of_library.1;
    exponent(text, last_of_rust, growth.rust_exponent(), slower);
    exponent(text, last_of_library, growth.library_exponent(), !slower);
}

fn places(panel: &Panel, growth: &Growth, time: fn(&Point) -> f64) -> Vec<(f64, f64)> {
    growth.points.iter().map(|point| (panel.across(point.terms as f64), panel.down(time(point)))).collect()
}

/// The exponent stands above the end of the upper curve and below that of the lower one.
fn exponent(text: &mut String, (x, y): (f64, f64), exponent: f64, above: bool) {
    label(text, x - 6.0, if above { y - 9.0 } else { y + 19.0 }, "end", &format!("exponent {exponent:.2}"));
}

fn grid(text: &mut String, panel: &Panel) {
    let (right, bottom) = (panel.x + PANEL_WIDTH, panel.y + PANEL_HEIGHT);
    let mut time = panel.least;
    while time < panel.most * 1.01 {
        let y = panel.down(time);
        line(text, (panel.x, y), (right, y), "#dddddd", 1.0);
        label(text, panel.x - 6.0, y + 4.0, "end", &named(time));
        time *= 10.0;
    }
    for terms in TERMS {
        let x = panel.across(terms);
        line(text, (x, panel.y), (x, bottom), "#dddddd", 1.0);
        label(text, x, bottom + 16.0, "middle", &format!("{terms}"));
    }
    label(text, panel.x + PANEL_WIDTH / 2.0, bottom + 34.0, "middle", "terms");
}

fn named(seconds: f64) -> String {
    match seconds {
        s if s < 0.9e-6 => format!("{:.0} ns", s * 1e9),
        s if s < 0.9e-3 => format!("{:.0} µs", s * 1e6),
        s if s < 0.9 => format!("{:.0} ms", s * 1e3),
        s => format!("{s:.0} s"),
    }
}

fn curve(text: &mut String, places: &[(f64, f64)], colour: &str) {
    let points: Vec<String> = places.iter().map(|(x, y)| format!("{x:.1},{y:.1}")).collect();
    let points = points.join(" ");
    let _ = writeln!(text, "<polyline points=\"{points}\" fill=\"none\" stroke=\"{colour}\" stroke-width=\"2\"/>");
    for (x, y) in places {
        let _ = writeln!(text, "<circle cx=\"{x:.1}\" cy=\"{y:.1}\" r=\"3\" fill=\"{colour}\"/>");
    }
}

fn line(text: &mut String, from: (f64, f64), to: (f64, f64), colour: &str, width: f64) {
    let _ = writeln!(
        text,
        "<line x1=\"{:.1}\" y1=\"{:.1}\" x2=\"{:.1}\" y2=\"{:.1}\" stroke=\"{colour}\" stroke-width=\"{width}\"/>",
        from.0, from.1, to.0, to.1
    );
}

fn label(text: &mut String, x: f64, y: f64, anchor: &str, what: &str) {
    let _ = writeln!(text, "<text x=\"{x:.1}\" y=\"{y:.1}\" text-anchor=\"{anchor}\">{what}</text>");
}
