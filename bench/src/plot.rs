//! The plot of time for a line by size of the image, as SVG.

use std::fmt::Write;

use crate::experiments::{GATHER, READ, SIMPLE_READ, Size};
use crate::scene::Order;
use crate::table::grouped;

const WIDTH: f64 = 720.0;
const HEIGHT: f64 = 420.0;
const LEFT: f64 = 60.0;
const RIGHT: f64 = 150.0;
const TOP: f64 = 40.0;
const BOTTOM: f64 = 50.0;

/// The axis of time has a line at each of these nanoseconds.
const STEP: f64 = 100.0;

struct Curve {
    name: &'static str,
    colour: &'static str,
    contender: usize,
}

const CURVES: [Curve; 3] = [
    Curve { name: "window", colour: "#0b6e4f", contender: READ },
    Curve { name: "simple window", colour: "#c2410c", contender: SIMPLE_READ },
    Curve { name: "strided copy", colour: "#475569", contender: GATHER },
];

/// Where a number of records and a time stand.
struct Scale {
    least: f64,
    most: f64,
    top: f64,
}

impl Scale {
    fn of(sizes: &[Size]) -> Scale {
        let records = || sizes.iter().map(|size| (size.records as f64).log2());
        let times = sizes.iter().flat_map(|size| CURVES.map(|curve| size.figures.median(curve.contender)));
        Scale {
            least: records().fold(f64::INFINITY, f64::min),
            most: records().fold(0.0, f64::max),
            top: (times.fold(0.0, f64::max) / STEP).ceil() * STEP,
        }
    }

    fn x(&self, records: usize) -> f64 {
        let part = ((records as f64).log2() - self.least) / (self.most - self.least);
        LEFT + part * (WIDTH - LEFT - RIGHT)
    }

    fn y(&self, time: f64) -> f64 {
        HEIGHT - BOTTOM - time / self.top * (HEIGHT - TOP - BOTTOM)
    }
}

pub fn draw(sizes: &[Size]) -> String {
    let scale = Scale::of(sizes);
    let mut lines = vec![
        format!(
            r#"<svg xmlns="http://www.w3.org/2000/svg" viewBox="0 0 {WIDTH} {HEIGHT}" font-family="sans-serif" font-size="12">"#
        ),
        format!(r#"<rect width="{WIDTH}" height="{HEIGHT}" fill="white"/>"#),
        format!(
            r#"<text x="{LEFT}" y="22">Nanoseconds to read a line of 32 prices, by records (solid: table in order; dashed: shuffled)</text>"#
        ),
    ];
    lines.extend(axes(sizes, &scale));
    for (place, curve) in CURVES.iter().enumerate() {
        lines.extend(Order::ALL.map(|order| polyline(sizes, &scale, curve, order)));
        lines.push(legend(place, curve));
    }
    lines.push("</svg>\n".to_owned());
    lines.join("\n")
}

fn axes(sizes: &[Size], scale: &Scale) -> Vec<String> {
    let right = WIDTH - RIGHT;
    let foot = HEIGHT - BOTTOM;
    let mut lines = Vec::new();
    let mut time = 0.0;
    while time <= scale.top {
        let y = scale.y(time);
        lines.push(format!(r##"<path d="M{LEFT} {y:.1}H{right}" stroke="#d4d4d8"/>"##));
        lines.push(format!(r#"<text x="{:.1}" y="{:.1}" text-anchor="end">{time}</text>"#, LEFT - 8.0, y + 4.0));
        time += STEP;
    }
    for size in sizes.iter().filter(|size| size.order == Order::InOrder) {
        let x = scale.x(size.records);
        let name = grouped(size.records);
        lines.push(format!(r#"<text x="{x:.1}" y="{:.1}" text-anchor="middle">{name}</text>"#, foot + 20.0));
    }
    lines
}

fn polyline(sizes: &[Size], scale: &Scale, curve: &Curve, order: Order) -> String {
    let mut points = String::new();
    for size in sizes.iter().filter(|size| size.order == order) {
        let time = size.figures.median(curve.contender);
        // Writing to a text does not fail.
        let _ = write!(points, "{:.1},{:.1} ", scale.x(size.records), scale.y(time));
    }
    let dashes = if order == Order::Shuffled { r#" stroke-dasharray="6 4""# } else { "" };
    format!(
        r#"<polyline points="{}" fill="none" stroke="{}" stroke-width="2"{dashes}/>"#,
        points.trim_end(),
        curve.colour
    )
}

fn legend(place: usize, curve: &Curve) -> String {
    let x = WIDTH - RIGHT + 16.0;
    let y = TOP + 20.0 * place as f64 + 10.0;
    format!(
        r#"<path d="M{x} {y}h24" stroke="{}" stroke-width="2"/><text x="{}" y="{}">{}</text>"#,
        curve.colour,
        x + 32.0,
        y + 4.0,
        curve.name
    )
}
