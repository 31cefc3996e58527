//! A plot of time against n, both axes logarithmic, as an SVG.

use std::fmt::Write;

pub struct Curve {
    pub name: String,
    pub color: &'static str,
    pub dashed: bool,
    /// Nodes and nanoseconds, ascending.
    pub points: Vec<(f64, f64)>,
}

const WIDTH: f64 = 760.0;
const HEIGHT: f64 = 460.0;
const LEFT: f64 = 70.0;
const RIGHT: f64 = 200.0;
const TOP: f64 = 20.0;
const BOTTOM: f64 = 50.0;

/// From logarithms to the places in the picture.
struct Scale {
    x: (f64, f64),
    y: (f64, f64),
}

/// The least and the largest of some values.
fn span(values: impl Iterator<Item = f64>) -> (f64, f64) {
    values.fold((f64::MAX, f64::MIN), |(least, largest), value| (least.min(value), largest.max(value)))
}

impl Scale {
    fn of(curves: &[Curve]) -> Scale {
        let points = || curves.iter().flat_map(|curve| &curve.points);
        let x = span(points().map(|point| point.0.log10()));
        let y = span(points().map(|point| point.1.log10()));
        Scale { x, y: (y.0.floor(), y.1.ceil()) }
    }

    fn x(&self, nodes: f64) -> f64 {
        LEFT + (nodes.log10() - self.x.0) / (self.x.1 - self.x.0) * (WIDTH - LEFT - RIGHT)
    }

    fn y(&self, time: f64) -> f64 {
        HEIGHT - BOTTOM - (time.log10() - self.y.0) / (self.y.1 - self.y.0) * (HEIGHT - TOP - BOTTOM)
    }
}

fn time_words(exponent: i32) -> &'static str {
    ["1 ns", "10 ns", "100 ns", "1 µs", "10 µs", "100 µs", "1 ms", "10 ms", "100 ms", "1 s", "10 s"][exponent as usize]
}

fn grid(scale: &Scale, nodes: &[f64]) -> String {
    let (right, bottom) = (WIDTH - RIGHT, HEIGHT - BOTTOM);
    let mut lines = String::new();
    for exponent in scale.y.0 as i32..=scale.y.1 as i32 {
        let y = scale.y(10_f64.powi(exponent));
        let words = time_words(exponent);
        let _ = writeln!(lines, r##"<path d="M{LEFT} {y:.1}H{right}" stroke="#ddd"/>"##);
        let _ = writeln!(lines, r#"<text x="{:.1}" y="{:.1}" text-anchor="end">{words}</text>"#, LEFT - 8.0, y + 4.0);
    }
    for &count in nodes {
        let x = scale.x(count);
        let _ = writeln!(lines, r##"<path d="M{x:.1} {TOP}V{bottom}" stroke="#eee"/>"##);
        let _ = writeln!(lines, r#"<text x="{x:.1}" y="{:.1}" text-anchor="middle">{count}</text>"#, bottom + 18.0);
    }
    let (middle, foot) = ((LEFT + right) / 2.0, HEIGHT - 10.0);
    let _ = writeln!(lines, r#"<text x="{middle:.1}" y="{foot:.1}" text-anchor="middle">nodes</text>"#);
    lines
}

fn curve_lines(scale: &Scale, curve: &Curve, index: usize) -> String {
    let place = |&(nodes, time): &(f64, f64)| format!("{:.1},{:.1}", scale.x(nodes), scale.y(time));
    let points: Vec<String> = curve.points.iter().map(place).collect();
    let dashes = if curve.dashed { r#" stroke-dasharray="6 4""# } else { "" };
    let style = format!(r#"fill="none" stroke="{}" stroke-width="2"{dashes}"#, curve.color);
    let (x, y) = (WIDTH - RIGHT + 15.0, TOP + 20.0 + 22.0 * index as f64);
    format!("<polyline points=\"{}\" {style}/>\n", points.join(" "))
        + &format!("<path d=\"M{x} {y}h28\" {style}/>\n<text x=\"{}\" y=\"{}\">{}</text>\n", x + 36.0, y + 4.0, curve.name)
}

pub fn svg(curves: &[Curve]) -> String {
    let scale = Scale::of(curves);
    let nodes: Vec<f64> = curves[0].points.iter().map(|point| point.0).collect();
    let mut svg = format!(r#"<svg xmlns="http://www.w3.org/2000/svg" viewBox="0 0 {WIDTH} {HEIGHT}" "#);
    svg += "font-family=\"sans-serif\" font-size=\"12\">\n";
    svg += &format!("<rect width=\"{WIDTH}\" height=\"{HEIGHT}\" fill=\"white\"/>\n");
    svg += &grid(&scale, &nodes);
    for (index, curve) in curves.iter().enumerate() {
        svg += &curve_lines(&scale, curve, index);
    }
    svg + "</svg>\n"
}
