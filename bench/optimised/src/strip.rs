//! The plot of the spread: for each kind and size a row of dots, desk ÷ optimised, with a bar at the median.

use std::fmt::Write;

/// A kind with its size, and what its files give, from the least to the most.
struct Row {
    name: String,
    ratios: Vec<f64>,
}

const WIDTH: f64 = 840.0;
const LEFT: f64 = 170.0;
const RIGHT: f64 = 24.0;
const ABOVE: f64 = 36.0;
const BELOW: f64 = 44.0;
const HIGH: f64 = 26.0;

/// Where lines upward may stand; the outermost that are needed are the ends of the scale.
const TICKS: [f64; 12] = [0.3, 0.5, 0.7, 1.0, 1.5, 2.0, 3.0, 5.0, 10.0, 20.0, 50.0, 100.0];

/// Lines of kind, size, instructions of the desk and of the optimised program, parted by tabs. None where a line is
/// something else, or where there is no line.
pub fn strip(table: &str) -> Option<String> {
    let rows = rows(table)?;
    let height = ABOVE + HIGH * rows.len() as f64 + BELOW;
    let all = || rows.iter().flat_map(|row| row.ratios.iter().copied());
    let (least, most) = (all().fold(1.0, f64::min), all().fold(1.1, f64::max));
    let low = TICKS.into_iter().rev().find(|tick| *tick <= least).unwrap_or(least);
    let high = TICKS.into_iter().find(|tick| *tick >= most).unwrap_or(most);
    let x = |ratio: f64| LEFT + (ratio / low).ln() / (high / low).ln() * (WIDTH - LEFT - RIGHT);
    let mut svg = format!(
        "<!-- Desk ÷ optimised on each file of the spread; written by bench/spread. -->\n\
         <svg xmlns=\"http://www.w3.org/2000/svg\" viewBox=\"0 0 {WIDTH} {height}\" \
         font-family=\"sans-serif\" font-size=\"12\">\n\
         <rect width=\"{WIDTH}\" height=\"{height}\" fill=\"white\"/>\n\
         <text x=\"{LEFT}\" y=\"20\">Desk ÷ optimised, in instructions: a dot for each file, a bar at the median\
         </text>\n"
    );
    let bottom = height - BELOW + 4.0;
    for tick in TICKS.into_iter().filter(|tick| (low..=high).contains(tick)) {
        let (at, colour) = (x(tick), if tick == 1.0 { "black" } else { "#dddddd" });
        let _ = writeln!(
            svg,
            "<line x1=\"{at:.1}\" y1=\"{ABOVE}\" x2=\"{at:.1}\" y2=\"{bottom}\" stroke=\"{colour}\"/>\n\
             <text x=\"{at:.1}\" y=\"{:.1}\" text-anchor=\"middle\">{tick}</text>",
            bottom + 18.0
        );
    }
    for (place, row) in rows.iter().enumerate() {
        draw(&mut svg, row, ABOVE + HIGH * (place as f64 + 0.5), x);
    }
    svg.push_str("</svg>\n");
    Some(svg)
}

fn draw(svg: &mut String, row: &Row, y: f64, x: impl Fn(f64) -> f64) {
    let (end, base) = (LEFT - 12.0, y + 4.0);
    let _ = writeln!(svg, "<text x=\"{end}\" y=\"{base:.1}\" text-anchor=\"end\">{}</text>", row.name);
    for ratio in &row.ratios {
        let at = x(*ratio);
        let _ = writeln!(
            svg,
            "<circle cx=\"{at:.1}\" cy=\"{y:.1}\" r=\"3.5\" fill=\"#b2182b\" fill-opacity=\"0.45\"/>"
        );
    }
    let (at, top, bottom) = (x(row.ratios[(row.ratios.len() - 1) / 2]), y - 9.0, y + 9.0);
    let _ = writeln!(
        svg,
        "<line x1=\"{at:.1}\" y1=\"{top:.1}\" x2=\"{at:.1}\" y2=\"{bottom:.1}\" stroke=\"black\" stroke-width=\"2\"/>"
    );
}

/// In the order of the table.
fn rows(table: &str) -> Option<Vec<Row>> {
    let mut rows: Vec<Row> = Vec::new();
    for line in table.lines() {
        let fields: Vec<&str> = line.split('\t').collect();
        let [kind, size, desk, optimised] = fields[..] else { return None };
        let (desk, optimised): (f64, f64) = (desk.parse().ok()?, optimised.parse().ok()?);
        let ratio = Some(desk / optimised).filter(|ratio| ratio.is_finite() && *ratio > 0.0)?;
        let name = format!("{kind}, {size}");
        match rows.iter_mut().find(|row| row.name == name) {
            Some(row) => row.ratios.push(ratio),
            None => rows.push(Row { name, ratios: vec![ratio] }),
        }
    }
    rows.iter_mut().for_each(|row| row.ratios.sort_by(f64::total_cmp));
    Some(rows).filter(|rows| !rows.is_empty())
}
