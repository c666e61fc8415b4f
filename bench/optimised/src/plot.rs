//! The plot: how the instructions grow with each size, four panels of one SVG.

use std::collections::BTreeSet;
use std::fmt::Write;

/// One measured point: series, size, program, instructions.
struct Point {
    series: String,
    size: f64,
    program: String,
    instructions: f64,
}

const WIDTH: f64 = 420.0;
const HEIGHT: f64 = 260.0;
const LEFT: f64 = 64.0;
const RIGHT: f64 = 16.0;
const ABOVE: f64 = 34.0;
const BELOW: f64 = 44.0;
const KEY: f64 = 40.0;

/// Colour and mark by the first word of a program: the same in every plot, and told apart without colour too.
const STYLES: [(&str, &str, &str); 3] =
    [("desk", "#b2182b", "square"), ("optimised", "#2166ac", "circle"), ("second", "#1b7837", "diamond")];

/// Lines of four fields parted by tabs. None where a line is something else, or where there is no line.
pub fn plot(table: &str) -> Option<String> {
    let points =
        table.lines().map(point).collect::<Option<Vec<Point>>>().filter(|points| !points.is_empty())?;
    let mut programs: Vec<&str> = Vec::new();
    let mut series: Vec<&str> = Vec::new();
    for point in &points {
        if !programs.contains(&point.program.as_str()) {
            programs.push(&point.program);
        }
        if !series.contains(&point.series.as_str()) {
            series.push(&point.series);
        }
    }
    let rows = series.len().div_ceil(2) as f64;
    let (width, height) = (2.0 * WIDTH, KEY + rows * HEIGHT);
    let mut svg = String::new();
    let _ = writeln!(
        svg,
        "<!-- How the instructions of the desk and of the programs beside it grow; written by bench/run. -->"
    );
    let _ = writeln!(
        svg,
        "<svg xmlns=\"http://www.w3.org/2000/svg\" viewBox=\"0 0 {width} {height}\" font-family=\"sans-serif\" font-size=\"12\">"
    );
    let _ = writeln!(svg, "<rect width=\"{width}\" height=\"{height}\" fill=\"white\"/>");
    for (place, program) in programs.iter().enumerate() {
        let x = LEFT + 130.0 * place as f64;
        let _ = writeln!(svg, "{}", mark(program, x, 20.0));
        let _ = writeln!(svg, "<text x=\"{}\" y=\"24\">{}</text>", x + 10.0, escaped(program));
    }
    let _ = writeln!(
        svg,
        "<text x=\"{}\" y=\"24\" text-anchor=\"end\">instructions, by powers of ten</text>",
        width - RIGHT
    );
    // One scale upward for all panels, whole powers of ten.
    let all = || points.iter().map(|point| point.instructions.max(1.0).log10());
    let low = all().fold(f64::INFINITY, f64::min).floor();
    let high = all().fold(f64::NEG_INFINITY, f64::max).ceil().max(low + 1.0);
    for (place, name) in series.iter().enumerate() {
        let (left, top) = ((place % 2) as f64 * WIDTH, KEY + (place / 2) as f64 * HEIGHT);
        let shown = points.iter().filter(|point| point.series == *name);
        panel(&mut svg, name, &shown.collect::<Vec<_>>(), &programs, (left, top), (low, high));
    }
    svg.push_str("</svg>\n");
    Some(svg)
}

fn point(line: &str) -> Option<Point> {
    let fields: Vec<&str> = line.split('\t').collect();
    let [series, size, program, instructions] = fields[..] else { return None };
    let [size, instructions] = [size, instructions].map(|field| field.parse().ok());
    Some(Point { series: series.into(), size: size?, program: program.into(), instructions: instructions? })
}

fn panel(
    svg: &mut String,
    name: &str,
    points: &[&Point],
    programs: &[&str],
    (left, top): (f64, f64),
    (low, high): (f64, f64),
) {
    let most = points.iter().map(|point| point.size).fold(1.0, f64::max);
    let x = |size: f64| left + LEFT + size / most * (WIDTH - LEFT - RIGHT);
    let y = |power: f64| top + HEIGHT - BELOW - (power - low) / (high - low) * (HEIGHT - ABOVE - BELOW);
    let (bottom, right) = (y(low), x(most));
    let _ = writeln!(
        svg,
        "<text x=\"{}\" y=\"{}\" font-weight=\"bold\">{}</text>",
        x(0.0),
        top + 22.0,
        escaped(name)
    );
    let mut power = low;
    while power <= high {
        let at = y(power);
        let _ = writeln!(
            svg,
            "<line x1=\"{}\" y1=\"{at:.1}\" x2=\"{right:.1}\" y2=\"{at:.1}\" stroke=\"#dddddd\"/>",
            x(0.0)
        );
        let _ = writeln!(
            svg,
            "<text x=\"{:.1}\" y=\"{:.1}\" text-anchor=\"end\">{}</text>",
            x(0.0) - 6.0,
            at + 4.0,
            amount(power)
        );
        power += 1.0;
    }
    let _ = writeln!(
        svg,
        "<line x1=\"{}\" y1=\"{bottom}\" x2=\"{right}\" y2=\"{bottom}\" stroke=\"black\"/>",
        x(0.0)
    );
    let sizes: BTreeSet<u64> = points.iter().map(|point| point.size as u64).collect();
    // Sizes that stand too close to be read are passed over, but the largest is kept.
    let mut last = f64::INFINITY;
    for size in sizes.into_iter().rev() {
        let at = x(size as f64);
        if last - at >= 34.0 {
            last = at;
            let _ = writeln!(
                svg,
                "<text x=\"{at:.1}\" y=\"{:.1}\" text-anchor=\"middle\">{size}</text>",
                bottom + 18.0
            );
        }
    }
    for program in programs {
        let mut own: Vec<&&Point> = points.iter().filter(|point| point.program == *program).collect();
        own.sort_by(|one, other| one.size.total_cmp(&other.size));
        let spots = own.iter().map(|point| (x(point.size), y(point.instructions.max(1.0).log10())));
        let spots: Vec<(f64, f64)> = spots.collect();
        let line: Vec<String> = spots.iter().map(|(x, y)| format!("{x:.1},{y:.1}")).collect();
        let colour = style(program).1;
        let _ = writeln!(
            svg,
            "<polyline points=\"{}\" fill=\"none\" stroke=\"{colour}\" stroke-width=\"1.5\"/>",
            line.join(" ")
        );
        for (x, y) in spots {
            let _ = writeln!(svg, "{}", mark(program, x, y));
        }
    }
}

/// A power of ten in words.
fn amount(power: f64) -> String {
    match power as i32 {
        power @ 0..=2 => format!("{}", 10u32.pow(power as u32)),
        power @ 3..=5 => format!("{} k", 10u32.pow(power as u32 - 3)),
        power @ 6..=8 => format!("{} M", 10u32.pow(power as u32 - 6)),
        power => format!("10^{power}"),
    }
}

fn style(program: &str) -> (&str, &str, &str) {
    let known = STYLES.into_iter().find(|(name, ..)| program.split(' ').next() == Some(name));
    known.unwrap_or(("", "#555555", "circle"))
}

fn mark(program: &str, x: f64, y: f64) -> String {
    let (_, colour, shape) = style(program);
    match shape {
        "circle" => format!("<circle cx=\"{x:.1}\" cy=\"{y:.1}\" r=\"3.5\" fill=\"{colour}\"/>"),
        "square" => format!(
            "<rect x=\"{:.1}\" y=\"{:.1}\" width=\"6\" height=\"6\" fill=\"{colour}\"/>",
            x - 3.0,
            y - 3.0
        ),
        _ => format!(
            "<path d=\"M {x:.1} {:.1} l 4.5 4.5 l -4.5 4.5 l -4.5 -4.5 z\" fill=\"{colour}\"/>",
            y - 4.5
        ),
    }
}

fn escaped(text: &str) -> String {
    text.replace('&', "&amp;").replace('<', "&lt;")
}
