//! Shapes written as SVG: black on white, no font, style or script from elsewhere.

use super::shapes::{Align, Font, Rect, Shape, Style, Towards, RING};

pub fn svg(width: i32, height: i32, title: &str, shapes: &[Shape]) -> String {
    let size = format!("width=\"{width}\" height=\"{height}\"");
    let place = format!("{size} viewBox=\"0 0 {width} {height}\" role=\"img\"");
    let look = "font-family=\"sans-serif\" fill=\"black\"";
    let mut text = format!("<svg xmlns=\"http://www.w3.org/2000/svg\" {place} {look}>\n");
    text += &format!("<title>{}</title>\n<rect {size} fill=\"white\"/>\n", escaped(title));
    shapes.iter().for_each(|shape| text += &one(shape));
    text + "</svg>\n"
}

fn one(shape: &Shape) -> String {
    match shape {
        Shape::Text { x, y, font, align, text } => written(*x, *y, *font, *align, text),
        Shape::Number { x, y, number } => ring(*x, *y, *number),
        Shape::Line { points, style } => line(points, *style),
        Shape::Head { x, y, towards, style } => head(*x, *y, *towards, *style),
        Shape::Frame { rect, corner, line } => {
            format!(
                "<rect {} rx=\"{corner}\" fill=\"white\" stroke=\"black\" stroke-width=\"{line}\"/>\n",
                place(rect)
            )
        }
        Shape::Ground { rect } => format!("<rect {} fill=\"white\"/>\n", place(rect)),
    }
}

fn place(rect: &Rect) -> String {
    let (width, height) = (rect.right - rect.left, rect.bottom - rect.top);
    format!("x=\"{}\" y=\"{}\" width=\"{width}\" height=\"{height}\"", rect.left, rect.top)
}

fn written(x: i32, y: i32, font: Font, align: Align, text: &str) -> String {
    let weight = if font.is_bold() { " font-weight=\"bold\"" } else { "" };
    let anchor = if align == Align::Middle { " text-anchor=\"middle\"" } else { "" };
    let size = font.size();
    let base = y + size * 35 / 100;
    format!("<text x=\"{x}\" y=\"{base}\" font-size=\"{size}\"{weight}{anchor}>{}</text>\n", escaped(text))
}

fn ring(x: i32, y: i32, number: usize) -> String {
    let circle = format!(
        "<circle cx=\"{x}\" cy=\"{y}\" r=\"{RING}\" fill=\"white\" stroke=\"black\" stroke-width=\"2\"/>"
    );
    let look = "font-size=\"13\" font-weight=\"bold\" text-anchor=\"middle\"";
    format!("{circle}\n<text x=\"{x}\" y=\"{}\" {look}>{number}</text>\n", y + 4)
}

fn line(points: &[(i32, i32)], style: Style) -> String {
    let points: Vec<String> = points.iter().map(|(x, y)| format!("{x},{y}")).collect();
    let look = match style {
        Style::Edge => "stroke-width=\"1.5\"",
        Style::Path => "stroke-width=\"3.5\" stroke-dasharray=\"9 5\"",
        Style::Further => "stroke-width=\"1.5\" stroke-dasharray=\"2 4\"",
        Style::Clash => "stroke-width=\"3\"",
        Style::Thin => "stroke-width=\"1\"",
    };
    format!("<polyline points=\"{}\" fill=\"none\" stroke=\"black\" {look}/>\n", points.join(" "))
}

fn head(x: i32, y: i32, towards: Towards, style: Style) -> String {
    let (long, half) = if style == Style::Edge { (10, 5) } else { (14, 8) };
    let [(ax, ay), (bx, by)] = match towards {
        Towards::Down => [(x - half, y - long), (x + half, y - long)],
        Towards::Up => [(x - half, y + long), (x + half, y + long)],
        Towards::Left => [(x + long, y - half), (x + long, y + half)],
        Towards::Right => [(x - long, y - half), (x - long, y + half)],
    };
    format!("<polygon points=\"{x},{y} {ax},{ay} {bx},{by}\"/>\n")
}

fn escaped(text: &str) -> String {
    text.replace('&', "&amp;").replace('<', "&lt;").replace('>', "&gt;")
}
