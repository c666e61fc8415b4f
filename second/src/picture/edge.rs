//! An edge from an element down to its child: its roles, the steps of the path along it, a clash of the pair.

use super::scene::{Scene, Travel};
use super::shapes::{double, Font, Rect, Shape, Style, Towards, LINE, RING};
use crate::paper::tree::Node;

pub struct EdgeSize {
    pub left: i32,
    pub right: i32,
    pub height: i32,
    /// How far to each side the boxes above and below must reach.
    pub reach: i32,
    /// Where the steps of the path run, to each side of the edge.
    off: i32,
}

const TRAVEL: i32 = 46;

impl Scene<'_> {
    pub fn edge_size(&self, parent: &Node, child: &Node) -> EdgeSize {
        let label = self.role_lines(child).iter().map(|line| Font::Bold.width(line)).max().unwrap_or(0);
        let off = (label / 2 + 16).max(26);
        let down = self.between(&parent.element, &child.element);
        let up = self.between(&child.element, &parent.element);
        let wide = |travels: &[&Travel]| {
            travels
                .iter()
                .map(|travel| off + 12 + travel_label(travel, 0, 0).1)
                .max()
                .unwrap_or(label / 2 + 4)
        };
        let note = self.clash_between(&parent.element, &child.element);
        let (note_wide, note_high) = note.as_deref().map_or((0, 0), note_size);
        let steps = down.len().max(up.len()) as i32 * TRAVEL;
        let roles = child.roles.len() as i32 * LINE;
        let height = (roles + 62).max(steps + 40).max(note_high + 50).max(90);
        let reach = if down.is_empty() && up.is_empty() { 16 } else { off + 16 };
        let right = wide(&up).max(if note.is_some() { off + 16 + note_wide } else { 0 });
        EdgeSize { left: wide(&down), right, height, reach, off }
    }

    /// How far a box's outline stands out: that of the clash is double.
    pub fn outline(&self, node: &Node) -> i32 {
        if self.in_clash(&node.element) {
            8
        } else {
            0
        }
    }

    fn role_lines(&self, child: &Node) -> Vec<String> {
        child.roles.iter().map(|role| self.words.role(*role)).collect()
    }

    /// The edge, `long` units down from (0, 0).
    pub fn edge(&self, parent: &Node, child: &Node, size: &EdgeSize, long: i32) -> Vec<Shape> {
        let note = self.clash_between(&parent.element, &child.element);
        let mut shapes = Vec::new();
        let (top, foot) = (self.outline(parent), long - self.outline(child));
        let (lines, style, head): (&[i32], Style, i32) =
            if note.is_some() { (&[-4, 4], Style::Clash, 14) } else { (&[0], Style::Edge, 9) };
        for &x in lines {
            shapes.push(Shape::Line { points: vec![(x, top), (x, foot - head)], style });
        }
        shapes.push(Shape::Head { x: 0, y: foot - 1, towards: Towards::Down, style });
        let font = if note.is_some() { Font::Bold } else { Font::Plain };
        shapes.extend(label_on_line(0, long / 2, font, &self.role_lines(child)));
        if let Some(lines) = note {
            shapes.extend(note_box(size.off + 10, long / 2, &lines));
        }
        shapes.extend(self.steps(parent, child, size.off, long));
        shapes
    }

    /// The steps of the path along the edge: down on its left, up on its right.
    fn steps(&self, parent: &Node, child: &Node, off: i32, long: i32) -> Vec<Shape> {
        let mut shapes = Vec::new();
        let down = self.between(&parent.element, &child.element);
        if !down.is_empty() {
            let points = vec![(-off, 3), (-off, long - 14)];
            shapes.push(Shape::Line { points, style: Style::Path });
            let towards = Towards::Down;
            shapes.push(Shape::Head { x: -off, y: long - 2, towards, style: Style::Path });
        }
        for (place, travel) in down.iter().enumerate() {
            let y = along(place, down.len(), long);
            let (_, wide) = travel_label(travel, 0, 0);
            shapes.extend(travel_label(travel, -off - 12 - wide, y).0);
        }
        let up = self.between(&child.element, &parent.element);
        if !up.is_empty() {
            let points = vec![(off, long - 3), (off, 14)];
            shapes.push(Shape::Line { points, style: Style::Path });
            shapes.push(Shape::Head { x: off, y: 2, towards: Towards::Up, style: Style::Path });
        }
        for (place, travel) in up.iter().enumerate() {
            shapes.extend(travel_label(travel, off + 12, along(place, up.len(), long)).0);
        }
        shapes
    }
}

/// The middle of one of so many labels along an edge.
fn along(place: usize, many: usize, long: i32) -> i32 {
    long / 2 + place as i32 * TRAVEL - (many as i32 - 1) * TRAVEL / 2
}

/// A step's number and its two lines, from its left end; and its width.
pub fn travel_label(travel: &Travel, x: i32, y: i32) -> (Vec<Shape>, i32) {
    let mut shapes = vec![Shape::Number { x: x + RING, y, number: travel.number }];
    let from = x + 2 * RING + 5;
    for (place, line) in travel.lines.iter().enumerate() {
        let y = y - LINE / 2 + place as i32 * LINE;
        shapes.push(Shape::text(from, y, Font::Plain, line));
    }
    let wide = travel.lines.iter().map(|line| Font::Plain.width(line)).max().unwrap_or(0);
    (shapes, 2 * RING + 5 + wide)
}

/// Lines of text in the middle of a line, on white ground.
pub fn label_on_line(x: i32, y: i32, font: Font, lines: &[String]) -> Vec<Shape> {
    let wide = lines.iter().map(|line| font.width(line)).max().unwrap_or(0);
    let high = lines.len() as i32 * LINE;
    let rect = Rect {
        left: x - wide / 2 - 3,
        top: y - high / 2 - 1,
        right: x + wide / 2 + 3,
        bottom: y + high / 2 + 1,
    };
    let mut shapes = vec![Shape::Ground { rect }];
    for (place, line) in lines.iter().enumerate() {
        let y = y - high / 2 + LINE / 2 + place as i32 * LINE;
        shapes.push(Shape::centred(x, y, font, line));
    }
    shapes
}

/// The room of a note in a double outline: its width and height, the outline included.
pub fn note_size(lines: &[String]) -> (i32, i32) {
    let wide = lines.iter().map(|line| Font::Bold.width(line)).max().unwrap_or(0);
    (wide + 36, lines.len() as i32 * LINE + 30)
}

/// A note in a heavy double outline, its left end at x and its middle at y.
pub fn note_box(x: i32, y: i32, lines: &[String]) -> Vec<Shape> {
    let (wide, high) = note_size(lines);
    let rect = Rect { left: x, top: y - high / 2, right: x + wide, bottom: y + high / 2 };
    let mut shapes = double(rect.wider(-8), 0).to_vec();
    for (place, line) in lines.iter().enumerate() {
        let y = y - (lines.len() as i32 - 1) * LINE / 2 + place as i32 * LINE;
        shapes.push(Shape::centred(x + wide / 2, y, Font::Bold, line));
    }
    shapes
}

/// The dotted line from `top` down to what isn't shown, and the roles by which the model goes on.
pub fn further(lines: &[String], top: i32) -> Vec<Shape> {
    let long = further_height(lines);
    let mut shapes = vec![Shape::Line { points: vec![(0, top + 2), (0, long)], style: Style::Further }];
    for (place, line) in lines.iter().enumerate() {
        let y = 12 + LINE / 2 + place as i32 * LINE;
        shapes.push(Shape::text(10, y, Font::Small, line));
    }
    shapes
}

pub fn further_height(lines: &[String]) -> i32 {
    lines.len() as i32 * LINE + 16
}

pub fn further_width(lines: &[String]) -> i32 {
    10 + lines.iter().map(|line| Font::Small.width(line)).max().unwrap_or(0)
}
