//! Where each element of a tree stands. A box is as wide as all its children, so every edge is straight down.

use super::edge::{self, EdgeSize};
use super::scene::Scene;
use super::shapes::{double, Font, Rect, Shape, Style, Towards, LINE};
use crate::paper::tree::Node;

/// An element and all below it, drawn with the top of its edge's end at (0, 0).
pub struct Block {
    pub shapes: Vec<Shape>,
    /// How far it reaches to the left and right of that point, both not negative.
    pub left: i32,
    pub right: i32,
    pub bottom: i32,
    /// The box alone.
    pub frame: Rect,
}

/// What hangs below a box: a child with its edge, or the note of what isn't shown.
struct Column {
    block: Option<Block>,
    left: i32,
    right: i32,
    /// How far from its middle the box above must reach.
    reach: i32,
    x: i32,
}

const GAP: i32 = 26;
const PAD: i32 = 14;

impl Scene<'_> {
    /// Draws an element whose box reaches at least so far to both sides.
    pub fn place(&self, node: &Node, reach: i32) -> Block {
        let sizes: Vec<EdgeSize> = node.children.iter().map(|child| self.edge_size(node, child)).collect();
        let columns = self.columns(node, &sizes);
        let frame = self.frame(node, reach, &columns);
        let mut shapes = self.boxed(node, frame);
        let long = sizes.iter().map(|size| size.height).max().unwrap_or(0);
        let (mut left, mut right, mut bottom) = (-frame.left, frame.right, frame.bottom);
        let loops = self.loops(node, frame);
        right += loops.1;
        shapes.extend(loops.0);
        for (place, mut column) in columns.into_iter().enumerate() {
            left = left.max(column.left - column.x);
            right = right.max(column.right + column.x);
            let mut drawn = match column.block.take() {
                Some(mut block) => {
                    bottom = bottom.max(frame.bottom + long + block.bottom);
                    block.shapes.iter_mut().for_each(|shape| shape.shift(0, long));
                    block.shapes.extend(self.edge(node, &node.children[place], &sizes[place], long));
                    block.shapes
                }
                None => {
                    let lines = self.further_lines(node);
                    bottom = bottom.max(frame.bottom + edge::further_height(&lines));
                    edge::further(&lines, self.outline(node))
                }
            };
            drawn.iter_mut().for_each(|shape| shape.shift(column.x, frame.bottom));
            shapes.extend(drawn);
        }
        Block { shapes, left, right, bottom, frame }
    }

    fn columns(&self, node: &Node, sizes: &[EdgeSize]) -> Vec<Column> {
        let mut columns: Vec<Column> = Vec::new();
        for (child, size) in node.children.iter().zip(sizes) {
            let block = self.place(child, size.reach);
            let (left, right) = (block.left.max(size.left), block.right.max(size.right));
            columns.push(Column { block: Some(block), left, right, reach: size.reach, x: 0 });
        }
        if !node.further.is_empty() {
            let right = edge::further_width(&self.further_lines(node));
            columns.push(Column { block: None, left: 12, right, reach: 16, x: 0 });
        }
        let mut at = 0;
        for column in &mut columns {
            column.x = at + column.left;
            at = column.x + column.right + GAP;
        }
        centre(&mut columns);
        columns
    }

    fn further_lines(&self, node: &Node) -> Vec<String> {
        let roles = node.further.iter().map(|role| format!("{} …", self.words.role(*role)));
        std::iter::once("and so on by".to_string()).chain(roles).collect()
    }

    /// The texts of a box: its title, its concepts and its notes.
    fn texts(&self, node: &Node) -> (Vec<(Font, String)>, Vec<String>) {
        let title = match node.element.row.is_empty() {
            true => format!("individual {}", node.element.who.0),
            false => self.words.element(&node.element),
        };
        let mut lines = vec![(Font::Bold, title)];
        let excluded = self.excluded(&node.element);
        for concept in &node.concepts {
            let font = if excluded.contains(concept) { Font::Bold } else { Font::Plain };
            lines.push((font, self.words.concept(*concept)));
        }
        if node.concepts.is_empty() {
            lines.push((Font::Plain, "no concept".to_string()));
        }
        (lines, self.notes(&node.element))
    }

    /// The box's room: for its texts, its tests, and everything that hangs below it.
    fn frame(&self, node: &Node, reach: i32, columns: &[Column]) -> Rect {
        let (lines, notes) = self.texts(node);
        let texts = lines.iter().map(|(font, line)| font.width(line));
        let texts = texts.chain(notes.iter().map(|note| Font::Small.width(note)));
        let half = (texts.max().unwrap_or(0) / 2 + PAD).max(reach);
        let left = columns.iter().map(|column| column.reach - column.x).max().unwrap_or(0);
        let right = columns.iter().map(|column| column.reach + column.x).max().unwrap_or(0);
        let half = half.max(left).max(right);
        let rule = if notes.is_empty() { 0 } else { 8 };
        let height = (lines.len() + notes.len()) as i32 * LINE + rule + PAD;
        let tests = self.tests(&node.element).len() as i32;
        Rect { left: -half, top: 0, right: half, bottom: height.max(tests * 50) }
    }

    fn boxed(&self, node: &Node, frame: Rect) -> Vec<Shape> {
        let corner = if node.element.row.is_empty() { 0 } else { 22 };
        let mut shapes = Vec::new();
        if self.in_clash(&node.element) {
            shapes.extend(double(frame, corner));
        } else {
            shapes.push(Shape::Frame { rect: frame, corner, line: 2 });
        }
        let (lines, notes) = self.texts(node);
        let mut y = PAD / 2 + LINE / 2;
        for (font, line) in &lines {
            shapes.push(Shape::centred(0, y, *font, line));
            y += LINE;
        }
        if !notes.is_empty() {
            let rule = y - LINE / 2 + 4;
            let points = vec![(frame.left + 10, rule), (frame.right - 10, rule)];
            shapes.push(Shape::Line { points, style: Style::Thin });
            y += 8;
        }
        for note in &notes {
            shapes.push(Shape::centred(0, y, Font::Small, note));
            y += LINE;
        }
        shapes
    }

    /// The tests of the path at this element, as arrows that leave the box and come back; and how far they reach.
    fn loops(&self, node: &Node, frame: Rect) -> (Vec<Shape>, i32) {
        let mut shapes = Vec::new();
        let mut wide = 0;
        let tests = self.tests(&node.element);
        let first = frame.bottom / 2 - (tests.len() as i32 - 1) * 25;
        for (place, travel) in tests.into_iter().enumerate() {
            let (x, y) = (frame.right, first + place as i32 * 50);
            let points = vec![(x + 2, y - 14), (x + 34, y - 14), (x + 34, y + 14), (x + 14, y + 14)];
            shapes.push(Shape::Line { points, style: Style::Path });
            let towards = Towards::Left;
            shapes.push(Shape::Head { x: x + 3, y: y + 14, towards, style: Style::Path });
            let label = edge::travel_label(travel, x + 42, y);
            wide = wide.max(42 + label.1);
            shapes.extend(label.0);
        }
        (shapes, wide)
    }
}

/// Moves the columns so that the middle of the outermost reaches is 0.
fn centre(columns: &mut [Column]) {
    let left = columns.iter().map(|column| column.x - column.reach).min().unwrap_or(0);
    let right = columns.iter().map(|column| column.x + column.reach).max().unwrap_or(0);
    let middle = (left + right) / 2;
    columns.iter_mut().for_each(|column| column.x -= middle);
}
