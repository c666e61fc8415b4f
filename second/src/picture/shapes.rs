//! What a picture is made of, in whole units: boxes, lines, arrowheads, texts.

#[derive(Clone, Copy, Debug, PartialEq, Eq)]
pub struct Rect {
    pub left: i32,
    pub top: i32,
    pub right: i32,
    pub bottom: i32,
}

#[derive(Clone, Copy, Debug, PartialEq, Eq)]
pub enum Font {
    Title,
    Bold,
    Plain,
    Small,
}

/// An edge of the model, a step of the path, what isn't shown, each of a clash's two lines, a line in a box.
#[derive(Clone, Copy, Debug, PartialEq, Eq)]
pub enum Style {
    Edge,
    Path,
    Further,
    Clash,
    Thin,
}

#[derive(Clone, Copy, Debug, PartialEq, Eq)]
pub enum Align {
    Left,
    Middle,
}

#[derive(Clone, Copy, Debug, PartialEq, Eq)]
pub enum Towards {
    Down,
    Up,
    Left,
    Right,
}

#[derive(Clone, Debug)]
pub enum Shape {
    /// A text from its left end, or on both sides of its middle; y is the middle of its height.
    Text {
        x: i32,
        y: i32,
        font: Font,
        align: Align,
        text: String,
    },
    /// The number of a step, in a ring.
    Number {
        x: i32,
        y: i32,
        number: usize,
    },
    Line {
        points: Vec<(i32, i32)>,
        style: Style,
    },
    /// The point of an arrow.
    Head {
        x: i32,
        y: i32,
        towards: Towards,
        style: Style,
    },
    /// A box, white inside; the wider its line the heavier.
    Frame {
        rect: Rect,
        corner: i32,
        line: i32,
    },
    /// White ground for a label that stands on a line.
    Ground {
        rect: Rect,
    },
}

/// The height of a line of text.
pub const LINE: i32 = 19;
/// A number's ring, from its middle.
pub const RING: i32 = 10;

impl Font {
    pub fn size(self) -> i32 {
        match self {
            Font::Title => 18,
            Font::Bold | Font::Plain => 14,
            Font::Small => 13,
        }
    }

    pub fn is_bold(self) -> bool {
        matches!(self, Font::Title | Font::Bold)
    }

    /// Enough room for a text, whichever plain font the reader's machine has.
    pub fn width(self, text: &str) -> i32 {
        let share = if self.is_bold() { 68 } else { 62 };
        text.chars().count() as i32 * self.size() * share / 100 + 1
    }
}

impl Rect {
    pub fn wider(self, by: i32) -> Rect {
        Rect { left: self.left - by, top: self.top - by, right: self.right + by, bottom: self.bottom + by }
    }

    #[cfg(test)]
    pub fn overlaps(&self, other: &Rect) -> bool {
        self.left < other.right
            && other.left < self.right
            && self.top < other.bottom
            && other.top < self.bottom
    }
}

impl Shape {
    pub fn centred(x: i32, y: i32, font: Font, text: &str) -> Shape {
        Shape::Text { x, y, font, align: Align::Middle, text: text.to_string() }
    }

    pub fn text(x: i32, y: i32, font: Font, text: &str) -> Shape {
        Shape::Text { x, y, font, align: Align::Left, text: text.to_string() }
    }

    pub fn shift(&mut self, dx: i32, dy: i32) {
        let rect_by = |rect: &mut Rect| {
            *rect = Rect {
                left: rect.left + dx,
                top: rect.top + dy,
                right: rect.right + dx,
                bottom: rect.bottom + dy,
            };
        };
        match self {
            Shape::Text { x, y, .. } | Shape::Number { x, y, .. } | Shape::Head { x, y, .. } => {
                *x += dx;
                *y += dy;
            }
            Shape::Line { points, .. } => points.iter_mut().for_each(|point| {
                point.0 += dx;
                point.1 += dy;
            }),
            Shape::Frame { rect, .. } | Shape::Ground { rect } => rect_by(rect),
        }
    }

    /// The room of a text or a number, and nothing for the rest.
    #[cfg(test)]
    pub fn label(&self) -> Option<Rect> {
        match self {
            Shape::Text { x, y, font, align, text } => {
                let (half, wide) = (font.size() / 2 + 1, font.width(text));
                let left = if *align == Align::Left { *x } else { x - wide / 2 };
                Some(Rect { left, top: y - half, right: left + wide, bottom: y + half })
            }
            Shape::Number { x, y, .. } => {
                Some(Rect { left: x - RING, top: y - RING, right: x + RING, bottom: y + RING })
            }
            _ => None,
        }
    }
}

/// A box with a heavy double outline.
pub fn double(rect: Rect, corner: i32) -> [Shape; 2] {
    let outer =
        Shape::Frame { rect: rect.wider(6), corner: if corner == 0 { 0 } else { corner + 6 }, line: 3 };
    [outer, Shape::Frame { rect, corner, line: 3 }]
}
