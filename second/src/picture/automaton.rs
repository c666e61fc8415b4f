//! A picture of an expression's automaton: the states in a row, and above them the steps that go back or leave some out.

use super::shapes::{double, Font, Rect, Shape, Style, Towards, LINE};
use super::{svg, written, Drawing, LEAST_WIDTH, MARGIN};
use crate::desk::question::Typed;
use crate::expression::automaton::Automaton;
use crate::expression::Letter;
use crate::paper::words::Words;

/// Between two states, between two lanes of steps, and between two ends of steps on one state.
const GAP: i32 = 46;
const LANE: i32 = 16;
const PORT: i32 = 14;
const HEIGHT: i32 = 58;

pub fn automaton(typed: &Typed, words: &Words, title: &str) -> String {
    let Drawing { width, height, shapes } = drawing(typed, words, title);
    svg::svg(width, height, &format!("{title}: {}", words.expression(&typed.marks)), &shapes)
}

fn drawing(typed: &Typed, words: &Words, title: &str) -> Drawing {
    let states = Row::of(&typed.automaton, words);
    let wide = states.boxes.last().map_or(0, |last| last.right) + 8;
    let width = (wide + 2 * MARGIN).max(LEAST_WIDTH);
    let (heading, top) = written(&[title.to_string()], Font::Title, width, MARGIN);
    let (under, top) = written(&[words.expression(&typed.marks)], Font::Bold, width, top + 6);
    let down = top + LANE * (states.lanes.len() as i32 + 1);
    let mut shapes = states.shapes();
    shapes.iter_mut().for_each(|shape| shape.shift((width - wide) / 2, down));
    let (caption, height) = written(&CAPTION.map(String::from), Font::Small, width, down + HEIGHT + 30);
    shapes.extend(heading.into_iter().chain(under).chain(caption));
    Drawing { width, height, shapes }
}

const CAPTION: [&str; 4] = [
    "Boxes: the states, each with what is read on a step into it; state 0 starts.",
    "Arrows between neighbours: the step from a state to the next.",
    "An arrow from above: the other steps into a state, from each state with a line up to the same lane.",
    "Heavy double outline: a final state.",
];

/// The states from left to right, the tops of their boxes at 0.
struct Row<'a> {
    automaton: &'a Automaton,
    texts: Vec<String>,
    boxes: Vec<Rect>,
    /// The states with a step from another than the one to their left: each has a lane, the lowest first.
    lanes: Vec<usize>,
}

impl<'a> Row<'a> {
    fn of(automaton: &'a Automaton, words: &Words) -> Row<'a> {
        let text = |letter: &Letter| match letter {
            Letter::Role(role) => words.role(*role),
            Letter::Test(name) => format!("{}?", words.concept(*name)),
        };
        let start = std::iter::once("start".to_string());
        let texts: Vec<String> = start.chain(automaton.letters.iter().map(text)).collect();
        let far = |state: &usize| automaton.steps.iter().any(|(from, to)| to == state && from + 1 != *to);
        let lanes: Vec<usize> = (0..automaton.states()).filter(far).collect();
        let mut boxes: Vec<Rect> = Vec::new();
        for text in &texts {
            let left = boxes.last().map_or(8, |before| before.right + GAP);
            let ports = PORT * (lanes.len() as i32 + 2);
            let wide = (Font::Plain.width(text) + 20).max(ports).max(64);
            boxes.push(Rect { left, top: 0, right: left + wide, bottom: HEIGHT });
        }
        Row { automaton, texts, boxes, lanes }
    }

    /// Where a state's steps into a lane leave it.
    fn leaves(&self, state: usize, lane: usize) -> i32 {
        self.boxes[state].left + PORT * (lane as i32 + 2)
    }

    /// Where the steps of its lane come to a state.
    fn comes(&self, state: usize) -> i32 {
        self.boxes[state].left + PORT
    }

    fn shapes(&self) -> Vec<Shape> {
        let mut shapes: Vec<Shape> =
            self.lanes.iter().enumerate().flat_map(|(lane, state)| self.lane(lane, *state)).collect();
        for &(from, to) in &self.automaton.steps {
            if from + 1 == to {
                let (left, right, y) = (self.boxes[from].right, self.boxes[to].left, HEIGHT / 2);
                let far = right - if self.automaton.finals.contains(&to) { 8 } else { 1 };
                shapes.push(Shape::Line { points: vec![(left, y), (far - 4, y)], style: Style::Edge });
                shapes.push(Shape::Head { x: far, y, towards: Towards::Right, style: Style::Edge });
            }
        }
        shapes.extend((0..self.boxes.len()).flat_map(|state| self.boxed(state)));
        shapes
    }

    /// The steps into a state from all but its left neighbour: up from each, along, and down.
    fn lane(&self, lane: usize, state: usize) -> Vec<Shape> {
        let high = -LANE * (lane as i32 + 1) - 4;
        let far = if self.automaton.finals.contains(&state) { -8 } else { -1 };
        let into = self.automaton.steps.iter().filter(|(from, to)| *to == state && from + 1 != *to);
        let mut shapes = Vec::new();
        for &(from, _) in into {
            let (out, to) = (self.leaves(from, lane), self.comes(state));
            let points = vec![(out, 0), (out, high), (to, high), (to, far - 4)];
            shapes.push(Shape::Line { points, style: Style::Edge });
        }
        shapes.push(Shape::Head { x: self.comes(state), y: far, towards: Towards::Down, style: Style::Edge });
        shapes
    }

    fn boxed(&self, state: usize) -> Vec<Shape> {
        let rect = self.boxes[state];
        let outline = if self.automaton.finals.contains(&state) {
            double(rect, 12).to_vec()
        } else {
            vec![Shape::Frame { rect, corner: 12, line: 2 }]
        };
        let (x, y) = ((rect.left + rect.right) / 2, HEIGHT / 2);
        let number = Shape::centred(x, y - LINE / 2, Font::Bold, &state.to_string());
        let text = Shape::centred(x, y + LINE / 2, Font::Plain, &self.texts[state]);
        outline.into_iter().chain([number, text]).collect()
    }
}

#[cfg(test)]
mod tests {
    use super::*;
    use crate::expression::read;

    #[test]
    fn no_label_stands_on_another_and_none_is_cut_off() {
        for marks in
            [&[0x00][..], &[0x80, 0x00, 0x41, 0x01, 0x82, 0x02, 0x81, 0x83], &[0x00, 0x83].repeat(15)]
        {
            let automaton = Automaton::of(&read::expression(marks).expect("an expression"));
            let typed = Typed { marks: marks.to_vec(), automaton, line: 1 };
            let Drawing { width, height, shapes } = drawing(&typed, &Words::default(), "A case");
            let labels: Vec<Rect> = shapes.iter().filter_map(Shape::label).collect();
            for (place, one) in labels.iter().enumerate() {
                assert!(
                    one.left >= 0 && one.top >= 0 && one.right <= width && one.bottom <= height,
                    "{marks:02X?}"
                );
                assert!(
                    labels[place + 1..].iter().all(|other| !one.overlaps(other)),
                    "{marks:02X?}: {one:?}"
                );
            }
        }
    }
}
