//! Pictures as SVG: the canonical model of a small file, with the path or the clash drawn in; and an expression's automaton.

pub mod automaton;
mod edge;
mod lanes;
mod place;
mod scene;
mod shapes;
mod svg;

use crate::collection::Step;
use crate::explain::{Asked, Behind, Explanation};
use crate::paper::asks::in_words;
use crate::paper::tree::{trees, Node, TooLarge};
use crate::paper::words::{ask, states, Words};
use lanes::{Lane, Stand};
use place::Block;
use scene::Scene;
use shapes::{Font, Shape, LINE};

const MARGIN: i32 = 20;
const LEAST_WIDTH: i32 = 700;

/// A picture before it is written.
struct Drawing {
    width: i32,
    height: i32,
    shapes: Vec<Shape>,
}

pub fn picture(explained: &Explanation, words: &Words, title: &str) -> Result<String, TooLarge> {
    let Drawing { width, height, shapes } = drawing(explained, words, title)?;
    let whole = format!("{title}: {}", answers(explained).join("; "));
    Ok(svg::svg(width, height, &whole, &shapes))
}

fn drawing(explained: &Explanation, words: &Words, title: &str) -> Result<Drawing, TooLarge> {
    let trees = trees(explained)?;
    let scene = Scene::of(explained, words);
    let (mut shapes, [wide, high]) = model(&scene, &trees);
    let width = (wide + 2 * MARGIN).max(LEAST_WIDTH);
    let (heading, top) = written(&[title.to_string()], Font::Title, width, MARGIN);
    let (under, top) = written(&answers(explained), Font::Bold, width, top + 6);
    shapes.iter_mut().for_each(|shape| shape.shift((width - wide) / 2, top + 10));
    let (caption, height) = written(&caption(&scene, &trees), Font::Small, width, top + high + 30);
    shapes.extend(heading.into_iter().chain(under).chain(caption));
    Ok(Drawing { width, height, shapes })
}

/// Sentences from the left margin, each on lines of its own; and where they end.
fn written(sentences: &[String], font: Font, width: i32, top: i32) -> (Vec<Shape>, i32) {
    let lines = sentences.iter().flat_map(|sentence| wrapped(sentence, font, width - 2 * MARGIN));
    let mut shapes = Vec::new();
    let mut y = top;
    for line in lines {
        shapes.push(Shape::text(MARGIN, y, font, &line));
        y += LINE;
    }
    (shapes, y)
}

/// All individuals in a row with what is below them, from (0, 0); and the width and height.
fn model(scene: &Scene, trees: &[Node]) -> (Vec<Shape>, [i32; 2]) {
    let lanes = scene.lanes();
    let place = |(at, tree)| scene.place(tree, lanes::reach(&lanes, at));
    let blocks: Vec<Block> = trees.iter().enumerate().map(place).collect();
    let mut stands: Vec<Stand> = Vec::new();
    let mut end = 0;
    for (at, (block, tree)) in blocks.iter().zip(trees).enumerate() {
        let x = if at == 0 {
            block.left + 8
        } else {
            (end + 40 + block.left).max(beside(&lanes, &stands, at, block))
        };
        end = x + block.right;
        let in_clash = scene.in_clash(&tree.element);
        stands.push(Stand { x, half: block.frame.right, in_clash });
    }
    let (mut shapes, top) = lanes::draw(&lanes, &stands);
    shapes.iter_mut().for_each(|shape| shape.shift(0, top));
    let mut bottom = 0;
    for (mut block, stand) in blocks.into_iter().zip(&stands) {
        bottom = bottom.max(block.bottom);
        block.shapes.iter_mut().for_each(|shape| shape.shift(stand.x, top));
        shapes.extend(block.shapes);
    }
    (shapes, [end + 8, top + bottom + 8])
}

/// The least x at which a box leaves room for what is written in the lanes to its left.
fn beside(lanes: &[Lane], stands: &[Stand], at: usize, block: &Block) -> i32 {
    let room = |(before, stand): (usize, &Stand)| {
        let widest = lanes.iter().map(|lane| lane.room(before, at)).max().unwrap_or(0);
        stand.x + stand.half + widest + block.frame.right
    };
    stands.iter().enumerate().map(room).max().unwrap_or(0)
}

/// `(0, 0): yes, 2 rounds`, for each ask.
fn answers(explained: &Explanation) -> Vec<String> {
    let one = |asked: &Asked| format!("{}: {}", ask(asked.ask), in_words(asked));
    explained.asks.iter().map(one).collect()
}

/// The question, and how the picture is to be read: only what is in it.
fn caption(scene: &Scene, trees: &[Node]) -> Vec<String> {
    let explained = scene.explained;
    let unnamed = trees.iter().any(|tree| !tree.children.is_empty());
    let edges = unnamed || !explained.file.collection.role_facts.is_empty();
    let alone = explained.file.collection.role_facts.iter().any(|fact| fact.first == fact.second);
    let no = explained
        .asks
        .iter()
        .any(|asked| matches!(asked.behind, Behind::Reached(_) | Behind::Everywhere(..)));
    let parts = [
        (true, "Square boxes: individuals, with their concepts."),
        (unnamed, "Rounded boxes: unnamed elements, an individual followed by a row of signed roles."),
        (edges, "Arrows: the pair has these signed roles along it, and their inverses against it."),
        (alone, "A loop: the individual's pair with itself has them along it and against it."),
        (trees.iter().any(goes_on), "Dotted lines: the model goes on, without end."),
        (!scene.travels.is_empty(), "Thick dashed arrows: the path, step by step, each with its states."),
        (no, "Paths from: the states in which some path comes to the element."),
        (explained.clash.is_some(), "Heavy double outline: where the clash is."),
    ];
    let shown = parts.into_iter().filter(|part| part.0).map(|part| part.1.to_string());
    question(scene).into_iter().chain(shown).collect()
}

fn question(scene: &Scene) -> [String; 2] {
    let collection = &scene.explained.file.collection;
    let step = |step: &Step| match *step {
        Step::Role { from, role, to } => format!("{} from {} to {}", scene.words.role(role), from.0, to.0),
        Step::Test { from, name, to } => {
            format!("test {} from {} to {}", scene.words.concept(name), from.0, to.0)
        }
    };
    let steps: Vec<String> = collection.steps.iter().map(step).collect();
    let steps = if steps.is_empty() { "no steps".to_string() } else { steps.join("; ") };
    let finals = states(collection.finals.iter().copied());
    let start = format!("Start state {}; final states: {finals}.", collection.counts.start.0);
    [format!("Question: {steps}."), start]
}

fn goes_on(node: &Node) -> bool {
    !node.further.is_empty() || node.children.iter().any(goes_on)
}

/// A text in lines that are no wider than that.
fn wrapped(text: &str, font: Font, width: i32) -> Vec<String> {
    let mut lines: Vec<String> = vec![String::new()];
    for word in text.split(' ') {
        let last = lines.last_mut().expect("there is a line");
        let longer = if last.is_empty() { word.to_string() } else { format!("{last} {word}") };
        if last.is_empty() || font.width(&longer) <= width {
            *last = longer;
        } else {
            lines.push(word.to_string());
        }
    }
    lines
}

#[cfg(test)]
mod tests {
    use super::*;
    use crate::explain::MOST_STEPS;
    use shapes::Rect;

    const B: &str = "010202020400 020040 024101 060000 08000001 09010102 08020103 0A03 0B0000 0B0001";

    /// Files with what can be drawn: a path by facts, tests in a row, clashes of each kind, deep rows.
    fn files() -> Vec<String> {
        let and = |more: &str| format!("{B} {more}");
        let mut files: Vec<String> =
            ["0C0001", "030141", "040002 050002", "030000", "050000"].map(and).to_vec();
        let others = [
            "010202020400 050203 07010001 07010100 08000001 09010102 08020103 0A03 0B0000",
            "010202020500 020040 024140 060000 08000001 08010002 08020103 08030104 0A04 0B0000",
            "010203020300 020040 020042 020044 040400 040402 060000 08000001 08010302 0A02 0B0000",
            "010202030600 020040 07010001 060001 07010102 08000201 08010002 08020103 08030204 09040005 0A04 0B0002",
            "010201010500 060000 060100 09000001 09010102 09020003 0A03 0B0000",
            "010002030100 050000 07010001 07000002 07010201 0A00 0B0000",
            "010202020400 020040 024142 024340 060000 08000001 08010202 08020003 0A03 0E00 0B0000 0E01",
            "010202020300 07010000 07000001 08000201 08010002 0A02 0B0001 0B0000",
            "010202020300 07010000 07000001 08000201 08010002 0A02 050203 0B0001",
            "010203030600 060001 07010101 07000001 07000101 07020102 07010001 08000001 08010301 08010002 08020403 08030103 09030004 0A03 0A04 0B0002 0B0001",
            "010201010500 060000 07000000 020140 08000001 08010102 09020003 08030104 0A04 0B0000",
        ];
        files.extend(others.map(String::from));
        files.push(B.to_string());
        files
    }

    fn drawn(words: &str) -> Drawing {
        let input: String = words.split(' ').map(|line| format!("{line}\n")).collect();
        let explained =
            Explanation::of(input.as_bytes(), MOST_STEPS).unwrap_or_else(|_| panic!("a sound file"));
        let words = Words::read("Owner,Deed/signs,holds,third");
        drawing(&explained, &words, "A case").expect("a small file")
    }

    #[test]
    fn no_label_stands_on_another_and_none_is_cut_off() {
        for file in files() {
            let Drawing { width, height, shapes } = drawn(&file);
            let labels: Vec<Rect> = shapes.iter().filter_map(Shape::label).collect();
            for (place, one) in labels.iter().enumerate() {
                assert!(
                    one.left >= 0 && one.top >= 0 && one.right <= width && one.bottom <= height,
                    "{file}"
                );
                assert!(labels[place + 1..].iter().all(|other| !one.overlaps(other)), "{file}: {one:?}");
            }
        }
    }

    #[test]
    fn a_file_with_many_elements_is_refused() {
        let file = "010002FF0100 0A00 0B0000";
        let input: String = file.split(' ').map(|line| format!("{line}\n")).collect();
        let explained =
            Explanation::of(input.as_bytes(), MOST_STEPS).unwrap_or_else(|_| panic!("a sound file"));
        assert!(picture(&explained, &Words::default(), "").is_err());
    }
}
