//! The role facts, and the steps of the path along them: each runs in a lane above the row of individuals.
//! A fact with equal ends runs in a loop, up from its individual and down to it again.

use super::edge::{label_on_line, note_box, note_size, travel_label};
use super::scene::{Scene, Travel};
use super::shapes::{Font, Shape, Style, Towards, LINE, RING};
use crate::collection::RoleFact;
use crate::element::Element;
use crate::explain::noted::{role_facts, Noted};
use crate::numbers::Individual;

/// What runs in a lane.
enum Kind<'a> {
    Fact(String),
    Step(&'a Travel),
    Clash(Vec<String>),
}

/// Between a loop's side and the next line beside it.
const BESIDE: i32 = 20;

pub struct Lane<'a> {
    from: usize,
    to: usize,
    kind: Kind<'a>,
}

/// An individual's box: its middle and how far it reaches to each side.
#[derive(Clone, Copy)]
pub struct Stand {
    pub x: i32,
    pub half: i32,
    pub in_clash: bool,
}

impl Lane<'_> {
    /// The width and height of what is written in the lane.
    fn size(&self) -> (i32, i32) {
        match &self.kind {
            Kind::Fact(label) => (Font::Plain.width(label) + 10, LINE + 14),
            Kind::Step(travel) => (travel_label(travel, 0, 0).1 + 10, 2 * LINE + 10),
            Kind::Clash(lines) => {
                let (wide, high) = note_size(lines);
                (wide, high + 10)
            }
        }
    }

    fn ends(&self) -> (usize, usize) {
        (self.from.min(self.to), self.from.max(self.to))
    }

    fn is_loop(&self) -> bool {
        self.from == self.to
    }

    /// Whether it needs room between the two boxes that stand at these places.
    pub fn room(&self, left: usize, right: usize) -> i32 {
        if self.ends() == (left, right) {
            self.size().0 + 36
        } else {
            0
        }
    }
}

impl Scene<'_> {
    /// From the lowest lane to the highest: loops and short ways first, then facts, steps and the clash.
    pub fn lanes(&self) -> Vec<Lane<'_>> {
        let file = &self.explained.file;
        let mut lanes = Vec::new();
        for (RoleFact { role, first, second, .. }, Noted { line, .. }) in role_facts(file) {
            let label = format!("{} (line {line})", self.words.role(role));
            lanes.push(Lane { from: first.at(), to: second.at(), kind: Kind::Fact(label) });
        }
        for travel in self.travels.iter().filter(|travel| travel.by_fact) {
            let (from, to) = (travel.from.who.at(), travel.to.who.at());
            lanes.push(Lane { from, to, kind: Kind::Step(travel) });
        }
        let people: Vec<Individual> = file.collection.counts.all_individuals().collect();
        for &one in &people {
            for &other in people.iter().filter(|other| **other >= one) {
                if let Some(lines) = self.clash_between(&Element::named(one), &Element::named(other)) {
                    lanes.push(Lane { from: one.at(), to: other.at(), kind: Kind::Clash(lines) });
                }
            }
        }
        lanes.sort_by_key(|lane| lane.ends().1 - lane.ends().0);
        lanes
    }
}

/// How far each loop at this box reaches to both sides of the box's middle: a higher one goes around a lower one.
fn loops(lanes: &[Lane], end: usize) -> Vec<(usize, i32)> {
    let mut half = 0;
    let here = lanes.iter().enumerate().filter(|(_, lane)| lane.is_loop() && lane.from == end);
    here.map(|(place, lane)| {
        half = (lane.size().0 / 2 + BESIDE).max(half + BESIDE);
        (place, half)
    })
    .collect()
}

/// How far the box must reach to both sides, so that the other ways end beside its loops.
pub fn reach(lanes: &[Lane], end: usize) -> i32 {
    let Some(&(_, half)) = loops(lanes, end).last() else { return 0 };
    let others = lanes.iter().filter(|lane| !lane.is_loop() && (lane.from == end || lane.to == end));
    half + BESIDE * (others.count() as i32 + 1)
}

/// The lanes above boxes whose tops stand at 0; and how high they reach.
pub fn draw(lanes: &[Lane], stands: &[Stand]) -> (Vec<Shape>, i32) {
    let mut shapes = Vec::new();
    let mut height = 14;
    for (place, lane) in lanes.iter().enumerate() {
        let (_, high) = lane.size();
        let y = -height - high / 2;
        let mut ends =
            [lane.from, lane.to].map(|end| (port(lanes, stands, place, end), stands[end].in_clash));
        if lane.is_loop() {
            ends[0].0 = 2 * stands[lane.from].x - ends[1].0;
        }
        shapes.extend(one(lane, ends, y));
        height += high;
    }
    (shapes, if lanes.is_empty() { 0 } else { height })
}

/// Where a lane meets a box, a loop where it comes down. Ways to the left have the left part of the box's top, loops
/// the middle; nested ways don't cross.
fn port(lanes: &[Lane], stands: &[Stand], place: usize, end: usize) -> i32 {
    let other = |lane: &Lane| if lane.from == end { lane.to } else { lane.from };
    let loops = loops(lanes, end);
    if let Some((_, half)) = loops.iter().find(|(at, _)| *at == place) {
        return stands[end].x + half;
    }
    let here = lanes.iter().enumerate();
    let here = here.filter(|(_, lane)| !lane.is_loop() && (lane.from == end || lane.to == end));
    let mut order: Vec<(bool, i32, usize)> = Vec::new();
    for (at, lane) in here {
        let to_right = other(lane) > end;
        order.push((to_right, if to_right { -(at as i32) } else { at as i32 }, at));
    }
    order.sort();
    let Stand { x, half, .. } = stands[end];
    let (mut from, mut to) = (x - half, x + half);
    if let Some((_, taken)) = loops.last() {
        let to_right = other(&lanes[place]) > end;
        (from, to) = if to_right { (x + taken, to) } else { (from, x - taken) };
        order.retain(|entry| entry.0 == to_right);
    }
    let position = order.iter().position(|entry| entry.2 == place).unwrap_or(0) as i32;
    from + (to - from) * (position + 1) / (order.len() as i32 + 1)
}

fn one(lane: &Lane, ends: [(i32, bool); 2], y: i32) -> Vec<Shape> {
    let [(from, from_clash), (to, to_clash)] = ends;
    let [near, far] = [from_clash, to_clash].map(|clash| if clash { -8 } else { 0 });
    let middle = (from + to) / 2;
    let mut shapes = Vec::new();
    match &lane.kind {
        Kind::Fact(label) => {
            shapes.push(Shape::Line {
                points: vec![(from, near), (from, y), (to, y), (to, far - 8)],
                style: Style::Edge,
            });
            shapes.push(Shape::Head { x: to, y: far - 1, towards: Towards::Down, style: Style::Edge });
            shapes.extend(label_on_line(middle, y, Font::Plain, std::slice::from_ref(label)));
        }
        Kind::Step(travel) => {
            let points = vec![(from, near - 3), (from, y), (to, y), (to, far - 14)];
            shapes.push(Shape::Line { points, style: Style::Path });
            shapes.push(Shape::Head { x: to, y: far - 2, towards: Towards::Down, style: Style::Path });
            let wide = travel_label(travel, 0, 0).1;
            let lines = travel.lines.clone();
            shapes.push(label_on_line(middle + RING, y, Font::Plain, &lines).swap_remove(0));
            shapes.extend(travel_label(travel, middle - wide / 2, y).0);
        }
        Kind::Clash(lines) => {
            for apart in [-4, 4] {
                let (left, right) = (from + apart, to - apart);
                let points = vec![(left, near), (left, y + apart), (right, y + apart), (right, far)];
                shapes.push(Shape::Line { points, style: Style::Clash });
            }
            shapes.extend(note_box(middle - note_size(lines).0 / 2, y, lines));
        }
    }
    shapes
}
