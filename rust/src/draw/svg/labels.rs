//! Labels: what stands in them, and where there is room for them.

use super::geometry::{Area, Curve, Point, width};
use super::layout::{Labels, Layout, Route};
use super::{LINE, SIZE};
use std::collections::BTreeMap;

/// The room around a label, and between it and its arrow.
const ROOM: f64 = 1.5;
const BESIDE: f64 = 4.5;

/// How far from a label another arrow is near.
const NEAR: f64 = 5.0;

/// The side of the squares into which places are sorted, and the way between two places of a curve.
const SQUARE: f64 = 32.0;
const STEP: f64 = 6.0;

/// Lines of text, one below the other.
#[derive(Clone, Debug, Default, PartialEq)]
pub struct Block {
    pub lines: Vec<String>,
    pub bold: bool,
}

impl Block {
    /// Labels in lines, so that the block is about twice as wide as high.
    pub fn of(labels: &[String], bold: bool) -> Self {
        let wide = |text: &str| width(text, SIZE, bold);
        let whole: f64 = labels.iter().map(|label| wide(label) + SIZE).sum();
        let most = (2.0 * LINE * whole).sqrt();
        let mut lines: Vec<String> = Vec::new();
        for label in labels {
            match lines.last_mut() {
                Some(line) if wide(line) + wide(label) + SIZE <= most => {
                    *line += ", ";
                    *line += label;
                }
                _ => lines.push(label.clone()),
            }
        }
        Block { lines, bold }
    }

    /// Half its width and height.
    pub fn half(&self) -> Point {
        let widths = self.lines.iter().map(|line| width(line, SIZE, self.bold));
        let wide = widths.fold(0.0, f64::max);
        Point::new(wide, LINE * self.lines.len() as f64) * 0.5
    }
}

/// What labels keep away from: states and other labels always, arrows as far as they can.
struct Obstacles<'a> {
    layout: &'a Layout,
    placed: Vec<Area>,
    /// Places along each arrow, by their squares.
    arrows: BTreeMap<(i32, i32), Vec<(usize, Point)>>,
}

fn square(place: Point) -> (i32, i32) {
    let index = |x: f64| (x / SQUARE).floor() as i32;
    (index(place.x), index(place.y))
}

impl<'a> Obstacles<'a> {
    fn new(layout: &'a Layout, routes: &[Route]) -> Self {
        let mut arrows: BTreeMap<_, Vec<(usize, Point)>> = BTreeMap::new();
        for (i, route) in routes.iter().enumerate() {
            let Curve([start, .., end]) = route.curve;
            let count = ((end - start).length() / STEP) as usize + 12;
            for place in route.curve.places(count) {
                arrows.entry(square(place)).or_default().push((i, place));
            }
        }
        let placed = Vec::new();
        Obstacles {
            layout,
            placed,
            arrows,
        }
    }

    fn is_free(&self, area: &Area) -> bool {
        let area = area.grown(ROOM);
        let mut states = self.layout.states();
        states.all(|(_, at)| area.distance(at) > self.layout.state + ROOM)
            && self.placed.iter().all(|other| !area.overlaps(other))
    }

    /// How much of the arrows is in an area, or of others near it.
    fn hidden(&self, area: &Area, own: usize) -> f64 {
        let near = area.grown(NEAR);
        let (least, most) = (square(near.min), square(near.max));
        let squares = (least.0..=most.0).flat_map(|x| (least.1..=most.1).map(move |y| (x, y)));
        let places = squares.filter_map(|at| self.arrows.get(&at)).flatten();
        let weight = |&(arrow, place): &(usize, Point)| match (arrow == own, area.has(place)) {
            (true, inside) => f64::from(inside),
            (false, true) => 3.0,
            (false, false) => f64::from(near.has(place)),
        };
        places.map(weight).sum()
    }

    /// The best free place for a block at an arrow, and what speaks against it.
    fn place(&mut self, block: &Block, route: &Route, own: usize) -> Option<(f64, Area)> {
        let mut best: Option<(f64, Area)> = None;
        for (cost, area) in candidates(block.half(), route) {
            if best.is_some_and(|(least, _)| least <= cost) || !self.is_free(&area) {
                continue;
            }
            let cost = cost + self.hidden(&area, own);
            if best.is_none_or(|(least, _)| cost < least) {
                best = Some((cost, area));
            }
        }
        let first = || candidates(block.half(), route).into_iter().next();
        let (cost, area) = best.or_else(|| self.layout.loose.then(first).flatten())?;
        self.placed.push(area);
        Some((cost, area))
    }
}

/// Where a block of a size may stand at an arrow, each place with what speaks against it.
fn candidates(half: Point, route: &Route) -> Vec<(f64, Area)> {
    match route.labels {
        Labels::Left => beside_middle(half, &route.curve, 1.0),
        Labels::Right => beside_middle(half, &route.curve, -1.0),
        Labels::Middle(direction) => beyond(half, route.curve.at(0.5), direction),
        Labels::End(direction) => beyond(half, route.curve.at(1.0), direction),
    }
}

/// The area beyond a place in a direction: beside it by an edge, or in a slanting direction by a corner.
fn area_beyond(half: Point, place: Point, direction: Point, gap: f64) -> Area {
    let part = |x: f64| (1.6 * x).clamp(-1.0, 1.0);
    let reach = Point::new(part(direction.x) * half.x, part(direction.y) * half.y);
    Area::around(place + direction * gap + reach, half)
}

/// Along the curve, from its middle on: to one side, to the other, on it.
fn beside_middle(half: Point, curve: &Curve, side: f64) -> Vec<(f64, Area)> {
    let mut all = Vec::new();
    for i in 0..=14 {
        for t in [0.5 + 0.025 * f64::from(i), 0.5 - 0.025 * f64::from(i)] {
            let (at, left) = (curve.at(t), curve.direction(t).left() * side);
            let cost = 0.8 * f64::from(i);
            all.push((cost, area_beyond(half, at, left, BESIDE)));
            all.push((cost + 3.0, area_beyond(half, at, left * -1.0, BESIDE)));
            all.push((cost + 6.0, Area::around(at, half)));
        }
    }
    all
}

/// Beyond a place in a direction, or turned away from it, near first.
fn beyond(half: Point, place: Point, direction: Point) -> Vec<(f64, Area)> {
    let mut all = Vec::new();
    for turn in [0.0_f64, 0.3, -0.3, 0.6, -0.6, 1.0, -1.0, 1.5, -1.5] {
        let (sin, cos) = turn.sin_cos();
        let turned = direction * cos + direction.left() * sin;
        for gap in [BESIDE, BESIDE + 8.0, BESIDE + 18.0, BESIDE + 30.0] {
            let cost = 4.0 * turn.abs() + 0.5 * gap;
            all.push((cost, area_beyond(half, place, turned, gap)));
        }
    }
    all
}

/// Where the blocks that have lines stand, and what speaks against the worst of these places.
pub struct Placed {
    pub areas: Vec<Option<Area>>,
    pub cost: f64,
}

/// A place for each block, if there is room for all.
pub fn place(layout: &Layout, routes: &[Route], blocks: &[Block]) -> Option<Placed> {
    let mut obstacles = Obstacles::new(layout, routes);
    let mut order: Vec<usize> = (0..blocks.len()).collect();
    order.sort_by_key(|&i| matches!(routes[i].labels, Labels::Left | Labels::Right));
    let (mut areas, mut cost) = (vec![None; blocks.len()], 0.0_f64);
    for i in order {
        if !blocks[i].lines.is_empty() {
            let (more, area) = obstacles.place(&blocks[i], &routes[i], i)?;
            areas[i] = Some(area);
            cost = cost.max(more);
        }
    }
    Some(Placed { areas, cost })
}
