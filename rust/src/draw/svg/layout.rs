//! Where the states stand, on a circle, state 0 to the left, clockwise; and along which curves the arrows go.

use super::geometry::{Curve, Point};
use crate::draw::{Arrow, Target};
use std::collections::BTreeMap;
use std::f64::consts::{FRAC_PI_2, PI};

/// The room between two states that stand beside each other, and between an arrow and a state that it passes.
const ROOM: f64 = 110.0;
const PASSING: f64 = 9.0;

/// How far the first of several arrows between two states bends, at least and as a part of its length; and how many
/// times that lies between two of them.
const BEND: f64 = 14.0;
const BENT: f64 = 0.035;
const FURTHER: f64 = 1.8;
const BENDS: i32 = 12;

/// How far apart the ends of arrows at a state are, where there is room, and how often they push each other away.
const APART: f64 = 10.0;
const PUSHES: usize = 60;

/// The length of a loop, and of an arrow that comes from nowhere or goes there; and how much longer further ones are.
const LOOP: f64 = 38.0;
const STUB: f64 = 38.0;
const LONGER: f64 = 30.0;

/// The way of an arrow, and the direction from it in which its labels stand first.
pub struct Route {
    pub curve: Curve,
    pub labels: Labels,
}

/// Where the labels of an arrow stand.
#[derive(Clone, Copy, PartialEq)]
pub enum Labels {
    /// Beside its middle, to the left first.
    Left,
    /// Beside its middle, to the right first.
    Right,
    /// Beyond its middle, in a direction.
    Middle(Point),
    /// Beyond its end, in a direction.
    End(Point),
}

pub struct Layout {
    count: u8,
    /// The radius of a state.
    pub state: f64,
    /// The radius of the circle on which they stand.
    radius: f64,
    scale: f64,
    /// Whether arrows may come near to states, and labels lie on others, where there is no room.
    pub loose: bool,
}

impl Layout {
    /// So many states of a radius; the larger the scale, the more room is between them.
    pub fn new(count: u8, state: f64, scale: f64) -> Self {
        let step = PI / f64::from(count.max(2));
        let radius = match count {
            1 => 0.0,
            _ => (2.0 * state + ROOM * scale) / (2.0 * step.sin()),
        };
        Layout {
            count,
            state,
            radius,
            scale,
            loose: false,
        }
    }

    pub fn states(&self) -> impl Iterator<Item = (u8, Point)> {
        (0..self.count).map(|state| (state, self.place(state)))
    }

    /// The direction away from the other states; a lone state looks up.
    fn outward(&self, state: u8) -> f64 {
        match self.count {
            1 => -FRAC_PI_2,
            count => PI + 2.0 * PI * f64::from(state) / f64::from(count),
        }
    }

    pub fn place(&self, state: u8) -> Point {
        Point::at_angle(self.outward(state)) * self.radius
    }

    /// A way for each arrow, if there is room for all.
    pub fn routes<'a>(&self, arrows: impl Iterator<Item = &'a Arrow>) -> Option<Vec<Route>> {
        let arrows: Vec<&Arrow> = arrows.collect();
        let mut around = Around::new(self);
        let mut between = BTreeMap::new();
        let back = |from, to| {
            let back = |arrow: &&Arrow| (arrow.from, arrow.to) == (Some(to), Target::State(from));
            arrows.iter().any(back)
        };
        let mut routes: BTreeMap<usize, Route> = BTreeMap::new();
        let first = arrows.iter().enumerate();
        let (loops, others): (Vec<_>, Vec<_>) = first.partition(|(_, arrow)| is_loop(arrow));
        for (i, arrow) in loops.into_iter().chain(others) {
            let route = match (arrow.from, arrow.to) {
                (Some(from), Target::State(to)) if from == to => around.turn(from),
                (Some(from), Target::State(to)) => {
                    let used = between.entry((from.min(to), from.max(to))).or_default();
                    self.chord(from, to, back(from, to), used)?
                }
                (Some(from), Target::Any) => around.leave(from),
                (None, Target::State(to)) => around.arrive(to),
                (None, Target::Any) => unreachable!("a fresh start leads to a state"),
            };
            routes.insert(i, route);
        }
        let mut routes: Vec<Route> = routes.into_values().collect();
        self.spread(&arrows, &mut routes);
        Some(routes)
    }

    /// Moves the ends of arrows at each state apart, as long as the arrows keep away from the other states.
    fn spread(&self, arrows: &[&Arrow], routes: &mut [Route]) {
        let mut moved: Vec<Curve> = routes.iter().map(|route| route.curve).collect();
        for (state, at) in self.states() {
            let mut ends = ends(state, at, arrows, routes);
            push_apart(&mut ends, APART / self.state);
            for End {
                route, last, angle, ..
            } in ends
            {
                let Curve(points) = &mut moved[route];
                let (end, pulled) = if last { (3, 2) } else { (0, 1) };
                let (pull, direction) = (
                    (points[pulled] - points[end]).length(),
                    Point::at_angle(angle),
                );
                points[end] = at + direction * self.state;
                points[pulled] = points[end] + direction * pull;
            }
        }
        for ((arrow, route), curve) in arrows.iter().zip(routes).zip(moved) {
            let states = (arrow.from, arrow.to);
            if let (Some(from), Target::State(to)) = states
                && self.passes(&curve, from, to)
            {
                route.curve = curve;
            }
        }
    }

    /// From one state to another, bent so that it keeps away from all others and from the arrows between the two, which
    /// have used some bends already. If arrows lead back, they have the other side.
    fn chord(&self, from: u8, to: u8, back: bool, used: &mut Vec<f64>) -> Option<Route> {
        let side = if from < to { 1.0 } else { -1.0 };
        let length = (self.place(to) - self.place(from)).length();
        let first = BEND.max(BENT * length);
        let further = FURTHER * first * self.scale.sqrt();
        let other_side = if back { 1.5 * further } else { 4.0 };
        let bends = (0..BENDS).map(|i| first + further * f64::from(i));
        let bends = bends.flat_map(|bend| [(bend, bend), (-bend, bend + other_side)]);
        let free = bends.filter(|(bend, _)| {
            let mut others = used.iter();
            others.all(|other| (bend * side - other).abs() > 0.9 * further)
        });
        let curves = free.map(|(bend, cost)| (bend, cost, self.bow(from, to, bend)));
        let passing = curves.filter(|(_, _, curve)| self.passes(curve, from, to));
        let best = passing.min_by(|one, other| one.1.total_cmp(&other.1));
        let any = || (first, first, self.bow(from, to, first));
        let (bend, _, curve) = best.or_else(|| self.loose.then(any))?;
        used.push(bend * side);
        let labels = if bend > 0.0 {
            Labels::Left
        } else {
            Labels::Right
        };
        Some(Route { curve, labels })
    }

    fn bow(&self, from: u8, to: u8, bend: f64) -> Curve {
        let (from, to) = (self.place(from), self.place(to));
        let turn = (from + to) * 0.5 + from.towards(to).left() * (2.0 * bend);
        let start = from + from.towards(turn) * self.state;
        let end = to + to.towards(turn) * self.state;
        let pulled = |place: Point| place * (1.0 / 3.0) + turn * (2.0 / 3.0);
        Curve([start, pulled(start), pulled(end), end])
    }

    /// Whether a curve keeps away from all states but two.
    fn passes(&self, curve: &Curve, from: u8, to: u8) -> bool {
        let mut others = self
            .states()
            .filter(|&(state, _)| state != from && state != to);
        others.all(|(_, at)| {
            let mut places = curve.places(48);
            places.all(|place| (place - at).length() > self.state + PASSING)
        })
    }
}

/// An end of an arrow at a state: which arrow, whether its last end, and where on the state's rim. Those of loops and
/// of arrows to and from nowhere stay where they are.
struct End {
    route: usize,
    last: bool,
    angle: f64,
    stays: bool,
}

/// The ends at a state.
fn ends(state: u8, at: Point, arrows: &[&Arrow], routes: &[Route]) -> Vec<End> {
    let mut ends = Vec::new();
    for (route, (arrow, Route { curve, .. })) in arrows.iter().zip(routes).enumerate() {
        let Curve([start, .., end]) = *curve;
        let stays = is_loop(arrow) || arrow.from.is_none() || arrow.to == Target::Any;
        let mut add = |last: bool, place: Point| {
            let gap = place - at;
            let angle = gap.y.atan2(gap.x);
            ends.push(End {
                route,
                last,
                angle,
                stays,
            });
        };
        if arrow.from == Some(state) {
            add(false, start);
        }
        if arrow.to == Target::State(state) {
            add(true, end);
        }
    }
    ends
}

/// Turns neighbours away from each other until they are so far apart, or as far as there is room.
fn push_apart(ends: &mut [End], apart: f64) {
    ends.sort_by(|one, other| one.angle.total_cmp(&other.angle));
    let count = ends.len();
    let apart = apart.min(1.6 * PI / count as f64);
    for _ in 0..PUSHES {
        for i in 0..count.saturating_sub(1) {
            let missing = apart - (ends[i + 1].angle - ends[i].angle);
            if missing > 0.0 {
                let (one, other) = match (ends[i].stays, ends[i + 1].stays) {
                    (true, true) => (0.0, 0.0),
                    (true, false) => (0.0, missing),
                    (false, true) => (missing, 0.0),
                    (false, false) => (missing / 2.0, missing / 2.0),
                };
                ends[i].angle -= one;
                ends[i + 1].angle += other;
            }
        }
    }
}

fn is_loop(arrow: &Arrow) -> bool {
    arrow.from.map(Target::State) == Some(arrow.to)
}

/// The directions around the states that loops, fresh starts and arrows to any state have taken: turns from outward.
struct Around<'a> {
    layout: &'a Layout,
    taken: BTreeMap<u8, Vec<f64>>,
}

impl<'a> Around<'a> {
    fn new(layout: &'a Layout) -> Self {
        let taken = BTreeMap::new();
        Around { layout, taken }
    }

    /// The next direction at a state, and how much longer than the first an arrow there is.
    fn direction(&mut self, state: u8, side: f64) -> (Point, f64) {
        let turns: &[f64] = match self.layout.count {
            1 => &[0.0, 90.0, -90.0, 180.0],
            2..=4 => &[0.0, 56.0, -56.0, 108.0, -108.0],
            _ => &[0.0, 56.0, -56.0],
        };
        let levels = [(0.0, 0.0), (25.0, LONGER), (-25.0, 2.0 * LONGER)];
        let all = levels
            .iter()
            .flat_map(|&(more, longer)| turns.iter().map(move |turn| (turn + more, longer)));
        let taken = self.taken.entry(state).or_default();
        let free = all
            .map(|(turn, longer)| (turn * side, longer))
            .find(|(turn, _)| !taken.contains(turn));
        let (turn, longer) = free.unwrap_or((0.0, 3.0 * LONGER));
        taken.push(turn);
        let angle = self.layout.outward(state) + turn.to_radians();
        (Point::at_angle(angle), longer)
    }

    /// A loop at a state.
    fn turn(&mut self, state: u8) -> Route {
        let (direction, longer) = self.direction(state, 1.0);
        let (at, side) = (self.layout.place(state), direction.left());
        let radius = self.layout.state;
        let foot = direction * (radius * radius - 64.0).sqrt();
        let far = direction * (radius + LOOP + longer);
        let wide = side * (28.0 + longer / 4.0);
        let curve = Curve([
            at + foot + side * 8.0,
            at + far + wide,
            at + far - wide,
            at + foot - side * 8.0,
        ]);
        let labels = Labels::Middle(direction);
        Route { curve, labels }
    }

    /// From nowhere to a state.
    fn arrive(&mut self, state: u8) -> Route {
        let (near, far, direction) = self.stub(state, -1.0);
        let (curve, labels) = (Curve::straight(far, near), Labels::Middle(direction));
        Route { curve, labels }
    }

    /// From a state to any.
    fn leave(&mut self, state: u8) -> Route {
        let (near, far, direction) = self.stub(state, 1.0);
        let (curve, labels) = (Curve::straight(near, far), Labels::End(direction));
        Route { curve, labels }
    }

    fn stub(&mut self, state: u8, side: f64) -> (Point, Point, Point) {
        let (direction, longer) = self.direction(state, side);
        let (at, radius) = (self.layout.place(state), self.layout.state);
        let (near, far) = (radius, radius + STUB + longer);
        (at + direction * near, at + direction * far, direction)
    }
}
