//! SVG. The frame is as large as what is drawn, and no label lies on a state or on another label: if there is no room
//! for that, the states move apart.

mod geometry;
mod labels;
mod layout;

use super::{Arrow, Line, Picture, Target};
use geometry::{Area, Curve, Point, width};
use labels::{Block, place};
use layout::{Layout, Route};
use std::collections::BTreeMap;

/// The size of the font, the height of a line of text, the least radius of a state, the room around everything.
const SIZE: f64 = 13.0;
const LINE: f64 = 15.0;
const STATE: f64 = 20.0;
const MARGIN: f64 = 14.0;

/// How much the room between states grows where it is not enough, and how often.
const GROWTH: f64 = 1.12;
const TRIES: i32 = 40;

/// The room between states where no room is enough: more kinds of arrows between two states than a sheet has.
const CROWDED: f64 = 4.0;

/// What may speak against the worst place of a label, and how many sizes are tried for that.
const CLEAR: f64 = 9.0;
const BETTER: usize = 10;

/// The length of an arrow in the legend, the height of its lines, the most characters in a line of the title.
const SAMPLE: f64 = 42.0;
const ENTRY: f64 = 18.0;
const TITLE: usize = 64;

/// The arrows with their ways and labels.
struct Drawn {
    layout: Layout,
    routes: Vec<Route>,
    blocks: Vec<Block>,
    areas: Vec<Option<Area>>,
}

impl Drawn {
    /// Everything in its place: the states move apart until all of it has room.
    fn of(picture: &Picture, arrows: &BTreeMap<Arrow, Vec<String>>) -> Self {
        let names =
            (0..picture.states).map(|state| width(&picture.names.state(state), SIZE, false));
        let state = names.map(|wide| wide / 2.0 + 5.0).fold(STATE, f64::max);
        let blocks: Vec<Block> = arrows
            .iter()
            .map(|(arrow, labels)| block(arrow, labels))
            .collect();
        let drawn = |scale: f64, loose: bool| {
            let mut layout = Layout::new(picture.states, state, scale);
            layout.loose = loose;
            let routes = layout.routes(arrows.keys())?;
            let placed = place(&layout, &routes, &blocks)?;
            Some((layout, routes, placed))
        };
        let scales = (0..TRIES).map(|i| GROWTH.powi(i));
        let mut fitting = scales.filter_map(|scale| drawn(scale, false)).take(BETTER);
        let mut best = fitting.next();
        while best.as_ref().is_some_and(|best| best.2.cost > CLEAR)
            && let Some(next) = fitting.next()
        {
            best = best
                .filter(|best| best.2.cost <= next.2.cost)
                .or(Some(next));
        }
        let (layout, routes, areas) = match best.or_else(|| drawn(CROWDED, true)) {
            Some((layout, routes, placed)) => (layout, routes, placed.areas),
            None => (Layout::new(picture.states, state, 1.0), vec![], vec![]),
        };
        Drawn {
            layout,
            routes,
            blocks,
            areas,
        }
    }

    /// What all states, arrows and labels take.
    fn area(&self) -> Area {
        let around = |place, by| Area::around(place, Point::new(by, by));
        let states = self.layout.states();
        let states = states.map(|(_, at)| around(at, self.layout.state + 1.0));
        let routes = self.routes.iter().flat_map(|route| route.curve.places(48));
        let routes = routes.map(|place| around(place, 5.0));
        let areas = self.areas.iter().flatten().copied();
        states
            .chain(routes)
            .chain(areas)
            .reduce(|one, other| one.with(&other))
            .unwrap_or_else(|| around(Point::new(0.0, 0.0), 0.0))
    }
}

fn block(arrow: &Arrow, labels: &[String]) -> Block {
    let mut block = Block::of(labels, arrow.marked);
    if arrow.to == Target::Any {
        block.lines.push("any state".to_string());
    }
    block
}

/// The picture in SVG.
#[must_use]
pub fn svg(picture: &Picture) -> String {
    let arrows = picture.arrows();
    let drawn = Drawn::of(picture, &arrows);
    let area = drawn.area();
    let (title, title_area) = title(picture, &area);
    let (legend, legend_area) = legend(&arrows, &area);
    let frame = area.with(&title_area).with(&legend_area).grown(MARGIN);
    let mut text = opening(picture, &arrows, &frame);
    for (arrow, route) in arrows.keys().zip(&drawn.routes) {
        text += &path(&route.curve, arrow.line, arrow.marked);
    }
    for (state, at) in drawn.layout.states() {
        text += &circle(at, drawn.layout.state, &picture.names.state(state));
    }
    let labels = drawn.blocks.iter().zip(&drawn.areas).zip(arrows.keys());
    for ((block, area), arrow) in labels {
        if let Some(area) = area {
            text += &lines(block, area, color(arrow.line, arrow.marked));
        }
    }
    text + &title + &legend + "</svg>\n"
}

/// The frame, the words for those who do not see the picture, the arrowheads, white paper.
fn opening(picture: &Picture, arrows: &BTreeMap<Arrow, Vec<String>>, frame: &Area) -> String {
    let (Point { x, y }, size) = (frame.min, frame.size());
    let (wide, high) = (size.x, size.y);
    let heads = ["black", "red", "gray"]
        .into_iter()
        .filter(|&one| arrows.keys().any(|a| color(a.line, a.marked) == one));
    format!(
        "<svg xmlns=\"http://www.w3.org/2000/svg\" viewBox=\"{x:.1} {y:.1} {wide:.1} {high:.1}\" width=\"{wide:.0}\" \
         role=\"img\" font-family=\"sans-serif\" font-size=\"{SIZE}\">\n<title>{}</title>\n<desc>{}</desc>\n{}\
         <rect x=\"{x:.1}\" y=\"{y:.1}\" width=\"{wide:.1}\" height=\"{high:.1}\" fill=\"white\"/>\n",
        escaped(&picture.heading()),
        escaped(&description(picture, arrows)),
        heads.map(arrowhead).collect::<String>(),
    )
}

/// The arrows in words.
fn description(picture: &Picture, arrows: &BTreeMap<Arrow, Vec<String>>) -> String {
    let name = |state| picture.names.state(state);
    let words = arrows.iter().map(|(arrow, labels)| {
        let from = arrow.from.map_or("fresh start".to_string(), name);
        let to = match arrow.to {
            Target::State(state) => name(state),
            Target::Any => "any state".to_string(),
        };
        let kind = match arrow.line {
            Line::Rule => "",
            Line::Fault if arrow.from.is_none() => "START, ",
            Line::Fault => "FAULT, ",
            Line::Unspecified => "no RULE, ",
            Line::Specified => "specified, ",
        };
        let labels = match labels.as_slice() {
            [] => String::new(),
            all => format!(": {}", all.join(", ")),
        };
        format!("{kind}{from} to {to}{labels}")
    });
    words.collect::<Vec<_>>().join("; ")
}

/// Text inside an element.
fn escaped(text: &str) -> String {
    text.replace('&', "&amp;")
        .replace('<', "&lt;")
        .replace('>', "&gt;")
}

fn arrowhead(color: &str) -> String {
    format!(
        "<marker id=\"{color}\" viewBox=\"0 0 8 8\" refX=\"8\" refY=\"4\" markerWidth=\"9\" markerHeight=\"9\" \
         markerUnits=\"userSpaceOnUse\" orient=\"auto\"><path d=\"M0 0L8 4L0 8z\" fill=\"{color}\"/></marker>\n"
    )
}

fn color(line: Line, marked: bool) -> &'static str {
    match (line, marked) {
        (_, true) => "red",
        (Line::Specified, _) => "gray",
        _ => "black",
    }
}

fn path(curve: &Curve, line: Line, marked: bool) -> String {
    let color = color(line, marked);
    let dashes = match line {
        Line::Rule | Line::Specified => "",
        Line::Fault => " stroke-dasharray=\"7 4\"",
        Line::Unspecified => " stroke-dasharray=\"2 3\"",
    };
    let thick = if marked { " stroke-width=\"3\"" } else { "" };
    let Curve([a, b, c, d]) = curve;
    format!(
        "<path d=\"M{:.1} {:.1}C{:.1} {:.1} {:.1} {:.1} {:.1} {:.1}\" fill=\"none\" stroke=\"{color}\"{dashes}{thick} \
         marker-end=\"url(#{color})\"/>\n",
        a.x, a.y, b.x, b.y, c.x, c.y, d.x, d.y
    )
}

fn circle(at: Point, radius: f64, name: &str) -> String {
    let Point { x, y } = at;
    let (text, base) = (escaped(name), y + SIZE / 3.0);
    format!(
        "<circle cx=\"{x:.1}\" cy=\"{y:.1}\" r=\"{radius:.1}\" fill=\"white\" stroke=\"black\"/>\n\
         <text x=\"{x:.1}\" y=\"{base:.1}\" text-anchor=\"middle\">{text}</text>\n"
    )
}

/// The lines of a block in its area, on a white rim.
fn lines(block: &Block, area: &Area, color: &str) -> String {
    let weight = if block.bold {
        " font-weight=\"bold\""
    } else {
        ""
    };
    let x = area.centre().x;
    let lines = block.lines.iter().enumerate().map(|(i, line)| {
        let (y, line) = (baseline(area.min.y, i), escaped(line));
        format!(
            "<text x=\"{x:.1}\" y=\"{y:.1}\" text-anchor=\"middle\" fill=\"{color}\"{weight} stroke=\"white\" \
             stroke-width=\"3\" paint-order=\"stroke\">{line}</text>\n"
        )
    });
    lines.collect()
}

/// Where the letters of a line stand, below the upper edge of its block.
fn baseline(top: f64, line: usize) -> f64 {
    top + LINE * line as f64 + 11.5
}

/// The title above an area, and what it takes.
fn title(picture: &Picture, area: &Area) -> (String, Area) {
    let mut lines: Vec<String> = Vec::new();
    for word in picture.title.split(' ').filter(|word| !word.is_empty()) {
        match lines.last_mut() {
            Some(line) if line.len() + word.len() < TITLE => {
                *line += " ";
                *line += word;
            }
            _ => lines.push(word.to_string()),
        }
    }
    let block = Block { lines, bold: false };
    let half = block.half();
    let middle = Point::new(area.centre().x, area.min.y - half.y - 10.0);
    match block.lines.is_empty() {
        true => (String::new(), *area),
        false => {
            let taken = Area::around(middle, half);
            (self::lines(&block, &taken, "black"), taken)
        }
    }
}

/// What is drawn, each kind with its line, below an area; and what that takes.
fn legend(arrows: &BTreeMap<Arrow, Vec<String>>, area: &Area) -> (String, Area) {
    let entries = entries(arrows);
    let (left, top) = (area.min.x, area.max.y + 14.0);
    let words = |text: &str, x: f64, i: usize| {
        let (y, text) = (baseline(top, 0) + ENTRY * i as f64, escaped(text));
        format!("<text x=\"{x:.1}\" y=\"{y:.1}\" fill=\"#555\">{text}</text>\n")
    };
    let labelled = arrows.values().any(|labels| !labels.is_empty());
    let first = if labelled { LABELS } else { "" }.to_string() + STARTS;
    let mut text = words(&first, left, 0);
    let mut wide = width(&first, SIZE, false);
    for (i, &(line, marked, told)) in entries.iter().enumerate() {
        let y = baseline(top, 0) + ENTRY * (i + 1) as f64 - 4.0;
        let start = Point::new(left, y);
        let end = start + Point::new(SAMPLE, 0.0);
        text += &path(&Curve::straight(start, end), line, marked);
        text += &words(told, left + SAMPLE + 8.0, i + 1);
        wide = wide.max(SAMPLE + 8.0 + width(told, SIZE, false));
    }
    let high = ENTRY * (entries.len() + 1) as f64;
    let (min, max) = (Point::new(left, top), Point::new(left + wide, top + high));
    (text, Area { min, max })
}

const LABELS: &str = "press/sound; ";
const STARTS: &str = "from nowhere: fresh start";

/// The kinds of arrows that occur: line, mark, and what they stand for.
fn entries(arrows: &BTreeMap<Arrow, Vec<String>>) -> Vec<(Line, bool, &'static str)> {
    let some = |test: &dyn Fn(&Arrow) -> bool| arrows.keys().any(test);
    let of = |line: Line| {
        some(&|arrow| arrow.line == line && (arrow.from.is_some() || line != Line::Rule))
    };
    let fault = some(&|arrow| arrow.line == Line::Fault && arrow.from.is_some());
    let start = some(&|arrow| arrow.line == Line::Fault && arrow.from.is_none());
    let fault = match (fault, start) {
        (true, true) => "FAULT or START",
        (false, true) => "START",
        _ => "FAULT",
    };
    let all = [
        (Line::Rule, "RULE"),
        (Line::Fault, fault),
        (Line::Unspecified, "no RULE"),
        (Line::Specified, "specified instead"),
    ];
    let kinds = all.into_iter().filter(|&(line, _)| of(line));
    let kinds = kinds.map(|(line, told)| (line, false, told));
    let marked = some(&|arrow| arrow.marked);
    let sequence = "the departing sequence, with positions";
    let marked = marked.then_some((Line::Rule, true, sequence));
    kinds.chain(marked).collect()
}
