//! What an SVG picture takes up, measured from its elements alone.

/// An upright rectangle: left, top, right, bottom.
#[derive(Clone, Copy, Debug)]
pub struct Area {
    pub left: f64,
    pub top: f64,
    pub right: f64,
    pub bottom: f64,
}

#[derive(Clone, Copy, Debug)]
pub struct Circle {
    pub x: f64,
    pub y: f64,
    pub radius: f64,
}

#[derive(Clone, Debug)]
pub struct Text {
    pub words: String,
    pub area: Area,
}

/// Places along a line with an arrowhead, from its start to its end.
#[derive(Clone, Debug)]
pub struct Line {
    pub places: Vec<(f64, f64)>,
    pub color: String,
    pub width: f64,
}

/// The elements of a picture, in their order, with the order of the last circle and of the first label on a rim.
#[derive(Clone, Debug)]
pub struct Seen {
    pub frame: Area,
    pub circles: Vec<Circle>,
    pub texts: Vec<Text>,
    pub lines: Vec<Line>,
    pub last_circle: usize,
    pub first_label: Option<usize>,
}

impl Area {
    pub fn overlaps(&self, other: &Area) -> bool {
        self.left < other.right
            && other.left < self.right
            && self.top < other.bottom
            && other.top < self.bottom
    }

    pub fn contains(&self, other: &Area) -> bool {
        self.left <= other.left
            && self.top <= other.top
            && other.right <= self.right
            && other.bottom <= self.bottom
    }

    /// Whether a part of a circle is in it.
    pub fn meets(&self, circle: &Circle) -> bool {
        let x = circle.x.clamp(self.left, self.right) - circle.x;
        let y = circle.y.clamp(self.top, self.bottom) - circle.y;
        x.hypot(y) < circle.radius
    }

    fn around((x, y): (f64, f64), by: f64) -> Self {
        Area {
            left: x - by,
            top: y - by,
            right: x + by,
            bottom: y + by,
        }
    }
}

impl Circle {
    pub fn area(&self) -> Area {
        Area::around((self.x, self.y), self.radius)
    }

    pub fn distance(&self, (x, y): (f64, f64)) -> f64 {
        (x - self.x).hypot(y - self.y)
    }
}

impl Line {
    /// What the line and its head take.
    pub fn areas(&self) -> impl Iterator<Item = Area> + '_ {
        let half = self.width / 2.0;
        let end = self.places.last().map(|&end| Area::around(end, 4.5));
        let places = self
            .places
            .iter()
            .map(move |&place| Area::around(place, half));
        places.chain(end)
    }
}

/// How wide a character of the widest of the usual sans-serif fonts is, DejaVu Sans, in thousandths of its size.
fn character(c: char, bold: bool) -> f64 {
    let (plain, thick) = match c {
        '0'..='9' => (636, 696),
        '/' => (337, 365),
        ' ' => (318, 348),
        ',' | '.' => (318, 380),
        ':' | ';' => (337, 400),
        '?' => (531, 580),
        'i' | 'j' | 'l' => (278, 343),
        'f' => (352, 435),
        'r' => (411, 493),
        't' => (392, 478),
        'm' => (974, 1042),
        'w' => (818, 924),
        'a'..='z' => (635, 716),
        'M' | 'W' => (989, 1103),
        'A'..='Z' => (787, 850),
        '&' | '<' | '>' => (838, 872),
        '"' => (460, 521),
        _ => (1000, 1100),
    };
    f64::from(if bold { thick } else { plain }) / 1000.0
}

fn attribute<'a>(element: &'a str, name: &str) -> Option<&'a str> {
    let start = element.find(&format!(" {name}=\""))? + name.len() + 3;
    element[start..].split('"').next()
}

fn number(element: &str, name: &str) -> Option<f64> {
    attribute(element, name)?.parse().ok()
}

fn numbers(list: &str) -> Vec<f64> {
    let parts = list.split([' ', 'M', 'C', ',']);
    let parts = parts.filter(|part| !part.is_empty());
    parts.map(|part| part.parse().expect("a number")).collect()
}

fn circle(element: &str) -> Circle {
    let [x, y, radius] = ["cx", "cy", "r"].map(|name| number(element, name).expect(name));
    Circle { x, y, radius }
}

fn text(element: &str, words: &str, size: f64) -> Text {
    let words = words
        .replace("&lt;", "<")
        .replace("&gt;", ">")
        .replace("&amp;", "&");
    let [x, y] = ["x", "y"].map(|name| number(element, name).expect(name));
    let bold = attribute(element, "font-weight").is_some();
    let width: f64 = words.chars().map(|c| size * character(c, bold)).sum();
    let left = match attribute(element, "text-anchor") {
        Some("middle") => x - width / 2.0,
        None => x,
        other => panic!("{other:?}"),
    };
    let area = Area {
        left,
        top: y - 0.76 * size,
        right: left + width,
        bottom: y + 0.24 * size,
    };
    Text { words, area }
}

/// The places of `M x y C x y x y x y`.
fn line(element: &str) -> Line {
    let points = numbers(attribute(element, "d").expect("a way"));
    let [ax, ay, bx, by, cx, cy, dx, dy] = points[..] else {
        panic!("{element}");
    };
    let at = |a: f64, b: f64, c: f64, d: f64, t: f64| {
        let s = 1.0 - t;
        a * s * s * s + 3.0 * b * s * s * t + 3.0 * c * s * t * t + d * t * t * t
    };
    let place = |i: i32| {
        let t = f64::from(i) / 64.0;
        (at(ax, bx, cx, dx, t), at(ay, by, cy, dy, t))
    };
    Line {
        places: (0..=64).map(place).collect(),
        color: attribute(element, "stroke").expect("a color").to_string(),
        width: number(element, "stroke-width").unwrap_or(1.0),
    }
}

/// The elements of a picture.
pub fn seen(svg: &str) -> Seen {
    let size = number(svg, "font-size").expect("a size");
    let frame = numbers(attribute(svg, "viewBox").expect("a frame"));
    let mut seen = Seen {
        frame: Area {
            left: frame[0],
            top: frame[1],
            right: frame[0] + frame[2],
            bottom: frame[1] + frame[3],
        },
        circles: Vec::new(),
        texts: Vec::new(),
        lines: Vec::new(),
        last_circle: 0,
        first_label: None,
    };
    for (i, part) in svg.split('<').enumerate() {
        let Some((element, words)) = part.split_once('>') else {
            continue;
        };
        match element.split(' ').next() {
            Some("circle") => {
                seen.circles.push(circle(element));
                seen.last_circle = i;
            }
            Some("text") => {
                seen.texts.push(text(element, words, size));
                if attribute(element, "paint-order") == Some("stroke") {
                    seen.first_label = seen.first_label.or(Some(i));
                }
            }
            Some("path") if attribute(element, "marker-end").is_some() => {
                seen.lines.push(line(element));
            }
            _ => {}
        }
    }
    seen
}
