//! Places, boxes, curves, and how wide a text is.

use std::ops::{Add, Mul, Sub};

#[derive(Clone, Copy, Debug, PartialEq)]
pub struct Point {
    pub x: f64,
    pub y: f64,
}

impl Point {
    pub fn new(x: f64, y: f64) -> Self {
        Point { x, y }
    }

    pub fn at_angle(angle: f64) -> Self {
        let (y, x) = angle.sin_cos();
        Point { x, y }
    }

    pub fn length(self) -> f64 {
        self.x.hypot(self.y)
    }

    /// The direction to another place; to the right if it is the same.
    pub fn towards(self, other: Point) -> Point {
        let gap = other - self;
        match gap.length() {
            length if length > 0.0 => gap * (1.0 / length),
            _ => Point::new(1.0, 0.0),
        }
    }

    /// The direction to the left of this one, as it is seen.
    pub fn left(self) -> Point {
        Point::new(self.y, -self.x)
    }
}

impl Add for Point {
    type Output = Point;
    fn add(self, other: Point) -> Point {
        Point::new(self.x + other.x, self.y + other.y)
    }
}

impl Sub for Point {
    type Output = Point;
    fn sub(self, other: Point) -> Point {
        self + other * -1.0
    }
}

impl Mul<f64> for Point {
    type Output = Point;
    fn mul(self, factor: f64) -> Point {
        Point::new(self.x * factor, self.y * factor)
    }
}

/// An upright rectangle, from its upper left to its lower right corner.
#[derive(Clone, Copy, Debug, PartialEq)]
pub struct Area {
    pub min: Point,
    pub max: Point,
}

impl Area {
    /// Around a centre, with half its width and height.
    pub fn around(centre: Point, half: Point) -> Self {
        Area {
            min: centre - half,
            max: centre + half,
        }
    }

    pub fn centre(&self) -> Point {
        (self.min + self.max) * 0.5
    }

    pub fn size(&self) -> Point {
        self.max - self.min
    }

    pub fn grown(&self, by: f64) -> Self {
        let by = Point::new(by, by);
        Area {
            min: self.min - by,
            max: self.max + by,
        }
    }

    pub fn with(&self, other: &Area) -> Self {
        let min = Point::new(self.min.x.min(other.min.x), self.min.y.min(other.min.y));
        let max = Point::new(self.max.x.max(other.max.x), self.max.y.max(other.max.y));
        Area { min, max }
    }

    pub fn overlaps(&self, other: &Area) -> bool {
        self.min.x < other.max.x
            && other.min.x < self.max.x
            && self.min.y < other.max.y
            && other.min.y < self.max.y
    }

    pub fn has(&self, place: Point) -> bool {
        self.overlaps(&Area {
            min: place,
            max: place,
        })
    }

    /// How far a place is outside; 0 inside.
    pub fn distance(&self, place: Point) -> f64 {
        let x = (self.min.x - place.x).max(place.x - self.max.x).max(0.0);
        let y = (self.min.y - place.y).max(place.y - self.max.y).max(0.0);
        x.hypot(y)
    }
}

/// A cubic Bézier curve: its ends, and two places that pull it.
#[derive(Clone, Copy, Debug, PartialEq)]
pub struct Curve(pub [Point; 4]);

impl Curve {
    pub fn straight(from: Point, to: Point) -> Self {
        Curve([from, from * 0.7 + to * 0.3, from * 0.3 + to * 0.7, to])
    }

    pub fn at(&self, t: f64) -> Point {
        let (Curve([a, b, c, d]), s) = (self, 1.0 - t);
        *a * (s * s * s) + *b * (3.0 * s * s * t) + *c * (3.0 * s * t * t) + *d * (t * t * t)
    }

    /// The direction at a part of the way.
    pub fn direction(&self, t: f64) -> Point {
        self.at(t - 0.01).towards(self.at(t + 0.01))
    }

    /// Places along it, from end to end.
    pub fn places(&self, count: usize) -> impl Iterator<Item = Point> {
        (0..=count).map(move |i| self.at(i as f64 / count as f64))
    }
}

/// How wide a character is at most in a sans-serif font, in parts of the font's size.
fn character(c: char) -> f64 {
    match c {
        'i' | 'j' | 'l' | 'I' | '/' | ' ' | ',' | '.' | ':' | ';' | '\'' | '|' => 0.34,
        'f' | 'r' | 't' | '(' | ')' | '-' | '!' => 0.42,
        'm' | 'w' | 'M' | 'W' | '@' | '%' => 1.0,
        '0'..='9' | 'a'..='z' => 0.64,
        c if c.is_ascii() => 0.84,
        _ => 1.1,
    }
}

/// How wide a text is at most.
pub fn width(text: &str, size: f64, bold: bool) -> f64 {
    let parts: f64 = text.chars().map(character).sum();
    parts * size * if bold { 1.12 } else { 1.0 }
}
