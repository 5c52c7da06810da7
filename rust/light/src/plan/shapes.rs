//! Lamps on a drawing: discs for points and spots, areas for panels, and where they lie over each other.

use crate::plan::extent::Sheet;
use crate::plan::marks::{Form, Mark, Point3};
use crate::plan::markup::{Box2, px};

/// What a lamp is drawn as.
#[derive(Clone)]
pub enum Shape {
    Disc {
        center: [f64; 2],
        radius: f64,
    },
    /// Closed ways.
    Area(Vec<Vec<[f64; 2]>>),
}

/// How large marks are, in pixels.
#[derive(Clone, Copy)]
pub struct Sizes {
    pub point: f64,
    pub spot: f64,
    /// The least that an area has across.
    pub across: f64,
}

/// A direction that points so little along a drawing, of 1, is drawn as towards the reader or away.
const UPRIGHT: f64 = 0.17;

impl Shape {
    pub fn of(mark: &Mark, sheet: &Sheet, sizes: Sizes) -> Shape {
        let center = sheet.at(mark.at);
        match &mark.form {
            Form::Point => Shape::Disc { center, radius: sizes.point },
            Form::Spot { .. } => Shape::Disc { center, radius: sizes.spot },
            Form::Panel { outline } => {
                let ways = outline.iter().map(|way| way.iter().map(|point| sheet.at(*point)).collect()).collect();
                Shape::Area(widened(ways, sizes.across))
            }
        }
    }

    pub fn bounds(&self) -> Box2 {
        match self {
            Shape::Disc { center, radius } => Box2::around(*center, 2.0 * radius, 2.0 * radius),
            Shape::Area(ways) => Box2::of(ways.iter().flatten().copied()).unwrap_or(Box2::around([0.0; 2], 0.0, 0.0)),
        }
    }

    pub fn is_disc(&self) -> bool {
        matches!(self, Shape::Disc { .. })
    }

    /// Whether it is a panel in the middle of which there is room for a label.
    pub fn fills_its_box(&self) -> bool {
        match self {
            Shape::Disc { .. } => false,
            Shape::Area(ways) => ways.iter().map(|way| enclosed(way)).sum::<f64>() >= 0.8 * self.bounds().area(),
        }
    }

    pub fn moved(&self, by: [f64; 2]) -> Shape {
        let moved = |[x, y]: [f64; 2]| [x + by[0], y + by[1]];
        match self {
            Shape::Disc { center, radius } => Shape::Disc { center: moved(*center), radius: *radius },
            Shape::Area(ways) => Shape::Area(ways.iter().map(|way| way.iter().copied().map(moved).collect()).collect()),
        }
    }
}

/// The same ways, or where they enclose next to nothing, as a panel seen from its edge does, a strip so wide.
fn widened(ways: Vec<Vec<[f64; 2]>>, least: f64) -> Vec<Vec<[f64; 2]>> {
    let Some(bounds) = Box2::of(ways.iter().flatten().copied()) else { return ways };
    let long = bounds.w.hypot(bounds.h);
    if long < 2.0 * least {
        let Box2 { x, y, w, h } = Box2::around(bounds.center(), bounds.w.max(least), bounds.h.max(least));
        return vec![vec![[x, y], [x + w, y], [x + w, y + h], [x, y + h]]];
    }
    if ways.iter().map(|way| enclosed(way)).sum::<f64>() >= 0.8 * least * long {
        return ways;
    }
    let axis = usize::from(bounds.h > bounds.w);
    let along = |by: fn(&&[f64; 2], &&[f64; 2], usize) -> std::cmp::Ordering| {
        ways.iter().flatten().max_by(|a, b| by(a, b, axis)).copied().unwrap_or(bounds.center())
    };
    let [a, b] = [along(|a, b, axis| b[axis].total_cmp(&a[axis])), along(|a, b, axis| a[axis].total_cmp(&b[axis]))];
    let (way, half) = ([b[0] - a[0], b[1] - a[1]], least / 2.0);
    let length = way[0].hypot(way[1]).max(1e-9);
    let side = [-way[1] / length * half, way[0] / length * half];
    vec![vec![
        [a[0] + side[0], a[1] + side[1]],
        [b[0] + side[0], b[1] + side[1]],
        [b[0] - side[0], b[1] - side[1]],
        [a[0] - side[0], a[1] - side[1]],
    ]]
}

/// The area within a closed way.
fn enclosed(way: &[[f64; 2]]) -> f64 {
    let next = way.iter().cycle().skip(1);
    way.iter().zip(next).map(|(a, b)| a[0] * b[1] - a[1] * b[0]).sum::<f64>().abs() / 2.0
}

/// The closed ways as a path.
pub fn closed(ways: &[Vec<[f64; 2]>]) -> String {
    let mut path = String::new();
    for way in ways {
        for (at, [x, y]) in way.iter().enumerate() {
            path += &format!("{}{} {}", if at == 0 { 'M' } else { 'L' }, px(*x), px(*y));
        }
        path.push('Z');
    }
    path
}

/// Which way a direction goes on a drawing.
pub enum Heading {
    /// Along it: a direction of length 1 in pixels.
    Along([f64; 2]),
    Towards,
    Away,
}

/// Of a direction of length 1. The reader looks down on the plan, and along y at the heights.
pub fn heading(sheet: &Sheet, direction: Point3, towards: f64) -> Heading {
    let (shown, hidden) = sheet.parts(direction);
    let [x, y] = sheet.way(direction);
    let length = x.hypot(y);
    if shown[0].hypot(shown[1]) >= UPRIGHT && length > 0.0 {
        Heading::Along([x / length, y / length])
    } else if hidden * towards > 0.0 {
        Heading::Towards
    } else {
        Heading::Away
    }
}

/// A wedge from a point along a direction, open by an angle to both sides.
pub fn wedge(center: [f64; 2], along: [f64; 2], half_angle: f64, radius: f64) -> String {
    let half = half_angle.clamp(0.12, 3.0);
    let turn = along[1].atan2(along[0]);
    let end = |angle: f64| [center[0] + radius * angle.cos(), center[1] + radius * angle.sin()].map(px);
    let ([x, y], [a, b], [c, d]) = (center.map(px), end(turn - half), end(turn + half));
    let (radius, large) = (px(radius), u8::from(half > std::f64::consts::FRAC_PI_2));
    format!("M{x} {y}L{a} {b}A{radius} {radius} 0 {large} 1 {c} {d}Z")
}

/// How far each mark moves so that those over each other are told apart: by their heights, up to four steps to the
/// right and up.
pub fn shifts(marks: &[Mark], shapes: &[Shape]) -> Vec<[f64; 2]> {
    let mut order: Vec<usize> = (0..marks.len()).collect();
    order.sort_by(|a, b| marks[*a].at[2].total_cmp(&marks[*b].at[2]));
    let bounds: Vec<Box2> = shapes.iter().map(Shape::bounds).collect();
    let mut levels = vec![0u8; marks.len()];
    for (at, mark) in order.iter().enumerate() {
        let below = order[..at].iter().filter(|other| covers(&bounds[*mark], &bounds[**other]));
        levels[*mark] = below.map(|other| levels[*other] + 1).max().unwrap_or(0).min(4);
    }
    let step = |shape: &Shape| if shape.is_disc() { 9.0 } else { 5.0 };
    levels.iter().zip(shapes).map(|(level, shape)| f64::from(*level) * step(shape)).map(|by| [by, -by]).collect()
}

/// Whether two boxes of like size share over half of the smaller.
fn covers(a: &Box2, b: &Box2) -> bool {
    let [a_size, b_size] = [a, b].map(Box2::area);
    let (small, large) = (a_size.min(b_size), a_size.max(b_size));
    large <= 4.0 * small && a.shared(b) > small / 2.0
}
