//! The lamps of a room as they are drawn: where they hang, their outlines, which way they shine.

use light_tree::{Lamp, Triangle};
use std::collections::HashMap;

pub type Point3 = [f64; 3];

/// A lamp as it is drawn.
pub struct Mark {
    pub handle: u32,
    /// A point's or spot's place; the middle of a panel's box.
    pub at: Point3,
    pub form: Form,
}

pub enum Form {
    Point,
    /// Its axis, of length 1, and half the angle at which its light ends.
    Spot {
        axis: Point3,
        half_angle: f64,
    },
    /// The closed ways around it.
    Panel {
        outline: Vec<Vec<Point3>>,
    },
}

/// Above so many triangles a panel is drawn by the box around it.
const MANY_TRIANGLES: usize = 64;

pub fn marks(lamps: &[Lamp]) -> Vec<Mark> {
    (0..).zip(lamps).map(|(handle, lamp)| mark(handle, lamp)).collect()
}

fn mark(handle: u32, lamp: &Lamp) -> Mark {
    match lamp {
        Lamp::Spot { world_position, direction, cos_falloff_end, .. } => {
            let half_angle = f64::from(*cos_falloff_end).clamp(-1.0, 1.0).acos();
            Mark { handle, at: wide(*world_position), form: Form::Spot { axis: unit(wide(*direction)), half_angle } }
        }
        Lamp::Group { triangles, .. } => {
            let corners_of = |triangle: &Triangle| triangle.world_positions.map(wide);
            let triangles: Vec<[Point3; 3]> = triangles.iter().map(corners_of).collect();
            let (low, high) = corners(triangles.as_flattened());
            let at = [0, 1, 2].map(|axis| low[axis].midpoint(high[axis]));
            let outline = if triangles.len() > MANY_TRIANGLES { box_ways(low, high) } else { outline(&triangles) };
            Mark { handle, at, form: Form::Panel { outline } }
        }
        Lamp::Point { world_position, .. } => Mark { handle, at: wide(*world_position), form: Form::Point },
        // a kind that this page does not know has no place that it knows of
        #[allow(unreachable_patterns)]
        _ => Mark { handle, at: [0.0; 3], form: Form::Point },
    }
}

impl Mark {
    /// All points that tell how far the lamp reaches.
    pub fn points(&self) -> impl Iterator<Item = Point3> + '_ {
        let outline: &[Vec<Point3>] = match &self.form {
            Form::Panel { outline } => outline,
            _ => &[],
        };
        outline.iter().flatten().copied().chain([self.at])
    }

    /// Whether no part of it lies on the normal's side of a point.
    pub fn is_behind(&self, p: [f32; 3], n: [f32; 3]) -> bool {
        let (p, n) = (wide(p), wide(n));
        let side = |point: Point3| (0..3).map(|axis| (point[axis] - p[axis]) * n[axis]).sum::<f64>();
        self.points().all(|point| side(point) < 0.0)
    }
}

/// A place that can be drawn: one whose figures are finite.
pub fn finite(p: [f32; 3]) -> Option<Point3> {
    p.iter().all(|x| x.is_finite()).then(|| wide(p))
}

pub fn wide(p: [f32; 3]) -> Point3 {
    p.map(f64::from)
}

fn unit(p: Point3) -> Point3 {
    let length = p.iter().map(|x| x * x).sum::<f64>().sqrt();
    if length > 0.0 { p.map(|x| x / length) } else { p }
}

fn corners(points: &[Point3]) -> (Point3, Point3) {
    let along = |axis: usize, by: fn(f64, f64) -> f64| points.iter().map(|point| point[axis]).reduce(by).unwrap_or(0.0);
    let bound = |by: fn(f64, f64) -> f64| [0, 1, 2].map(|axis| along(axis, by));
    (bound(f64::min), bound(f64::max))
}

/// The floor of a box and one side of it: seen from above and from the front it is the box.
fn box_ways(low: Point3, high: Point3) -> Vec<Vec<Point3>> {
    let floor = [[low[0], low[1]], [high[0], low[1]], [high[0], high[1]], [low[0], high[1]]];
    let side = [[low[0], low[2]], [high[0], low[2]], [high[0], high[2]], [low[0], high[2]]];
    vec![floor.map(|[x, y]| [x, y, low[2]]).into(), side.map(|[x, z]| [x, low[1], z]).into()]
}

/// The ways around triangles: the edges that only one of them has, joined end to end.
fn outline(triangles: &[[Point3; 3]]) -> Vec<Vec<Point3>> {
    let key = |point: Point3| point.map(|x| (x + 0.0).to_bits());
    let mut uses: HashMap<_, usize> = HashMap::new();
    let edges: Vec<[Point3; 2]> = triangles.iter().flat_map(|[a, b, c]| [[*a, *b], [*b, *c], [*c, *a]]).collect();
    let both = |[a, b]: [Point3; 2]| (key(a).min(key(b)), key(a).max(key(b)));
    for edge in &edges {
        *uses.entry(both(*edge)).or_default() += 1;
    }
    let mut open: Vec<[Point3; 2]> = edges.into_iter().filter(|edge| uses[&both(*edge)] == 1).collect();
    let mut ways = Vec::new();
    while let Some([first, mut end]) = open.pop() {
        let mut way = vec![first, end];
        while let Some(next) = open.iter().position(|[a, b]| key(*a) == key(end) || key(*b) == key(end)) {
            let [a, b] = open.swap_remove(next);
            end = if key(a) == key(end) { b } else { a };
            way.push(end);
        }
        if key(end) == key(first) {
            way.pop();
        }
        ways.push(way);
    }
    ways
}
