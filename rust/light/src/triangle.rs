//! A triangle's area and normal, worked out from its corners.

use std::ops::{Mul, Sub};

type Vector = [f32; 3];

/// The area and the normal of a triangle, in f32: the edges b - a and c - a, their cross product, its length as the
/// root of its dot product with itself, half of it, and the product times the reciprocal of it. The reference has no
/// such function, but these steps, and each is taken in its order. Corners on one line have area 0 and a normal that
/// is no number.
pub fn measured([a, b, c]: [Vector; 3]) -> (f32, Vector) {
    let cross = cross(minus(b, a), minus(c, a));
    let length = dot(cross, cross).sqrt();
    (0.5 * length, cross.map(|figure| figure * (1.0 / length)))
}

fn minus(a: Vector, b: Vector) -> Vector {
    [a[0] - b[0], a[1] - b[1], a[2] - b[2]]
}

fn cross<T: Copy + Mul<Output = T> + Sub<Output = T>>(a: [T; 3], b: [T; 3]) -> [T; 3] {
    [a[1] * b[2] - a[2] * b[1], a[2] * b[0] - a[0] * b[2], a[0] * b[1] - a[1] * b[0]]
}

fn dot(a: Vector, b: Vector) -> f32 {
    a[0] * b[0] + a[1] * b[1] + a[2] * b[2]
}

/// How far a figure may be from what the corners say, as a part of it.
const TOLERANCE: f64 = 1e-3;

/// The area that corners make where the given one is not about it. In f64, so that no step of it matters.
pub fn other_area(corners: [Vector; 3], area: f32) -> Option<f32> {
    let (measured, given) = (0.5 * length(wide_cross(corners)), f64::from(area));
    let same = (measured - given).abs() <= TOLERANCE * measured.max(given);
    (!same && measured.is_finite()).then_some(measured as f32)
}

/// The normal that corners make where the given one is not about along it, on either side. None where they make none.
pub fn other_normal(corners: [Vector; 3], normal: Vector) -> Option<Vector> {
    let (measured, given) = (wide_cross(corners), normal.map(f64::from));
    let (long, wide) = (length(measured), length(given));
    let sine = length(cross(measured, given)) / (long * wide);
    // NaN where one has no length
    if sine > TOLERANCE { Some(measured.map(|figure| (figure / long) as f32)) } else { None }
}

fn wide_cross([a, b, c]: [Vector; 3]) -> [f64; 3] {
    let edge = |to: Vector| [0, 1, 2].map(|at| f64::from(to[at]) - f64::from(a[at]));
    cross(edge(b), edge(c))
}

fn length(v: [f64; 3]) -> f64 {
    v[0].hypot(v[1]).hypot(v[2])
}
