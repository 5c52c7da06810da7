//! cos, sin, acos and asin, step by step in f64 as R2.9 to R2.13 say, on the stand-ins for
//! narrowing and roots.

use crate::oracle::standins::{narrow, sqrt64, widen};

const PI: f64 = f64::from_bits(0x4009_21fb_5444_2d18);
const HALF_PI: f64 = f64::from_bits(0x3ff9_21fb_5444_2d18);

/// "Q = 1, for m = 20 down to 1, Q = 1 - (z / …) × Q" over the divisors given.
fn series(x: f64, divisor: fn(u32) -> u32) -> f64 {
    let z = x * x;
    (1..=20).rev().fold(1.0, |q, m| 1.0 - (z / f64::from(divisor(m))) * q)
}

/// "NaN for NaN or size above 8".
fn within_8(x: f32, figure: fn(f64) -> f64) -> f32 {
    let x = widen(x);
    if (-8.0..=8.0).contains(&x) { narrow(figure(x)) } else { f32::NAN }
}

pub fn cos(x: f32) -> f32 {
    within_8(x, |x| series(x, |m| (2 * m - 1) * (2 * m)))
}

/// "S likewise with (2m)(2m+1), result X × S".
pub fn sin(x: f32) -> f32 {
    within_8(x, |x| x * series(x, |m| (2 * m) * (2 * m + 1)))
}

/// "K(X) = X × P: P = 1, for m = 16 down to 1, P = 1 + P × ((z × (2m-1)²) / (2m(2m+1)))".
fn k(x: f64) -> f64 {
    let z = x * x;
    let mut p = 1.0;
    for m in (1..=16u32).rev() {
        p = 1.0 + p * ((z * f64::from((2 * m - 1) * (2 * m - 1))) / f64::from(2 * m * (2 * m + 1)));
    }
    x * p
}

pub fn acos(x: f32) -> f32 {
    let x = widen(x);
    if !(-1.0..=1.0).contains(&x) {
        return f32::NAN;
    }
    narrow(if x > 0.5 {
        2.0 * k(sqrt64((1.0 - x) / 2.0))
    } else if x < -0.5 {
        PI - 2.0 * k(sqrt64((1.0 + x) / 2.0))
    } else {
        HALF_PI - k(x)
    })
}

pub fn asin(x: f32) -> f32 {
    let x = widen(x);
    if !(-1.0..=1.0).contains(&x) {
        return f32::NAN;
    }
    let beyond = |size: f64| HALF_PI - 2.0 * k(sqrt64((1.0 - size) / 2.0));
    narrow(if x > 0.5 {
        beyond(x)
    } else if x < -0.5 {
        -beyond(-x)
    } else {
        k(x)
    })
}
