//! Figures and places in a planner's words.

use crate::bench::Place;
use crate::text::decimal;
use light_tree::Lamp;

/// A part of 1 in hundredths: three digits or so, and never rounded to nothing or to all.
pub fn percent(part: f64) -> String {
    match part {
        part if part.is_nan() => "not a number".into(),
        0.0 => "0 %".into(),
        1.0 => "100 %".into(),
        part if part < 0.0001 => "under 0.01 %".into(),
        part if part < 0.0995 => format!("{:.2} %", 100.0 * part),
        part if part < 0.9995 => format!("{:.1} %", 100.0 * part),
        part if part < 1.0 => "over 99.9 %".into(),
        part => format!("{:.1} %", 100.0 * part),
    }
}

pub fn percent_of(chance: f32) -> String {
    percent(f64::from(chance))
}

/// A number of a table: the shortest decimal, or what it is.
pub fn figure(x: f32) -> String {
    if x.is_nan() {
        "not a number".into()
    } else if x.is_infinite() {
        if x > 0.0 { "infinite".into() } else { "infinite, below 0".into() }
    } else {
        decimal(x)
    }
}

/// "6, 6, 0.9".
pub fn triple(p: [f32; 3]) -> String {
    p.map(figure).join(", ")
}

/// Which way a normal points: along an axis, or by its figures.
pub fn normal(n: [f32; 3]) -> String {
    match n {
        [0.0, 0.0, 0.0] => "none".into(),
        [0.0, 0.0, z] if z.is_finite() => if z > 0.0 { "up" } else { "down" }.into(),
        [0.0, y, 0.0] if y.is_finite() => if y > 0.0 { "to +y" } else { "to −y" }.into(),
        [x, 0.0, 0.0] if x.is_finite() => if x > 0.0 { "to +x" } else { "to −x" }.into(),
        n => triple(n),
    }
}

/// "at 6, 6, 0.9; normal up; u = 0.4".
pub fn whereabouts(place: Place, u: f32) -> String {
    let normal = match normal(place.n).as_str() {
        "none" => "no normal".into(),
        way => format!("normal {way}"),
    };
    format!("at {}; {normal}; u = {}", triple(place.p), figure(u))
}

/// What a planner calls a lamp's kind.
pub fn kind(lamp: &Lamp) -> &'static str {
    match lamp {
        Lamp::Point { .. } => "point",
        Lamp::Spot { .. } => "spot",
        _ => "panel",
    }
}

/// "1 lamp", "4,096 lamps".
pub fn many(count: usize, one: &str, more: &str) -> String {
    format!("{} {}", thousands(count), if count == 1 { one } else { more })
}

/// With a comma before each three digits.
pub fn thousands(count: usize) -> String {
    let digits = count.to_string();
    let mut text = String::new();
    for (at, digit) in digits.chars().enumerate() {
        if at > 0 && (digits.len() - at).is_multiple_of(3) {
            text.push(',');
        }
        text.push(digit);
    }
    text
}
