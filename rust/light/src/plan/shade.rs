//! The colours: one scale of chances, and one colour for the bench and its draw alone, which always has a form too.

use crate::plan::markup::px;

pub const INK: &str = "#1a1a1a";
pub const SOFT: &str = "#555555";
pub const LINE: &str = "#8a8a8a";
pub const GRID: &str = "#e4e4e4";
pub const FORK: &str = "#f3f3f1";
pub const CLOSED: &str = "#d8d8d5";
pub const EDGE: &str = "#6b6b6b";
/// This bench and its draw.
pub const ACCENT: &str = "#b8430b";
pub const TINT: &str = "#fbe2d3";
/// None, as a pattern of the page.
pub const HATCH: &str = "url(#hatch)";

/// A step of the scale: from which chance on, what it is called, its colour, and that of text on it.
pub struct Shade {
    pub from: f32,
    pub name: &'static str,
    pub fill: &'static str,
    pub ink: &'static str,
}

/// Even in lightness, so that they are told apart in grey too.
pub const SHADES: [Shade; 6] = [
    Shade { from: 0.0, name: "below 0.1 %", fill: "#ecf1f8", ink: INK },
    Shade { from: 0.001, name: "from 0.1 %", fill: "#b9cee8", ink: INK },
    Shade { from: 0.01, name: "from 1 %", fill: "#83abd9", ink: INK },
    Shade { from: 0.03, name: "from 3 %", fill: "#4d88c4", ink: INK },
    Shade { from: 0.1, name: "from 10 %", fill: "#2264a4", ink: "#ffffff" },
    Shade { from: 0.3, name: "from 30 %", fill: "#0f3f75", ink: "#ffffff" },
];

/// Of a chance that is not a number, which has no place in the scale.
const NO_NUMBER: Shade = Shade { from: f32::NAN, name: "not a number", fill: "#ffffff", ink: INK };

pub fn shade(chance: f32) -> &'static Shade {
    SHADES.iter().rev().find(|shade| chance >= shade.from).unwrap_or(&NO_NUMBER)
}

/// Whether a chance is of the lowest step, or none.
pub fn is_faint(chance: f32) -> bool {
    chance < SHADES[1].from
}

/// "fill, stroke, and how wide it is", for an element.
pub fn look(fill: &str, stroke: &str, wide: f64) -> String {
    format!("fill=\"{fill}\" stroke=\"{stroke}\" stroke-width=\"{}\"", px(wide))
}
