//! What the colours and marks of plan and heights mean.

use crate::plan::floor::{arrow, diamond};
use crate::plan::lamps::cross;
use crate::plan::markup::{Anchor, Box2, Svg, px};
use crate::plan::shade::{ACCENT, EDGE, INK, LINE, SHADES, look};
use crate::plan::shapes::wedge;

const SOFT: &str = "class=\"t\"";

/// Draws the legend from a corner on up to the right end; where it ends below.
pub fn legend(svg: &mut Svg, [x, y]: [f64; 2], right: f64) -> f64 {
    svg.words([x, y + 9.0], Anchor::Start, SOFT, "chance");
    let (from, gap) = (x + 52.0, 2.0);
    let wide = (right - from) / SHADES.len() as f64;
    for (at, shade) in SHADES.iter().enumerate() {
        let x = from + wide * at as f64;
        svg.rect(Box2 { x, y, w: wide - gap, h: 11.0 }, &look(shade.fill, EDGE, 0.7));
        svg.words([x, y + 24.0], Anchor::Start, SOFT, shade.name);
    }
    let columns = [0.0, 138.0, 292.0, 424.0].map(|from| x + from);
    lamps(svg, columns, y + 46.0);
    states(svg, columns, y + 68.0);
    bench(svg, columns, y + 90.0);
    y + 98.0
}

fn words(svg: &mut Svg, x: f64, y: f64, words: &str) {
    svg.words([x, y + 4.0], Anchor::Start, SOFT, words);
}

/// The kinds of lamps.
fn lamps(svg: &mut Svg, [a, b, c, d]: [f64; 4], y: f64) {
    let plain = look("#ffffff", INK, 1.0);
    svg.circle([a + 6.5, y], 5.0, &plain);
    words(svg, a + 18.0, y, "point");
    svg.circle([b + 6.5, y], 6.5, &plain);
    svg.path(&cross([b + 6.5, y], 2.1), &look("none", INK, 1.1));
    words(svg, b + 18.0, y, "spot, shines down");
    svg.circle([c + 6.5, y], 6.5, &plain);
    svg.circle([c + 6.5, y], 1.6, &format!("fill=\"{INK}\""));
    words(svg, c + 18.0, y, "spot, shines up");
    svg.rect(Box2 { x: d, y: y - 4.5, w: 24.0, h: 9.0 }, &plain);
    words(svg, d + 30.0, y, "panel");
}

/// What a lamp that is not shaded is, and the lamp drawn.
fn states(svg: &mut Svg, [a, b, c, d]: [f64; 4], y: f64) {
    let pale = |dashes: &str| format!("{} stroke-dasharray=\"{dashes}\"", look("#ffffff", LINE, 1.0));
    svg.rect(Box2 { x: a, y: y - 4.5, w: 24.0, h: 9.0 }, &pale("4 2.5"));
    words(svg, a + 30.0, y, "drawn by no u");
    svg.circle([b + 6.5, y], 5.0, &pale("1.5 2"));
    svg.line([[b + 3.3, y - 3.2], [b + 9.7, y + 3.2]], &look("none", LINE, 1.0));
    words(svg, b + 18.0, y, "no power");
    svg.path(&wedge([c + 3.0, y], [1.0, 0.0], 0.6, 15.0), &look("#ffffff", LINE, 0.9));
    svg.circle([c + 3.0, y], 4.0, &look("#ffffff", INK, 1.0));
    words(svg, c + 24.0, y, "spot, its light");
    svg.path(&format!("M{} {}h12", px(d), px(y)), &format!("{} stroke-dasharray=\"5 3\"", look("none", ACCENT, 1.4)));
    svg.circle([d + 19.0, y], 7.0, &look("none", ACCENT, 2.2));
    words(svg, d + 32.0, y, "lamp drawn");
}

/// The bench and its normal.
fn bench(svg: &mut Svg, [a, b, c, _]: [f64; 4], y: f64) {
    arrow(svg, [a + 7.0, y], [1.0, 0.0], 27.0);
    diamond(svg, [a + 7.0, y], 7.0);
    words(svg, a + 40.0, y, "bench, normal");
    diamond(svg, [b + 7.0, y], 7.0);
    svg.circle([b + 7.0, y], 2.1, "fill=\"#ffffff\"");
    words(svg, b + 18.0, y, "normal towards you");
    diamond(svg, [c + 7.0, y], 7.0);
    svg.path(&cross([c + 7.0, y], 2.1), &look("none", "#ffffff", 1.3));
    words(svg, c + 18.0, y, "normal away from you");
}
