//! The floor plan over the heights: the lamps where they hang, the bench, the lamp that it looks at.

use crate::plan::extent::{Sheet, Side, tick};
use crate::plan::labels::{Label, Taken};
use crate::plan::lamps::{Stage, Style, cross, ring};
use crate::plan::legend::legend;
use crate::plan::marks::{finite, wide};
use crate::plan::markup::{Anchor, Box2, Drawing, Svg, px, width};
use crate::plan::scene::Scene;
use crate::plan::seen::{Seen, View};
use crate::plan::shade::{ACCENT, GRID, INK, LINE, look, shade};
use crate::plan::shapes::{Heading, Shape, closed, heading};
use crate::plan::words::{percent_of, triple};

/// The drawing's width, and where the plan begins, where what stands at its grid is short, and ends.
const WIDE: f64 = 580.0;
const LEFT: f64 = 42.0;
const RIGHT: f64 = 566.0;
/// The frame stands so far outside.
const MARGIN: f64 = 12.0;
const PLAN_HIGH: f64 = 400.0;
/// The heights are held between these.
const HEIGHTS: [f64; 2] = [90.0, 180.0];
/// Lamps from this chance on are labelled.
const FROM: f32 = 0.01;

/// Plan, heights and legend of a bench.
pub fn floor(scene: &Scene, seen: &Seen, view: &View) -> Drawing {
    let mut svg = Svg::default();
    let [x, y, z] = scene.extent.sides;
    let left = left_of(&[y, z]);
    let scale = ((RIGHT - left) / x.length()).min(PLAN_HIGH / y.length());
    let plan = Sheet::new(&scene.extent, [0, 1], [left, 36.0], [scale; 2]);
    grid(&mut svg, &plan, [&x, &y], true);
    title(&mut svg, &plan, "Plan, y over x");
    ruler(&mut svg, &plan, x.step);

    let up = scale_up(z.length(), scale);
    let heights = Sheet::new(&scene.extent, [0, 2], [left, plan.inner.bottom() + 74.0], [scale, up]);
    grid(&mut svg, &heights, [&x, &z], false);
    title(&mut svg, &heights, &format!("Heights, z over x{}", stretched(up / scale)));

    let (many, drawn) = (scene.is_many(), seen.outcome.lamp());
    fill(&mut svg, seen, &Stage::new(scene, view, drawn, &plan, Style::plan(many)), true);
    fill(&mut svg, seen, &Stage::new(scene, view, drawn, &heights, Style::heights(many)), false);
    let bottom = legend(&mut svg, [LEFT - MARGIN, heights.inner.bottom() + MARGIN + 18.0], WIDE - 2.0);
    svg.drawing("plan", Box2 { x: 0.0, y: 0.0, w: WIDE, h: bottom }, &told(scene, seen, view))
}

/// Where the sheets begin: right of what stands at their grids.
fn left_of(sides: &[Side]) -> f64 {
    let widest = sides.iter().flat_map(Side::ticks).map(|(_, words)| width(&words, 12.0)).fold(0.0, f64::max);
    (widest + 24.0).max(LEFT)
}

/// The scale of the heights: the plan's, unless that makes them too low or too high by more than a little.
fn scale_up(length: f64, scale: f64) -> f64 {
    let high = length * scale;
    let held = high.clamp(HEIGHTS[0], HEIGHTS[1]);
    if (held / high - 1.0).abs() < 0.05 { scale } else { held / length }
}

fn stretched(times: f64) -> String {
    match times {
        times if times > 1.0 => format!(", stretched {} times", rounded(times)),
        times if times < 1.0 => format!(", pressed {} times", rounded(1.0 / times)),
        _ => String::new(),
    }
}

/// In two digits, or as a power of ten.
fn rounded(times: f64) -> String {
    if times < 10.0 {
        format!("{times:.1}")
    } else if times < 1e6 {
        format!("{times:.0}")
    } else {
        format!("{times:.0e}")
    }
}

fn grid(svg: &mut Svg, sheet: &Sheet, [across, up]: [&Side; 2], numbered: bool) {
    let frame = sheet.inner.grown(MARGIN);
    svg.rect(frame, &look("#ffffff", LINE, 1.0));
    let mut lines = String::new();
    for (value, words) in across.ticks() {
        let x = sheet.inner.x + (value - across.low) * sheet.scale[0];
        lines += &format!("M{} {}v{}", px(x), px(frame.y + 0.5), px(frame.h - 1.0));
        if numbered {
            let at = x.min(WIDE - width(&words, 12.0) / 2.0);
            svg.words([at, frame.bottom() + 15.0], Anchor::Middle, "class=\"t\"", &words);
        }
    }
    for (value, words) in up.ticks() {
        let y = sheet.inner.bottom() - (value - up.low) * sheet.scale[1];
        lines += &format!("M{} {}h{}", px(frame.x + 0.5), px(y), px(frame.w - 1.0));
        svg.words([frame.x - 6.0, y + 4.0], Anchor::End, "class=\"t\"", &words);
    }
    svg.path(&lines, &look("none", GRID, 1.0));
}

fn title(svg: &mut Svg, sheet: &Sheet, words: &str) {
    let frame = sheet.inner.grown(MARGIN);
    svg.words([frame.x, frame.y - 9.0], Anchor::Start, "class=\"h\"", words);
}

/// How long a step of the grid is, in units of the file, which does not name its unit.
fn ruler(svg: &mut Svg, sheet: &Sheet, step: f64) {
    let (long, frame) = (step * sheet.scale[0], sheet.inner.grown(MARGIN));
    let units = if step == 1.0 { "1 unit".into() } else { format!("{} units", tick(step, step)) };
    let words = format!("{units} of the file");
    let from = frame.right() - MARGIN - long;
    // a narrow plan has no room for it beside its title
    if from - width(&words, 12.0) - 6.0 < frame.x + 110.0 {
        return;
    }
    svg.path(&format!("M{} {}v8m0-4h{}m0-4v8", px(from), px(frame.y - 17.0), px(long)), &look("none", INK, 1.0));
    svg.words([from - 6.0, frame.y - 9.0], Anchor::End, "class=\"t\"", &words);
}

/// The lamps, the bench and the way between them on one of the two sheets; labels stand on the plan alone.
fn fill(svg: &mut Svg, seen: &Seen, stage: &Stage, has_labels: bool) {
    let bench = finite(seen.bench.place.p).map(|p| stage.sheet.at(p));
    let drawn = stage.drawn.and_then(|handle| stage.lamp(handle));
    let mut taken = Taken::within(stage.sheet.inner.grown(MARGIN - 1.0));
    if let (Some(from), Some(lamp)) = (bench, drawn) {
        let line = [from, lamp.shape.bounds().center()];
        svg.line(line, &format!("{} stroke-dasharray=\"5 3\"", look("none", ACCENT, 1.4)));
        taken.add_line(line);
    }
    // under the lamps, which an arrow over them would hide
    let normal = normal_of(seen, stage);
    if let (Some(from), Some(Heading::Along(along))) = (bench, &normal) {
        taken.add_line(arrow(svg, from, *along, arrow_length(stage, from, *along)));
    }
    stage.draw(svg);
    let ring = drawn.map(|lamp| ring(svg, &lamp.shape));
    stage.lamps().map(|lamp| lamp.shape.bounds()).chain(ring).for_each(|place| taken.add(place));
    let mark = bench.map(|at| bench_mark(svg, at, normal));
    if has_labels {
        mark.into_iter().for_each(|mark| taken.add(mark));
        labels(svg, stage, ring, mark, &mut taken);
    }
}

/// Which way the bench's normal goes on a sheet, none where it has none.
fn normal_of(seen: &Seen, stage: &Stage) -> Option<Heading> {
    let n = wide(seen.bench.place.n);
    let length = n.iter().map(|x| x * x).sum::<f64>().sqrt();
    (length.is_finite() && length > 0.0).then(|| heading(stage.sheet, n.map(|x| x / length), stage.style.towards))
}

/// Longer where the head of the normal's arrow would lie on a lamp.
fn arrow_length(stage: &Stage, from: [f64; 2], along: [f64; 2]) -> f64 {
    let at = |long: f64| [from[0] + long * along[0], from[1] + long * along[1]];
    let head = |long: f64| Box2::around(at(long - 4.0), 9.0, 9.0);
    let is_clear = |long: &f64| !stage.lamps().any(|lamp| lamp.shape.bounds().shared(&head(*long)) > 0.0);
    [24.0, 32.0, 40.0, 48.0].into_iter().find(is_clear).unwrap_or(24.0)
}

/// The bench as a diamond; a dot says that its normal comes towards the reader, a cross that it goes away.
fn bench_mark(svg: &mut Svg, at: [f64; 2], normal: Option<Heading>) -> Box2 {
    diamond(svg, at, 7.0);
    match normal {
        Some(Heading::Towards) => svg.circle(at, 2.1, "fill=\"#ffffff\""),
        Some(Heading::Away) => svg.path(&cross(at, 2.1), &look("none", "#ffffff", 1.3)),
        _ => {}
    }
    Box2::around(at, 14.0, 14.0)
}

/// An arrow in the bench's colour, from its foot to its tip.
pub fn arrow(svg: &mut Svg, from: [f64; 2], along: [f64; 2], long: f64) -> [[f64; 2]; 2] {
    let [x, y] = along;
    let to = |long: f64, side: f64| [from[0] + long * x - side * y, from[1] + long * y + side * x];
    svg.line([from, to(long - 7.0, 0.0)], &look("none", ACCENT, 2.2));
    let [tip, left, right] = [to(long, 0.0), to(long - 9.0, 4.5), to(long - 9.0, -4.5)];
    svg.path(&closed(&[vec![tip, left, right]]), &format!("fill=\"{ACCENT}\""));
    [from, tip]
}

pub fn diamond(svg: &mut Svg, [x, y]: [f64; 2], half: f64) {
    let way = vec![[x, y - half], [x + half, y], [x, y + half], [x - half, y]];
    svg.path(&closed(&[way]), &look(ACCENT, "#ffffff", 1.3));
}

/// The lamp drawn, the bench, then lamps from 1 % on by falling chance.
fn labels(svg: &mut Svg, stage: &Stage, ring: Option<Box2>, bench: Option<Box2>, taken: &mut Taken) {
    if let Some(handle) = stage.drawn {
        handle_label(svg, stage, handle, ring, taken);
    }
    if let Some(bench) = bench {
        taken.set_beside(svg, bench, &Label { words: "bench", size: 12.0, ink: ACCENT, bold: true, is_needed: true });
    }
    let others = stage.view.greatest().into_iter().filter(|handle| Some(*handle) != stage.drawn);
    // a chance that is not a number is labelled too
    let is_labelled = |handle: &u32| {
        let chance = stage.view.chance(*handle);
        chance >= FROM || chance.is_nan()
    };
    for handle in others.take_while(is_labelled) {
        handle_label(svg, stage, handle, None, taken);
    }
}

/// A lamp's handle: in a panel, else beside the lamp, or beside its ring where it is the one drawn.
fn handle_label(svg: &mut Svg, stage: &Stage, handle: u32, ring: Option<Box2>, taken: &mut Taken) {
    let Some(lamp) = stage.lamp(handle) else { return };
    let (words, ink, bounds) = (handle.to_string(), shade(stage.view.chance(handle)).ink, lamp.shape.bounds());
    let (is_drawn, size) = (ring.is_some(), if ring.is_some() { 12.0 } else { 11.5 });
    let label = Label { words: &words, size, ink, bold: is_drawn, is_needed: is_drawn };
    let discs = stage.lamps().map(|lamp| &lamp.shape).filter(|shape| shape.is_disc());
    let small: Vec<Box2> = discs.map(Shape::bounds).collect();
    if !lamp.shape.fills_its_box() || !taken.set_inside(svg, bounds, &small, &label) {
        taken.set_beside(svg, ring.unwrap_or(bounds), &Label { ink: INK, ..label });
    }
}

/// The drawing in words.
fn told(scene: &Scene, seen: &Seen, view: &View) -> String {
    let drawn = match seen.outcome.lamp() {
        Some(handle) => format!("the lamp drawn is {}", scene.called(handle)),
        None => "no lamp is drawn".into(),
    };
    let lamp = |handle: &u32| format!("{} {}", scene.called(*handle), percent_of(view.chance(*handle)));
    let greatest: Vec<String> = view.greatest().iter().take(3).map(lamp).collect();
    let greatest = match greatest.is_empty() {
        true => String::new(),
        false => format!("; the greatest chances: {}", greatest.join(", ")),
    };
    format!("Floor plan and heights: the bench at {}; {drawn}{greatest}.", triple(seen.bench.place.p))
}
