//! The bar of all u from 0 to 1, cut into the runs of the lamps, with the tree under it.

use crate::plan::labels::{clear_of, frame};
use crate::plan::markup::{Anchor, Box2, Drawing, Svg, px, width};
use crate::plan::runs::{End, Run};
use crate::plan::scene::Scene;
use crate::plan::seen::{Seen, View};
use crate::plan::shade::{ACCENT, CLOSED, HATCH, INK, LINE, SHADES, SOFT, look, shade};
use crate::plan::words::{figure, many, percent};

/// How wide all u are, in pixels.
pub const WIDE: f64 = 960.0;
const TOP: f64 = 30.0;
const HIGH: f64 = 44.0;
/// A run that is not this wide is joined with its neighbours.
const LEAST: f64 = 1.0;
/// Up to so many lamps with power the tree is drawn whole.
const WHOLE: usize = 64;

/// What the bar and the tree of a bench are drawn of.
pub struct Bar<'a> {
    pub scene: &'a Scene<'a>,
    pub view: &'a View,
    /// Where the line at u is.
    pub at_u: f64,
}

/// The bar and the tree of a bench.
pub fn bar(scene: &Scene, seen: &Seen, view: &View) -> Drawing {
    let mut svg = Svg::default();
    let bar = Bar { scene, view, at_u: f64::from(seen.bench.u).abs() * WIDE };
    bar.pieces(&mut svg);
    scale(&mut svg);
    let bottom = match view.runs.at(seen.bench.u) {
        Some(run) if scene.tree.powered() > 0 => bar.tree(&mut svg, run, TOP + HIGH + 57.0),
        _ => TOP + HIGH + 30.0,
    };
    bar.line_at(&mut svg, seen.bench.u);
    svg.drawing("wide", Box2 { x: -2.0, y: 0.0, w: WIDE + 4.0, h: bottom }, &told(scene, seen, view))
}

impl Bar<'_> {
    /// The tree under the bar; in a large room the draw's way by itself comes under it. Where it ends below.
    fn tree(&self, svg: &mut Svg, run: &Run, top: f64) -> f64 {
        let is_whole = self.scene.tree.powered() <= WHOLE;
        svg.words([0.0, top], Anchor::Start, "class=\"h\"", "The tree");
        let bottom = self.branches(svg, run.place, top + 9.0, is_whole);
        self.line(svg, [top + 7.0, bottom], [top + 4.0, bottom]);
        if is_whole || self.view.runs.way(run.place).len() < 2 {
            return bottom + 4.0;
        }
        svg.words([0.0, bottom + 28.0], Anchor::Start, "class=\"h\"", "The way of this draw, fork by fork");
        self.way(svg, run.place, bottom + 37.0)
    }

    /// The line at u, with a white one behind it.
    fn line(&self, svg: &mut Svg, white: [f64; 2], line: [f64; 2]) {
        let way = |[from, to]: [f64; 2]| [[self.at_u, from], [self.at_u, to]];
        svg.line(way(white), &look("none", "#ffffff", 4.0));
        svg.line(way(line), &look("none", ACCENT, 1.8));
    }

    /// A run in words: "…; u from 0.2 to 0.4".
    pub fn run_title(&self, run: &Run) -> String {
        let what = match run.end {
            End::Lamp(handle) => self.scene.title(handle, self.view),
            End::None => "none: no lamp is drawn".into(),
            End::Refused(refusal) => format!("refused {}: {refusal}", refusal.number()),
        };
        format!("{what}; u from {} to {}", figure(run.first), figure(run.last))
    }

    /// How a run is filled, and the colour of what stands on it.
    pub fn run_look(&self, run: &Run) -> (&'static str, &'static str) {
        match run.end {
            End::Lamp(handle) => (shade(self.view.chance(handle)).fill, shade(self.view.chance(handle)).ink),
            End::None => (HATCH, INK),
            End::Refused(_) => (CLOSED, INK),
        }
    }

    /// What is written on a run, the longest first.
    pub fn run_words(&self, run: &Run) -> Vec<String> {
        match run.end {
            End::Lamp(handle) => {
                let name = self.scene.room.name_of(handle).map(|name| format!("{handle} {name}"));
                name.into_iter().chain([handle.to_string()]).collect()
            }
            End::None => vec!["none".into()],
            End::Refused(_) => vec!["refused".into()],
        }
    }

    /// The runs one after the other: together they are as wide as the bar.
    fn pieces(&self, svg: &mut Svg) {
        let runs = &self.view.runs;
        let cell = |[from, to]: [f64; 2]| Box2 { x: from * WIDE, y: TOP, w: (to - from) * WIDE, h: HIGH };
        let is_narrow = |at: usize| cell(runs.span(at)).w < LEAST;
        let mut at = 0;
        while at < runs.runs.len() {
            let first = at;
            while at < runs.runs.len() && is_narrow(at) {
                at += 1;
            }
            if at > first {
                narrow(svg, cell([runs.span(first)[0], runs.span(at - 1)[1]]), at - first);
            } else {
                self.piece(svg, &runs.runs[at], cell(runs.span(at)));
                at += 1;
            }
        }
    }

    fn piece(&self, svg: &mut Svg, run: &Run, cell: Box2) {
        let (fill, _) = self.run_look(run);
        // a white line between neighbours, where it does not hide them
        let edge = if cell.w >= 3.0 { " stroke=\"#ffffff\" stroke-width=\"0.8\"" } else { "" };
        let look = format!("class=\"run\" fill=\"{fill}\"{edge}");
        svg.titled(run.end.lamp(), &self.run_title(run), |svg| svg.rect(cell, &look));
        let chance = run.end.lamp().map_or(cell.w / WIDE, |handle| f64::from(self.view.chance(handle)));
        self.piece_words(svg, run, cell, &percent(chance));
    }

    /// What is written on a piece, over its chance or alone; nothing where it does not fit.
    fn piece_words(&self, svg: &mut Svg, run: &Run, cell: Box2, chance: &str) {
        let all = self.run_words(run);
        let fit = |wide: f64| clear_of(cell, wide, Some(self.at_u)).map(|x| (x, wide));
        let under = width(chance, 12.0);
        let set = all.iter().find_map(|words| {
            let wide = width(words, 13.5);
            let both = fit(wide.max(under)).map(|place| (words, place, true));
            both.or_else(|| fit(wide).map(|place| (words, place, false)))
        });
        let Some((words, (x, wide), both)) = set else { return };
        let ((fill, ink), middle) = (self.run_look(run), cell.center()[1]);
        if fill == HATCH {
            svg.rect(Box2::around([x, middle], wide + 8.0, if both { 36.0 } else { 20.0 }), "fill=\"#ffffff\"");
        }
        let first = if both { middle - 3.0 } else { middle + 5.0 };
        svg.words([x, first], Anchor::Middle, &format!("class=\"b\" fill=\"{ink}\""), words);
        if both {
            svg.words([x, middle + 13.0], Anchor::Middle, &format!("class=\"t\" style=\"fill:{ink}\""), chance);
        }
    }

    /// The line at u over the bar, with the frame of the run that it lies in.
    fn line_at(&self, svg: &mut Svg, u: f32) {
        if let Some(run) = self.view.runs.at(u) {
            let [from, to] = self.view.runs.span_of(run.place..run.place + 1).map(|part| part * WIDE);
            frame(svg, Box2 { x: from, y: TOP - 4.0, w: to - from, h: HIGH + 8.0 });
        }
        let words = format!("u = {}", figure(u));
        let half = width(&words, 13.5) / 2.0;
        let at = [self.at_u.clamp(half, WIDE - half), 12.0];
        svg.words(at, Anchor::Middle, &format!("class=\"b\" fill=\"{ACCENT}\""), &words);
        svg.path(&format!("M{} 16h11l-5.5 8Z", px(self.at_u - 5.5)), &format!("fill=\"{ACCENT}\""));
        self.line(svg, [TOP, TOP + HIGH + 3.0], [TOP - 3.0, TOP + HIGH + 12.0]);
    }
}

/// Runs under a pixel, together.
fn narrow(svg: &mut Svg, cell: Box2, count: usize) {
    let title = format!("{} under one pixel, {} together", many(count, "run", "runs"), percent(cell.w / WIDE));
    svg.titled(None, &title, |svg| svg.rect(cell, &format!("class=\"run\" fill=\"{}\"", SHADES[0].fill)));
}

/// 0 to 1 under the bar.
fn scale(svg: &mut Svg) {
    let (top, mut marks) = (TOP + HIGH + 7.0, String::new());
    for tenth in 0..=10 {
        let x = (WIDE / 10.0 * f64::from(tenth)).clamp(0.5, WIDE - 0.5);
        marks += &format!("M{} {}v{}", px(x), px(top), if tenth % 5 == 0 { 7 } else { 5 });
        let (words, anchor) = match tenth {
            0 => ("0".into(), Anchor::Start),
            10 => ("1".into(), Anchor::End),
            _ => (format!("0.{tenth}"), Anchor::Middle),
        };
        svg.words([if tenth == 10 { WIDE } else { x }, top + 21.0], anchor, "class=\"t\"", &words);
    }
    svg.path(&marks, &look("none", SOFT, 1.0));
    let edge = format!("{} pointer-events=\"none\"", look("none", LINE, 0.8));
    svg.rect(Box2 { x: 0.0, y: TOP, w: WIDE, h: HIGH }, &edge);
}

/// The drawing in words.
fn told(scene: &Scene, seen: &Seen, view: &View) -> String {
    let lamps = many(view.met.iter().flatten().count(), "lamp", "lamps");
    let run = view.runs.at(seen.bench.u);
    let lies = match run.map(|run| run.end) {
        Some(End::Lamp(handle)) => format!("in the run of {}", scene.called(handle)),
        _ => "where no lamp is drawn".into(),
    };
    let forks = run.map_or(0, |run| view.runs.way(run.place).len() - 1);
    let forks = many(forks, "fork", "forks");
    format!(
        "The numbers u from 0 to 1, cut into the runs of {lamps} in the order of the leaves; u = {} lies {lies}. \
         Under it the tree: the draw passes {forks}.",
        figure(seen.bench.u)
    )
}
