//! The lamps on the plan and in the heights, each shaded by its chance.

use crate::plan::extent::Sheet;
use crate::plan::marks::{Form, Point3};
use crate::plan::markup::{Box2, Svg, px};
use crate::plan::scene::Scene;
use crate::plan::seen::View;
use crate::plan::shade::{ACCENT, EDGE, INK, LINE, is_faint, look, shade};
use crate::plan::shapes::{Heading, Shape, Sizes, closed, heading, shifts, wedge};

/// A lamp on a sheet.
pub struct Placed {
    pub handle: u32,
    pub shape: Shape,
    /// Where it hangs, if it is drawn beside that.
    from: Option<[f64; 2]>,
}

/// A sheet with the lamps on it, for one bench.
pub struct Stage<'a> {
    pub scene: &'a Scene<'a>,
    pub view: &'a View,
    /// The lamp that the bench looks at.
    pub drawn: Option<u32>,
    pub sheet: &'a Sheet,
    pub style: Style,
    /// By handle.
    placed: Vec<Placed>,
}

/// How lamps are drawn on a sheet.
pub struct Style {
    pub sizes: Sizes,
    /// How long a spot's wedge is.
    pub wedge: f64,
    /// Which way along the axis that the sheet does not show is towards the reader.
    pub towards: f64,
    /// Whether lamps over each other are moved apart.
    pub apart: bool,
}

impl Style {
    pub fn plan(many: bool) -> Style {
        let [point, spot, across] = if many { [3.0, 3.5, 3.0] } else { [5.0, 6.5, 5.0] };
        let sizes = Sizes { point, spot, across };
        Style { sizes, wedge: if many { 9.0 } else { 18.0 }, towards: 1.0, apart: !many }
    }

    pub fn heights(many: bool) -> Style {
        let disc = if many { 2.5 } else { 4.0 };
        let sizes = Sizes { point: disc, spot: disc, across: if many { 3.0 } else { 5.0 } };
        Style { sizes, wedge: if many { 7.0 } else { 13.0 }, towards: -1.0, apart: false }
    }
}

/// How a lamp looks, and the colour of what is drawn on it.
struct Look {
    shape: String,
    ink: &'static str,
}

fn look_of(scene: &Scene, view: &View, handle: u32) -> Look {
    let dashed = |dashes: &str| format!("{} stroke-dasharray=\"{dashes}\"", look("#ffffff", LINE, 1.0));
    match view.met(handle) {
        Some(met) => {
            let (edge, shade) = (if met.drawn < 0.01 { EDGE } else { INK }, shade(met.drawn));
            Look { shape: look(shade.fill, edge, 1.0), ink: shade.ink }
        }
        None if scene.has_power(handle) => Look { shape: dashed("4 2.5"), ink: LINE },
        None => Look { shape: dashed("1.5 2"), ink: LINE },
    }
}

impl<'a> Stage<'a> {
    pub fn new(scene: &'a Scene, view: &'a View, drawn: Option<u32>, sheet: &'a Sheet, style: Style) -> Stage<'a> {
        let shapes: Vec<Shape> = scene.marks.iter().map(|mark| Shape::of(mark, sheet, style.sizes)).collect();
        let shifts = if style.apart { shifts(&scene.marks, &shapes) } else { vec![[0.0; 2]; shapes.len()] };
        let place = |((handle, shape), shift): ((u32, Shape), [f64; 2])| {
            let from = (shift != [0.0; 2]).then(|| shape.bounds().center());
            Placed { handle, shape: shape.moved(shift), from }
        };
        let placed = (0..).zip(shapes).zip(shifts).map(place).collect();
        Stage { scene, view, drawn, sheet, style, placed }
    }

    pub fn lamp(&self, handle: u32) -> Option<&Placed> {
        self.placed.get(handle as usize)
    }

    /// The lamps that are drawn by themselves: among many the faint ones are dots.
    pub fn lamps(&self) -> impl Iterator<Item = &Placed> {
        self.placed.iter().filter(|lamp| !self.is_dot(lamp.handle))
    }

    fn is_dot(&self, handle: u32) -> bool {
        self.scene.is_many() && is_faint(self.view.chance(handle)) && Some(handle) != self.drawn
    }

    /// Draws the lamps, the greatest chances last and small ones over large ones.
    pub fn draw(&self, svg: &mut Svg) {
        let faint = self.scene.marks.iter().filter(|mark| self.is_dot(mark.handle));
        let dots: String = faint.map(|mark| dot(self.sheet.at(mark.at))).collect();
        if !dots.is_empty() {
            svg.path(&dots, &dots_look("#b4bccb", 2.4));
        }
        let mut order: Vec<&Placed> = self.lamps().collect();
        let size = |lamp: &Placed| if lamp.shape.is_disc() { 0.0 } else { lamp.shape.bounds().area() };
        let rank = |lamp: &Placed| self.view.met(lamp.handle).map_or(-1.0, |met| met.drawn);
        order.sort_by(|a, b| size(b).total_cmp(&size(a)).then(rank(a).total_cmp(&rank(b))));
        for lamp in order {
            self.draw_lamp(svg, lamp);
        }
    }

    fn draw_lamp(&self, svg: &mut Svg, lamp: &Placed) {
        let how = look_of(self.scene, self.view, lamp.handle);
        svg.titled(Some(lamp.handle), &self.scene.title(lamp.handle, self.view), |svg| {
            match &lamp.shape {
                Shape::Area(ways) => svg.path(&closed(ways), &format!("{} fill-rule=\"evenodd\"", how.shape)),
                Shape::Disc { center, radius } => {
                    if let Some(from) = lamp.from {
                        svg.line([from, *center], &look("none", LINE, 0.8));
                    }
                    self.draw_disc(svg, lamp.handle, *center, *radius, &how);
                }
            }
            if !self.scene.has_power(lamp.handle) {
                let through = lamp.shape.bounds().grown(-1.8);
                svg.line([[through.x, through.y], [through.right(), through.bottom()]], &look("none", LINE, 1.0));
            }
        });
    }

    /// A point's or spot's disc, edged white against what lies under it, with the way that a spot shines.
    fn draw_disc(&self, svg: &mut Svg, handle: u32, center: [f64; 2], radius: f64, how: &Look) {
        let heading = |axis: Point3| heading(self.sheet, axis, self.style.towards);
        let spot = match self.scene.marks.get(handle as usize).map(|mark| &mark.form) {
            Some(Form::Spot { axis, half_angle }) => Some((heading(*axis), *half_angle)),
            _ => None,
        };
        if let Some((Heading::Along(along), half_angle)) = spot {
            let look = format!("{} fill-opacity=\"0.7\"", look("#ffffff", LINE, 0.9));
            svg.path(&wedge(center, along, half_angle, self.style.wedge), &look);
        }
        svg.circle(center, radius + 1.5, "fill=\"#ffffff\"");
        svg.circle(center, radius, &how.shape);
        match spot {
            Some((Heading::Away, _)) => svg.path(&cross(center, 0.32 * radius), &look("none", how.ink, 1.1)),
            Some((Heading::Towards, _)) => svg.circle(center, 0.25 * radius, &format!("fill=\"{}\"", how.ink)),
            _ => {}
        }
    }
}

/// A dot of a path, and how such a path looks.
pub fn dot([x, y]: [f64; 2]) -> String {
    format!("M{} {}h0", px(x), px(y))
}

pub fn dots_look(ink: &str, wide: f64) -> String {
    format!("{} stroke-linecap=\"round\"", look("none", ink, wide))
}

/// ×.
pub fn cross([x, y]: [f64; 2], arm: f64) -> String {
    let ([x, y], long) = ([x - arm, y - arm].map(px), px(2.0 * arm));
    format!("M{x} {y}l{long} {long}m0-{long}l-{long} {long}")
}

/// A ring around the lamp drawn, or a frame around a panel.
pub fn ring(svg: &mut Svg, shape: &Shape) -> Box2 {
    let bounds = shape.bounds().grown(3.5);
    let round = if shape.is_disc() { bounds.w / 2.0 } else { 1.0 };
    for look in [look("none", "#ffffff", 4.5), look("none", ACCENT, 2.2)] {
        svg.rect(bounds, &format!("rx=\"{}\" {look}", px(round)));
    }
    bounds
}
