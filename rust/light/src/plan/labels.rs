//! Labels that hit nothing: lamps, lines, walls and other labels stay clear of them.

use crate::plan::markup::{Anchor, Box2, Svg, width};
use crate::plan::shade::{ACCENT, look};

/// What labels keep clear of.
pub struct Taken {
    walls: Box2,
    boxes: Vec<Box2>,
    labels: Vec<Box2>,
    lines: Vec<[[f64; 2]; 2]>,
}

/// A label that is to be set.
pub struct Label<'a> {
    pub words: &'a str,
    pub size: f64,
    pub ink: &'a str,
    pub bold: bool,
    /// Whether it is set over something else, where no place is free.
    pub is_needed: bool,
}

impl Taken {
    pub fn within(walls: Box2) -> Taken {
        Taken { walls, boxes: Vec::new(), labels: Vec::new(), lines: Vec::new() }
    }

    pub fn add(&mut self, place: Box2) {
        self.boxes.push(place);
    }

    pub fn add_line(&mut self, line: [[f64; 2]; 2]) {
        self.lines.push(line);
    }

    fn is_free(&self, place: &Box2) -> bool {
        let hit = |taken: &Box2| taken.shared(place) > 0.0;
        self.walls.holds(place)
            && !self.boxes.iter().chain(&self.labels).any(hit)
            && !self.lines.iter().any(|line| place.meets(*line))
    }

    /// Sets a label above, below, right or left of what it names: at the first place that is free, else nowhere; one
    /// that is needed at the first within the walls.
    pub fn set_beside(&mut self, svg: &mut Svg, named: Box2, label: &Label) {
        let (wide, high) = (width(label.words, label.size), label.size);
        let [x, y] = named.center();
        let around = |far: f64| {
            let (across, along) = (named.w / 2.0 + wide / 2.0 + 2.0 + far, named.h / 2.0 + high / 2.0 + far);
            [[x, y - along], [x, y + along], [x + across, y], [x - across, y]]
        };
        let free = |center: &[f64; 2]| self.is_free(&Box2::around(*center, wide, high));
        let within = |center: &[f64; 2]| label.is_needed && self.walls.holds(&Box2::around(*center, wide, high));
        let mut places = [2.0, 5.0].into_iter().flat_map(around);
        if let Some(center) = places.clone().find(free).or_else(|| places.find(within)) {
            label.put(svg, center, true);
            self.labels.push(Box2::around(center, wide, high));
        }
    }

    /// Sets a label inside what it names, where it fits and neither a small lamp nor another label is; whether it did.
    pub fn set_inside(&mut self, svg: &mut Svg, named: Box2, small: &[Box2], label: &Label) -> bool {
        let place = Box2::around(named.center(), width(label.words, label.size), label.size);
        let fits = place.w + 8.0 <= named.w && place.h + 1.0 <= named.h;
        let hit = |taken: &Box2| taken.shared(&place) > 0.0;
        let is_hit = small.iter().chain(&self.labels).any(hit);
        let is_taken = is_hit || self.lines.iter().any(|line| place.meets(*line));
        if fits && !is_taken {
            label.put(svg, named.center(), false);
            self.labels.push(place);
        }
        fits && !is_taken
    }
}

impl Label<'_> {
    /// Beside what it names it has a white edge, which keeps it readable over a line or a lamp.
    fn put(&self, svg: &mut Svg, center: [f64; 2], is_beside: bool) {
        let edge = if is_beside { " class=\"edged\"" } else { "" };
        let weight = if self.bold { " font-weight=\"700\"" } else { "" };
        let style = format!("font-size=\"{}\" fill=\"{}\"{weight}{edge}", self.size, self.ink);
        svg.words([center[0], center[1] + 0.36 * self.size], Anchor::Middle, &style, self.words);
    }
}

/// Where words of a row stand: centred, or on the wider side of the line at u where they would touch it; nowhere if
/// they do not fit.
pub fn clear_of(cell: Box2, wide: f64, line: Option<f64>) -> Option<f64> {
    let fits = |from: f64, to: f64| (to - from >= wide + 8.0).then_some(from.midpoint(to));
    let center = fits(cell.x, cell.right())?;
    match line.filter(|x| (x - center).abs() < wide / 2.0 + 5.0 && *x > cell.x && *x < cell.right()) {
        None => Some(center),
        Some(x) if x - cell.x > cell.right() - x => fits(cell.x, x),
        Some(x) => fits(x, cell.right()),
    }
}

/// A cell of a row, with the first of some words that fits.
pub fn cell_words(svg: &mut Svg, cell: Box2, line: Option<f64>, class: &str, ink: &str, all: &[String]) {
    let place = all.iter().find_map(|words| clear_of(cell, width(words, 12.0), line).map(|x| (x, words)));
    if let Some((x, words)) = place {
        let look = format!("class=\"{class}\" style=\"fill:{ink}\"");
        svg.words([x, cell.center()[1] + 4.3], Anchor::Middle, &look, words);
    }
}

/// A frame in the bench's colour with a white line inside, so that it is seen in grey and on dark blue too.
pub fn frame(svg: &mut Svg, cell: Box2) {
    let cell = Box2::around(cell.center(), cell.w.max(6.0), cell.h);
    svg.rect(cell.grown(-2.8), &look("none", "#ffffff", 1.6));
    svg.rect(cell.grown(-1.0), &look("none", ACCENT, 2.0));
}
