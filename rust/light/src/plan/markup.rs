//! Text that is HTML and well-formed XML alike: escaping, numbers, and the elements of drawings.

use std::fmt::Write;

/// Text for an element or an attribute. What XML cannot hold, such as a control character in a file's name, becomes a
/// mark.
pub fn escaped(text: &str) -> String {
    let mut safe = String::with_capacity(text.len());
    for c in text.chars() {
        match c {
            '&' => safe += "&amp;",
            '<' => safe += "&lt;",
            '>' => safe += "&gt;",
            '"' => safe += "&quot;",
            '\'' => safe += "&#39;",
            '\0'..='\u{1f}' | '\u{7f}'..='\u{9f}' | '\u{fffe}' | '\u{ffff}' => safe.push('\u{fffd}'),
            c => safe.push(c),
        }
    }
    safe
}

/// A length in pixels, to a hundredth.
pub fn px(length: f64) -> String {
    let text = format!("{length:.2}");
    let short = text.trim_end_matches('0').trim_end_matches('.');
    if short == "-0" { "0".into() } else { short.into() }
}

/// A box in pixels, y down.
#[derive(Clone, Copy, Debug, PartialEq)]
pub struct Box2 {
    pub x: f64,
    pub y: f64,
    pub w: f64,
    pub h: f64,
}

impl Box2 {
    pub fn around(center: [f64; 2], w: f64, h: f64) -> Box2 {
        Box2 { x: center[0] - w / 2.0, y: center[1] - h / 2.0, w, h }
    }

    /// The smallest box that holds the points, none without points.
    pub fn of(points: impl Iterator<Item = [f64; 2]>) -> Option<Box2> {
        points.map(|[x, y]| Box2 { x, y, w: 0.0, h: 0.0 }).reduce(Box2::with)
    }

    fn with(self, other: Box2) -> Box2 {
        let (x, y) = (self.x.min(other.x), self.y.min(other.y));
        Box2 { x, y, w: self.right().max(other.right()) - x, h: self.bottom().max(other.bottom()) - y }
    }

    pub fn right(&self) -> f64 {
        self.x + self.w
    }

    pub fn bottom(&self) -> f64 {
        self.y + self.h
    }

    pub fn center(&self) -> [f64; 2] {
        [self.x + self.w / 2.0, self.y + self.h / 2.0]
    }

    pub fn area(&self) -> f64 {
        self.w * self.h
    }

    /// Wider by so much on each side, or narrower.
    pub fn grown(&self, by: f64) -> Box2 {
        Box2 { x: self.x - by, y: self.y - by, w: self.w + 2.0 * by, h: self.h + 2.0 * by }
    }

    /// The area that both have.
    pub fn shared(&self, other: &Box2) -> f64 {
        let w = self.right().min(other.right()) - self.x.max(other.x);
        let h = self.bottom().min(other.bottom()) - self.y.max(other.y);
        if w > 0.0 && h > 0.0 { w * h } else { 0.0 }
    }

    pub fn holds(&self, other: &Box2) -> bool {
        other.x >= self.x && other.y >= self.y && other.right() <= self.right() && other.bottom() <= self.bottom()
    }

    /// Whether a line from one point to another passes through it.
    pub fn meets(&self, [a, b]: [[f64; 2]; 2]) -> bool {
        let (mut enters, mut leaves) = (0.0f64, 1.0f64);
        for (axis, low, high) in [(0, self.x, self.right()), (1, self.y, self.bottom())] {
            let way = b[axis] - a[axis];
            if way == 0.0 {
                if a[axis] < low || a[axis] > high {
                    return false;
                }
                continue;
            }
            let [s, t] = [(low - a[axis]) / way, (high - a[axis]) / way];
            enters = enters.max(s.min(t));
            leaves = leaves.min(s.max(t));
        }
        enters <= leaves
    }
}

/// The elements of a drawing.
#[derive(Default)]
pub struct Svg {
    pub text: String,
}

impl Svg {
    /// What stands between `<` and `/>`.
    pub fn put(&mut self, element: std::fmt::Arguments) {
        // writing to a string cannot fail
        let _ = write!(self.text, "<{element}/>");
    }

    pub fn rect(&mut self, at: Box2, look: &str) {
        let [x, y, w, h] = [at.x, at.y, at.w.max(0.0), at.h.max(0.0)].map(px);
        self.put(format_args!("rect x=\"{x}\" y=\"{y}\" width=\"{w}\" height=\"{h}\" {look}"));
    }

    pub fn circle(&mut self, center: [f64; 2], radius: f64, look: &str) {
        let [x, y, r] = [center[0], center[1], radius].map(px);
        self.put(format_args!("circle cx=\"{x}\" cy=\"{y}\" r=\"{r}\" {look}"));
    }

    pub fn path(&mut self, way: &str, look: &str) {
        self.put(format_args!("path d=\"{way}\" {look}"));
    }

    pub fn line(&mut self, [a, b]: [[f64; 2]; 2], look: &str) {
        self.path(&format!("M{} {}L{} {}", px(a[0]), px(a[1]), px(b[0]), px(b[1])), look);
    }

    /// Words, from where they stand by their anchor.
    pub fn words(&mut self, at: [f64; 2], anchor: Anchor, look: &str, words: &str) {
        let anchor = match anchor {
            Anchor::Start => "",
            Anchor::Middle => " text-anchor=\"middle\"",
            Anchor::End => " text-anchor=\"end\"",
        };
        let ([x, y], words) = (at.map(px), escaped(words));
        let _ = write!(self.text, "<text x=\"{x}\" y=\"{y}\"{anchor} {look}>{words}</text>");
    }

    /// Elements that belong together, named when the mouse is over them; those of a lamp light up with its others.
    pub fn titled(&mut self, lamp: Option<u32>, title: &str, elements: impl FnOnce(&mut Svg)) {
        let lamp = lamp.map_or(String::new(), |handle| format!(" data-l=\"{handle}\""));
        let _ = write!(self.text, "<g{lamp}><title>{}</title>", escaped(title));
        elements(self);
        self.text += "</g>";
    }

    /// The drawing, so wide and high from a corner on, with what is said of it to those who do not see it. One with
    /// links is a group of them, others are pictures.
    pub fn drawing(self, class: &str, view: Box2, label: &str) -> Drawing {
        let role = if self.text.contains("<a ") { "group" } else { "img" };
        let [x, y, w, h] = [view.x, view.y, view.w, view.h].map(px);
        let label = escaped(label);
        let text = format!(
            "<svg xmlns=\"http://www.w3.org/2000/svg\" class=\"{class}\" viewBox=\"{x} {y} {w} {h}\" \
             preserveAspectRatio=\"xMinYMin meet\" role=\"{role}\" aria-label=\"{label}\">{}</svg>",
            self.text
        );
        Drawing { text, high: view.h }
    }
}

/// A drawing as text, and how high it is.
pub struct Drawing {
    pub text: String,
    pub high: f64,
}

#[derive(Clone, Copy)]
pub enum Anchor {
    Start,
    Middle,
    End,
}

/// About how wide words are in a font of so many pixels.
pub fn width(words: &str, size: f64) -> f64 {
    let em = |c: char| match c {
        '.' | ',' | ':' | '|' | 'i' | 'l' | ' ' => 0.33,
        '%' | 'm' | 'w' => 0.95,
        c if c.is_ascii() => 0.64,
        _ => 1.0,
    };
    words.chars().map(em).sum::<f64>() * size
}
