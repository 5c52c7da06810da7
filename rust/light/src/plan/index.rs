//! The index of a page: a row a bench, and a small plan with the benches' lines.

use crate::bench::Bench;
use crate::plan::extent::Sheet;
use crate::plan::floor::diamond;
use crate::plan::labels::{Label, Taken};
use crate::plan::lamps::{dot, dots_look};
use crate::plan::marks::finite;
use crate::plan::markup::{Box2, Svg, escaped};
use crate::plan::scene::Scene;
use crate::plan::seen::{Gap, Seen};
use crate::plan::shade::{INK, LINE, look, shade};
use crate::plan::shapes::{Shape, Sizes, closed};
use crate::plan::words::{figure, normal, percent, percent_of, triple};
use crate::rows::Outcome;

/// How wide and high the small plan is at the most.
const MAP: [f64; 2] = [300.0, 240.0];

pub fn index(scene: &Scene, sights: &[Seen]) -> String {
    if sights.is_empty() {
        return "<p class=\"lead\">The table has no bench.</p>".into();
    }
    let has_names = sights.iter().any(|seen| seen.bench.name.is_some());
    let rows: String = sights.iter().map(|seen| row(scene, seen, has_names)).collect();
    format!(
        "<nav id=\"index\" aria-labelledby=\"ix\"><h2 id=\"ix\">Benches</h2><div class=\"scroll\"><table class=\"idx\">\
         <thead><tr>{}</tr></thead><tbody>{rows}</tbody></table><p class=\"small\">apart: floats between the two \
         chances; none: the part of all u that draws no lamp.</p></div><figure>{}\
         <figcaption>Where the benches stand, by their lines.</figcaption></figure></nav>",
        columns(has_names),
        map(scene, sights)
    )
}

/// The heads of the columns; that of the colours has no name.
fn columns(has_names: bool) -> String {
    let left = |name: &str| format!("<th scope=\"col\" class=\"l\">{name}</th>");
    let right = |name: &str| format!("<th scope=\"col\">{name}</th>");
    let name = if has_names { left("name") } else { String::new() };
    let answer = right("lamp") + &left("kind") + &right("line") + "<td></td>";
    let bench = right("bench") + &name + &left("point") + &left("normal") + &right("u");
    bench + &answer + &right("chance") + &right("apart") + &right("none")
}

fn row(scene: &Scene, seen: &Seen, has_names: bool) -> String {
    let bench = seen.bench;
    let name = match (&bench.name, has_names) {
        (_, false) => String::new(),
        (name, true) => {
            let name = escaped(name.as_deref().unwrap_or_default());
            format!("<td class=\"l name\" title=\"{name}\">{name}</td>")
        }
    };
    let place = format!(
        "<td><a href=\"#b{0}\">line {0}</a></td>{name}<td class=\"l\">{1}</td><td class=\"l\">{2}</td><td>{3}</td>",
        bench.line,
        triple(bench.place.p),
        normal(bench.place.n),
        figure(bench.u)
    );
    format!("<tr>{place}{}</tr>", answer_cells(scene, seen))
}

fn answer_cells(scene: &Scene, seen: &Seen) -> String {
    let none = match seen.view.as_ref().map_or(0.0, |view| view.none()) {
        0.0 => "–".into(),
        part => percent(part),
    };
    match seen.outcome {
        Outcome::Lamp { handle, drawn, .. } => {
            let apart = match seen.gap() {
                Some(Gap::Floats(floats)) => floats.to_string(),
                _ => "wholly".into(),
            };
            format!(
                "<td>{handle}</td><td class=\"l\">{}</td><td>{}</td>\
                 <td class=\"sw\"><i style=\"background:{}\"></i></td><td>{}</td><td>{apart}</td><td>{none}</td>",
                scene.kind(handle),
                scene.room.line(handle),
                shade(drawn).fill,
                percent_of(drawn)
            )
        }
        Outcome::Nothing => {
            let hatch = "<td class=\"sw\"><i class=\"hatch\"></i></td>";
            format!("<td>none</td><td></td><td></td>{hatch}<td></td><td></td><td>{none}</td>")
        }
        Outcome::Refused(refusal) => {
            let number = refusal.number();
            format!("<td colspan=\"7\" class=\"l\" title=\"{}\">refused {number}</td>", escaped(&refusal.to_string()))
        }
    }
}

/// The small plan: lamps in grey, the benches in their colour with their lines where these fit.
fn map(scene: &Scene, sights: &[Seen]) -> String {
    let mut svg = Svg::default();
    let [x, y, _] = scene.extent.sides;
    let scale = (MAP[0] / x.length()).min(MAP[1] / y.length());
    let sheet = Sheet::new(&scene.extent, [0, 1], [8.0, 8.0], [scale; 2]);
    let frame = sheet.inner.grown(6.0);
    svg.rect(frame, &look("#ffffff", LINE, 1.0));
    lamps(&mut svg, scene, &sheet);
    let mut taken = Taken::within(frame);
    let benches = sights.iter().map(|seen| seen.bench);
    let place = |bench: &Bench| finite(bench.place.p).map(|p| (bench.line, sheet.at(p)));
    let places: Vec<(usize, [f64; 2])> = benches.filter_map(place).collect();
    for (line, at) in &places {
        svg.text += &format!("<a href=\"#b{line}\" aria-label=\"bench of line {line}\">");
        diamond(&mut svg, *at, 5.0);
        svg.text += "</a>";
        taken.add(Box2::around(*at, 10.0, 10.0));
    }
    for (line, at) in &places {
        let label = Label { words: &line.to_string(), size: 12.0, ink: INK, bold: true, is_needed: false };
        taken.set_beside(&mut svg, Box2::around(*at, 10.0, 10.0), &label);
    }
    let view = Box2 { x: 0.0, y: 0.0, w: frame.right() + 2.0, h: frame.bottom() + 2.0 };
    let view = Box2 { w: view.w.max(MAP[0] + 16.0), ..view };
    svg.drawing("map", view, "Where the benches stand in the plan, by their lines").text
}

/// Panels as areas, all others as dots.
fn lamps(svg: &mut Svg, scene: &Scene, sheet: &Sheet) {
    let (mut areas, mut dots) = (String::new(), String::new());
    for mark in &scene.marks {
        match Shape::of(mark, sheet, Sizes { point: 2.0, spot: 2.0, across: 2.0 }) {
            Shape::Area(ways) => areas += &closed(&ways),
            Shape::Disc { center, .. } => dots += &dot(center),
        }
    }
    if !areas.is_empty() {
        svg.path(&areas, "fill=\"#e3e3e0\"");
    }
    if !dots.is_empty() {
        svg.path(&dots, &dots_look("#c9c9c5", if scene.is_many() { 2.0 } else { 4.0 }));
    }
}
