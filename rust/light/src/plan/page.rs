//! The page: its head, what is said of all benches, and a section a bench.

use crate::plan::bar::bar;
use crate::plan::floor::floor;
use crate::plan::index::index;
use crate::plan::marks::finite;
use crate::plan::markup::{Drawing, escaped, px};
use crate::plan::scene::Scene;
use crate::plan::seen::{Gap, Seen, View};
use crate::plan::tables::{greatest, two};
use crate::plan::words::{figure, many, percent, percent_of, thousands, whereabouts};
use crate::room::refused;
use crate::rows::Outcome;

const STYLE: &str = include_str!("style.css");
/// Lights up the lamp under the mouse wherever else it is drawn; the page is read without it.
const HOVER: &str = include_str!("hover.js");
const HATCH: &str = "<svg xmlns=\"http://www.w3.org/2000/svg\" width=\"0\" height=\"0\" class=\"defs\" \
    aria-hidden=\"true\"><defs>\
    <pattern id=\"hatch\" width=\"7\" height=\"7\" patternUnits=\"userSpaceOnUse\" patternTransform=\"rotate(45)\">\
    <rect width=\"7\" height=\"7\" fill=\"#fff\"/><path d=\"M0 0V7\" stroke=\"#9b9b97\" stroke-width=\"2.4\"/>\
    </pattern></defs></svg>";
const BAR_TOLD: &str = "The bar: each lamp’s run of u, in the order of the tree’s leaves, with handle and chance. \
    The tree: a fork spans the runs of its lamps and says the share of its left side; the line at u passes through \
    the forks that this draw takes.";

/// What a sheet of A4 has for both drawings, in pixels of the browser, and how much smaller they are on paper.
const SHEET: f64 = 830.0;
const BAR_ON_PAPER: f64 = 0.73;
const PLAN_ON_PAPER: f64 = 0.715;
const NO_TREE: &str = "No lamp has power, so there is no tree, and every u draws none.";

/// All that comes before the benches' sections.
pub fn head(scene: &Scene, table: &str, sights: &[Seen], has_index: bool) -> String {
    let room = escaped(&scene.room.name);
    let index = if has_index { index(scene, sights) } else { String::new() };
    format!(
        "<!DOCTYPE html>\n<html xmlns=\"http://www.w3.org/1999/xhtml\" lang=\"en\"><head><meta charset=\"utf-8\"/>\
         <meta name=\"viewport\" content=\"width=device-width,initial-scale=1\"/><title>Light plan of {room}</title>\n\
         <style>\n{STYLE}</style></head><body><main>{HATCH}<h1>Light plan</h1>\n<p class=\"lead\">{}</p>\n\
         <p class=\"lead\">{}</p>\n<p class=\"lead\">{}</p>\n{index}\n",
        counted(scene, &room, table, sights),
        may_differ(sights),
        proved(sights)
    )
}

pub fn tail() -> String {
    format!("</main><script>{HOVER}</script></body></html>\n")
}

/// "Room …: 60 lamps, 58 with power. Benches …: 3 draw a lamp, 0 none, 0 refused."
fn counted(scene: &Scene, room: &str, table: &str, sights: &[Seen]) -> String {
    let lamps = many(scene.tree.lamps(), "lamp", "lamps");
    let powered = if scene.tree.powered() == 0 { "none".into() } else { thousands(scene.tree.powered()) };
    let count = |is: fn(&Outcome) -> bool| sights.iter().filter(|seen| is(&seen.outcome)).count();
    let drawn = count(|outcome| matches!(outcome, Outcome::Lamp { .. }));
    let none = count(|outcome| matches!(outcome, Outcome::Nothing));
    let refused = count(|outcome| matches!(outcome, Outcome::Refused(_)));
    let benches = match sights {
        [seen] => format!("the bench of line {}", seen.bench.line),
        _ => format!("{drawn} draw a lamp, {none} none, {refused} refused"),
    };
    let table = escaped(table);
    format!(
        "Room <b>{room}</b>: {lamps}, {powered} with power. Benches <b>{table}</b>: {benches}. Each bench has a \
         number u from 0 to 1 that picks its lamp."
    )
}

/// Whether the two columns of the report differ, and by how much on this page.
fn may_differ(sights: &[Seen]) -> String {
    let drawn = sights.iter().filter_map(Seen::gap).reduce(greater);
    let all = views(sights).flat_map(View::gaps).reduce(greater);
    let told = |gap: Gap| match gap {
        Gap::Floats(0) => "not at all".into(),
        Gap::Floats(floats) => format!("by at most {}", many(floats as usize, "float", "floats")),
        Gap::Wholly => "wholly".into(),
    };
    let drawn = drawn.map_or(String::new(), |gap| format!("{} for the lamps drawn, and ", told(gap)));
    let here = all.map_or(String::new(), |gap| {
        let all = told(gap);
        format!(
            "On this page they part {drawn}{all} for any lamp that some u draws; a float is the finest step that a \
             figure takes. "
        )
    });
    format!(
        "<b>May the two columns of the report differ?</b> Yes, in their last digits: both multiply the same shares, \
         one from the root down, the other from the lamp up, and round each product. {here}They part by more where a \
         right branch has a tiny share, wholly only where a total of weights is infinite or a share is too small for a \
         float."
    )
}

/// What all u draw, of the benches that are not refused.
fn views<'a>(sights: &'a [Seen]) -> impl Iterator<Item = &'a View> {
    sights.iter().filter_map(|seen| seen.view.as_ref())
}

fn greater(a: Gap, b: Gap) -> Gap {
    if a >= b { a } else { b }
}

/// What is proved of the runs, and what was looked for.
fn proved(sights: &[Seen]) -> String {
    let runs: usize = views(sights).map(|view| view.runs.runs.len()).sum();
    let ends = match runs {
        0 => String::new(),
        _ => format!(
            "; all {} ends on this page were drawn again from the tree, and each drew what is shown",
            thousands(2 * runs)
        ),
    };
    format!(
        "<b>How sure are the runs of u?</b> Proved, for every room and bench: the u that draw a lamp are all those \
         from a first to a last, and the lamps follow each other in the order of the tree’s leaves (<i>unbroken</i> \
         and <i>leaf-order</i> in crates/light_runs/specs/Demand3.antt). Looked for here: where each run begins and \
         ends, by halving stretches of u whose ends draw unlike{ends}."
    )
}

/// A bench: what it looks at, where, how surely, and what other u would draw.
pub fn section(scene: &Scene, seen: &Seen, has_index: bool) -> String {
    let bench = seen.bench;
    let name = bench.name.as_ref().map_or(String::new(), |name| format!(" “{}”", escaped(name)));
    let top = if has_index { "<a class=\"top\" href=\"#index\">index</a>" } else { "" };
    let header = format!(
        "<header><h2>Bench of line {}{name}</h2><p class=\"where\">{}</p>{top}</header>",
        bench.line,
        whereabouts(bench.place, bench.u)
    );
    let body = match &seen.view {
        Some(view) => body(scene, seen, view),
        None => String::new(),
    };
    let (id, answer) = (bench.line, answer(scene, seen));
    format!("<section id=\"b{id}\">{header}<p class=\"answer\">{answer}</p>{body}</section>\n")
}

fn body(scene: &Scene, seen: &Seen, view: &View) -> String {
    let (note, floor, bar) = (note(scene, seen, view), floor(scene, seen, view), bar(scene, seen, view));
    let told = if scene.tree.powered() == 0 { NO_TREE } else { BAR_TOLD };
    format!(
        "<p class=\"note\">{note}</p><div class=\"cols\"><figure{}>{}</figure><div>{}{}</div></div>\
         <figure class=\"w\"><h3>Which u draws which lamp</h3>{}<figcaption>{told}</figcaption></figure>",
        high_on_paper(&floor, &bar),
        floor.text,
        two(seen, view),
        greatest(scene, seen, view),
        bar.text
    )
}

/// How high the plan may be on paper, where it and the bar would pass a sheet of A4 together: it is then drawn smaller.
fn high_on_paper(floor: &Drawing, bar: &Drawing) -> String {
    let free = SHEET - BAR_ON_PAPER * bar.high;
    if PLAN_ON_PAPER * floor.high <= free { String::new() } else { format!(" style=\"--high:{}px\"", px(free)) }
}

/// "Looks at lamp 45, a spot in line 53, with chance 25.0 %."
fn answer(scene: &Scene, seen: &Seen) -> String {
    match seen.outcome {
        Outcome::Lamp { handle, drawn, .. } => {
            let name = scene.room.name_of(handle).map_or(String::new(), |name| format!(" “{}”", escaped(name)));
            let (kind, line) = (scene.kind(handle), scene.room.line(handle));
            let chance = match drawn.is_nan() {
                true => format!("a chance that is <b>not a number</b> (bits {:08x})", drawn.to_bits()),
                false => format!("chance <b>{}</b>", percent_of(drawn)),
            };
            format!("Looks at <b>lamp {handle}</b>{name}, a {kind} in line {line}, with {chance}.")
        }
        Outcome::Nothing if scene.tree.powered() == 0 => "Looks at no lamp: none in this room has power.".into(),
        Outcome::Nothing => "Looks at no lamp: this u draws none.".into(),
        Outcome::Refused(refusal) => format!("Not answered, {}.", escaped(&refused(refusal))),
    }
}

/// The run that u lies in, how often none is drawn, and the lamps behind the bench.
fn note(scene: &Scene, seen: &Seen, view: &View) -> String {
    let mut notes = Vec::new();
    let what = if seen.outcome.lamp().is_some() { "draws it" } else { "draws none" };
    if let Some(run) = view.runs.at(seen.bench.u) {
        let [from, to] = [run.first, run.last].map(short);
        notes.push(if run.first == run.last {
            format!("Only u = {} {what}.", figure(run.first))
        } else {
            format!("Each u from {from} to {to} {what}.")
        });
    }
    if scene.tree.powered() > 0 {
        notes.push(none_told(view));
    }
    notes.extend(behind(scene, seen));
    if finite(seen.bench.place.p).is_none() {
        notes.push("The bench’s place is not finite, so it is not on the plan.".into());
    }
    notes.join(" ")
}

/// In four digits, where that is not 0 or 1.
fn short(u: f32) -> String {
    if (0.00005..0.99995).contains(&u) { format!("{u:.4}") } else { figure(u) }
}

fn none_told(view: &View) -> String {
    let refused = match view.refused() {
        0.0 => String::new(),
        part => format!(" {} of all u are refused, since a branch cannot be weighed for this bench.", percent(part)),
    };
    match view.none() {
        0.0 if refused.is_empty() => "Every u draws a lamp.".into(),
        0.0 => refused.trim_start().into(),
        part => {
            let branch = "there a branch shines on the bench by its bounds, but none of its lamps does.";
            format!("{} of all u draw none: {branch}{refused}", percent(part))
        }
    }
}

/// The lamps that lie behind the bench, by its normal.
fn behind(scene: &Scene, seen: &Seen) -> Option<String> {
    let place = seen.bench.place;
    let powered = scene.marks.iter().filter(|mark| scene.has_power(mark.handle));
    let behind = powered.filter(|mark| mark.is_behind(place.p, place.n)).count();
    let lie = if behind == 1 { "lies" } else { "lie" };
    (behind > 0).then(|| {
        let all = many(scene.tree.powered(), "lamp", "lamps");
        format!("{} of {all} {lie} behind the bench; the tree weighs the angle as if in front.", thousands(behind))
    })
}
