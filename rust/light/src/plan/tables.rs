//! The tables of a bench: its two chances, and the greatest chances of all lamps.

use crate::plan::markup::escaped;
use crate::plan::scene::Scene;
use crate::plan::seen::{Gap, Met, Seen, View};
use crate::plan::shade::shade;
use crate::plan::words::{figure, many, percent, percent_of, thousands};
use crate::rows::Outcome;

/// So many lamps are told by themselves.
const TOP: usize = 10;

/// The two columns of the lamp drawn, and how far they part.
pub fn two(seen: &Seen, view: &View) -> String {
    let Outcome::Lamp { handle, drawn, named } = seen.outcome else { return String::new() };
    let row = |head: &str, chance: f32| {
        let (decimals, bits) = (figure(chance), chance.to_bits());
        format!("<tr><th scope=\"row\">{head}</th><td>{decimals}</td><td class=\"m\">{bits:08x}</td></tr>")
    };
    let rows = row("drawn, on the way down", drawn) + &row("named, on the way up", named);
    format!(
        "<h3>The two chances of lamp {handle}</h3><table class=\"two\"><thead><tr><td></td>\
         <th scope=\"col\">decimals</th><th scope=\"col\">bits</th></tr></thead><tbody>{rows}</tbody></table>\
         <p class=\"gap\">{}{}</p>",
        parted(drawn, named),
        others_part(view)
    )
}

/// "1 float apart, a gap of 3.0 · 10⁻⁸."
fn parted(drawn: f32, named: f32) -> String {
    match Gap::of(drawn, named) {
        Gap::Floats(0) => "<b>Both are the same float.</b>".into(),
        Gap::Floats(floats) => {
            let gap = power((f64::from(drawn) - f64::from(named)).abs());
            format!("<b>{} apart</b>, a gap of {gap}.", many(floats as usize, "float", "floats"))
        }
        Gap::Wholly => {
            "<b>Wholly apart</b>: one is not a number or infinite, or 0 beside one that is not; a total of weights is \
             infinite here, or a share too small for a float."
                .into()
        }
    }
}

/// "3.0 · 10⁻⁸".
fn power(x: f64) -> String {
    let text = format!("{x:.1e}");
    let (digits, exponent) = text.split_once('e').unwrap_or((&text, "0"));
    format!("{digits} · 10<sup>{}</sup>", exponent.replace('-', "−"))
}

/// How far the two chances of all lamps part that some u draws.
fn others_part(view: &View) -> String {
    let lamps = view.gaps().count();
    let apart = view.gaps().filter(|gap| *gap != Gap::Floats(0)).count();
    let wholly = view.gaps().filter(|gap| *gap == Gap::Wholly).count();
    let floats = view.gaps().filter_map(Gap::floats).max().unwrap_or(0);
    if lamps < 2 {
        return String::new();
    }
    let of = format!(" Of the {} that some u draws", many(lamps, "lamp", "lamps"));
    let [differ, parted] = [apart, wholly].map(thousands);
    match (apart, wholly) {
        (0, _) => format!("{of}, each has two chances that are the same."),
        (_, 0) => {
            let most = many(floats as usize, "float", "floats");
            format!("{of}, {differ} have two chances that differ, by at most {most}.")
        }
        _ => format!("{of}, {differ} have two chances that differ, {parted} of them wholly."),
    }
}

/// The ten greatest chances, the lamp drawn always among them; then what is left.
pub fn greatest(scene: &Scene, seen: &Seen, view: &View) -> String {
    let all = view.greatest();
    let drawn = seen.outcome.lamp();
    let mut shown: Vec<u32> = all.iter().copied().take(TOP).collect();
    let outside = drawn.filter(|handle| !shown.contains(handle));
    if let Some(handle) = outside {
        shown.truncate(TOP - 1);
        shown.push(handle);
    }
    // beside names there is no room for lines, which the titles have too
    let columns = match scene.has_names {
        true => "<th scope=\"col\" class=\"l\">name or kind</th>",
        false => "<th scope=\"col\" class=\"l\">kind</th><th scope=\"col\">line</th>",
    };
    let mut rows = String::new();
    for handle in &shown {
        let Some(met) = view.met(*handle) else { continue };
        let cut = if outside == Some(*handle) { " cut" } else { "" };
        let here = if drawn == Some(*handle) { " here" } else { "" };
        rows += &row(scene, view, *handle, met, &format!("{here}{cut}"));
    }
    rows += &left_over(scene, view, &all, &shown);
    format!(
        "<h3>The greatest chances</h3><table class=\"top\"><thead><tr><td></td><th scope=\"col\">lamp</th>{columns}\
         <th scope=\"col\">height</th><th scope=\"col\">chance</th><th scope=\"col\">run of u</th></tr></thead>\
         <tbody>{rows}</tbody></table><p class=\"small\">{}</p>",
        counted_lamps(scene, view)
    )
}

fn row(scene: &Scene, view: &View, handle: u32, met: Met, class: &str) -> String {
    let name = scene.room.name_of(handle).unwrap_or(scene.kind(handle));
    let [from, to] = view.runs.span(met.run);
    let line = if scene.has_names { String::new() } else { format!("<td>{}</td>", scene.room.line(handle)) };
    let mark = if class.contains("here") { "▸ " } else { "" };
    let chance = match met.drawn.is_nan() {
        true => format!("<span class=\"m\">{:08x}</span>", met.drawn.to_bits()),
        false => percent_of(met.drawn),
    };
    format!(
        "<tr data-l=\"{handle}\" class=\"{}\"><td><i style=\"background:{}\"></i></td><td>{mark}{handle}</td>\
         <td class=\"l name\" title=\"{}\">{}</td>{line}<td>{}</td><td>{chance}</td><td>{from:.4}–{to:.4}</td></tr>",
        class.trim(),
        shade(met.drawn).fill,
        escaped(&scene.title(handle, view)),
        escaped(name),
        scene.short_height(handle),
    )
}

/// The lamps below the ten together, none, and what is refused.
fn left_over(scene: &Scene, view: &View, all: &[u32], shown: &[u32]) -> String {
    let others = all.iter().filter(|handle| !shown.contains(handle));
    let rest: f64 = others.clone().map(|handle| f64::from(view.chance(*handle))).sum();
    let columns = if scene.has_names { 3 } else { 4 };
    let row = |swatch: &str, words: &str, part: f64| {
        let words = format!("<td colspan=\"{columns}\" class=\"l\">{words}</td>");
        format!("<tr class=\"sum\"><td>{swatch}</td>{words}<td>{}</td><td></td></tr>", percent(part))
    };
    let mut rows = String::new();
    if others.clone().next().is_some() {
        rows += &row("", &many(others.count(), "other", "others"), rest);
    }
    if view.none() > 0.0 {
        rows += &row("<i class=\"hatch\"></i>", "none", view.none());
    }
    if view.refused() > 0.0 {
        rows += &row("", "refused", view.refused());
    }
    rows
}

/// "Of 60 lamps: 22 drawn by no u, 2 without power."
fn counted_lamps(scene: &Scene, view: &View) -> String {
    let (lamps, powered, met) = (scene.tree.lamps(), scene.tree.powered(), view.met.iter().flatten().count());
    let parts = [(powered.saturating_sub(met), "drawn by no u"), (lamps - powered, "without power")];
    let told = |(count, what): &(usize, &str)| format!("{} {what}", thousands(*count));
    let parts: Vec<String> = parts.iter().filter(|(count, _)| *count > 0).map(told).collect();
    let all = many(lamps, "lamp", "lamps");
    match (lamps, parts.is_empty()) {
        (0, _) => "The room has no lamp.".into(),
        (1, true) => "It is the only lamp of the room.".into(),
        (_, true) => format!("Some u draws each of the {all}."),
        (_, false) => format!("Of {all}: {}.", parts.join(", ")),
    }
}
