//! `light check`: everything that is wrong or doubtful with a room and its benches, in one run.

use crate::bench::Bench;
use crate::commands::Choice;
use crate::lamp::{Entry, Label};
use crate::options::Options;
use crate::output::Output;
use crate::room::{Room, lines, refused};
use crate::rows::Outcome;
use crate::source::{Lines, once, whole};
use crate::text::{Stop, Wrong, called, counted, decimal};
use crate::triangle::{other_area, other_normal};
use light_tree::{Lamp, LightTree, Triangle};
use std::collections::HashMap;
use std::collections::hash_map::Entry::{Occupied, Vacant};

pub const CHOICES: &[Choice] = &[Choice { name: "strict", value: None, text: "exit with 1 for warnings too" }];

/// What is found, each printed as it is.
struct Findings<'a> {
    output: &'a mut Output,
    faults: usize,
    warnings: usize,
}

impl Findings<'_> {
    fn fault(&mut self, text: &str) {
        self.faults += 1;
        self.output.line(text);
    }

    fn fault_at(&mut self, name: &str, line: usize, wrong: &Wrong) {
        self.fault(&wrong.told(name, line));
    }

    fn warn_at(&mut self, name: &str, line: usize, column: usize, why: String) {
        self.warnings += 1;
        self.output.line(&Wrong::at(column, format!("warning: {why}")).told(name, line));
    }

    fn warn(&mut self, name: &str, why: &str) {
        self.warnings += 1;
        self.output.line(&format!("{name}: warning: {why}"));
    }

    fn pause(&mut self, far: impl FnOnce() -> String) -> Result<(), Stop> {
        self.output.pause(far)
    }
}

/// `light check ROOM [BENCHES]`.
pub fn check(options: &Options, output: &mut Output) -> Result<(), Stop> {
    let [path] = options.arguments();
    let benches = options.argument(1);
    once(path, benches.unwrap_or_default())?;
    let mut findings = Findings { output, faults: 0, warnings: 0 };
    let (name, text) = whole(path)?;
    let (lamps, tree) = check_room(&name, &text, &mut findings)?;
    let mut counts = vec![counted(lamps, "lamp", "lamps")];
    if let Some(path) = benches {
        // with no room to try them in, only the number u of a bench is judged
        let tree = tree.map_or_else(|| LightTree::build(&[]), Ok).map_err(|refusal| Stop::Failed(refused(refusal)))?;
        counts.push(counted(check_benches(&tree, &mut Lines::open(path)?, &mut findings)?, "bench", "benches"));
    }
    let Findings { output, faults, warnings } = findings;
    let (all, warned) = (counts.join(", "), counted(warnings, "warning", "warnings"));
    if faults > 0 || (warnings > 0 && options.has("strict")) {
        return Err(Stop::Refused(format!("{}, {warned}: {all}", counted(faults, "fault", "faults"))));
    }
    let warned = if warnings > 0 { format!(", {warned}") } else { String::new() };
    output.line(&format!("no fault found{warned}: {all}"));
    Ok(())
}

/// How many lamps there are, and their tree where nothing is wrong.
fn check_room(name: &str, text: &[u8], findings: &mut Findings) -> Result<(usize, Option<LightTree>), Stop> {
    let mut count = 0;
    let mut places = HashMap::new();
    for (handle, (line, lamp)) in lines(text).enumerate() {
        count += 1;
        match &lamp {
            Err(wrong) => findings.fault_at(name, line, wrong),
            Ok((label, lamp)) => check_lamp(name, &Entry { handle, label, lamp }, &mut places, findings),
        }
        findings.pause(|| counted(count, "lamp", "lamps"))?;
    }
    if count == 0 {
        findings.warn(name, "there is no lamp in this room");
    }
    Ok((count, if findings.faults == 0 { tree(name, text, findings)? } else { None }))
}

/// The tree of a room each of whose lamps is accepted, where they are together.
fn tree(name: &str, text: &[u8], findings: &mut Findings) -> Result<Option<LightTree>, Stop> {
    let tree = match Room::read(name, text).and_then(|room| room.tree()) {
        Ok(tree) => tree,
        Err(Stop::Refused(why)) => {
            findings.fault(&why);
            return Ok(None);
        }
        Err(stop) => return Err(stop),
    };
    if tree.lamps() > 0 && tree.powered() == 0 {
        findings.warn(name, "no lamp has power: intensity, emission and scale are above 0 where a lamp shines");
    }
    Ok(Some(tree))
}

/// Where a lamp is: its position, or all corners of its triangles. Both zeros are one.
fn place_of(lamp: &Lamp) -> Vec<u32> {
    let figures = match lamp {
        Lamp::Point { world_position, .. } | Lamp::Spot { world_position, .. } => world_position.to_vec(),
        Lamp::Group { triangles, .. } => {
            triangles.iter().flat_map(|triangle| triangle.world_positions).flatten().collect()
        }
        _ => Vec::new(),
    };
    figures.into_iter().map(|figure| (figure + 0.0).to_bits()).collect()
}

fn check_lamp(name: &str, entry: &Entry, places: &mut HashMap<Vec<u32>, (usize, usize)>, findings: &mut Findings) {
    let Label { line, .. } = entry.label;
    if let Some(refusal) = entry.refusal() {
        return findings.fault_at(name, *line, &entry.blame(refusal));
    }
    let mut doubts = doubts(entry);
    match places.entry(place_of(entry.lamp)) {
        Occupied(first) => {
            let (handle, line) = first.get();
            doubts.insert(0, Wrong::at(entry.column(0, 0), format!("it is where lamp {handle} of line {line} is")));
        }
        Vacant(place) => drop(place.insert((entry.handle, *line))),
    }
    for Wrong { column, why } in doubts {
        findings.warn_at(name, *line, column, format!("{}: {why}", entry.called()));
    }
}

/// What is doubtful with a lamp by itself.
fn doubts(entry: &Entry) -> Vec<Wrong> {
    match entry.lamp {
        Lamp::Spot { cos_theta_o, cos_falloff_end, .. } if cos_falloff_end > cos_theta_o => {
            let ends = "so the light ends before it begins to fall off: are they swapped?";
            vec![Wrong::at(entry.column(0, 8), format!("COS_FALLOFF_END is above COS_THETA_O, {ends}"))]
        }
        Lamp::Group { triangles, .. } => {
            (1..).zip(triangles).flat_map(|(at, told)| doubts_of(entry, at, told)).collect()
        }
        _ => Vec::new(),
    }
}

/// Whether a triangle, counted from 1, is not what its corners make.
fn doubts_of(entry: &Entry, at: usize, triangle: &Triangle) -> impl Iterator<Item = Wrong> {
    let Triangle { world_positions, area, geometric_normal } = *triangle;
    let doubt = |word: usize, names: &str, told: String, made: String| {
        Wrong::at(entry.column(at, word), format!("triangle {at}: {names} {told}, its corners make {made}"))
    };
    let normal = |normal: [f32; 3]| normal.map(decimal).join(" ");
    let other_area = other_area(world_positions, area).map(|made| doubt(9, "AREA is", decimal(area), decimal(made)));
    let other_normal = other_normal(world_positions, geometric_normal)
        .map(|made| doubt(10, "NX NY NZ are", normal(geometric_normal), normal(made)));
    other_area.into_iter().chain(other_normal)
}

/// How many benches there are.
fn check_benches(tree: &LightTree, lines: &mut Lines, findings: &mut Findings) -> Result<usize, Stop> {
    let mut count = 0;
    while lines.advance()? {
        match lines.read() {
            Ok(None) => continue,
            Ok(Some(bench)) => check_bench(tree, &lines.name, &bench, findings),
            Err(wrong) => findings.fault_at(&lines.name, lines.number, &wrong),
        }
        count += 1;
        findings.pause(|| lines.far(count))?;
    }
    if count == 0 {
        findings.warn(&lines.name, "there is no bench in this table");
    }
    Ok(count)
}

fn check_bench(tree: &LightTree, name: &str, bench: &Bench, findings: &mut Findings) {
    if let Outcome::Refused(refusal) = Outcome::of(tree, bench.place, bench.u) {
        let [place, u] = bench.columns;
        let column = if refusal == light_tree::Refusal::BadU { u } else { place };
        let why = format!("{}: {}", called("bench", bench.name.as_deref()), refused(refusal));
        findings.fault_at(name, bench.line, &Wrong::at(column, why));
    }
}
