//! `light plan`: one page of a room and its benches, to look at. It needs no network, and no script to be read.

mod bar;
mod branches;
mod extent;
mod floor;
mod index;
mod labels;
mod lamps;
mod legend;
mod marks;
mod markup;
mod page;
pub mod runs;
mod scene;
mod seen;
mod shade;
mod shapes;
mod tables;
mod words;

use crate::bench::Bench;
use crate::options::Options;
use crate::output::Output;
use crate::plan::runs::Odd;
use crate::plan::scene::Scene;
use crate::plan::seen::Seen;
use crate::source::{benches, room};
use crate::text::Stop;

/// `light plan ROOM BENCHES [--bench LINE]`.
pub fn plan(options: &Options, output: &mut Output) -> Result<(), Stop> {
    let [path, table] = options.arguments();
    if path == "-" && table == "-" {
        return Err(Stop::Failed("standard input is either the room or the benches".into()));
    }
    let line = options.number("bench")?;
    let room = room(path)?;
    let tree = room.tree()?;
    let benches = benches(table)?;
    let table = if table == "-" { "standard input" } else { table };
    let benches = chosen(benches, table, line)?;
    let scene = Scene::new(&room, &tree, &benches);
    let mut sights = Vec::with_capacity(benches.len());
    for bench in &benches {
        sights.push(Seen::of(&tree, bench).map_err(|odd| fault(table, bench, odd))?);
        output.pause(|| format!("{} of {} benches looked at", sights.len(), benches.len()))?;
    }
    let has_index = line.is_none();
    output.text(&page::head(&scene, table, &sights, has_index));
    for seen in &sights {
        output.text(&page::section(&scene, seen, has_index));
        output.pause(|| format!("bench of line {} written", seen.bench.line))?;
    }
    output.text(&page::tail());
    Ok(())
}

/// All benches, or the one of a line.
fn chosen(benches: Vec<Bench>, table: &str, line: Option<usize>) -> Result<Vec<Bench>, Stop> {
    let Some(line) = line else { return Ok(benches) };
    let chosen: Vec<Bench> = benches.into_iter().filter(|bench| bench.line == line).collect();
    if chosen.is_empty() {
        return Err(Stop::Refused(format!("{table}: line {line}: there is no bench")));
    }
    Ok(chosen)
}

/// What is proved never to be.
fn fault(table: &str, bench: &Bench, odd: Odd) -> Stop {
    let (line, bits) = (bench.line, odd.u.to_bits());
    Stop::Failed(format!(
        "{table}: line {line}: u = 0x{bits:08x} draws unlike its run: this is a fault of light, please report it"
    ))
}
