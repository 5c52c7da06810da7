//! `light report`: a lamp drawn for each bench.

use crate::bench::Bench;
use crate::chances::Chances;
use crate::options::Options;
use crate::output::Output;
use crate::room::Room;
use crate::rows::{Outcome, head};
use crate::sheet::{Row, Sheet, sum_column, sums};
use crate::source::{Lines, once, room};
use crate::text::{Stop, called, counted};
use light_tree::LightTree;

/// `light report ROOM BENCHES`.
pub fn report(options: &Options, output: &mut Output) -> Result<(), Stop> {
    let [path, benches] = options.arguments();
    once(path, benches)?;
    let room = room(path)?;
    let tree = room.tree()?;
    let mut lines = Lines::open(benches)?;
    let report = Report { room: &room, tree: &tree, chances: sums(options).then(|| Chances::of(&tree)) };
    let mut sheet = Sheet::begin(options, &room, &report.heading(), ["bench", "benches"], output)?;
    let ended = report.rows(&mut lines, &mut sheet, output);
    sheet.end(ended, "", output)
}

/// What rows are made of.
struct Report<'a> {
    room: &'a Room,
    tree: &'a LightTree,
    /// For the sums, where they are asked for.
    chances: Option<Chances<'a>>,
}

impl Report<'_> {
    fn heading(&self) -> String {
        let lamps = counted(self.room.lamps().len(), "lamp", "lamps");
        let sum = if self.chances.is_some() { "  sum of named" } else { "" };
        format!("# {}: {lamps}, {} of them with power\n{}{sum}", self.room.name, self.tree.powered(), head("bench"))
    }

    fn rows(&self, lines: &mut Lines, sheet: &mut Sheet, output: &mut Output) -> Result<(), Stop> {
        while lines.advance()? {
            if let Some(bench) = lines.bench()? {
                self.row(&bench, sheet, output);
            }
            if lines.waits() {
                output.flush()?;
            }
            output.pause(|| lines.far(sheet.tally.rows()))?;
        }
        Ok(())
    }

    fn row(&self, bench: &Bench, sheet: &mut Sheet, output: &mut Output) {
        let (line, name, outcome) = (bench.line, bench.name.as_deref(), Outcome::of(self.tree, bench.place, bench.u));
        let sum = self.chances.as_ref().filter(|_| !outcome.is_refused()).map(|chances| chances.sum(bench.place));
        let row = Row { line: Some(line), name, u: bench.u, outcome, sum };
        let text = || {
            format!("{line:>7} {}{}{}", outcome.columns(self.room), sum_column(self.room, sum), row.names(self.room))
        };
        sheet.row(&called(&format!("bench {line}"), name), &row, text, output);
    }
}
