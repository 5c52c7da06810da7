//! `light draw`: draws for one bench.

use crate::bench::{self, Place};
use crate::chances::Chances;
use crate::options::Options;
use crate::output::Output;
use crate::rows::{Outcome, head, sum_text};
use crate::sheet::{Row, Sheet, sums};
use crate::source::{Lines, once, room};
use crate::text::{Stop, Wrong, quoted};

/// A bench that an argument tells, or whose line it tells.
struct Seat {
    line: Option<usize>,
    name: Option<String>,
    place: Place,
}

/// `light draw ROOM BENCH U...`.
pub fn draw(options: &Options, output: &mut Output) -> Result<(), Stop> {
    let [path, bench] = options.arguments();
    let Seat { line, name, place } = seat(path, bench)?;
    let numbers = numbers(options.behind(2))?;
    let room = room(path)?;
    let tree = room.tree()?;
    let bench = name.as_deref().map_or(String::new(), |name| format!("# bench {}\n", quoted(name)));
    let mut sheet = Sheet::begin(options, &room, &format!("{bench}{}", head("u")), ["draw", "draws"], output)?;
    let sum = sums(options).then(|| Chances::of(&tree).sum(place));
    let mut ended = Ok(());
    for (text, u) in numbers {
        let outcome = Outcome::of(&tree, place, u);
        let row = Row { line, name: name.as_deref(), u, outcome, sum: sum.filter(|_| !outcome.is_refused()) };
        // the bench's name stands above
        let names = Row { name: None, ..row }.names(&room);
        sheet.row(&format!("u {text}"), &row, || format!("{text:>7} {}{names}", outcome.columns(&room)), output);
        ended = output.pause(|| format!("{} draws", sheet.tally.rows()));
        if ended.is_err() {
            break;
        }
    }
    let sum = sum.map_or(String::new(), |sum| format!("# sum of all named chances: {}\n", sum_text(&room, sum)));
    sheet.end(ended, &sum, output)
}

/// Numbers, each with its text.
fn numbers(texts: &[String]) -> Result<Vec<(&str, f32)>, Stop> {
    let wrong = |Wrong { column, why }| Stop::Refused(format!("U, column {column}: {why}"));
    texts.iter().map(|text| Ok((text.as_str(), bench::alone(text).map_err(wrong)?))).collect()
}

/// The bench of an argument, beside a room's.
fn seat(room: &str, argument: &str) -> Result<Seat, Stop> {
    let place = argument.rsplit_once(':').and_then(|(path, line)| Some((path, line.parse::<usize>().ok()?)));
    let Some((path, number)) = place else {
        let wrong = |Wrong { column, why }| Stop::Refused(format!("BENCH, column {column}: {why}"));
        return bench::place(argument).map(|(place, name)| Seat { line: None, name, place }).map_err(wrong);
    };
    once(room, path)?;
    let mut lines = Lines::open(path)?;
    while lines.advance()? {
        if lines.number == number {
            let missing = || Stop::Refused(format!("{}: line {number}: there is no bench", lines.name));
            let bench = lines.bench()?.ok_or_else(missing)?;
            return Ok(Seat { line: Some(number), name: bench.name, place: bench.place });
        }
    }
    Err(Stop::Refused(format!("{}: line {number}: there is no such line", lines.name)))
}
