//! The rows of `light report` and `light draw`: a text for people, or a table for programs.

use crate::chances::Sum;
use crate::commands::Choice;
use crate::options::Options;
use crate::output::Output;
use crate::room::Room;
use crate::rows::{Outcome, Tally, apart, sum_text};
use crate::table::{CSV, Form, JSON, Table, Value};
use crate::text::{Stop, counted, quoted};

/// The options of both commands.
pub const CHOICES: &[Choice] = &[CSV, JSON, NO_SUM, STRICT];
const NO_SUM: Choice =
    Choice { name: "no-sum", value: None, text: "leave out the sum of named chances, the slowest figure" };
const STRICT: Choice =
    Choice { name: "strict", value: None, text: "exit with 1 where a row is refused, after all are written" };

/// The fields of a row for programs.
const FIELDS: [&str; 18] = [
    "bench",
    "bench_name",
    "u",
    "status",
    "refusal",
    "refusal_text",
    "lamp",
    "lamp_name",
    "lamp_line",
    "drawn",
    "named",
    "drawn_bits",
    "named_bits",
    "apart",
    "parts_wholly",
    "sum_of_named",
    "sum_refused_lamp",
    "sum_refusal",
];

/// A draw: which bench looks, by which number, what comes of it.
pub struct Row<'a> {
    /// The bench's line, where it stands in a table.
    pub line: Option<usize>,
    pub name: Option<&'a str>,
    pub u: f32,
    pub outcome: Outcome,
    /// All lamps' chances by name at that bench, where they are asked for and it is not refused.
    pub sum: Option<Sum>,
}

impl Row<'_> {
    /// What stands behind a row for people: what the bench and the lamp are called, where they are.
    pub fn names(&self, room: &Room) -> String {
        let bench = self.name.map(|name| format!("bench {}", quoted(name)));
        let lamp =
            self.outcome.lamp().and_then(|handle| room.name_of(handle)).map(|name| format!("lamp {}", quoted(name)));
        let names: Vec<String> = bench.into_iter().chain(lamp).collect();
        if names.is_empty() { String::new() } else { format!("  {}", names.join(", ")) }
    }

    /// Its fields for programs.
    fn values(&self, room: &Room) -> [Value; FIELDS.len()] {
        let (status, refusal, chances) = match self.outcome {
            Outcome::Lamp { drawn, named, .. } => ("drawn", None, Some((drawn, named))),
            Outcome::Nothing => ("none", None, None),
            Outcome::Refused(refusal) => ("refused", Some(refusal), None),
        };
        let lamp = self.outcome.lamp();
        let (drawn, named) = chances.unzip();
        let bits = |chance: Option<f32>| Value::from(chance.map(|chance| format!("0x{:08x}", chance.to_bits())));
        let parted = chances.map(|(drawn, named)| apart(drawn, named).map(|(floats, _)| floats));
        let (sum, unsummed) = self.sum.map_or((None, None), |sum| (sum.ok(), sum.err()));
        [
            self.line.into(),
            self.name.into(),
            self.u.into(),
            status.into(),
            refusal.map(|refusal| refusal.number()).into(),
            refusal.map(|refusal| refusal.to_string()).into(),
            lamp.into(),
            lamp.and_then(|handle| room.name_of(handle)).into(),
            lamp.map(|handle| room.line(handle)).into(),
            drawn.into(),
            named.into(),
            bits(drawn),
            bits(named),
            parted.flatten().into(),
            parted.map(|floats| floats.is_none()).into(),
            sum.into(),
            unsummed.map(|(lamp, _)| lamp).into(),
            unsummed.map(|(_, refusal)| refusal.number()).into(),
        ]
    }
}

/// Rows as they come, and what is counted of them.
pub struct Sheet<'a> {
    room: &'a Room,
    table: Option<Table<{ FIELDS.len() }>>,
    strict: bool,
    pub tally: Tally,
    /// What a row and rows are called.
    rows: [&'static str; 2],
}

impl<'a> Sheet<'a> {
    /// Begins with a heading for people or one for programs.
    pub fn begin(
        options: &Options,
        room: &'a Room,
        heading: &str,
        rows: [&'static str; 2],
        output: &mut Output,
    ) -> Result<Self, Stop> {
        let table = Form::of(options)?.map(|form| Table::begin(form, FIELDS, output));
        if table.is_none() {
            output.line(heading);
        }
        Ok(Sheet { room, table, strict: options.has(STRICT.name), tally: Tally::default(), rows })
    }

    /// A row, which is called so in the summary; for people it is a text.
    pub fn row(&mut self, called: &str, row: &Row, text: impl FnOnce() -> String, output: &mut Output) {
        self.tally.count(called, row.outcome);
        match &mut self.table {
            Some(table) => table.row(row.values(self.room), output),
            None => output.line(&text()),
        }
    }

    /// Ends with a summary for people, and more, where all rows were had.
    pub fn end(self, ended: Result<(), Stop>, more: &str, output: &mut Output) -> Result<(), Stop> {
        let Sheet { table, tally, rows: [one, many], .. } = self;
        let people = table.is_none();
        table.into_iter().for_each(|table| table.end(output));
        ended?;
        if people {
            output.line(&tally.summary(one, many));
            output.text(more);
        }
        match tally.refused {
            0 => Ok(()),
            _ if !self.strict => Ok(()),
            refused => Err(Stop::Refused(format!("{refused} of {} refused", counted(tally.rows(), one, many)))),
        }
    }
}

/// Whether the sum of named chances is asked for.
pub fn sums(options: &Options) -> bool {
    !options.has(NO_SUM.name)
}

/// The column of a sum behind a row, where there is one.
pub fn sum_column(room: &Room, sum: Option<Sum>) -> String {
    sum.map_or(String::new(), |sum| format!("  {}", sum_text(room, sum)))
}
