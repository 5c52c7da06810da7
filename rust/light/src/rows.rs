//! What a draw comes to: a lamp, with which chance it is drawn and by name, and how far these part.

use crate::bench::Place;
use crate::chances::Sum;
use crate::room::{Room, refused};
use crate::text::{counted, decimal, rounded};
use light_tree::{LightTree, Refusal};

/// What a draw comes to.
#[derive(Clone, Copy)]
pub enum Outcome {
    /// A lamp, and its chance in two ways.
    Lamp {
        handle: u32,
        drawn: f32,
        named: f32,
    },
    /// None is drawn.
    Nothing,
    Refused(Refusal),
}

impl Outcome {
    pub fn of(tree: &LightTree, place: Place, u: f32) -> Outcome {
        let Place { p, n } = place;
        let answer = tree.sample(p, n, u).and_then(|drawn| match drawn {
            Some((handle, drawn)) => Ok(Outcome::Lamp { handle, drawn, named: tree.pmf(p, n, handle)? }),
            None => Ok(Outcome::Nothing),
        });
        answer.unwrap_or_else(Outcome::Refused)
    }

    /// The lamp that is drawn.
    pub fn lamp(self) -> Option<u32> {
        match self {
            Outcome::Lamp { handle, .. } => Some(handle),
            _ => None,
        }
    }

    pub fn is_refused(self) -> bool {
        matches!(self, Outcome::Refused(_))
    }

    /// Its columns in a report.
    pub fn columns(self, room: &Room) -> String {
        match self {
            Outcome::Lamp { handle, drawn, named } => {
                let [a, b] = [drawn, named].map(decimal);
                let [c, d] = [drawn, named].map(f32::to_bits);
                let apart = apart(drawn, named).map_or("wholly".into(), |(floats, _)| floats.to_string());
                format!("{handle:>5} {:>5}  {a:<14} {b:<14} {c:08x} {d:08x} {apart:>6}", room.line(handle))
            }
            Outcome::Nothing => {
                format!("{:>5} {:>5}  {:<14} {:<14} {:<8} {:<8} {:>6}", "none", "-", "-", "-", "-", "-", "-")
            }
            Outcome::Refused(refusal) => refused(refusal),
        }
    }
}

/// The columns' names, the first one's told.
pub fn head(first: &str) -> String {
    format!(
        "#{first:>6} {:>5} {:>5}  {:<14} {:<14} {:8} {:8} {:>6}",
        "lamp", "line", "drawn", "named", "bits", "bits", "apart"
    )
}

/// How many floats one chance is from the other, and their difference by the greater. None where they part wholly: one
/// is NaN or infinite, or 0 beside one that is not.
pub fn apart(a: f32, b: f32) -> Option<(u32, f64)> {
    if !a.is_finite() || !b.is_finite() || (a == 0.0) != (b == 0.0) {
        return None;
    }
    if a == b {
        return Some((0, 0.0));
    }
    // chances are not below 0, and the words of such floats are in their order
    let [x, y] = [a, b].map(f64::from);
    Some((a.to_bits().abs_diff(b.to_bits()), (x - y).abs() / x.max(y)))
}

/// A sum of chances, for the last column.
pub fn sum_text(room: &Room, sum: Sum) -> String {
    match sum {
        Ok(sum) => format!("{sum:.7}"),
        Err((lamp, refusal)) => format!("{} is refused {}", room.called(lamp), refusal.number()),
    }
}

/// Counts over the rows of a report.
#[derive(Default)]
pub struct Tally {
    pub drawn: usize,
    pub none: usize,
    pub refused: usize,
    /// The rows whose chances part wholly, and the first of them.
    wholly: usize,
    first_wholly: String,
    /// Over the other rows: the greatest distance in floats, the greatest relative difference, and where each is.
    floats: (u32, String),
    relative: (f64, String),
}

impl Tally {
    pub fn rows(&self) -> usize {
        self.drawn + self.none + self.refused
    }

    /// Counts a row, which is called so in the summary.
    pub fn count(&mut self, called: &str, outcome: Outcome) {
        match outcome {
            Outcome::Lamp { drawn, named, .. } => self.count_chances(called, drawn, named),
            Outcome::Nothing => self.none += 1,
            Outcome::Refused(_) => self.refused += 1,
        }
    }

    fn count_chances(&mut self, called: &str, drawn: f32, named: f32) {
        self.drawn += 1;
        let Some((floats, relative)) = apart(drawn, named) else {
            self.wholly += 1;
            if self.wholly == 1 {
                self.first_wholly = called.into();
            }
            return;
        };
        if floats > self.floats.0 {
            self.floats = (floats, called.into());
        }
        if relative > self.relative.0 {
            self.relative = (relative, called.into());
        }
    }

    /// The last lines of a report: how the rows ended and, where some have both chances, how far these part.
    pub fn summary(&self, one: &str, more: &str) -> String {
        let rows = counted(self.rows(), one, more);
        let ended = format!("# {rows}: {} drawn, {} none, {} refused", self.drawn, self.none, self.refused);
        if self.drawn > 0 { format!("{ended}\n# {}", self.parted()) } else { ended }
    }

    fn parted(&self) -> String {
        let wholly = match self.wholly {
            0 => "no row parts wholly".into(),
            1 => format!("1 row parts wholly, {}", self.first_wholly),
            rows => format!("{rows} rows part wholly, first {}", self.first_wholly),
        };
        let ((floats, farthest), (relative, widest)) = (&self.floats, &self.relative);
        if *floats > 0 {
            let floats = counted(*floats as usize, "float", "floats");
            let others = if self.wholly > 0 { "of the others " } else { "" };
            let relative = rounded(*relative);
            let distance = format!("the greatest distance is {floats} ({farthest})");
            format!("{wholly}; {others}{distance}, the greatest relative difference {relative} ({widest})")
        } else if self.wholly == 0 {
            "both chances are the same in every row".into()
        } else if self.wholly < self.drawn {
            format!("{wholly}; in the others both chances are the same")
        } else {
            wholly
        }
    }
}
