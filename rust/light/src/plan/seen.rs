//! A bench as the page tells of it: what it looks at, and what every other u would draw.

use crate::bench::Bench;
use crate::plan::runs::{End, Odd, Runs};
use crate::rows::{Outcome, apart};
use light_tree::LightTree;

/// A lamp that some u draws.
#[derive(Clone, Copy)]
pub struct Met {
    /// Its run's place among all.
    pub run: usize,
    /// Its chance, multiplied on the way down, and by name on the way up.
    pub drawn: f32,
    pub named: f32,
}

/// How far two chances part: so many floats, or wholly.
#[derive(Clone, Copy, PartialEq, PartialOrd)]
pub enum Gap {
    Floats(u32),
    Wholly,
}

pub struct Seen<'a> {
    pub bench: &'a Bench,
    pub outcome: Outcome,
    /// What all u draw; none where the bench is refused.
    pub view: Option<View>,
}

pub struct View {
    pub runs: Runs,
    /// By handle, the lamps that some u draws.
    pub met: Vec<Option<Met>>,
}

impl Gap {
    pub fn floats(self) -> Option<u32> {
        if let Gap::Floats(floats) = self { Some(floats) } else { None }
    }

    pub fn of(drawn: f32, named: f32) -> Gap {
        apart(drawn, named).map_or(Gap::Wholly, |(floats, _)| Gap::Floats(floats))
    }
}

impl Seen<'_> {
    pub fn of<'a>(tree: &LightTree, bench: &'a Bench) -> Result<Seen<'a>, Odd> {
        let outcome = Outcome::of(tree, bench.place, bench.u);
        let view = match outcome {
            Outcome::Refused(_) => None,
            _ => Some(View::of(tree, bench)?),
        };
        Ok(Seen { bench, outcome, view })
    }

    /// How far the two chances of the lamp drawn part.
    pub fn gap(&self) -> Option<Gap> {
        match self.outcome {
            Outcome::Lamp { drawn, named, .. } => Some(Gap::of(drawn, named)),
            _ => None,
        }
    }
}

impl View {
    fn of(tree: &LightTree, bench: &Bench) -> Result<View, Odd> {
        let runs = Runs::of(tree, bench.place)?;
        let mut met = vec![None; tree.lamps()];
        for (at, run) in runs.runs.iter().enumerate() {
            let End::Lamp(lamp) = run.end else { continue };
            match Outcome::of(tree, bench.place, run.first) {
                Outcome::Lamp { handle, drawn, named } if handle == lamp => {
                    met[handle as usize] = Some(Met { run: at, drawn, named });
                }
                // a lamp that is drawn has a chance by name: `upward` of Demand3
                _ => return Err(Odd { u: run.first }),
            }
        }
        Ok(View { runs, met })
    }

    pub fn met(&self, handle: u32) -> Option<Met> {
        self.met.get(handle as usize).copied().flatten()
    }

    /// A lamp's chance, 0 where no u draws it.
    pub fn chance(&self, handle: u32) -> f32 {
        self.met(handle).map_or(0.0, |met| met.drawn)
    }

    /// The lamps that some u draws, by falling chance; a chance that is not a number comes first.
    pub fn greatest(&self) -> Vec<u32> {
        let mut handles: Vec<u32> = (0..).zip(&self.met).filter_map(|(handle, met)| met.map(|_| handle)).collect();
        let height = |handle: u32| Some(self.chance(handle)).filter(|chance| !chance.is_nan()).unwrap_or(f32::INFINITY);
        handles.sort_by(|a, b| height(*b).total_cmp(&height(*a)));
        handles
    }

    /// The gaps of the lamps that some u draws.
    pub fn gaps(&self) -> impl Iterator<Item = Gap> + '_ {
        self.met.iter().flatten().map(|met| Gap::of(met.drawn, met.named))
    }

    /// Which part of all u draws none.
    pub fn none(&self) -> f64 {
        self.runs.part(|end| end == End::None)
    }

    /// Which part of all u is refused.
    pub fn refused(&self) -> f64 {
        self.runs.part(|end| matches!(end, End::Refused(_)))
    }
}
