//! The runs of u: for one bench every u from 0 to 1 ends at one place of the tree, and those that end there are one
//! stretch.
//!
//! Proved is that a lamp's run is unbroken and that the runs follow each other in the order of the leaves (`unbroken`
//! and `leaf-order` of crates/light_runs/specs/Demand3.antt). Where a run begins is looked for here: only a stretch
//! whose ends draw unlike is halved.

use crate::bench::Place;
use light_tree::{LightTree, Refusal, sample_nodes};

/// The words of a node: head, right child, parent, record.
const NODE_WORDS: usize = 16;
/// The top bits of a leaf's head, before its handle.
const LEAF: u32 = 1 << 30;
/// The word of u = 1. The words of floats from 0 on are in their order.
const ONE: u32 = 0x3f80_0000;

/// Where a draw ends.
#[derive(Clone, Copy, Debug, PartialEq)]
pub enum End {
    Lamp(u32),
    /// At a fork neither branch of which shines on the bench, or in a room where no lamp has power.
    None,
    /// At a fork that cannot be weighed for this bench.
    Refused(Refusal),
}

impl End {
    pub fn lamp(self) -> Option<u32> {
        if let End::Lamp(handle) = self { Some(handle) } else { None }
    }
}

/// A place of the tree as one bench meets it.
#[derive(Clone, Copy, Debug, PartialEq)]
pub enum Step {
    /// A fork that draws go on from: its right child, and the shares of both sides.
    Fork {
        right: usize,
        shares: [f32; 2],
    },
    End(End),
}

/// All u that end at one place, from the first to the last.
#[derive(Clone, Copy, Debug, PartialEq)]
pub struct Run {
    pub place: usize,
    pub end: End,
    pub first: f32,
    pub last: f32,
}

/// The tree as one bench meets it. Places below a fork that no draw goes on from are never met, and have no step.
pub struct Runs {
    pub steps: Vec<Option<Step>>,
    /// In the order of u, which is that of the places; empty ones are left out.
    pub runs: Vec<Run>,
}

/// A u that draws otherwise than the search for the runs made it out, which is proved never to be.
#[derive(Debug)]
pub struct Odd {
    pub u: f32,
}

impl Runs {
    pub fn of(tree: &LightTree, bench: Place) -> Result<Runs, Odd> {
        let steps = steps(tree, bench);
        let runs = if tree.is_empty() {
            vec![Run { place: 0, end: End::None, first: 0.0, last: 1.0 }]
        } else {
            search(&cut(tree, &steps), bench, &steps)?
        };
        try_ends(tree, bench, &runs)?;
        Ok(Runs { steps, runs })
    }

    /// The run that a u lies in.
    pub fn at(&self, u: f32) -> Option<&Run> {
        self.runs.iter().find(|run| (run.first..=run.last).contains(&u))
    }

    /// Where a run begins and ends as parts of all u: each ends where the next begins, the last at 1.
    pub fn span(&self, run: usize) -> [f64; 2] {
        let begin = |run: usize| self.runs.get(run).map_or(1.0, |run| f64::from(run.first));
        [begin(run), begin(run + 1)]
    }

    /// The same of all runs from one place up to another.
    pub fn span_of(&self, places: std::ops::Range<usize>) -> [f64; 2] {
        let before = |place: usize| self.runs.partition_point(|run| run.place < place);
        [self.span(before(places.start))[0], self.span(before(places.end))[0]]
    }

    /// Which part of all u ends so.
    pub fn part(&self, is: impl Fn(End) -> bool) -> f64 {
        let widths = (0..self.runs.len()).filter(|run| is(self.runs[*run].end)).map(|run| self.span(run));
        widths.fold(0.0, |sum, [begin, end]| sum + end - begin)
    }

    /// The places that a draw enters, from the root to the place where it ends.
    pub fn way(&self, end: usize) -> Vec<usize> {
        let mut way = vec![0];
        let mut place = 0;
        while let Some(Step::Fork { right, .. }) = self.steps.get(place).copied().flatten() {
            place = if end < right { place + 1 } else { right };
            way.push(place);
        }
        way
    }
}

/// What the bench meets at each place, from the root down.
fn steps(tree: &LightTree, bench: Place) -> Vec<Option<Step>> {
    let mut steps = vec![None; tree.len()];
    let mut open = vec![0];
    while let Some(place) = open.pop() {
        let Some(node) = tree.node(place) else { continue };
        let step = match (node.light_handle(), node.right_child()) {
            (Some(handle), _) => Step::End(End::Lamp(handle)),
            (None, right) => match tree.shares(bench.p, bench.n, place) {
                Ok(Some(shares)) => Step::Fork { right: right.unwrap_or_default() as usize, shares },
                Ok(None) => Step::End(End::None),
                Err(refusal) => Step::End(End::Refused(refusal)),
            },
        };
        if let Step::Fork { right, .. } = step {
            open.extend([right, place + 1]);
        }
        steps[place] = Some(step);
    }
    steps
}

/// A copy of the nodes in which every end is a leaf with its place for a handle: every u then draws a place.
fn cut(tree: &LightTree, steps: &[Option<Step>]) -> Vec<u32> {
    let mut words: Vec<u32> = tree.node_bytes().as_chunks().0.iter().map(|bytes| u32::from_le_bytes(*bytes)).collect();
    for (place, (node, step)) in words.chunks_mut(NODE_WORDS).zip(steps).enumerate() {
        if let Some(Step::End(_)) = step {
            node[0] = LEAF | place as u32;
        }
    }
    words
}

/// The runs of the places that a cut tree draws: stretches with unlike ends are halved until their ends are neighbours.
fn search(words: &[u32], bench: Place, steps: &[Option<Step>]) -> Result<Vec<Run>, Odd> {
    let drawn = |word: u32| {
        let u = f32::from_bits(word);
        match sample_nodes(words, bench.p, bench.n, u) {
            Ok(Some((place, _))) => Ok((word, place as usize)),
            _ => Err(Odd { u }),
        }
    };
    // the first word of each run, with its place
    let mut firsts = vec![drawn(0)?];
    let mut open = vec![(firsts[0], drawn(ONE)?)];
    while let Some((low, high)) = open.pop() {
        if low.1 == high.1 {
            continue;
        }
        if high.0 - low.0 == 1 {
            firsts.push(high);
            continue;
        }
        let middle = drawn(low.0.midpoint(high.0))?;
        // the lower half is taken first
        open.extend([(middle, high), (low, middle)]);
    }
    let lasts = firsts.iter().skip(1).map(|(word, _)| word - 1).chain([ONE]);
    firsts.iter().zip(lasts).map(|(&(first, place), last)| run(steps, place, first, last)).collect()
}

fn run(steps: &[Option<Step>], place: usize, first: u32, last: u32) -> Result<Run, Odd> {
    let [first, last] = [first, last].map(f32::from_bits);
    match steps.get(place) {
        Some(Some(Step::End(end))) => Ok(Run { place, end: *end, first, last }),
        _ => Err(Odd { u: first }),
    }
}

/// Draws both ends of every run from the tree itself.
fn try_ends(tree: &LightTree, bench: Place, runs: &[Run]) -> Result<(), Odd> {
    for run in runs {
        for u in [run.first, run.last] {
            let end = match tree.sample(bench.p, bench.n, u) {
                Ok(Some((handle, _))) => End::Lamp(handle),
                Ok(None) => End::None,
                Err(refusal) => End::Refused(refusal),
            };
            if end != run.end {
                return Err(Odd { u });
            }
        }
    }
    Ok(())
}
