//! Calls of the six C functions with random, damaged and truncated words, odd lengths and empty slices,
//! between pages that no call may touch. At its end it prints how often each function was called and how
//! often it answered what.

mod inputs;
mod zones;

use super::progress::turns;
use crate::inputs::random::Random;
use crate::inputs::walks::{bytes, words};
use crate::parts::{Ended, numbers};
use crate::proved::c::{light_alias_table, light_bounds_block, light_build, light_pack, light_pmf, light_sample};
use crate::stored::PATTERN;
use inputs::{block, float, list, query, spoil};
use std::collections::BTreeMap;
use zones::Zone;

const TREES: u64 = 24;
const OUTPUT: usize = 64 * 300;

/// A tree that the library built.
struct Built {
    nodes: Vec<u8>,
    table: Vec<u8>,
    k: usize,
    corners: [u32; 6],
}

/// The answers of each function.
type Counts = BTreeMap<(&'static str, String), u64>;

struct Fuzz {
    random: Random,
    inputs: [Zone; 2],
    outputs: [Zone; 4],
    trees: Vec<Built>,
    counts: Counts,
}

/// What a code that tells nothing but refusals says.
fn code(code: u32) -> String {
    match code {
        0 => "done".into(),
        _ => refused(code.into()),
    }
}

fn refused(number: u64) -> String {
    format!("refused {number}")
}

impl Fuzz {
    fn new(seed: u64) -> Fuzz {
        let (inputs, outputs) = ([0; 2].map(|_| Zone::new(64 * 8400)), [0; 4].map(|_| Zone::new(OUTPUT)));
        Fuzz { random: Random::new(seed), inputs, outputs, trees: Vec::new(), counts: Counts::new() }
    }

    fn count(&mut self, name: &'static str, answer: String) {
        *self.counts.entry((name, answer)).or_default() += 1;
    }

    /// One call.
    fn call(&mut self) {
        // a few trees, some of them replaced all the time
        if (self.trees.len() as u64) < TREES || self.random.below(400) == 0 {
            return self.another_tree();
        }
        let tree = self.random.below(TREES) as usize;
        let whole = self.random.below(2) == 0;
        let mut nodes = self.trees[tree].nodes.clone();
        if !whole {
            spoil(&mut self.random, &mut nodes);
        }
        if self.random.below(100_000) == 0 {
            nodes.resize(64 * (8180 + self.random.below(200) as usize), 0x40);
        }
        let query = query(&mut self.random);
        match self.random.below(32) {
            0 => self.spoilt_build(),
            1 => self.bounds_block(whole),
            2 => self.alias_table(),
            3 | 4 => self.pack(tree, &nodes),
            5..=17 => self.pmf(tree, &nodes, query),
            _ => self.sample(&nodes, query),
        }
    }

    fn another_tree(&mut self) {
        let lamps = self.random.below(13) as u32;
        let block = block(&mut self.random, lamps);
        let Some(tree) = self.build(&block, lamps as usize, false) else { return };
        let place = self.random.below(TREES) as usize;
        if (self.trees.len() as u64) < TREES {
            self.trees.push(tree);
        } else {
            self.trees[place] = tree;
        }
    }

    fn spoilt_build(&mut self) {
        let mut spoilt = bytes(&block(&mut self.random, 3));
        spoil(&mut self.random, &mut spoilt);
        self.build(&words(&spoilt), 3, true);
    }

    fn build(&mut self, block: &[u32], lights: usize, spoilt: bool) -> Option<Built> {
        let lamps = block.first().map_or(0, |lamps| (*lamps).min(64) as usize);
        let random = &mut self.random;
        let room = |random: &mut Random, reserve: usize| match random.below(8) {
            0 if spoilt => random.below(reserve as u64 + 1) as usize,
            _ => reserve + random.below(3) as usize,
        };
        let sizes = [16 * (2 * lamps).saturating_sub(1), lamps, 2 * lamps, 7].map(|reserve| room(random, reserve));
        let (from, len) = self.inputs[0].lend_words(random, block);
        let mut lent = Vec::new();
        for (zone, size) in self.outputs.iter().zip(sizes) {
            lent.push(zone.lend_words(random, &vec![PATTERN; size]));
        }
        let answer = unsafe {
            light_build(
                lights, from, len, lent[0].0, lent[0].1, lent[1].0, lent[1].1, lent[2].0, lent[2].1, lent[3].0,
                lent[3].1,
            )
        };
        self.count("light_build", code(answer));
        if answer != 0 {
            return None;
        }
        let words = |i: usize, n: usize| (0..n).map(|j| unsafe { *lent[i].0.add(j) }).collect::<Vec<u32>>();
        let summary = words(3, 7);
        let k = summary[0] as usize;
        Some(Built {
            nodes: bytes(&words(0, 16 * (2 * k).saturating_sub(1))),
            table: bytes(&words(1, lamps)),
            k,
            corners: std::array::from_fn(|i| summary[1 + i]),
        })
    }

    fn bounds_block(&mut self, whole: bool) {
        let random = &mut self.random;
        let lamps = random.below(4) as u32;
        let list = list(random, lamps, whole);
        let (from, len) = self.inputs[0].lend_words(random, &list);
        let size = 1 + 14 * lamps as usize + random.below(3) as usize;
        let (to, room) = self.outputs[0].lend_words(random, &vec![7; size]);
        let answer = unsafe { light_bounds_block(from, len, to, room) };
        self.count("light_bounds_block", code(answer));
    }

    fn alias_table(&mut self) {
        let random = &mut self.random;
        let weights: Vec<u32> = (0..random.below(20)).map(|_| float(random) & 0x7fff_ffff).collect();
        let (from, len) = self.inputs[0].lend_words(random, &weights);
        let short = random.below(16) == 0;
        let size = |per: usize| (per * weights.len()).saturating_sub(short as usize);
        let (bins, bins_len) = self.outputs[0].lend_words(random, &vec![7; size(3)]);
        let (work, work_len) = self.outputs[1].lend_words(random, &vec![7; size(4)]);
        let answer = unsafe { light_alias_table(from, len, bins, bins_len, work, work_len) };
        self.count("light_alias_table", code(answer));
    }

    fn pack(&mut self, tree: usize, nodes: &[u8]) {
        let (random, tree) = (&mut self.random, &self.trees[tree]);
        let (from, len) = self.inputs[0].lend(random, nodes);
        let k = if random.below(8) == 0 { random.below(3) as usize } else { tree.k };
        let present = (random.below(8) > 0) as u32;
        let odd = random.below(32) == 0;
        let [a, b, c, d, e, f] = tree.corners.map(|word| f32::from_bits(if odd { float(random) } else { word }));
        let reserve = if nodes.len() < 64 { 0 } else { 32 + 32 * (nodes.len() / 64) };
        let size = match random.below(16) {
            0 => random.below(reserve as u64 + 1) as usize,
            _ => reserve + random.below(6) as usize,
        };
        let (out, room) = self.outputs[0].lend(random, &vec![7; size.min(OUTPUT)]);
        let answer = unsafe { light_pack(from, len, k, present, a, b, c, d, e, f, out, room) };
        let said = match answer {
            0x1_0000_0000 => "none".into(),
            0x2_0000_0000.. => refused(answer - 0x2_0000_0000),
            _ => "packed".into(),
        };
        self.count("light_pack", said);
    }

    fn pmf(&mut self, tree: usize, nodes: &[u8], [px, py, pz, nx, ny, nz]: [f32; 6]) {
        let (random, mut table) = (&mut self.random, self.trees[tree].table.clone());
        if random.below(4) == 0 {
            spoil(random, &mut table);
        }
        let (from, len) = self.inputs[0].lend(random, nodes);
        let (leaves, leaves_len) = self.inputs[1].lend(random, &table);
        let handle = random.below(14) as u32;
        let answer = unsafe { light_pmf(from, len, leaves, leaves_len, px, py, pz, nx, ny, nz, handle) };
        let said = if answer >> 32 == 0 { "a chance".into() } else { refused(answer - 0x1_0000_0000) };
        self.count("light_pmf", said);
    }

    fn sample(&mut self, nodes: &[u8], [px, py, pz, nx, ny, nz]: [f32; 6]) {
        let random = &mut self.random;
        let (from, len) = self.inputs[0].lend(random, nodes);
        let u = if random.below(16) == 0 { f32::from_bits(float(random)) } else { random.within(1.0).abs() };
        let answer = unsafe { light_sample(from, len, px, py, pz, nx, ny, nz, u) };
        let said = match answer >> 62 {
            0 => "a lamp".into(),
            1 => "none".into(),
            _ => refused(answer - (1 << 63)),
        };
        self.count("light_sample", said);
    }
}

/// `fuzz [CALLS [SEED]]`.
pub fn by_hand(arguments: &[String]) -> Ended {
    let [calls, seed] = numbers(arguments, 0, [1_000_000, 1])?;
    let mut fuzz = Fuzz::new(seed);
    turns("calls", calls).for_each(|_| fuzz.call());
    println!("{calls} calls, seed {seed}, no fault");
    for ((name, answer), times) in fuzz.counts {
        println!("{name}: {answer}: {times}");
    }
    Ok(true)
}
