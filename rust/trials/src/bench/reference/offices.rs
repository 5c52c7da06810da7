//! Offices with their trees, by the reference with Rust's own library functions, and the timing of calls that
//! are long enough for it.

use crate::timing::{INPUTS, medians, sampled};
use std::hint::black_box;
use std::time::Instant;
use trials::inputs::random::Random;
use trials::inputs::rooms::Room;
use trials::inputs::walks::bytes;
use trials::oracle::reference::native::light_bvh::LightBVH;
use trials::oracle::reference::{native_build_light_bounds, native_node, native_tree};

/// Prints the lines above a table, then its rows, which are an office's each: of 64, 512 and 4,096 lamps.
pub fn table(above: &str, mut rows: impl FnMut(&mut Random, Office)) {
    println!("{above}");
    let mut random = Random::new(0);
    for lamps in [64, 512, 4096] {
        let office = Office::new(&mut random, lamps);
        rows(&mut random, office);
    }
}

/// Prints the nanoseconds for a call of samples of one pass over the inputs.
pub fn pass(label: &str, [proved, own]: [&dyn Fn(usize) -> u64; 2]) {
    let all = |call: &dyn Fn(usize) -> u64| (0..INPUTS).fold(0u64, |sum, i| sum.wrapping_add(call(black_box(i))));
    sampled(label, INPUTS, [&mut || all(proved), &mut || all(own)]);
}

/// Prints the microseconds for a call of samples of two milliseconds or more.
pub fn builds(label: &str, mut sides: [&mut dyn FnMut() -> u64; 2]) {
    let calls = sides.each_mut().map(|side| {
        let began = Instant::now();
        black_box(side());
        1 + 2_000_000 / began.elapsed().as_nanos()
    });
    let [proved, own] = medians(calls, sides);
    let [proved, own] = [proved / calls[0] as f64, own / calls[1] as f64].map(|ns| ns / 1e3);
    println!("{label} | {proved:.1} | {own:.1} | {:.2}", proved / own);
}

pub struct Office {
    pub lamps: usize,
    pub room: Room,
    pub block: Vec<u32>,
    pub tree: LightBVH,
}

impl Office {
    pub fn new(random: &mut Random, lamps: usize) -> Office {
        let room = Room::new(random, lamps);
        let block = room.block(native_build_light_bounds);
        let tree = native_tree(&block).unwrap();
        Office { lamps, room, block, tree }
    }

    /// Its nodes as the proved functions read them.
    pub fn node_bytes(&self) -> Vec<u8> {
        bytes(&self.tree.nodes.iter().flat_map(native_node).collect::<Vec<u32>>())
    }
}
