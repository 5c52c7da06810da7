//! The proved functions and, where the reference is there, the oracle: each is called, and both must answer
//! and write alike. So what a test says of an answer it says of the product, and of the oracle too.

use crate::inputs::packing::{Corners, Packed};
use crate::inputs::records::{Query, Record};
use crate::inputs::trees::Trays;
use crate::inputs::walks::{Chance, Drawn, Tree};
#[cfg(reference)]
use crate::oracle::{packing, reference, walks::Decoded};
use crate::proved;
#[cfg(reference)]
use std::fmt::Debug;

/// The proved answer and what it writes to the slices lent; the oracle must give and write the same to copies of them.
macro_rules! alike {
    ($lent:expr, $proved:expr, $oracle:expr) => {{
        #[cfg(reference)]
        let answer = held($lent, $proved, $oracle);
        #[cfg(not(reference))]
        let answer = $proved($lent);
        answer
    }};
}

#[cfg(reference)]
fn held<T: Clone + PartialEq, A: PartialEq + Debug, const N: usize>(
    mut lent: [&mut [T]; N],
    proved: impl FnOnce([&mut [T]; N]) -> A,
    oracle: impl FnOnce([&mut [T]; N]) -> A,
) -> A {
    let mut copies = lent.each_ref().map(|slice| slice.to_vec());
    let expected = oracle(copies.each_mut().map(Vec::as_mut_slice));
    let answer = proved(lent.each_mut().map(|slice| &mut **slice));
    let other = lent.iter().zip(&copies).position(|(slice, copy)| **slice != copy[..]);
    assert!(
        answer == expected && other.is_none(),
        "proved {answer:08x?}, oracle {expected:08x?}, other words in slice {other:?}"
    );
    answer
}

/// A `Build`.
pub fn build_light_bvh(light_count: u32, block: &[u32], trays: Trays) -> Result<(), u32> {
    alike!(trays, |trays: Trays| proved::tree_build_light_bvh(light_count, block, trays), |trays| {
        reference::build_light_bvh(light_count, block, trays)
    })
}

/// A `Pack`.
pub fn pack_light_bvh(nodes: &[u8], k: usize, all: Option<Corners>, out: &mut [u8]) -> Packed {
    alike!([out], |[out]: [&mut [u8]; 1]| proved::packed_pack_light_bvh(nodes, k, all, out), |[out]| {
        packing::pack_light_bvh(nodes, k, all, out)
    })
}

/// The records of a lamp list.
pub fn build_light_bounds(list: &[u32], block: &mut [u32]) -> Result<(), u32> {
    alike!([block], |[block]: [&mut [u32]; 1]| proved::lamps_build_light_bounds(list, block), |[block]| {
        reference::build_light_bounds(list, block)
    })
}

/// A `Weigh`.
pub fn importance(record: &Record, query: &Query) -> Result<u32, u32> {
    let answer = proved::bounds_importance(record, query);
    #[cfg(reference)]
    assert_eq!(answer, reference::importance(record, query), "proved, oracle");
    answer
}

pub fn sample(tree: &Tree, query: &Query, u: f32) -> Drawn {
    let answer = proved::sampler_sample(&tree.nodes, query, u);
    #[cfg(reference)]
    assert_eq!(answer, Decoded::new(tree).sample(query, u), "proved, oracle: u {u}, {} bytes", tree.nodes.len());
    answer
}

pub fn pmf(tree: &Tree, query: &Query, handle: u32) -> Chance {
    let answer = proved::sampler_pmf(&tree.nodes, &tree.table, query, handle);
    #[cfg(reference)]
    assert_eq!(answer, Decoded::new(tree).pmf(query, handle), "proved, oracle: handle {handle}");
    answer
}
