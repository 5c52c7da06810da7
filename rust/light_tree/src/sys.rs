//! The functions of `liblight_c.a` behind safe ones: the only module with `unsafe`. `include/light_tree.h` tells what
//! each takes and answers.
//!
//! SAFETY, for every call: the declarations are the header's (`tests/header.rs`). Each slice is handed over as a
//! pointer to its first element and its length, and the slices that are written to are `&mut`, so no two overlap. The
//! functions read and write within these lengths alone, keep nothing, and are proved for every input. Where a slice
//! is handed over as another type, both are plain 32-bit numbers or bytes without padding, for which every bit
//! pattern is a value; bytes hold words little-endian, as the machine does.

#![allow(unsafe_code)]

use crate::refusal::Refusal;
use crate::{Bounds3, PowerAliasBin};

#[cfg(not(target_endian = "little"))]
compile_error!("the light tree's words are little-endian, and the library is for x86-64");

unsafe extern "C" {
    fn light_version() -> u32;
    fn light_bounds_block(list: *const u32, list_len: usize, block: *mut u32, block_len: usize) -> u32;
    fn light_build(
        lights: usize,
        block: *const u32,
        block_len: usize,
        nodes: *mut u32,
        nodes_len: usize,
        table: *mut u32,
        table_len: usize,
        work: *mut u32,
        work_len: usize,
        answer: *mut u32,
        answer_len: usize,
    ) -> u32;
    fn light_sample(
        nodes: *const u8,
        nodes_len: usize,
        px: f32,
        py: f32,
        pz: f32,
        nx: f32,
        ny: f32,
        nz: f32,
        u: f32,
    ) -> u64;
    fn light_pmf(
        nodes: *const u8,
        nodes_len: usize,
        table: *const u8,
        table_len: usize,
        px: f32,
        py: f32,
        pz: f32,
        nx: f32,
        ny: f32,
        nz: f32,
        handle: u32,
    ) -> u64;
    fn light_pack(
        nodes: *const u8,
        nodes_len: usize,
        k: usize,
        present: u32,
        min_x: f32,
        min_y: f32,
        min_z: f32,
        max_x: f32,
        max_y: f32,
        max_z: f32,
        out: *mut u8,
        out_len: usize,
    ) -> u64;
    fn light_alias_table(
        weights: *const u32,
        weights_len: usize,
        bins: *mut u32,
        bins_len: usize,
        work: *mut u32,
        work_len: usize,
    ) -> u32;
}

/// The refusal of a number. Another library may answer one that this crate does not know.
fn refusal(number: u32) -> Refusal {
    Refusal::from_number(number).unwrap_or(Refusal::Unknown(number))
}

/// 0, or a refusal's number.
fn done(number: u32) -> Result<(), Refusal> {
    match number {
        0 => Ok(()),
        _ => Err(refusal(number)),
    }
}

/// Words as their bytes.
pub(crate) fn bytes(words: &[u32]) -> &[u8] {
    // SAFETY: as said above; the bytes are those of the words, for as long.
    unsafe { std::slice::from_raw_parts(words.as_ptr().cast(), 4 * words.len()) }
}

/// A lamp list to its block.
pub(crate) fn bounds_block(list: &[u32], block: &mut [u32]) -> Result<(), Refusal> {
    // SAFETY: as said above.
    done(unsafe { light_bounds_block(list.as_ptr(), list.len(), block.as_mut_ptr(), block.len()) })
}

/// A block to nodes and table: k and the six words of the powered lamps' box, zeros where k is 0.
pub(crate) fn build(
    lights: usize,
    block: &[u32],
    nodes: &mut [u32],
    table: &mut [u32],
    work: &mut [u32],
) -> Result<(usize, [u32; 6]), Refusal> {
    let mut answer = [0; 7];
    // SAFETY: as said above.
    done(unsafe {
        light_build(
            lights,
            block.as_ptr(),
            block.len(),
            nodes.as_mut_ptr(),
            nodes.len(),
            table.as_mut_ptr(),
            table.len(),
            work.as_mut_ptr(),
            work.len(),
            answer.as_mut_ptr(),
            answer.len(),
        )
    })?;
    let [k, all @ ..] = answer;
    Ok((k as usize, all))
}

/// A draw: handle and chance, or none.
pub(crate) fn sample(nodes: &[u32], p: [f32; 3], n: [f32; 3], u: f32) -> Result<Option<(u32, f32)>, Refusal> {
    let nodes = bytes(nodes);
    // SAFETY: as said above.
    let answer = unsafe { light_sample(nodes.as_ptr(), nodes.len(), p[0], p[1], p[2], n[0], n[1], n[2], u) };
    let (high, low) = ((answer >> 32) as u32, answer as u32);
    match high >> 30 {
        0 => Ok(Some((high, f32::from_bits(low)))),
        1 => Ok(None),
        _ => Err(refusal(low)),
    }
}

/// The chance of a lamp by its handle.
pub(crate) fn pmf(nodes: &[u32], table: &[u32], p: [f32; 3], n: [f32; 3], handle: u32) -> Result<f32, Refusal> {
    let (nodes, table) = (bytes(nodes), bytes(table));
    // SAFETY: as said above.
    let answer = unsafe {
        light_pmf(nodes.as_ptr(), nodes.len(), table.as_ptr(), table.len(), p[0], p[1], p[2], n[0], n[1], n[2], handle)
    };
    match answer >> 32 {
        0 => Ok(f32::from_bits(answer as u32)),
        _ => Err(refusal(answer as u32)),
    }
}

/// Nodes to packed rows of eight words, the header first: how many words, or none where there is no tree.
pub(crate) fn pack(
    nodes: &[u32],
    k: usize,
    all: Option<Bounds3>,
    out: &mut [[u32; 8]],
) -> Result<Option<usize>, Refusal> {
    let nodes = bytes(nodes);
    let present = all.is_some().into();
    let Bounds3 { min: [a, b, c], max: [d, e, f] } = all.unwrap_or(Bounds3 { min: [0.0; 3], max: [0.0; 3] });
    let (out, out_len) = (out.as_mut_ptr().cast(), 32 * out.len());
    // SAFETY: as said above.
    let answer = unsafe { light_pack(nodes.as_ptr(), nodes.len(), k, present, a, b, c, d, e, f, out, out_len) };
    match answer >> 32 {
        0 => Ok(Some(answer as usize)),
        1 => Ok(None),
        _ => Err(refusal(answer as u32)),
    }
}

/// Weights to bins. Work is lent as bins, of three words each.
pub(crate) fn alias_table(
    weights: &[f32],
    bins: &mut [PowerAliasBin],
    work: &mut [PowerAliasBin],
) -> Result<(), Refusal> {
    let (bins, bins_len) = (bins.as_mut_ptr().cast(), 3 * bins.len());
    let (work, work_len) = (work.as_mut_ptr().cast(), 3 * work.len());
    // SAFETY: as said above; `PowerAliasBin` is `repr(C)`, two floats and a word.
    done(unsafe { light_alias_table(weights.as_ptr().cast(), weights.len(), bins, bins_len, work, work_len) })
}

/// The library's version.
pub(crate) fn version() -> u32 {
    // SAFETY: as said above.
    unsafe { light_version() }
}

#[cfg(test)]
mod tests {
    use super::*;

    /// A number is its refusal, whatever library answers it.
    #[test]
    fn unknown_numbers() {
        assert_eq!([done(0), done(11), done(1000)], [Ok(()), Err(Refusal::BadU), Err(Refusal::Unknown(1000))]);
        for number in 1..=1000 {
            assert_eq!(refusal(number).number(), number);
        }
        assert!(refusal(1000).to_string().contains("another version"));
    }
}
