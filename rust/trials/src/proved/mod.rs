//! The proved side: the proved functions behind safe names, as the runs call them, and the proved programs.

pub mod c;
pub mod programs;

use crate::inputs::packing::{Corners, Packed};
use crate::inputs::records::Query;
use crate::inputs::trees::Trays;
use crate::inputs::walks::{Chance, Drawn};
use crate::stored::PATTERN;

pub use c::{clamp, f32_of_word, f64_of_word, is_sign_negative, narrow, sqrt64, widen, word_of_f64};

/// The functions that the library knows by a number (crates/parts_c/specs/LibraryFunctions.antt), behind their names.
macro_rules! numbered {
    ($($name:ident = $of:ident($which:literal $(, $x:ident)*) as $kind:ty;)*) => {
        $(pub fn $name($($x: f32),*) -> $kind {
            c::$of($which $(, $x)*) as $kind
        })*
    };
}

numbered! {
    abs = floats_of_one(0, x) as f32;
    floor = floats_of_one(1, x) as f32;
    ceil = floats_of_one(2, x) as f32;
    round = floats_of_one(3, x) as f32;
    sqrt = floats_of_one(4, x) as f32;
    cos = trig_of_one(0, x) as f32;
    sin = trig_of_one(1, x) as f32;
    acos = trig_of_one(2, x) as f32;
    asin = trig_of_one(3, x) as f32;
    min = floats_of_two(0, x, y) as f32;
    max = floats_of_two(1, x, y) as f32;
    to_u16 = floats_to_whole(0, x) as u16;
    to_u32 = floats_to_whole(1, x) as u32;
    to_usize = floats_to_whole(2, x) as usize;
    word_of_f32 = floats_to_whole(3, x) as u32;
}

/// One more than the greatest number of a refusal; 0 stands for an answer given.
pub const NUMBERS: usize = 14;

/// The word at a place, 0 past the last whole word.
pub fn word_at(bytes: &[u8], place: usize) -> u32 {
    unsafe { c::words_word_at(bytes.as_ptr(), bytes.len(), place) }
}

/// Writes the word at a place, nothing past the last whole word.
pub fn set_word(bytes: &mut [u8], place: usize, w: u32) {
    unsafe { c::words_set_word(bytes.as_mut_ptr(), bytes.len(), place, w) }
}

/// How many words the bytes hold, none where the length is no multiple of four.
pub fn word_count(bytes: &[u8]) -> Option<usize> {
    let count = unsafe { c::words_word_count(bytes.as_ptr(), bytes.len()) };
    (count != usize::MAX).then_some(count)
}

/// Writes v from place `from` up to, not including, place `to`, as far as the slice goes.
pub fn fill(words: &mut [u32], from: usize, to: usize, v: u32) {
    unsafe { c::words_fill(words.as_mut_ptr(), words.len(), from, to, v) }
}

/// Reads the words of the bytes. A length that is no multiple of four is refusal 1, a slice too short for the words 3.
pub fn words_of_bytes(bytes: &[u8], words: &mut [u32]) -> Result<(), u32> {
    answer(unsafe { c::words_words_of_bytes(bytes.as_ptr(), bytes.len(), words.as_mut_ptr(), words.len()) })
}

/// Writes the words as bytes. A slice too short for them is refusal 3.
pub fn bytes_of_words(words: &[u32], bytes: &mut [u8]) -> Result<(), u32> {
    answer(unsafe { c::words_bytes_of_words(words.as_ptr(), words.len(), bytes.as_mut_ptr(), bytes.len()) })
}

/// The check of a record of thirteen words.
pub fn bounds_validate(record: &[u32]) -> Result<(), u32> {
    answer(unsafe { c::bounds_validate(record.as_ptr(), record.len()) })
}

/// The record around two, written to the front of `out`.
pub fn bounds_union(a: &[u32], b: &[u32], out: &mut [u32]) -> Result<(), u32> {
    answer(unsafe { c::bounds_union(a.as_ptr(), a.len(), b.as_ptr(), b.len(), out.as_mut_ptr(), out.len()) })
}

/// The word of a record's importance for a query of six words, a point and a normal.
pub fn bounds_importance(record: &[u32], query: &[u32]) -> Result<u32, u32> {
    let answer = unsafe { c::bounds_importance(record.as_ptr(), record.len(), query.as_ptr(), query.len()) };
    match answer >> 32 {
        0 => Ok(answer as u32),
        _ => Err(answer as u32),
    }
}

/// The records of a lamp list, written to the front of `block`.
pub fn lamps_build_light_bounds(list: &[u32], block: &mut [u32]) -> Result<(), u32> {
    answer(unsafe { c::light_bounds_block(list.as_ptr(), list.len(), block.as_mut_ptr(), block.len()) })
}

/// The check of a bounds block's layout.
pub fn lamps_check_block(block: &[u32]) -> Result<(), u32> {
    answer(unsafe { c::lamps_check_block(block.as_ptr(), block.len()) })
}

/// The alias table of weights, three words a bin, written to the front of `bins`.
pub fn alias_build_power_alias_table(weights: &[u32], bins: &mut [u32], work: &mut [u32]) -> Result<(), u32> {
    let (bins_len, work_len) = (bins.len(), work.len());
    answer(unsafe {
        c::light_alias_table(weights.as_ptr(), weights.len(), bins.as_mut_ptr(), bins_len, work.as_mut_ptr(), work_len)
    })
}

/// A refusal's number, 0 for none.
fn answer(number: u32) -> Result<(), u32> {
    if number == 0 { Ok(()) } else { Err(number) }
}

/// The tree of a block, written to the front of each tray.
pub fn tree_build_light_bvh(light_count: u32, block: &[u32], trays: Trays) -> Result<(), u32> {
    let (lights, len) = (light_count as usize, block.len());
    let lens = trays.each_ref().map(|tray| tray.len());
    let [a, b, c, d] = trays.map(|tray| tray.as_mut_ptr());
    answer(unsafe { c::light_build(lights, block.as_ptr(), len, a, lens[0], b, lens[1], c, lens[2], d, lens[3]) })
}

/// A draw over a tree's nodes as bytes.
pub fn sampler_sample(nodes: &[u8], query: &Query, u: f32) -> Drawn {
    let [px, py, pz, nx, ny, nz] = query.map(f32::from_bits);
    let answer = unsafe { c::light_sample(nodes.as_ptr(), nodes.len(), px, py, pz, nx, ny, nz, u) };
    let (high, low) = ((answer >> 32) as u32, answer as u32);
    match high >> 30 {
        0 => Ok(Some((high, low))),
        1 if answer == 1 << 62 => Ok(None),
        2 if high == 1 << 31 => Err(low),
        _ => panic!("a draw's answer {answer:x}"),
    }
}

/// The chance of a lamp by its handle, over a tree's nodes and table as bytes.
pub fn sampler_pmf(nodes: &[u8], table: &[u8], query: &Query, handle: u32) -> Chance {
    let [px, py, pz, nx, ny, nz] = query.map(f32::from_bits);
    let answer = unsafe {
        c::light_pmf(nodes.as_ptr(), nodes.len(), table.as_ptr(), table.len(), px, py, pz, nx, ny, nz, handle)
    };
    match answer >> 32 {
        0 => Ok(answer as u32),
        1 => Err(answer as u32),
        _ => panic!("a chance's answer {answer:x}"),
    }
}

/// The packed words of a tree's nodes as bytes, written to the front of `out`: how many they are. The box is
/// there where `present` is not 0.
pub fn packed_by_value(nodes: &[u8], k: usize, present: u32, all: Corners, out: &mut [u8]) -> Packed {
    let (len, out_len) = (nodes.len(), out.len());
    let [a, b, c, d, e, f] = all.map(f32::from_bits);
    let answer = unsafe { c::light_pack(nodes.as_ptr(), len, k, present, a, b, c, d, e, f, out.as_mut_ptr(), out_len) };
    let (high, low) = ((answer >> 32) as u32, answer as u32);
    match high {
        0 => Ok(Some(low as usize)),
        1 if low == 0 => Ok(None),
        2 => Err(low),
        _ => panic!("a packing's answer {answer:x}"),
    }
}

/// The same of a box or its absence, where the corners, which make a box too, are not to be read.
pub fn packed_pack_light_bvh(nodes: &[u8], k: usize, all: Option<Corners>, out: &mut [u8]) -> Packed {
    packed_by_value(nodes, k, all.is_some().into(), all.unwrap_or([PATTERN; 6]), out)
}
