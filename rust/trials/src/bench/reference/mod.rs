//! The proved functions beside the reference with Rust's own library functions.

pub mod alias;
pub mod bounds;
pub mod lamps;
mod offices;
pub mod packing;
pub mod trees;
pub mod walks;
