//! The reference, `light_bounds.rs`, both `light_bvh.rs` and `light_sampler.rs` of pbrt-r4, compiled from
//! ../../shared/docs twice: as the oracle, with the library functions of R2 put in (`substitution.rs`),
//! and as it is, with Rust's own. Around the oracle: errors as numbers, branches as marks, records, lists,
//! weights and trees as words, lent slices.

mod branches;
mod errors;
mod on_words;
mod sides;

pub(crate) use branches::mark;
pub use branches::{BRANCHES, Branch, Branches, marked};
pub use errors::*;
pub use on_words::*;
pub use sides::{INVALID_INDEX, Light, native, oracle};
