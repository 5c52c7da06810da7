//! The oracle: the library functions and angles of R2 written again in Rust, the reference compiled over
//! them, and what of the walks and of the packing is ours alone. Without the reference only the first
//! two are there.

#[cfg(reference)]
pub mod loops;
#[cfg(reference)]
pub mod packing;
#[cfg(reference)]
pub mod reference;
pub mod standins;
pub mod trig;
#[cfg(reference)]
pub mod walks;
