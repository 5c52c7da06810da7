//! The trials: what holds the proved functions to docs/REQUIREMENTS.md and to the reference, at any size and speed.
//! Nothing here ships.
//!
//! - `proved`: the proved functions behind safe names, and the proved programs.
//! - `oracle`: what they are held to: the library functions of R2 in Rust, and the reference compiled
//!   over them.
//! - `inputs`: what they are given.
//! - `runs`: the one held to the other over many inputs; the tests and the program `run` call these.
//! - `stored`: the oracle's answers in `answers/`, replayed where the reference is absent.
//! - `src/bench` is a program of its own, `bench`: the proved functions timed beside Rust's.
//!
//! `cfg(reference)` is set where the build script finds the reference's files.

pub mod inputs;
pub mod oracle;
pub mod parts;
pub mod proved;
pub mod runs;
pub mod stored;
