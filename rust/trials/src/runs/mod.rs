//! The runs: proved functions against the oracle, against their stand-ins or against what is true of every
//! answer, over random inputs. Tests run them at a fixed size; the program `run` at any.

#[cfg(reference)]
pub mod alias;
pub mod blocks;
pub mod both;
#[cfg(reference)]
pub mod bounds;
pub mod demand3;
pub mod differential;
pub mod exhaustive;
pub mod functions;
pub mod fuzz;
#[cfg(reference)]
pub mod lists;
#[cfg(reference)]
pub mod packing;
pub mod programs;
pub mod progress;
#[cfg(reference)]
pub mod tally;
#[cfg(reference)]
pub mod trees;
#[cfg(reference)]
pub mod walks;
