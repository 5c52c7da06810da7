//! What the runs take: random numbers, and from them the arguments of each function, random, special,
//! degenerate and damaged; with the layouts of records, lists, blocks, nodes and packed words as
//! docs/REQUIREMENTS.md has them.

pub mod blocks;
pub mod floats;
pub mod lent;
pub mod lists;
pub mod packing;
pub mod random;
pub mod records;
pub mod rooms;
pub mod trees;
pub mod walks;
pub mod weights;
