//! A light tree: which lamp a point looks at, and with which chance.
//!
//! A [`LightTree`] is built of lamps or of their bounds. For a point, a normal there and a number u from 0 to 1 it
//! draws a lamp and says with which chance; it says the chance of any lamp by its handle; it packs itself for a
//! graphics card. An [`AliasTable`] draws by power alone. [`pbrt`] has the same under pbrt-r4's names.
//!
//! ```
//! use light_tree::{Lamp, LightTree};
//!
//! let bulb = |x| Lamp::Point { world_position: [x, 0.0, 2.0], intensity_max: 3.0, scale: 1.0 };
//! let tree = LightTree::of_lamps(&[bulb(-1.0), bulb(1.0)])?;
//! let (bench, up) = ([0.0, 0.0, 1.0], [0.0, 0.0, 1.0]);
//! if let Some((lamp, chance)) = tree.sample(bench, up, 0.75)? {
//!     assert_eq!((lamp, chance), (1, 0.5));
//!     assert_eq!(tree.pmf(bench, up, lamp)?, chance);
//! }
//! # Ok::<(), light_tree::Refusal>(())
//! ```
//!
//! Every figure comes from the static library `liblight_c.a`, each of whose functions is proved to answer, for every
//! input, what a written definition says, bit for bit; this crate lays out words and calls it. All its `unsafe` is in
//! one private module.
//!
//! - A lamp's handle is its place among the lamps, from 0 on; there are at most [`MAX_LAMPS`].
//! - What cannot be taken is answered by a [`Refusal`]; nothing panics.
//! - Only what is returned is allocated: work and lists stand in the same `Vec` behind what is returned, and are cut
//!   off. A tree of more than 128 lamps is built on a thread of its own, so that no caller's stack is too small for
//!   it.
//! - Answers are the promised ones where floats are in the state that a program starts in: rounding to nearest, and
//!   neither "flush to zero" nor "denormals are zero" set in the calling thread, as a renderer may do.
//! - The library is for x86-64 Linux. `tools/archives light_c`, run in the repository's root, makes it in
//!   `target/staticlib`; the environment variable `COLTOCTOBER_STATICLIB` names another folder.

#![deny(missing_docs, unsafe_code)]
#![warn(clippy::missing_errors_doc)]

mod alias;
mod bounds;
mod lamp;
mod nodes;
pub mod pbrt;
mod refusal;
mod sys;
mod tree;

pub use alias::{AliasTable, PowerAliasBin};
pub use bounds::{Block, Bounds3, EXHAUSTIVE_BOUNDS_WORDS, LightBounds};
pub use lamp::{Lamp, Triangle, bounds_block, lamp_list};
pub use nodes::sample_nodes;
pub use refusal::Refusal;
pub use tree::{LIGHT_BVH_HEADER_WORDS, LIGHT_BVH_NODE_WORDS, LightBVHNode, LightTree, PackedLightBVH};

/// The most lamps, or weights, that are taken.
///
/// ```
/// use light_tree::{AliasTable, Refusal, MAX_LAMPS};
///
/// assert_eq!(AliasTable::build(&[1.0; MAX_LAMPS + 1]), Err(Refusal::Crowded));
/// ```
pub const MAX_LAMPS: usize = 4096;

/// Stands for no place and no handle: the root's parent, the leaf of a lamp without power, the alias of a full bin.
///
/// ```
/// assert_eq!(light_tree::INVALID_INDEX, u32::MAX);
/// ```
pub const INVALID_INDEX: u32 = u32::MAX;

/// The version of the library that the program is linked with: 10,000 times its major part, 100 times its minor one,
/// and its patch. The build script takes only a library whose major and minor part are this crate's.
///
/// ```
/// assert_eq!(light_tree::library_version(), 100);
/// ```
pub fn library_version() -> u32 {
    sys::version()
}
