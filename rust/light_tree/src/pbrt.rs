//! The names and signatures of pbrt-r4, over this crate's: `flat/light_bounds.rs`, `flat/light_bvh.rs`,
//! `webgpu/light_bvh.rs` and `build_power_alias_table`, `pack_exhaustive_bounds` of `webgpu/light_sampler.rs`.
//!
//! A renderer swaps the module with one line, such as `pub use light_tree::pbrt::*;` where `light_bounds` and
//! `light_bvh` were declared, and one conversion, `impl From<light_tree::Refusal> for PbrtError`, for its `?`. Other
//! than in pbrt-r4:
//!
//! - An error is a [`Refusal`].
//! - [`build_light_bvh`] takes light records of any type, since it only counts them.
//! - The fields of [`LightBVH`] can be read and not written, so that draws and fields never part.
//! - [`LightBounds`] are made by [`LightBounds::new`] and changed field by field, since more fields may come.
//! - `LightBounds::union`, `LightBounds::importance` and the arithmetic of `Bounds3` are not offered: the library
//!   does not export them.
//!
//! ```
//! use light_tree::pbrt::*;
//!
//! let bulb = |handle: u32| LightBoundInput::Point {
//!     handle,
//!     world_position: [2.0 * handle as f32, 0.0, 0.0],
//!     intensity_max: 1.0,
//!     scale: 1.0,
//! };
//! let lights = ["left", "right"];
//! let bvh = build_light_bvh(&lights, &build_light_bounds(&[bulb(0), bulb(1)])?)?;
//! let (p, n) = ([1.0, 0.0, 1.0], [0.0, 0.0, 0.0]);
//! assert_eq!(bvh_light_sampler_sample(&bvh, p, n, 0.25)?, Some((0, 0.5)));
//! assert_eq!(bvh_light_sampler_pmf(&bvh, p, n, 0)?, 0.5);
//! assert_eq!((bvh.nodes.len(), &bvh.handle_to_leaf[..]), (3, &[1, 2][..]));
//! # Ok::<(), Refusal>(())
//! ```

use crate::lamp::{POINT_WORDS, SPOT_WORDS, Written, group_words, write_group, write_point, write_spot};
use crate::{AliasTable, Block, LightTree};
use std::ops::Deref;

pub use crate::{
    Bounds3, EXHAUSTIVE_BOUNDS_WORDS, INVALID_INDEX, LIGHT_BVH_HEADER_WORDS, LIGHT_BVH_NODE_WORDS, LightBVHNode,
    LightBounds, PackedLightBVH, PowerAliasBin, Refusal, Triangle as AreaTriangleInput,
};

/// The greatest handle or place that can be packed.
///
/// ```
/// assert_eq!(light_tree::pbrt::LIGHT_BVH_INDEX_MAX, u32::MAX / 2);
/// ```
pub const LIGHT_BVH_INDEX_MAX: u32 = 0x7fff_ffff;

/// A lamp with its handle, which must be its place.
///
/// ```
/// use light_tree::pbrt::*;
///
/// let misplaced = LightBoundInput::Point { handle: 1, world_position: [0.0; 3], intensity_max: 1.0, scale: 1.0 };
/// assert_eq!(build_light_bounds(&[misplaced]), Err(Refusal::Misplaced));
/// ```
#[derive(Clone, Debug, PartialEq)]
pub enum LightBoundInput {
    /// [`Lamp::Point`](crate::Lamp::Point).
    Point {
        /// Its place among the lamps.
        handle: u32,
        /// Where it is.
        world_position: [f32; 3],
        /// Its greatest intensity, not below 0.
        intensity_max: f32,
        /// A factor, not below 0.
        scale: f32,
    },
    /// [`Lamp::Spot`](crate::Lamp::Spot).
    Spot {
        /// Its place among the lamps.
        handle: u32,
        /// Where it is.
        world_position: [f32; 3],
        /// Which way it shines, at any length.
        direction: [f32; 3],
        /// Its greatest intensity, not below 0.
        intensity_max: f32,
        /// A factor, not below 0.
        scale: f32,
        /// The cosine of the angle where its light begins to fall off.
        cos_theta_o: f32,
        /// The cosine of the angle where it ends.
        cos_falloff_end: f32,
    },
    /// [`Lamp::Group`](crate::Lamp::Group).
    AreaGroup {
        /// Its place among the lamps.
        handle: u32,
        /// At least one.
        triangles: Vec<AreaTriangleInput>,
        /// Its greatest emission, not below 0.
        emission_max: f32,
        /// A factor, not below 0.
        scale: f32,
        /// Whether both sides shine.
        two_sided: bool,
    },
}

impl LightBoundInput {
    fn words(&self) -> usize {
        match self {
            LightBoundInput::Point { .. } => POINT_WORDS,
            LightBoundInput::Spot { .. } => SPOT_WORDS,
            LightBoundInput::AreaGroup { triangles, .. } => group_words(triangles.len()),
        }
    }

    fn write(&self, list: &mut Vec<u32>) {
        match self {
            LightBoundInput::Point { handle, world_position, intensity_max, scale } => {
                write_point(list, *handle, *world_position, [*intensity_max, *scale])
            }
            LightBoundInput::Spot {
                handle,
                world_position,
                direction,
                intensity_max,
                scale,
                cos_theta_o,
                cos_falloff_end,
            } => {
                let figures = [*intensity_max, *scale, *cos_theta_o, *cos_falloff_end];
                write_spot(list, *handle, *world_position, *direction, figures)
            }
            LightBoundInput::AreaGroup { handle, triangles, emission_max, scale, two_sided } => {
                write_group(list, *handle, [*emission_max, *scale], *two_sided, triangles)
            }
        }
    }
}

/// A light tree with pbrt-r4's fields: [`LightBVHFields`], which it gives as if they were its own. It keeps a
/// [`LightTree`] beside them, from which lamps are drawn.
///
/// ```
/// use light_tree::pbrt::*;
///
/// let bvh = build_light_bvh::<()>(&[], &[])?;
/// assert!(bvh.nodes.is_empty() && bvh.all_bounds.is_none());
/// # Ok::<(), Refusal>(())
/// ```
#[derive(Clone, Debug, PartialEq)]
pub struct LightBVH {
    fields: LightBVHFields,
    tree: LightTree,
}

/// What pbrt-r4's `LightBVH` has as fields.
///
/// ```
/// use light_tree::pbrt::*;
///
/// let bvh = build_light_bvh::<()>(&[], &[])?;
/// let fields: &LightBVHFields = &bvh;
/// assert!(fields.bounded_handles.is_empty());
/// # Ok::<(), Refusal>(())
/// ```
#[derive(Clone, Debug, PartialEq)]
pub struct LightBVHFields {
    /// The box around the lamps that have power.
    pub all_bounds: Option<Bounds3>,
    /// The nodes, the root first.
    pub nodes: Vec<LightBVHNode>,
    /// The place of each lamp's leaf by its handle, [`INVALID_INDEX`] for a lamp without power.
    pub handle_to_leaf: Vec<u32>,
    /// The handles of the lamps that have power, ascending.
    pub bounded_handles: Vec<u32>,
}

impl Deref for LightBVH {
    type Target = LightBVHFields;

    fn deref(&self) -> &LightBVHFields {
        &self.fields
    }
}

impl From<LightTree> for LightBVH {
    fn from(tree: LightTree) -> LightBVH {
        let fields = LightBVHFields {
            all_bounds: tree.all_bounds(),
            nodes: tree.nodes().collect(),
            handle_to_leaf: tree.handle_to_leaf().to_vec(),
            bounded_handles: tree.bounded_handles().collect(),
        };
        LightBVH { fields, tree }
    }
}

impl AsRef<LightTree> for LightBVH {
    fn as_ref(&self) -> &LightTree {
        &self.tree
    }
}

/// The bounds of lamps, in their order: [`bounds_block`](crate::bounds_block), whose words are freed again.
///
/// # Errors
///
/// Those of [`bounds_block`](crate::bounds_block), and [`Misplaced`](Refusal::Misplaced) for a handle that is not its
/// lamp's place.
///
/// ```
/// use light_tree::pbrt::*;
///
/// let bulb = LightBoundInput::Point { handle: 0, world_position: [0.0; 3], intensity_max: 1.0, scale: 1.0 };
/// assert_eq!(build_light_bounds(&[bulb])?[0].phi.to_bits(), 0x4149_0fdb);
/// # Ok::<(), Refusal>(())
/// ```
pub fn build_light_bounds(inputs: &[LightBoundInput]) -> Result<Vec<LightBounds>, Refusal> {
    let words = inputs.iter().map(LightBoundInput::words).sum();
    let write = |list: &mut Vec<u32>| inputs.iter().for_each(|input| input.write(list));
    Ok(Written { lamps: inputs.len(), words, write }.block()?.records().collect())
}

/// The tree of lights' bounds: [`LightTree::build`].
///
/// # Errors
///
/// Those of [`LightTree::build`], and [`Ragged`](Refusal::Ragged) where there are more or fewer lights than bounds.
///
/// ```
/// use light_tree::pbrt::*;
///
/// assert_eq!(build_light_bvh(&["a light without bounds"], &[]), Err(Refusal::Ragged));
/// ```
pub fn build_light_bvh<Light>(lights: &[Light], light_bounds: &[LightBounds]) -> Result<LightBVH, Refusal> {
    if light_bounds.len() <= crate::MAX_LAMPS && lights.len() != light_bounds.len() {
        return Err(Refusal::Ragged);
    }
    LightTree::build(light_bounds).map(LightBVH::from)
}

/// Draws a lamp: [`LightTree::sample`].
///
/// # Errors
///
/// Those of [`LightTree::sample`].
///
/// ```
/// use light_tree::pbrt::*;
///
/// let bvh = build_light_bvh::<()>(&[], &[])?;
/// assert_eq!(bvh_light_sampler_sample(&bvh, [0.0; 3], [0.0; 3], 0.5)?, None);
/// # Ok::<(), Refusal>(())
/// ```
pub fn bvh_light_sampler_sample(
    bvh: &LightBVH,
    p: [f32; 3],
    n: [f32; 3],
    u: f32,
) -> Result<Option<(u32, f32)>, Refusal> {
    bvh.tree.sample(p, n, u)
}

/// The chance of a lamp by its handle: [`LightTree::pmf`].
///
/// # Errors
///
/// Those of [`LightTree::pmf`].
///
/// ```
/// use light_tree::pbrt::*;
///
/// let bvh = build_light_bvh::<()>(&[], &[])?;
/// assert_eq!(bvh_light_sampler_pmf(&bvh, [0.0; 3], [0.0; 3], 0)?, 0.0);
/// # Ok::<(), Refusal>(())
/// ```
pub fn bvh_light_sampler_pmf(bvh: &LightBVH, p: [f32; 3], n: [f32; 3], handle: u32) -> Result<f32, Refusal> {
    bvh.tree.pmf(p, n, handle)
}

/// The tree packed for a graphics card: [`LightTree::pack`].
///
/// # Errors
///
/// Those of [`LightTree::pack`].
///
/// ```
/// use light_tree::pbrt::*;
///
/// assert_eq!(pack_light_bvh(&build_light_bvh::<()>(&[], &[])?)?, None);
/// # Ok::<(), Refusal>(())
/// ```
pub fn pack_light_bvh(bvh: &LightBVH) -> Result<Option<PackedLightBVH>, Refusal> {
    bvh.tree.pack()
}

/// The words of a bounds block: [`Block::new`].
///
/// # Errors
///
/// Those of [`Block::new`].
///
/// ```
/// assert_eq!(light_tree::pbrt::pack_exhaustive_bounds(&[])?, [0]);
/// # Ok::<(), light_tree::Refusal>(())
/// ```
pub fn pack_exhaustive_bounds(bounds: &[LightBounds]) -> Result<Vec<u32>, Refusal> {
    Block::new(bounds).map(Block::into_words)
}

/// The bins of an alias table: [`AliasTable::build`].
///
/// # Errors
///
/// Those of [`AliasTable::build`].
///
/// ```
/// use light_tree::pbrt::*;
///
/// assert_eq!(build_power_alias_table(&[1.0, 3.0])?[0], PowerAliasBin { q: 0.5, p: 0.25, alias: 1 });
/// # Ok::<(), Refusal>(())
/// ```
pub fn build_power_alias_table(weights: &[f32]) -> Result<Vec<PowerAliasBin>, Refusal> {
    AliasTable::build(weights).map(AliasTable::into_bins)
}
