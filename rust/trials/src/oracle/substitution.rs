//! What stands for what in the reference files before they are compiled: literal strings, taken in order,
//! each found at least once or the build stops. The build script reads this file too.

pub type Pair = (&'static str, &'static str);

/// What the reference borrows from the rest of pbrt-r4: the small types in `borrowed!` of `reference/sides.rs`.
pub const BORROWED: &[Pair] = &[
    ("use crate::util::base::Vector3f;", "use super::borrowed::Vector3f;"),
    ("use crate::util::error::PbrtError;", "use super::PbrtError;"),
    ("use crate::util::vecmath::angle_between;", "use super::borrowed::angle_between;"),
];

/// The same of light_bvh.rs. A light record is only counted there.
pub const BVH_BORROWED: &[Pair] = &[
    (
        "use super::{Bounds3, Light, LightBounds, INVALID_INDEX};",
        "use super::light_bounds::{Bounds3, LightBounds};\nuse super::{Light, INVALID_INDEX};",
    ),
    ("use crate::util::error::PbrtError;", "use super::PbrtError;"),
];

/// The same of light_sampler.rs, whose text is cut before `resolve_light_sampler`: from there on it chooses a
/// kind of sampler.
pub const SAMPLER_BORROWED: &[Pair] = &[
    ("use crate::gpu::flat;", "use super::light_bounds as flat;"),
    ("use crate::util::error::PbrtError;", "use super::PbrtError;"),
];

pub const SAMPLER_END: &str = "pub fn resolve_light_sampler(";

/// The same of webgpu/light_bvh.rs, the packing, whose text is cut from the first of these lines to the
/// second: `LightBvhUploadData` is left out. A message names its node, which no number does.
pub const PACKED_CUT: [&str; 2] = ["pub struct LightBvhUploadData {", "pub fn pack_light_bvh("];

pub const PACKED_BORROWED: &[Pair] = &[
    ("use crate::gpu::flat;", "use super::flat;"),
    ("use crate::util::error::PbrtError;", "use super::PbrtError;"),
    ("use super::abi::{LightTableUniform, LIGHT_SAMPLER_KIND_BVH};\n", ""),
    ("use super::light_sampler::LightSamplerKind;\n", ""),
    (
        "&format!(\n                \"Light BVH node {index} has an invalid parent.\"\n            )",
        "\"Light BVH node {index} has an invalid parent.\"",
    ),
];

/// Rust's one error of the overall box, told apart where R12.3 has 5 before 6.
pub const PACKED_BOX: &[Pair] =
    &[("PbrtError::error(\"Global Light BVH bounds are invalid.\")", "super::invalid_box(bounds.min, bounds.max)")];

/// An error of a union within a group, told apart from the record's own check.
pub const LOST: &[Pair] = &[("existing.union(current)?", "existing.union(current).map_err(super::lost)?")];

/// The same of a union within a tree, where R5.4 has one number for Rust's error at a node and its
/// panic in a split: what panics there gives the error on.
pub const BVH_LOST: &[Pair] = &[
    (
        ".union(bvh.nodes[right_child as usize].bounds())?",
        ".union(bvh.nodes[right_child as usize].bounds()).map_err(super::lost)?",
    ),
    (
        "existing.union(light_bounds[handle as usize]).unwrap()",
        "existing.union(light_bounds[handle as usize]).map_err(super::lost)?",
    ),
    ("existing.union(bounds).unwrap()", "existing.union(bounds).map_err(super::lost)?"),
    ("end: usize,\n) -> Option<LightBounds> {", "end: usize,\n) -> Result<Option<LightBounds>, PbrtError> {"),
    ("    }\n    result\n}", "    }\n    Ok(result)\n}"),
    ("union_bucket_range(&buckets, 0, bucket)", "union_bucket_range(&buckets, 0, bucket)?"),
    (
        "union_bucket_range(&buckets, bucket + 1, N_BUCKETS - 1)",
        "union_bucket_range(&buckets, bucket + 1, N_BUCKETS - 1)?",
    ),
    ("light_bounds: &[LightBounds]) -> Split {", "light_bounds: &[LightBounds]) -> Result<Split, PbrtError> {"),
    (
        "best.unwrap_or(Split {\n        dimension: 0,\n        bucket: N_BUCKETS / 2 - 1,\n    })",
        "Ok(best.unwrap_or(Split {\n        dimension: 0,\n        bucket: N_BUCKETS / 2 - 1,\n    }))",
    ),
    ("choose_split(&handles, light_bounds);", "choose_split(&handles, light_bounds)?;"),
];

/// A walk's index past the end, where Rust panics, gives an error on; R11.12 has one number for both.
pub const BVH_PAST: &[Pair] = &[
    ("bvh.nodes[left as usize].bounds()", "bvh.nodes.get(left as usize).ok_or_else(super::past_left)?.bounds()"),
    ("bvh.nodes[right as usize].bounds()", "bvh.nodes.get(right as usize).ok_or_else(super::past_right)?.bounds()"),
];

/// The oracle only: the library functions of R2 in place of Rust's own.
pub const LIBRARY: &[Pair] = &[
    ("use std::collections::HashSet;", "use std::collections::HashSet;\nuse super::Standin;"),
    (".min(", ".standin_min("),
    (".max(", ".standin_max("),
    (".clamp(", ".standin_clamp("),
    (".abs()", ".standin_abs()"),
    (".sqrt()", ".standin_sqrt()"),
    (".cos()", ".standin_cos()"),
    (".acos()", ".standin_acos()"),
    (".sin_cos()", ".standin_sin_cos()"),
    (".sum::<f32>()", ".fold(0.0f32, |sum, term| sum + term)"),
];

/// The same in the tree; the second of the two `min` in a line is of whole numbers.
pub const BVH_LIBRARY: &[Pair] = &[
    ("use super::PbrtError;", "use super::PbrtError;\nuse super::Standin;"),
    (
        "(((value - min) / (max - min) * N_BUCKETS as f32) as usize).min(N_BUCKETS - 1)",
        "usize::min(crate::oracle::standins::to_usize((value - min) / (max - min) * N_BUCKETS as f32), N_BUCKETS - 1)",
    ),
    (".min(", ".standin_min("),
    (".max(", ".standin_max("),
    (".sqrt()", ".standin_sqrt()"),
    (".cos()", ".standin_cos()"),
    (".acos()", ".standin_acos()"),
    ("fold(0.0_f32, f32::max)", "fold(0.0_f32, crate::oracle::standins::max)"),
];

/// The same in the sampler: sums from left to right, and words as they are stored.
pub const SAMPLER_LIBRARY: &[Pair] = &[
    ("use super::PbrtError;", "use super::PbrtError;\nuse super::Standin;"),
    ("f32::to_bits", "crate::oracle::standins::word"),
    (".to_bits()", ".standin_word()"),
    (".sum::<f32>()", ".fold(0.0f32, |sum, term| sum + term)"),
    (".sum::<f64>()", ".fold(0.0f64, |sum, term| sum + term)"),
];

/// The same in the packing; its two `min` are of whole numbers.
pub const PACKED_LIBRARY: &[Pair] = &[
    ("use super::PbrtError;", "use super::PbrtError;\nuse super::Standin;"),
    (".clamp(", ".standin_clamp("),
    (".ceil()", ".standin_ceil()"),
    (".floor()", ".standin_floor()"),
    (".round()", ".standin_round()"),
    ("value as u32", "crate::oracle::standins::to_u32(value)"),
    (
        "(32767.0 * ((value + 1.0) / 2.0)).standin_floor() as u16",
        "crate::oracle::standins::to_u16((32767.0 * ((value + 1.0) / 2.0)).standin_floor())",
    ),
    (
        "(((direction[0] + 1.0) * 0.5 * 65535.0).standin_round() as u32).min(u16::MAX as u32)",
        "u32::min(crate::oracle::standins::to_u32(((direction[0] + 1.0) * 0.5 * 65535.0).standin_round()), u16::MAX as u32)",
    ),
    (
        "(((direction[1] + 1.0) * 0.5 * 65535.0).standin_round() as u32).min(u16::MAX as u32)",
        "u32::min(crate::oracle::standins::to_u32(((direction[1] + 1.0) * 0.5 * 65535.0).standin_round()), u16::MAX as u32)",
    ),
    ("f32::abs", "crate::oracle::standins::abs"),
    (".abs()", ".standin_abs()"),
    (".sqrt()", ".standin_sqrt()"),
    (".sum::<f32>()", ".fold(0.0f32, |sum, term| sum + term)"),
    (".to_bits()", ".standin_word()"),
    ("value.is_sign_negative()", "crate::oracle::standins::is_sign_negative(value)"),
];

/// The oracle only: marks of the branches taken. They change no figure.
pub const MARKS: &[Pair] = &[
    ("return Ok(other);", "{ super::mark(super::Branch::FirstPowerless); return Ok(other); }"),
    ("return Ok(self);", "{ super::mark(super::Branch::SecondPowerless); return Ok(self); }"),
    ("return (a, cos_a);", "{ super::mark(super::Branch::FirstHolds); return (a, cos_a); }"),
    ("return (b, cos_b);", "{ super::mark(super::Branch::SecondHolds); return (b, cos_b); }"),
    (
        "if theta_o >= std::f32::consts::PI {",
        "if theta_o >= std::f32::consts::PI { super::mark(super::Branch::AllDirections);",
    ),
    ("if dot(axis, axis) == 0.0 {", "if dot(axis, axis) == 0.0 { super::mark(super::Branch::NoAxis);"),
    (
        "normalize(axis).unwrap_or([0.0, 0.0, 1.0])",
        "normalize(axis).unwrap_or_else(|_| { super::mark(super::Branch::LostAxis); [0.0, 0.0, 1.0] })",
    ),
    ("let theta_r = theta_o - theta_a;", "let theta_r = theta_o - theta_a; super::mark(super::Branch::Turned);"),
    ("if d2 <= 0.0 {", "if d2 <= 0.0 { super::mark(super::Branch::OnLamp);"),
    ("let wi = normalize(", "super::mark(super::Branch::Away); let wi = normalize("),
    ("if self.two_sided {", "if self.two_sided { super::mark(super::Branch::TwoSided);"),
    ("return Ok(-1.0);", "{ super::mark(super::Branch::Inside); return Ok(-1.0); }"),
    (
        "if cos_theta_p <= self.cos_theta_e {",
        "super::mark(super::Branch::Weighed); if cos_theta_p <= self.cos_theta_e { super::mark(super::Branch::Dark);",
    ),
    ("if dot(n, n) != 0.0 {", "if dot(n, n) != 0.0 { super::mark(super::Branch::Normal);"),
    ("    if cos_a > cos_b {\n        1.0", "    if cos_a > cos_b { super::mark(super::Branch::Clamped);\n        1.0"),
    ("cos_theta_e = 0.999;", "cos_theta_e = 0.999; super::mark(super::Branch::SharpSpot);"),
];

pub const BVH_MARKS: &[Pair] = &[
    ("if bounds.phi > 0.0 {", "if bounds.phi == 0.0 { super::mark(super::Branch::Powerless); } if bounds.phi > 0.0 {"),
    (
        "if !bvh.bounded_handles.is_empty() {",
        "if bvh.bounded_handles.is_empty() { super::mark(super::Branch::NoTree); } else {",
    ),
    (
        "if handles.len() == 1 {",
        "if handles.len() == 1 { if parent == INVALID_INDEX { super::mark(super::Branch::LoneLeaf); }",
    ),
    (
        ".union(bvh.nodes[right_child as usize].bounds()).map_err(super::lost)",
        ".union(bvh.nodes[right_child as usize].bounds())
        .map_err(|error| { super::mark(super::Branch::LostNode); super::lost(error) })",
    ),
    (
        "existing.union(light_bounds[handle as usize]).map_err(super::lost)",
        "existing.union(light_bounds[handle as usize])
                    .map_err(|error| { super::mark(super::Branch::LostBucket); super::lost(error) })",
    ),
    (
        "existing.union(bounds).map_err(super::lost)",
        "existing.union(bounds).map_err(|error| { super::mark(super::Branch::LostRange); super::lost(error) })",
    ),
    (
        "if centroid_min[dimension] == centroid_max[dimension] {",
        "if centroid_min[dimension] == centroid_max[dimension] { super::mark(super::Branch::AxisLeftOut);",
    ),
    (
        "if cost > 0.0 && cost < min_cost {",
        "if !cost.is_finite() { super::mark(super::Branch::EndlessCost); }
            if cost == min_cost && best.is_some() { super::mark(super::Branch::EqualCost); }
            if cost > 0.0 && cost < min_cost {",
    ),
    (
        "Ok(best.unwrap_or(",
        "let axes = [super::Branch::FirstAxis, super::Branch::SecondAxis, super::Branch::ThirdAxis];
    super::mark(best.map_or(super::Branch::DefaultSplit, |split: Split| axes[split.dimension]));
    Ok(best.unwrap_or(",
    ),
    ("let mut sorted = left;", "super::mark(super::Branch::MiddleCut); let mut sorted = left;"),
    ("if min == max {", "if min == max { super::mark(super::Branch::OneBucket);"),
    (
        "(((value - min)",
        "if !(max - min).is_finite() { super::mark(super::Branch::EndlessExtent); }
    if ((value - min) / (max - min)).is_nan() { super::mark(super::Branch::NanBucket); }
    (((value - min)",
    ),
    ("if diagonal[dimension] == 0.0 {", "if diagonal[dimension] == 0.0 { super::mark(super::Branch::NoExtent);"),
    (
        "let sin_theta_o =",
        "if theta_o.is_nan() { super::mark(super::Branch::NanArc); }
    if theta_o + theta_e > theta_w { super::mark(super::Branch::ArcCut); }
    let sin_theta_o =",
    ),
];

pub const SAMPLER_MARKS: &[Pair] = &[
    ("weights.fill(1.0);", "weights.fill(1.0); super::mark(super::Branch::AllOnes);"),
    ("under.push((excess, over_index));", "under.push((excess, over_index)); super::mark(super::Branch::ExcessUnder);"),
    ("over.push((excess, over_index));", "over.push((excess, over_index)); super::mark(super::Branch::ExcessOver);"),
    (
        "for (_, index) in under.into_iter()",
        "if !under.is_empty() { super::mark(super::Branch::LeftUnder); } for (_, index) in under.into_iter()",
    ),
];

pub const PACKED_MARKS: &[Pair] = &[
    ("return Ok(None);", "{ super::mark(super::Branch::NothingPacked); return Ok(None); }"),
    ("if min == max {", "if min == max { super::mark(super::Branch::FlatBox);"),
    (
        "let normalized =",
        "let share = (value - min) / (max - min);
    if !(max - min).is_finite() { super::mark(super::Branch::EndlessBox); }
    if share.is_nan() { super::mark(super::Branch::NanStep); }
    if share < 0.0 { super::mark(super::Branch::BelowBox); }
    if share > 1.0 { super::mark(super::Branch::AboveBox); }
    let normalized =",
    ),
    ("if direction[2] < 0.0 {", "if direction[2] < 0.0 { super::mark(super::Branch::Folded);"),
    (
        "if value.is_sign_negative() {",
        "if value == 0.0 && value.is_sign_negative() { super::mark(super::Branch::FoldedZero); }
    if value.is_sign_negative() {",
    ),
];

/// `angle_between` of sampling.rs, by value (R2.8).
pub const BY_VALUE: &[Pair] =
    &[("a: &Vector3f, b: &Vector3f", "a: Vector3f, b: Vector3f"), ("*a", "a"), ("*b", "b"), ("Float::asin(", "asin(")];

/// The methods that the oracle may call once all is put in: none has a figure of its own. Any other stops the
/// build, so that no function of Rust's library slips in.
pub const METHODS: &[&str] = &[
    "standin_min",
    "standin_max",
    "standin_clamp",
    "standin_abs",
    "standin_ceil",
    "standin_floor",
    "standin_round",
    "standin_sqrt",
    "standin_cos",
    "standin_acos",
    "standin_sin_cos",
    "standin_word",
    "into_iter",
    "iter",
    "chain",
    "zip",
    "all",
    "any",
    "map",
    "fold",
    "collect",
    "enumerate",
    "contains",
    "is_finite",
    "is_nan",
    "insert",
    "len",
    "map_err",
    "ok_or_else",
    "unwrap_or_else",
    "validate",
    "union",
    "diagonal",
    "centroid",
    "push",
    "pop",
    "extend",
    "fill",
    "to_vec",
    "is_empty",
    "unwrap",
    "and_then",
    "checked_mul",
    "checked_add",
    "copied",
    "clone",
    "drain",
    "flatten",
    "get",
    "is_some",
    "map_or",
    "skip",
    "sort_unstable",
    "take",
    "unwrap_or",
    "surface_area",
    "importance",
    "bounds",
    "parent",
    "light_handle",
    "right_child",
    "to_words",
];
