//! The errors of the reference and their numbers (docs/REQUIREMENTS.md R11).

use super::branches::mark_error;

/// The error of the rest of pbrt-r4: its message.
#[derive(Clone, Copy, Debug, PartialEq)]
pub struct PbrtError(pub &'static str);

impl PbrtError {
    pub fn error(message: &'static str) -> PbrtError {
        PbrtError(message)
    }
}

macro_rules! refusals {
    ($($number:literal $($name:ident =)? $message:literal;)*) => {
        $($(pub const $name: &str = $message;)?)*

        /// The number (R11) for each error that the functions here can give.
        pub const REFUSALS: &[(&str, u32)] = &[$(($message, $number)),*];
    };
}

// No words lead to two errors of the walks, "reached an invalid node" (it was weighed) and "has no right
// child", nor to two of the packing, "node count exceeds" (there are at most 8,191) and "quantization
// overflowed" (a share is at most 1 or NaN).
refusals! {
    5 "Light bounds contain a non-finite coordinate.";
    6 "Light bounds have min greater than max.";
    5 "Light bounds contain a non-finite value.";
    7 "Light bounds direction must be non-zero.";
    8 "Light bounds contain an invalid range.";
    5 "Importance input contains a non-finite value.";
    7 "Light direction must be finite and non-zero.";
    // the one error that comes before a short slice
    4 MISPLACED = "Light handles must match the global LightRecord order.";
    8 "Light emission or scale is invalid.";
    8 "Spot light cone is invalid.";
    9 "Area light triangle has zero area.";
    7 "Area light geometric normal must be finite and non-zero.";
    9 "Area light group has no triangles.";
    // the message that substitution.rs gives to any error of a union within a group or a tree
    10 LOST = "a union's operand fails its check";
    8 "Power light weights must be finite and non-negative.";
    11 "Light BVH sample coordinate is invalid.";
    // the messages that substitution.rs gives to the panics of the walks
    12 PAST_LEFT = "the left child is past the end";
    12 PAST_RIGHT = "the right child is past the end";
    12 SPENT_DRAW = "Light BVH traversal exceeded its node limit.";
    12 PAST_LEAF = "Light BVH PMF reached an invalid leaf.";
    12 PAST_PARENT = "Light BVH PMF reached an invalid parent.";
    12 CHILDLESS_PARENT = "Light BVH PMF parent has no right child.";
    12 NOT_OWNED = "Light BVH PMF child is not owned by its parent.";
    12 SPENT_CHANCE = "Light BVH PMF exceeded its node limit.";
    // ours alone (R11.12): no node of the Rust has such words
    12 UNKNOWN_NODE = "the node entered has an unknown kind";
    12 UNKNOWN_PARENT = "the parent has an unknown kind";
    12 UNKNOWN_SIDE = "the node weighed has an unknown side";
    12 "Non-empty Light BVH must have global bounds.";
    12 "Light BVH global bounds require non-empty nodes and handles.";
    // the messages that substitution.rs gives to the one error of the overall box
    5 BOX_NOT_FINITE = "Global Light BVH bounds are not finite.";
    6 BOX_INVERTED = "Global Light BVH bounds have min greater than max.";
    7 "Light BVH direction must be finite and non-zero.";
    13 "Light BVH payload exceeds the 31-bit packed index limit.";
    12 "Light BVH node {index} has an invalid parent.";
    12 "Light BVH nodes do not satisfy the DFS left-child invariant.";
    // ours alone (R11.12)
    12 PACKED_UNKNOWN_NODE = "a packed node has an unknown kind";
    12 PACKED_UNKNOWN_SIDE = "a packed node has an unknown side";
}

pub(crate) fn invalid_box(min: [f32; 3], max: [f32; 3]) -> PbrtError {
    let finite = min.into_iter().chain(max).all(f32::is_finite);
    PbrtError(if finite { BOX_INVERTED } else { BOX_NOT_FINITE })
}

pub(crate) fn past_left() -> PbrtError {
    PbrtError(PAST_LEFT)
}

pub(crate) fn past_right() -> PbrtError {
    PbrtError(PAST_RIGHT)
}

pub(crate) fn lost(_: PbrtError) -> PbrtError {
    PbrtError(LOST)
}

/// "a union's operand fails its check": any error of a union.
pub const LOST_UNION: u32 = 10;

/// "side unknown": ours alone (R11.1), since Rust's side is a bool. It comes before Rust's order.
pub const RAGGED: u32 = 1;

/// "over 4,096 lamps by word 0, weights"; "a lent output or work slice is under its reserve": ours alone
/// (R11.2, R11.3).
pub const CROWDED: u32 = 2;
pub const SHORT_TRAY: u32 = 3;

/// The error's number; its message is marked.
pub(crate) fn number(error: PbrtError) -> u32 {
    let row = REFUSALS
        .iter()
        .position(|(message, _)| *message == error.0)
        .unwrap_or_else(|| panic!("unknown error {error:?}"));
    mark_error(row);
    REFUSALS[row].1
}
