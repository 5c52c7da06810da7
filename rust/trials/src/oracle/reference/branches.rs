//! The branches of the reference, marked as a case takes them (`substitution.rs` puts the marks in), and the
//! errors with them.

use super::errors::REFUSALS;
use std::cell::Cell;

macro_rules! branches {
    ($($branch:ident $label:literal)*) => {
        /// A branch of the reference that a case took.
        #[derive(Clone, Copy, Debug, PartialEq)]
        pub enum Branch { $($branch),* }

        pub const BRANCHES: &[(Branch, &str)] = &[$((Branch::$branch, $label)),*];
    };
}

branches! {
    FirstPowerless "union: the first has no power, the second whole"
    SecondPowerless "union: the second has no power, the first whole"
    FirstHolds "cones: the first holds the second"
    SecondHolds "cones: the second holds the first"
    AllDirections "cones: wide enough for all directions"
    NoAxis "cones: axes without a cross product, all directions"
    LostAxis "cones: a cross product not finite, the axis (0, 0, 1)"
    Turned "cones: turned from the first to the second"
    OnLamp "importance: 0 on a point lamp"
    Away "importance: the point is away from a point lamp"
    TwoSided "importance: two-sided"
    Inside "importance: the point is within the box's sphere"
    Clamped "importance: an angle cut to 0"
    Weighed "importance: a cosine to hold against the cone"
    Dark "importance: 0 outside the cone"
    Normal "importance: a normal"
    SharpSpot "spot: the cosine of its fall 1 though its cosines differ, 0.999"
    Powerless "tree: a lamp without power, left out"
    NoTree "tree: no lamp with power"
    LoneLeaf "tree: one lamp with power, a leaf alone"
    LostNode "tree: 10 at a node"
    LostBucket "split: 10 within a bucket"
    LostRange "split: 10 where buckets are joined"
    AxisLeftOut "split: an axis left out, its centroid ends equal"
    FirstAxis "split: on the first axis"
    SecondAxis "split: on the second axis"
    ThirdAxis "split: on the third axis"
    DefaultSplit "split: no cost wins, the first axis after bucket 5"
    MiddleCut "split: a side empty, the handles cut at their middle"
    OneBucket "bucket: 0, the ends equal"
    EndlessExtent "bucket: the ends infinitely far apart"
    NanBucket "bucket: 0 for NaN"
    EndlessCost "cost: infinite or NaN"
    EqualCost "cost: as low as the best, the first stays"
    NanArc "cost: of a cosine that is NaN"
    ArcCut "cost: arcs cut to PI"
    NoExtent "never: a cost along an axis without extent"
    AllOnes "alias: a sum of 0, all weights 1"
    ExcessUnder "alias: an excess below 1"
    ExcessOver "alias: an excess of 1 or more"
    LeftUnder "alias: a bin under 1 left over"
    MovedDown "walk: u at first above 3f7ffffe, moved down"
    Unweighed "walk: ends where it begins, nothing weighed"
    IntoLeft "walk: into a left child"
    IntoRight "walk: into a right child"
    OnShare "walk: u is the share, into the right child"
    FromLeft "walk: up from a left child"
    FromRight "walk: up from a right child"
    NoWeight "walk: no child has weight"
    EndlessTotal "walk: an infinite total"
    NanShare "walk: a share that is NaN"
    NoShare "walk: a share of 0"
    WholeShare "walk: a share of 1"
    NothingPacked "packing: no tree, none"
    FlatBox "packing: 0 where the overall box is flat"
    EndlessBox "packing: an overall box infinitely wide"
    NanStep "packing: a coordinate's share is NaN"
    BelowBox "packing: a coordinate below the overall box"
    AboveBox "packing: a coordinate above the overall box"
    Folded "packing: a direction downward, folded"
    FoldedZero "packing: folded by the sign of -0"
}

thread_local!(static TAKEN: Cell<u128> = const { Cell::new(0) });

const _: () = assert!(BRANCHES.len() + REFUSALS.len() <= u128::BITS as usize, "a set has a bit for each");

pub(crate) fn mark(branch: Branch) {
    TAKEN.set(TAKEN.get() | 1 << branch as u32);
}

/// Marks a row of `REFUSALS`.
pub(crate) fn mark_error(row: usize) {
    TAKEN.set(TAKEN.get() | 1 << (BRANCHES.len() + row));
}

/// The branches taken in a case and the errors that became its numbers, as a set.
#[derive(Clone, Copy, Debug, PartialEq)]
pub struct Branches(u128);

impl Branches {
    pub fn has(self, branch: Branch) -> bool {
        self.0 >> branch as u32 & 1 == 1
    }

    /// Every branch and every row of `REFUSALS` in turn.
    pub fn all(self) -> impl Iterator<Item = bool> {
        (0..BRANCHES.len() + REFUSALS.len()).map(move |i| self.0 >> i & 1 == 1)
    }
}

/// An oracle's answer, with the branches taken on the way to it.
pub fn marked<A>(answer: impl FnOnce() -> A) -> (A, Branches) {
    TAKEN.set(0);
    let answer = answer();
    (answer, Branches(TAKEN.get()))
}
