//! Packing: what it takes and answers, what is read back from packed words, and cases for its runs: built
//! trees, words made wrong, records at the edges between steps, another box, another k, trays of any length.

use crate::inputs::random::Random;
use crate::inputs::records::{Record, UNFIT, Vector};
use crate::inputs::trees::{Built, INTERIOR, LEAF, NODE, PAYLOAD};
use crate::inputs::walks::{Damage, NODE_BYTES, NONE, Tree, Words, beside};

/// How many words are packed, none without a tree; or a refusal's number.
pub type Packed = Result<Option<usize>, u32>;
/// A box: min 3, max 3.
pub type Corners = [u32; 6];
/// A packing: of nodes, k and the overall box or its absence, to the bytes lent.
pub type Pack = fn(&[u8], usize, Option<Corners>, &mut [u8]) -> Packed;

pub const HEADER: usize = 8;
pub const PACKED_NODE: usize = 8;

/// The bytes that packing must be lent for so many nodes.
pub fn reserve(nodes: usize) -> usize {
    if nodes == 0 { 0 } else { 4 * (HEADER + PACKED_NODE * nodes) }
}

/// What packing takes, and how many bytes it is lent.
#[derive(Clone, Debug, PartialEq)]
pub struct Case {
    pub nodes: Vec<u8>,
    pub k: usize,
    pub all: Option<Corners>,
    pub room: usize,
}

/// A node's packed words as their reader takes them.
pub struct Unpacked {
    /// The steps of the box's min and max, 65,535 from end to end of the overall box.
    pub steps: [[u32; 3]; 2],
    pub direction: [f64; 3],
    pub phi: u32,
    /// Of 32,767 from -1 to 1.
    pub cosines: [u32; 2],
    pub two_sided: bool,
    pub spare: bool,
    pub leaf: bool,
    pub payload: u32,
    pub parent: u32,
}

impl Unpacked {
    pub fn new([a, b, c, direction, phi, cone, payload, parent]: &[u32; PACKED_NODE]) -> Unpacked {
        let halves = |word: &u32| [word & 0xffff, word >> 16];
        let [[x, y], [z, u], [v, w]] = [a, b, c].map(halves);
        Unpacked {
            steps: [[x, y, z], [u, v, w]],
            direction: unfolded(halves(direction)),
            phi: *phi,
            cosines: [cone & 0x7fff, cone >> 15 & 0x7fff],
            two_sided: cone >> 30 & 1 == 1,
            spare: cone >> 31 == 1,
            leaf: payload >> 31 == 1,
            payload: payload & 0x7fff_ffff,
            parent: *parent,
        }
    }
}

/// The direction that two numbers of 16 bits stand for (R9.9), at length 1.
fn unfolded(q: [u32; 2]) -> [f64; 3] {
    unit(outward(q.map(|q| 2.0 * (f64::from(q) / 65535.0) - 1.0)))
}

/// The same of a and b, from -1 to 1, at any length.
fn outward([a, b]: [f64; 2]) -> [f64; 3] {
    let z = 1.0 - (a.abs() + b.abs());
    if z < 0.0 { [(1.0 - b.abs()) * 1f64.copysign(a), (1.0 - a.abs()) * 1f64.copysign(b), z] } else { [a, b, z] }
}

pub fn unit(v: [f64; 3]) -> [f64; 3] {
    let length = v.iter().map(|x| x * x).sum::<f64>().sqrt();
    v.map(|x| x / length)
}

/// What is another than build left it.
#[derive(Clone, Copy, Debug, PartialEq)]
pub enum Change {
    Nothing,
    OfWords,
    Left,
    Right,
    Parent,
    Handle,
    OneNode,
    AllRecords,
    Steps,
    NoBox,
    EndOfBox,
    FlatBox,
    Narrow,
    Endless,
    NotFinite,
    Inverted,
    AnyBox,
    NoLamps,
    OtherK,
    FullNodes,
    TooManyNodes,
    PartNode,
    Short,
    Longer,
}

use Change::*;

pub const CHANGES: &[(Change, &str)] = &[
    (Nothing, "change: none"),
    (OfWords, "change: a damage of the walks"),
    (Left, "change: a left child"),
    (Right, "change: a right child"),
    (Parent, "change: a parent"),
    (Handle, "change: a handle"),
    (OneNode, "change: several of one node"),
    (AllRecords, "change: other records"),
    (Steps, "change: records at the edges between steps"),
    (NoBox, "change: no box"),
    (EndOfBox, "change: an end of the box"),
    (FlatBox, "change: a flat box"),
    (Narrow, "change: a narrow box"),
    (Endless, "change: a box infinitely wide"),
    (NotFinite, "change: a box not finite"),
    (Inverted, "change: an inverted box"),
    (AnyBox, "change: a box of any bits"),
    (NoLamps, "change: k is 0"),
    (OtherK, "change: another k"),
    (FullNodes, "change: 8,191 nodes"),
    (TooManyNodes, "change: over 8,191 nodes"),
    (PartNode, "change: a part node"),
    (Short, "change: a short tray"),
    (Longer, "change: a longer tray"),
];

/// The walks' damages of a tree's words that packing can see.
const DAMAGES: [Damage; 11] = [
    Damage::AnyWord,
    Damage::Kind,
    Damage::RightChild,
    Damage::Parent,
    Damage::Side,
    Damage::BadRecord,
    Damage::DownCycle,
    Damage::WholeTray,
    Damage::Cut,
    Damage::Exchanged,
    Damage::AnyBits,
];

/// What a node may be refused for, one each.
const NODE_DAMAGES: u64 = 7;

fn set<const N: usize>(words: &mut [u32], figures: [f32; N]) {
    words.copy_from_slice(&figures.map(f32::to_bits));
}

impl Random {
    fn any_index(&mut self, place: usize, count: usize) -> u32 {
        let (place, count) = (place as u32, count as u32);
        let inside = self.below(count.into()) as u32;
        let ends = [0, 1, 0x7fff_fffe, 0x7fff_ffff, 0x8000_0000, 0x8000_0001, NONE - 1, NONE, PAYLOAD, LEAF, INTERIOR];
        let near = [inside, inside, place, place + 1, place + 2, place.wrapping_sub(1), count - 1, count, count + 1];
        if self.chance(2) { self.of(&ends) } else { self.of(&near) }
    }

    /// A node made wrong in one of seven ways, in the order in which they are judged.
    fn damage_node(&mut self, node: &mut [u32; NODE], way: u64, count: usize) {
        match way {
            0 => node[0] ^= self.of(&[1, 2, 3]) << 30,
            1 => node[15] = self.of(&[2, 3, 0x100, 0x8000_0000, NONE]),
            2 => {
                let mut record: Record = node[3..].try_into().unwrap();
                self.damage(&mut record);
                node[3..].copy_from_slice(&record);
            }
            3 => set(&mut node[9..12], [self.of(&[1.5e19, 1.9e19, 1e20, 3e38]), self.within(1e19), self.within(1.0)]),
            4 => {
                (node[0], node[1]) =
                    (INTERIOR | node[0] & PAYLOAD, self.of(&[0x8000_0000, 0x8000_0001, NONE - 1, NONE]))
            }
            5 => node[2] = self.of(&[count as u32, count as u32 + 1, NONE - 1, 0x8000_0000, PAYLOAD]),
            _ => node[0] = INTERIOR | self.of(&[0, 1, 2, count as u32, PAYLOAD]),
        }
    }

    /// Words of the tree made others.
    fn change_words(&mut self, words: &mut Words, change: Change) {
        if words.nodes.is_empty() {
            words.nodes.push([0; NODE]);
        }
        let (place, count) = (self.near_root(words), words.nodes.len());
        let index = self.any_index(place, count);
        let node = &mut words.nodes[place];
        match change {
            OfWords => {
                let damage = self.of(&DAMAGES);
                self.damage_words(words, damage);
            }
            Left => node[0] = INTERIOR | index & PAYLOAD,
            Right => node[1] = index,
            Parent => node[2] = index,
            Handle => node[0] = LEAF | index & PAYLOAD,
            OneNode => {
                let times = self.of(&[2, 2, 3]);
                (0..times).for_each(|_| {
                    let way = self.below(NODE_DAMAGES);
                    self.damage_node(node, way, count);
                });
            }
            _ => {}
        }
    }

    /// Every record another, which mostly passes its check.
    fn other_records(&mut self, words: &mut Words) {
        let calm = self.chance(2);
        for node in &mut words.nodes {
            let record = if calm { self.usual() } else { self.sound() };
            node[3..].copy_from_slice(&record);
        }
    }

    /// A figure about so many of all steps.
    fn step(&mut self, steps: u64) -> f64 {
        let half = self.of(&[0.0, 0.0, 0.5, -0.5, 0.25]);
        (self.below(steps + 1) as f64 + half) / steps as f64
    }

    /// A box, and every record at or beside the edges between its steps, the directions' and the cosines'.
    fn at_steps(&mut self, words: &mut Words) -> Corners {
        let low = if self.chance(2) { [0.0; 3] } else { self.vector(10.0) };
        let size = self.of(&[1.0, 1.0, 65535.0, 0.1, 1e-3, 1000.0]);
        let high = low.map(|x| x + size);
        for node in &mut words.nodes {
            for axis in 0..3 {
                let mut ends = [(); 2].map(|()| {
                    let place = f64::from(low[axis]) + f64::from(high[axis] - low[axis]) * self.step(65535);
                    beside(place as f32, self.below(5) as i32 - 2)
                });
                ends.sort_by(f32::total_cmp);
                (node[3 + axis], node[6 + axis]) = (ends[0].to_bits(), ends[1].to_bits());
            }
            let length = self.of(&[1.0, 1.0, 2.0, 1e-3, 1e10]);
            let folded = [(); 2].map(|()| (2.0 * self.step(65535) - 1.0).clamp(-1.0, 1.0));
            set(&mut node[9..12], unit(outward(folded)).map(|x| (x * length) as f32));
            for word in [13, 14] {
                let cosine = beside((2.0 * self.step(32767) - 1.0) as f32, self.below(5) as i32 - 2);
                node[word] = cosine.clamp(-1.0, 1.0).to_bits();
            }
            node[15] = self.below(2) as u32;
        }
        let mut corners = [0; 6];
        set(&mut corners[..3], low);
        set(&mut corners[3..], high);
        corners
    }

    /// Another box than the one that build gives.
    fn other_box(&mut self, all: Option<Corners>, change: Change) -> Option<Corners> {
        let mut corners = all.unwrap_or([0; 6]);
        let (axis, word) = (self.below(3) as usize, self.below(6) as usize);
        match change {
            NoBox => return None,
            EndOfBox => {
                let by = self.of(&[1.0, -1.0, 0.5, -1e-3, 100.0]);
                corners[word] = (f32::from_bits(corners[word]) + by).to_bits();
            }
            FlatBox => {
                let free = self.of(&[0, 1, 2, 4, 3, 5, 6]);
                (0..3).filter(|i| free >> i & 1 == 0).for_each(|i| corners[3 + i] = corners[i]);
                if self.chance(3) {
                    // both zeros are one value
                    (corners[axis], corners[3 + axis]) = self.of(&[(0, 1 << 31), (1 << 31, 0)]);
                }
            }
            Narrow => {
                let low: Vector = self.vector(2.0);
                set(&mut corners[..3], low);
                set(&mut corners[3..], low.map(|x| x + 0.5));
            }
            Endless => {
                let ends = [(-f32::MAX, f32::MAX), (-3e38, 3e38), (-f32::MAX, 1e38), (-2e38, 2e38), (-1e38, 1e38)];
                (0..3).for_each(|i| {
                    let (low, high) = self.of(&ends);
                    (corners[i], corners[3 + i]) = (low.to_bits(), high.to_bits());
                });
            }
            NotFinite => corners[word] = self.of(&UNFIT),
            Inverted => {
                (corners[axis], corners[3 + axis]) = (2f32.to_bits(), self.of(&[1f32, -3.0, -f32::MAX]).to_bits())
            }
            _ => corners = std::array::from_fn(|_| self.bits() as u32),
        }
        Some(corners)
    }

    /// A case about a built tree: half of them with words of some nodes made wrong, two in five with another
    /// box, some with another k, another length or another tray.
    pub fn packing_case(&mut self, words: &Words, (k, all): Built) -> (Case, Vec<Change>) {
        let (mut words, mut all, mut changes) = (words.clone(), all, vec![]);
        match self.below(8) {
            0 | 1 if !words.nodes.is_empty() => {
                self.other_records(&mut words);
                changes.push(AllRecords);
            }
            2 | 3 if !words.nodes.is_empty() => {
                all = Some(self.at_steps(&mut words));
                changes.push(Steps);
            }
            _ => {}
        }
        if self.chance(2) {
            let times = self.of(&[1, 1, 1, 2, 3]);
            for _ in 0..times {
                let change = self.of(&[OfWords, OfWords, Left, Right, Parent, Handle, OneNode, OneNode]);
                self.change_words(&mut words, change);
                changes.push(change);
            }
        }
        let times = self.of(&[0, 0, 0, 0, 1, 1, 2]);
        for _ in 0..times {
            let change = self.of(&[
                NoBox, EndOfBox, EndOfBox, FlatBox, FlatBox, Narrow, Narrow, Endless, NotFinite, Inverted, AnyBox,
            ]);
            all = self.other_box(all, change);
            changes.push(change);
        }
        let mut k = k as usize;
        if self.chance(12) {
            let change = self.of(&[NoLamps, OtherK]);
            k = match change {
                NoLamps => 0,
                _ => self.of(&[k + 1, k.wrapping_sub(1), 1, 1 << 31, 1 << 32, 1 << 63, usize::MAX]),
            };
            changes.push(change);
        }
        let mut tree = Tree { nodes: words.tree().nodes, table: vec![] };
        if self.chance(32) {
            let (change, damage) = self.of(&[
                (FullNodes, Damage::FullNodes),
                (TooManyNodes, Damage::TooManyNodes),
                (PartNode, Damage::PartNode),
                (PartNode, Damage::PartNode),
            ]);
            self.damage_bytes(&mut tree, damage);
            changes.push(change);
        }
        let reserve = reserve(tree.nodes.len() / NODE_BYTES);
        let (fewer, more) = (self.below(reserve.max(1) as u64) as usize, 1 + self.below(80) as usize);
        let room = match self.below(8) {
            0 if reserve > 0 => {
                changes.push(Short);
                self.of(&[0, fewer, reserve - 1, reserve - 4, 4 * (reserve / 4 / 2)])
            }
            1 | 2 => {
                changes.push(Longer);
                reserve + more
            }
            _ => reserve,
        };
        if changes.is_empty() {
            changes.push(Nothing);
        }
        (Case { nodes: tree.nodes, k, all, room }, changes)
    }
}
