//! Walks over a tree's words: what they take and answer, and cases for their runs: built trees, trees with
//! words made wrong, queries about them, u at the edges between lamps.

use crate::inputs::blocks::block_of;
use crate::inputs::lists::MOST_LAMPS;
use crate::inputs::random::Random;
use crate::inputs::records::{ABOVE_1, Query, Record, SMALLEST, UNFIT};
use crate::inputs::trees::{Build, Built, INTERIOR, LEAF, NODE, PAYLOAD, built, lent, reserves};

/// What a draw gives: a lamp's handle and the word of its chance, or none; or a refusal's number.
pub type Drawn = Result<Option<(u32, u32)>, u32>;
/// What a chance by name gives: the chance's word, or a refusal's number.
pub type Chance = Result<u32, u32>;
/// An importance: of a record for a query.
pub type Weigh = fn(&Record, &Query) -> Result<u32, u32>;

/// The nodes of as many lamps as there may be.
pub const MOST_NODES: usize = 2 * MOST_LAMPS - 1;
pub const NODE_BYTES: usize = 4 * NODE;
/// No node and no lamp.
pub const NONE: u32 = u32::MAX;
/// The greatest u that a walk goes on with: 1 - 2^-23.
pub const MOST_U: f32 = f32::from_bits(0x3f7f_fffe);

/// A tree as the walks take it: nodes and table as little-endian bytes.
#[derive(Clone, Debug, PartialEq)]
pub struct Tree {
    pub nodes: Vec<u8>,
    pub table: Vec<u8>,
}

/// The same as words, all whole.
#[derive(Clone, Debug)]
pub struct Words {
    pub nodes: Vec<[u32; NODE]>,
    pub table: Vec<u32>,
}

pub fn bytes(words: &[u32]) -> Vec<u8> {
    words.iter().flat_map(|word| word.to_le_bytes()).collect()
}

/// The words of the bytes, a part word left out.
pub fn words(bytes: &[u8]) -> Vec<u32> {
    bytes.as_chunks().0.iter().map(|word| u32::from_le_bytes(*word)).collect()
}

impl Words {
    /// The tree that is built of the records, the nodes that are used; none where build refuses them.
    pub fn built(build: Build, records: &[Record]) -> Option<Words> {
        Words::with_box(build, records).map(|(words, _)| words)
    }

    /// The same with k and the overall box.
    pub fn with_box(build: Build, records: &[Record]) -> Option<(Words, Built)> {
        Words::of_block(build, &block_of(records)).ok()
    }

    /// The same of a block that has a first word.
    pub fn of_block(build: Build, block: &[u32]) -> Result<(Words, Built), u32> {
        let mut trays = reserves(block[0] as usize).map(|reserve| vec![0; reserve]);
        build(block[0], block, lent(&mut trays))?;
        let [mut nodes, table, _, answer] = trays;
        let built = built(&answer);
        nodes.truncate(reserves(built.0 as usize)[0]);
        Ok((Words { nodes: nodes.as_chunks().0.to_vec(), table }, built))
    }

    pub fn tree(&self) -> Tree {
        Tree { nodes: bytes(self.nodes.as_flattened()), table: bytes(&self.table) }
    }

    /// The children of an interior node.
    pub fn children(&self, place: usize) -> Option<[usize; 2]> {
        let [head, right, ..] = self.nodes.get(place)?;
        (head & !PAYLOAD == INTERIOR).then_some([place + 1, *right as usize])
    }

    pub fn record(&self, place: usize) -> Option<&Record> {
        self.nodes.get(place).map(|node| node[3..].try_into().unwrap())
    }

    /// About where u leads another way: of so many forks from the root down, the u that parts their children.
    pub fn edges(&self, query: &Query, weigh: Weigh, most: usize) -> Vec<f32> {
        let mut edges = Vec::new();
        let mut open = vec![(0, 0.0, 1.0)];
        while let Some((place, low, high)) = open.pop().filter(|_| edges.len() < most) {
            let weight = |child| Some(f32::from_bits(weigh(self.record(child)?, query).ok()?));
            let Some([left, right]) = self.children(place) else { continue };
            let (Some(x), Some(y)) = (weight(left), weight(right)) else { continue };
            let share = f64::from(x / (x + y));
            let edge = if share.is_nan() { low } else { low + (high - low) * share };
            edges.push(edge as f32);
            // the wider one is opened first
            let mut halves = [(left, low, edge), (right, edge, high)];
            halves.sort_by(|a, b| f64::total_cmp(&(a.2 - a.1), &(b.2 - b.1)));
            open.extend(halves);
        }
        edges
    }
}

/// What is made wrong in a tree.
#[derive(Clone, Copy, Debug, PartialEq)]
pub enum Damage {
    Nothing,
    AnyWord,
    Kind,
    RightChild,
    Parent,
    Side,
    BadRecord,
    DownCycle,
    UpCycle,
    TableWord,
    ForkInTable,
    WholeTray,
    Cut,
    Exchanged,
    AnyBits,
    FullNodes,
    TooManyNodes,
    PartNode,
    FullTable,
    TooManyTableWords,
    PartTableWord,
}

use Damage::*;

pub const DAMAGES: &[(Damage, &str)] = &[
    (Nothing, "damage: none"),
    (AnyWord, "damage: a word of a node"),
    (Kind, "damage: a kind"),
    (RightChild, "damage: a right child"),
    (Parent, "damage: a parent"),
    (Side, "damage: a side"),
    (BadRecord, "damage: a record"),
    (DownCycle, "damage: a cycle of right children"),
    (UpCycle, "damage: a cycle of parents"),
    (TableWord, "damage: a table word"),
    (ForkInTable, "damage: a table word that names a fork"),
    (WholeTray, "damage: nodes that are not used"),
    (Cut, "damage: nodes cut off"),
    (Exchanged, "damage: two nodes exchanged"),
    (AnyBits, "damage: a node of any bits"),
    (FullNodes, "damage: 8,191 nodes"),
    (TooManyNodes, "damage: over 8,191 nodes"),
    (PartNode, "damage: a part node"),
    (FullTable, "damage: a table of 4,096 words"),
    (TooManyTableWords, "damage: a table of over 4,096 words"),
    (PartTableWord, "damage: a part table word"),
];

/// How many of `DAMAGES` change words alone; the first is none.
const OF_WORDS: u64 = 15;

/// Each kind of wrong value for a word of the node at a place, among so many nodes.
pub fn wrong_words(place: usize, count: usize) -> Vec<u32> {
    let figures = [0.0, -0.0, 1.0, -1.0, 2.0, ABOVE_1, -ABOVE_1, SMALLEST, -SMALLEST, f32::MAX, -f32::MAX, 1e-30, 1e19];
    let (place, count) = (place as u32, count as u32);
    let places = [1, 2, 3, place, place + 1, place.wrapping_sub(1), count - 1, count, count + 1, count / 2];
    let heads = [LEAF | place, INTERIOR | (place + 1), 3 << 30, LEAF, INTERIOR, PAYLOAD, NONE, NONE - 1];
    figures.iter().map(|figure| figure.to_bits()).chain(UNFIT).chain(places).chain(heads).collect()
}

/// Special u: the ends and their neighbours, and what is no u.
const SPECIAL_U: [u32; 17] = [
    0,
    1 << 31,
    1,
    0x3f80_0000,
    0x3f7f_ffff,
    0x3f7f_fffe,
    0x3f7f_fffd,
    0x3f00_0000,
    0x3f80_0001,
    0x7fc0_0000,
    0xffc0_0001,
    0x7f80_0001,
    0x8000_0001,
    0xbf80_0000,
    0x7f80_0000,
    0xff80_0000,
    0x4000_0000,
];

/// The float so many places on in the order of the floats from 0 up.
pub fn beside(u: f32, by: i32) -> f32 {
    f32::from_bits(u.to_bits().saturating_add_signed(by))
}

impl Random {
    /// A built tree of at most so many lamps.
    pub fn grown(&mut self, build: Build, most: u64) -> Words {
        self.grown_with_box(build, most).0
    }

    /// The same with k and the overall box.
    pub fn grown_with_box(&mut self, build: Build, most: u64) -> (Words, Built) {
        loop {
            let most = self.of(&[2, 4, 8, 16, 24, most]).min(most);
            let lamps = if self.chance(40) { 0 } else { 1 + self.below(most) };
            let records = self.tree_records(lamps as usize);
            // few of no lamp or one
            let few = |words: &Words| words.nodes.len() < 3;
            if let Some(grown) = Words::with_box(build, &records).filter(|(words, _)| !few(words) || self.chance(4)) {
                return grown;
            }
        }
    }

    /// A node, mostly near the root, where every walk comes by.
    pub(crate) fn near_root(&mut self, words: &Words) -> usize {
        let reach = self.of(&[1, 3, 7, words.nodes.len()]);
        self.below(reach.min(words.nodes.len()) as u64) as usize
    }

    /// A place for the words of the node at one: there or not.
    fn any_place(&mut self, words: &Words, place: usize) -> u32 {
        let (count, place) = (words.nodes.len() as u32, place as u32);
        let inside = self.below(count.into()) as u32;
        let parent = words.nodes[place as usize][2];
        self.of(&[
            0,
            inside,
            inside,
            place,
            place + 1,
            place + 2,
            parent,
            count - 1,
            count,
            count + 1,
            NONE,
            NONE - 1,
            PAYLOAD,
        ])
    }

    fn fork(&mut self, words: &Words) -> Option<usize> {
        let forks: Vec<usize> =
            (0..words.nodes.len().min(40)).filter(|place| words.children(*place).is_some()).collect();
        (!forks.is_empty()).then(|| self.of(&forks))
    }

    /// Words of the tree made wrong, or at least others; one of the first fifteen of `DAMAGES`.
    pub fn damage_words(&mut self, words: &mut Words, damage: Damage) {
        if words.nodes.is_empty() {
            words.nodes.push([0; NODE]);
        }
        let (place, count) = (self.near_root(words), words.nodes.len());
        let any = self.any_place(words, place);
        let at = self.below(words.table.len().max(1) as u64) as usize;
        let fork = self.fork(words);
        match damage {
            AnyWord => {
                let word = self.below(NODE as u64) as usize;
                words.nodes[place][word] = self.of(&wrong_words(place, count));
            }
            Kind => words.nodes[place][0] ^= self.of(&[1, 2, 3]) << 30,
            RightChild => words.nodes[place][1] = any,
            Parent => words.nodes[place][2] = any,
            Side => words.nodes[place][15] = self.of(&[2, 3, 0x100, 0x8000_0000, 0x3f80_0000, NONE]),
            BadRecord => {
                let mut record = *words.record(place).unwrap();
                self.damage(&mut record);
                words.nodes[place][3..].copy_from_slice(&record);
            }
            DownCycle => {
                let fork = fork.unwrap_or(0);
                words.nodes[fork][1] = self.of(&[0, fork as u32, words.nodes[fork][2]]);
            }
            UpCycle => {
                // a fork and a fork below it, each the other's child
                let child = fork.and_then(|fork| {
                    let mut children = words.children(fork)?.into_iter();
                    Some((fork, children.rfind(|child| words.children(*child).is_some())?))
                });
                let (fork, child) = child.unwrap_or((0, count - 1));
                words.nodes[child][1] = fork as u32;
                words.nodes[fork][2] = child as u32;
            }
            TableWord => words.table.iter_mut().skip(at).take(1).for_each(|word| *word = any),
            ForkInTable => words.table.iter_mut().skip(at).take(1).for_each(|word| *word = fork.unwrap_or(0) as u32),
            WholeTray => words.nodes.resize(count + 1 + self.below(6) as usize, [0; NODE]),
            Cut => words.nodes.truncate(self.below(count as u64) as usize),
            Exchanged => words.nodes.swap(place, self.below(count as u64) as usize),
            AnyBits => {
                let kind = self.of(&[0, LEAF, INTERIOR]);
                words.nodes[place] = std::array::from_fn(|_| self.bits() as u32);
                if kind != 0 {
                    words.nodes[place][0] = words.nodes[place][0] & PAYLOAD | kind;
                }
            }
            _ => {}
        }
    }

    /// Lengths made wrong, or as long as may be; one of the last of `DAMAGES`.
    pub(crate) fn damage_bytes(&mut self, tree: &mut Tree, damage: Damage) {
        let part = 1 + self.below(NODE_BYTES as u64 - 1) as usize;
        let limit = NODE_BYTES * MOST_NODES;
        match damage {
            FullNodes => tree.nodes.resize(limit, 0),
            TooManyNodes => {
                tree.nodes.resize(limit + self.of(&[NODE_BYTES, NODE_BYTES, NODE_BYTES + part, 9 * NODE_BYTES]), 0)
            }
            PartNode => {
                let whole =
                    self.of(&[tree.nodes.len(), tree.nodes.len().saturating_sub(NODE_BYTES), tree.nodes.len(), limit]);
                tree.nodes.resize(whole.min(limit) + part, 0);
            }
            FullTable => tree.table.resize(4 * MOST_LAMPS, 0xff),
            TooManyTableWords => tree.table.resize(4 * MOST_LAMPS + self.of(&[4, 4, 5, 7, 400]), 0),
            PartTableWord => {
                let whole = self.of(&[tree.table.len(), tree.table.len(), 4 * MOST_LAMPS]);
                tree.table.resize(whole + 1 + part % 3, 0);
            }
            _ => {}
        }
    }

    /// The tree as it is, or, half of the time, with some of its words and now and then a length made wrong.
    pub fn weathered(&mut self, mut words: Words) -> (Tree, Vec<Damage>) {
        let mut damages = vec![];
        if self.chance(2) {
            let times = self.of(&[0, 1, 1, 1, 1, 2, 2, 3]);
            damages.extend((0..times).map(|_| DAMAGES[1 + self.below(OF_WORDS - 1) as usize].0));
        }
        damages.iter().for_each(|damage| self.damage_words(&mut words, *damage));
        let mut tree = words.tree();
        if self.chance(24) {
            let (damage, _) = DAMAGES[OF_WORDS as usize + self.below(DAMAGES.len() as u64 - OF_WORDS) as usize];
            self.damage_bytes(&mut tree, damage);
            damages.push(damage);
        }
        if damages.is_empty() {
            damages.push(Nothing);
        }
        (tree, damages)
    }

    /// A point about some node of the tree, and a normal.
    pub fn walk_query(&mut self, words: &Words) -> Query {
        let place = if words.nodes.is_empty() { 0 } else { self.near_root(words) };
        match words.record(place) {
            Some(record) => self.query(record),
            None => self.usual_query(),
        }
    }

    /// A u at or beside an edge, a special one, one of any bits, or one from 0 to 1.
    pub fn u(&mut self, edges: &[f32]) -> f32 {
        match self.below(8) {
            0 => f32::from_bits(self.of(&SPECIAL_U)),
            1 if self.chance(2) => f32::from_bits(self.bits() as u32),
            2..=4 if !edges.is_empty() => beside(self.of(edges), self.below(7) as i32 - 3),
            _ => self.within(1.0).abs(),
        }
    }

    /// A handle of the table, or one that is not in it.
    pub fn walk_handle(&mut self, table_words: usize) -> u32 {
        let len = table_words as u32;
        if len > 0 && !self.chance(16) {
            return self.below(len.into()) as u32;
        }
        self.of(&[len, len + 1, NONE, LEAF, 1 << 31, MOST_LAMPS as u32])
    }
}
