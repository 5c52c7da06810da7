//! Trees: a node's layout (R5.6), what build is lent, and blocks for its runs, random,
//! degenerate and damaged.

use crate::inputs::blocks::block_of;
use crate::inputs::lists::{MOST_LAMPS, MOST_WORDS};
use crate::inputs::random::Random;
use crate::inputs::records::{Record, Vector, bits};

/// The words of a node: its head, its right child, its parent, then its record.
pub const NODE: usize = 16;
/// A node's head: its kind in the top two bits, below it a leaf's handle or the left child.
pub const LEAF: u32 = 1 << 30;
pub const INTERIOR: u32 = 2 << 30;
pub const PAYLOAD: u32 = LEAF - 1;

/// The words of build's answer: k, how many lamps have power, and the box around them; zeros where k is 0.
pub const ANSWER: usize = 7;

/// The words that build must be lent for so many lamps: nodes, table, work, answer.
pub fn reserves(lamps: usize) -> [usize; 4] {
    [NODE * (2 * lamps).saturating_sub(1), lamps, 2 * lamps, ANSWER]
}

/// Nodes, table, work and answer, lent.
pub type Trays<'a> = [&'a mut [u32]; 4];
/// A build: of the light records' count and a block, to the trays.
pub type Build = fn(u32, &[u32], Trays) -> Result<(), u32>;

/// k and the box around the lamps that have power.
pub type Built = (u32, Option<[u32; 6]>);

/// What an answer's words say.
pub fn built(answer: &[u32]) -> Built {
    let (k, corners) = (answer[0], std::array::from_fn(|i| answer[1 + i]));
    (k, (k > 0).then_some(corners))
}

/// The trays as slices to be lent.
pub fn lent(trays: &mut [Vec<u32>; 4]) -> Trays<'_> {
    trays.each_mut().map(Vec::as_mut_slice)
}

/// How many light records there are, a block, and how many words are lent for each tray.
#[derive(Clone, Debug, PartialEq)]
pub struct Case {
    pub light_count: u32,
    pub block: Vec<u32>,
    pub rooms: [usize; 4],
}

/// Places whose sums and differences often overflow.
const FAR: [f32; 9] = [f32::MAX, 3e38, 2e38, 1e38, 1.0, -1e38, -2e38, -3e38, -f32::MAX];

fn record_of([low, high]: [Vector; 2], direction: Vector, cones: Vector, side: u32) -> Record {
    let mut record = [side; 13];
    record[..12].copy_from_slice([low, high, direction, cones].map(bits).as_flattened());
    record
}

/// A lamp as the pair of R14 has them, but for its box and its power.
pub fn all_about(low: Vector, high: Vector, phi: f32) -> Record {
    record_of([low, high], [0.0, 0.0, 1.0], [phi, -1.0, 0.0], 0)
}

/// Lamps whose tree is as deep as can be, k - 1 forks. The first is a box so large and so strong that no
/// other's cost shows beside its own: every cut costs the same, and the first bucket is cut off. One lamp
/// lies there: the others stand along the three axes, each 1.098 times as far out as the next, which is more
/// than 12/11.
pub fn deepest(lamps: usize) -> Vec<Record> {
    let size = 2f32.powi(58);
    let along = lamps.div_ceil(3);
    let lamp = |i: usize| {
        let mut place = [0.0; 3];
        place[i / along] = (f64::from(-size) * 1.098f64.powi(-1 - (i % along) as i32)) as f32;
        all_about(place, place, 2f32.powi(-60))
    };
    let first = all_about([-size; 3], [size; 3], 2f32.powi(-10));
    [first].into_iter().chain((0..lamps).map(lamp)).take(lamps).collect()
}

/// How many forks lie above the deepest of a tree's nodes.
pub fn depth(nodes: &[u32]) -> usize {
    let nodes: &[[u32; NODE]] = nodes.as_chunks().0;
    let mut depths: Vec<usize> = Vec::new();
    nodes.iter().for_each(|node| depths.push(depths.get(node[2] as usize).map_or(0, |above| above + 1)));
    depths.into_iter().max().unwrap_or(0)
}

fn sorted(a: Vector, b: Vector) -> [Vector; 2] {
    [[0, 1, 2].map(|i| a[i].min(b[i])), [0, 1, 2].map(|i| a[i].max(b[i]))]
}

impl Random {
    /// How many lamps: mostly few, at most 64, now and then 512 or as many as there may be.
    fn tree_lamps(&mut self) -> usize {
        match self.below(2000) {
            0 => return MOST_LAMPS,
            1..=4 => return 512,
            _ => {}
        }
        let most = self.of(&[2, 4, 4, 8, 16, 16, 24, 64]);
        (if self.chance(20) { 0 } else { 1 + self.below(most) }) as usize
    }

    /// Whole numbers of a size below the bound along the axes that are free, as a mask; along the others
    /// those of the place given.
    fn grid_place(&mut self, fixed: Vector, free: u32, bound: u64) -> Vector {
        [0, 1, 2].map(|i| if free >> i & 1 == 1 { self.below(bound) as f32 * self.of(&[1.0, -1.0]) } else { fixed[i] })
    }

    /// Boxes of one manner, so that splits of every kind are met.
    fn tree_boxes(&mut self, count: usize) -> Vec<[Vector; 2]> {
        let manner = self.below(12);
        let (fixed, free) = (self.grid_place([0.0; 3], 7, 8), self.of(&[0, 1, 2, 4, 3, 5, 6, 7]));
        let bound = self.of(&[2, 4, 40, 1000]);
        let step = self.of(&[0.5f32, 0.9, 1.1, 2.0]);
        let boxes = (0..count).map(|i| match manner {
            // anywhere: points, or boxes
            0 | 1 => [self.vector(10.0); 2],
            2 | 3 => {
                let low = self.vector(10.0);
                [low, low.map(|x| x + self.within(1.0).abs())]
            }
            // points in one place, on a line, in a plane or on a grid
            4 | 5 => [self.grid_place(fixed, free, bound); 2],
            // boxes whose centroids are such points
            6 | 7 => {
                let (center, eighths) = (self.grid_place(fixed, free, bound), self.grid_place([0.0; 3], 7, 9));
                [-0.125, 0.125].map(|part| [0, 1, 2].map(|i| center[i] + eighths[i].abs() * part))
            }
            // each so much farther than the one before
            8 => [[0, 1, 2].map(|axis| if free >> axis & 1 == 1 { step.powi(i as i32 % 120) } else { 0.0 }); 2],
            // centroids that are infinite or infinitely far apart
            9 => sorted([(); 3].map(|()| self.of(&FAR)), [(); 3].map(|()| self.of(&FAR))),
            // side by side, a bit of the last place apart
            10 => [fixed.map(|x| f32::from_bits((x + 0.5).to_bits() + self.below(4) as u32)); 2],
            _ => <[Vector; 2]>::from(self.bounds()),
        });
        boxes.collect()
    }

    /// Powers of one manner: as weights have them; one above 0 alone; in steps; or some so large that two overflow.
    fn tree_powers(&mut self, count: usize) -> Vec<f32> {
        let (manner, one) = (self.below(10), self.below(count.max(1) as u64) as usize);
        let step = self.of(&[0.5f32, 0.9, 1.1, 2.0]);
        match manner {
            0 => (0..count).map(|i| if i == one { self.within(10.0).abs() } else { self.of(&[0.0, -0.0]) }).collect(),
            1 => (0..count).map(|i| step.powi(i as i32 % 120)).collect(),
            2 => (0..count).map(|_| self.of(&[3e38, 1.0, 1.0, 0.0])).collect(),
            3 | 4 => (0..count).map(|_| self.within(100.0).abs()).collect(),
            _ => self.weights(count),
        }
    }

    /// A direction, then two cosines, of one manner.
    fn tree_cones(&mut self, count: usize) -> Vec<(Vector, [f32; 2])> {
        let manner = self.below(8);
        let axis = self.unit();
        let end = |random: &mut Random| random.of(&[-1.0, 0.0, 1.0]);
        let cones = (0..count).map(|_| match manner {
            // points
            0 => ([0.0, 0.0, 1.0], [-1.0, 0.0]),
            // spots
            1 => (self.unit(), [0.9 + self.within(0.1), 0.9 + self.within(0.1)]),
            // one axis and its opposite
            2 => {
                let sign = self.of(&[1.0, -1.0]);
                (axis.map(|x| x * sign), [end(self), end(self)])
            }
            // axes too long for an angle between them
            3 => (self.unit().map(|x| x * 40.0), [end(self), end(self)]),
            4 => (self.direction(), [self.cosine(), self.cosine()]),
            _ => (self.unit(), [self.within(1.0), self.within(1.0)]),
        });
        cones.collect()
    }

    pub(crate) fn tree_records(&mut self, count: usize) -> Vec<Record> {
        if count <= 512 && self.chance(24) {
            return deepest(count);
        }
        let (boxes, powers, cones) = (self.tree_boxes(count), self.tree_powers(count), self.tree_cones(count));
        let record = |i: usize| {
            let (direction, [cos_o, cos_e]) = cones[i];
            record_of(boxes[i], direction, [powers[i], cos_o, cos_e], self.below(2) as u32)
        };
        (0..count).map(record).collect()
    }

    /// How many words are lent for so many lamps: as many as are needed, more, or, for any of the first
    /// three, fewer; of the answer as many as are needed.
    fn tree_rooms(&mut self, lamps: usize) -> [usize; 4] {
        let short = if self.chance(6) { 1 + self.below(7) } else { 0 };
        let mut rooms = reserves(lamps);
        for (i, room) in rooms.iter_mut().enumerate().take(3) {
            let (reserve, more) = (*room, 1 + self.below(20) as usize);
            let fewer = self.below(reserve.max(1) as u64) as usize;
            *room = match short >> i & 1 {
                1 => self.of(&[0, fewer, reserve.saturating_sub(1)]),
                _ => reserve + self.of(&[0, 0, 0, more]),
            };
        }
        rooms
    }

    /// How many words are lent for an answer: one in eight from 0 to 8, else as many as are needed or more.
    pub fn answer_room(&mut self) -> usize {
        let more = 1 + self.below(20) as usize;
        if self.chance(8) { self.below(9) as usize } else { ANSWER + self.of(&[0, 0, 0, more]) }
    }

    /// One in eight has records that fail their check, one in eight a layout made wrong, one in sixteen another count.
    pub fn tree_case(&mut self) -> Case {
        let lamps = self.tree_lamps();
        let mut records = self.tree_records(lamps);
        if lamps > 0 && self.chance(8) {
            let times = self.of(&[1, 1, 2]);
            for _ in 0..times {
                let place = self.below(lamps as u64) as usize;
                self.damage(&mut records[place]);
            }
        }
        let (mut block, count) = (block_of(&records), lamps as u32);
        if self.chance(8) {
            self.damage_block(&mut block, lamps as u64);
        }
        if self.chance(4000) {
            block.resize(MOST_WORDS + self.below(3) as usize, 0);
        }
        let other = [count + 1, count.wrapping_sub(1), 0, 4097, 5000, u32::MAX, count ^ 1 << self.below(32)];
        let light_count = if self.chance(16) { self.of(&other) } else { count };
        Case { light_count, block, rooms: self.tree_rooms(lamps) }
    }
}
