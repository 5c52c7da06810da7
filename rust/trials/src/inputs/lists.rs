//! Lamp lists: their layout (R4.1 to R4.3), and lists for the runs, random, degenerate and damaged.

use crate::inputs::random::Random;
use crate::inputs::records::{ABOVE_1, SMALLEST, UNFIT, Vector, bits};

pub const MOST_LAMPS: usize = 4096;
pub const MOST_WORDS: usize = 1 << 20;
/// The words of a lamp in a bounds block: its handle, then its record.
pub const BLOCK_RECORD: usize = 14;
/// Nine coordinates, area, normal.
const TRIANGLE: usize = 13;

/// The top two bits of a lamp's head.
#[derive(Clone, Copy, Debug, PartialEq)]
pub enum Kind {
    Point = 1,
    Spot = 2,
    Group = 3,
}

pub const KINDS: [Kind; 3] = [Kind::Point, Kind::Spot, Kind::Group];

/// A lamp with the words after its head.
#[derive(Clone, Copy, Debug, PartialEq)]
pub struct Lamp<'a> {
    pub kind: Kind,
    pub handle: u32,
    pub words: &'a [u32],
}

/// The triangles of a group's words.
pub fn triangles(words: &[u32]) -> impl Iterator<Item = &[u32]> {
    words[4..].chunks_exact(TRIANGLE)
}

/// The lamps of a list. Refusal 2 is for too many words or lamps; all else that is not the layout is 1.
pub fn read(list: &[u32]) -> Result<Vec<Lamp<'_>>, u32> {
    if list.len() > MOST_WORDS {
        return Err(2);
    }
    let (&count, mut rest) = list.split_first().ok_or(1u32)?;
    if count as usize > MOST_LAMPS {
        return Err(2);
    }
    let mut lamps = Vec::new();
    for _ in 0..count {
        let (&head, after) = rest.split_first().ok_or(1u32)?;
        let kind = KINDS.into_iter().find(|kind| *kind as u32 == head >> 30).ok_or(1u32)?;
        let length = match kind {
            Kind::Point => 5,
            Kind::Spot => 10,
            Kind::Group if *after.get(2).ok_or(1u32)? > 1 => return Err(1),
            Kind::Group => 4 + TRIANGLE as u64 * u64::from(*after.get(3).ok_or(1u32)?),
        };
        if length > after.len() as u64 {
            return Err(1);
        }
        let (words, next) = after.split_at(length as usize);
        lamps.push(Lamp { kind, handle: head & 0x3fff_ffff, words });
        rest = next;
    }
    if rest.is_empty() { Ok(lamps) } else { Err(1) }
}

/// A list, lamps as words with their heads' kinds, the handles given here.
pub fn list_of(lamps: impl IntoIterator<Item = Vec<u32>>) -> Vec<u32> {
    let mut list = vec![0];
    for lamp in lamps {
        list.push(lamp[0] | list[0]);
        list.extend(&lamp[1..]);
        list[0] += 1;
    }
    list
}

/// A list and how many words are lent for its block.
#[derive(Clone, Debug)]
pub struct Case {
    pub list: Vec<u32>,
    pub room: usize,
}

const CORNER_PHI: f32 = 1e38; // times PI it is 7f6c58e0: two give infinity, and a third then finds it

/// A count of triangles whose words, cut to 32 bits, are so many.
pub fn wrapping_count(words: u32) -> u32 {
    words.wrapping_mul(0xc4ec_4ec5) // 1 / 13 there
}

pub(crate) fn head(kind: Kind) -> u32 {
    (kind as u32) << 30
}

impl Random {
    fn position(&mut self, special: bool) -> Vector {
        if special { [(); 3].map(|()| self.coordinate()) } else { self.vector(10.0) }
    }

    /// An emission, a scale or an area.
    fn power(&mut self, special: bool) -> f32 {
        if special { self.phi() } else { 0.1 + self.within(10.0).abs() }
    }

    fn normal(&mut self, special: bool) -> Vector {
        if special { self.direction() } else { self.unit() }
    }

    fn point(&mut self, special: bool) -> Vec<u32> {
        let powers = match self.below(16) {
            0 if special => [0.0, 3e38],
            _ => [self.power(special), self.power(special)],
        };
        [&[head(Kind::Point)], &bits(self.position(special))[..], &powers.map(f32::to_bits)].concat()
    }

    /// The second cosine is often near the first.
    fn spot(&mut self, special: bool) -> Vec<u32> {
        let first = self.cosine();
        let near = self.of(&[0.0, 1e-7, 1e-4]);
        let second = match self.below(3) {
            0 => (first + self.within(near)).clamp(-1.0, 1.0),
            _ => self.cosine(),
        };
        let figures = [self.power(special), self.power(special), first, second].map(f32::to_bits);
        [&[head(Kind::Spot)], &bits(self.position(special))[..], &bits(self.normal(special)), &figures].concat()
    }

    fn triangle(&mut self, special: bool) -> [u32; TRIANGLE] {
        let corners = [(); 3].map(|()| bits(self.position(special)));
        let mut triangle = [0; TRIANGLE];
        triangle[..9].copy_from_slice(corners.as_flattened());
        triangle[9] = self.power(special).to_bits();
        triangle[10..].copy_from_slice(&bits(self.normal(special)));
        triangle
    }

    fn group_of(&mut self, special: bool, count: u64) -> Vec<u32> {
        let mut powers = [self.power(special), self.power(special)];
        let mut triangles: Vec<[u32; TRIANGLE]> = (0..count).map(|_| self.triangle(special)).collect();
        match self.below(6) {
            // the greatest powers
            0 if special => {
                powers = [CORNER_PHI, 1.0];
                triangles.iter_mut().for_each(|triangle| triangle[9] = 1f32.to_bits());
            }
            // some triangles without power, others with
            1 => {
                powers = [1e-38, 1.0];
                triangles
                    .iter_mut()
                    .for_each(|triangle| triangle[9] = self.of(&[1e-20f32, 1e-8, 1.0, 100.0]).to_bits());
            }
            // a NaN in one, two or, not always, three of the vertices on an axis
            2 => {
                for triangle in &mut triangles {
                    let most = if special { 7 } else { 6 };
                    let (axis, vertices) = (self.below(3) as usize, 1 + self.below(most));
                    let nan = self.of(&UNFIT[..3]);
                    (0..3).filter(|i| vertices >> i & 1 == 1).for_each(|i| triangle[3 * i + axis] = nan);
                }
            }
            // normals like the first: the same, opposite, nearly so
            3 if count > 0 => {
                let first = [10, 11, 12].map(|i| f32::from_bits(triangles[0][i]));
                let near = self.of(&[0.0, 1e-7, 1e-3]);
                for triangle in &mut triangles[1..] {
                    let sign = self.of(&[1.0, -1.0]);
                    triangle[10..].copy_from_slice(&bits(first.map(|x| sign * x + self.within(near))));
                }
            }
            _ => {}
        }
        let figures = [powers[0].to_bits(), powers[1].to_bits(), self.below(2) as u32, count as u32];
        [&[head(Kind::Group)], &figures[..], triangles.as_flattened()].concat()
    }

    fn lamp(&mut self, special: bool) -> Vec<u32> {
        match self.of(&KINDS) {
            Kind::Point => self.point(special),
            Kind::Spot => self.spot(special),
            Kind::Group => {
                let count = self.of(&[1, 1, 2, 2, 3, 4, 6]);
                self.group_of(special, count)
            }
        }
    }

    /// A lamp of a kind as a scene has them; a group of two triangles.
    pub fn usual_lamp(&mut self, kind: Kind) -> Vec<u32> {
        match kind {
            Kind::Point => self.point(false),
            Kind::Spot => self.spot(false),
            Kind::Group => self.usual_group(2),
        }
    }

    pub fn usual_group(&mut self, count: u32) -> Vec<u32> {
        let one = 1f32.to_bits();
        let mut group = vec![head(Kind::Group), one, one, self.below(2) as u32, count];
        (0..count).for_each(|_| group.extend(self.triangle(false)));
        group
    }

    /// One figure made unfit: a power, a place, a direction, a cosine, an area, or all triangles taken away.
    fn unfit(&mut self, lamp: &mut Vec<u32>) {
        let kind = KINDS[(lamp[0] >> 30) as usize - 1];
        let triangles = (lamp.len() / TRIANGLE) as u64;
        let triangle = 5 + TRIANGLE * self.below(triangles) as usize;
        let (position, direction, power) = match kind {
            Kind::Point => (1, 1, 4),
            Kind::Spot => (1, 4, 7),
            Kind::Group => (triangle, triangle + 10, 1),
        };
        let not_finite = self.of(&UNFIT);
        let what = if kind == Kind::Group && triangles == 0 { 0 } else { self.below(5) };
        match what {
            0 => {
                lamp[power + self.below(2) as usize] = self.of(&[not_finite, (-1f32).to_bits(), (-SMALLEST).to_bits()])
            }
            1 => {
                let axis = self.below(3) as usize;
                let corners = if kind == Kind::Group { 3 } else { 1 };
                (0..corners).for_each(|i| lamp[position + 3 * i + axis] = not_finite);
            }
            2 => {
                let small = self.of(&[0.0, -0.0, 1e-30, SMALLEST, 2e-23, 2e19, 3e38]).to_bits();
                lamp[direction..direction + 3].fill(self.of(&[small, not_finite]));
            }
            3 if kind == Kind::Group => lamp[triangle + 9] = self.of(&[not_finite, 0, 1 << 31, (-1f32).to_bits()]),
            3 if kind == Kind::Spot => {
                lamp[9 + self.below(2) as usize] = self.of(&[not_finite, ABOVE_1.to_bits(), 0xc000_0000])
            }
            4 if kind == Kind::Group => {
                lamp.truncate(5);
                lamp[4] = 0;
            }
            _ => {
                let place = 1 + self.below(if kind == Kind::Group { 2 } else { lamp.len() as u64 - 1 }) as usize;
                lamp[place] = self.bits() as u32;
            }
        }
    }

    /// How many lamps: mostly few, at most 64, now and then 512 or as many as there may be.
    fn lamps(&mut self) -> u64 {
        match self.below(10_000) {
            0 => return MOST_LAMPS as u64,
            1..=5 => return 512,
            _ => {}
        }
        match self.below(16) {
            0 => self.below(2),
            1..=11 => 1 + self.below(4),
            12..=14 => self.below(16),
            _ => self.below(65),
        }
    }

    /// So many lamps: all usual; or one of them special or unfit; or, where they are few, all special.
    fn scene(&mut self, count: u64) -> Vec<Vec<u32>> {
        let all = count <= 4 && self.chance(4);
        let mut lamps: Vec<Vec<u32>> = (0..count).map(|_| self.lamp(all)).collect();
        if count > 0 && self.chance(2) {
            let place = self.below(count) as usize;
            lamps[place] = self.lamp(true);
            // two figures or three, so that the order of the checks shows
            let times = self.of(&[0, 0, 0, 1, 2, 3]);
            (0..times).for_each(|_| self.unfit(&mut lamps[place]));
        }
        lamps
    }

    /// A layout made wrong, or at least not surely right, at a head, a side, a triangle count, word 0 or the end.
    fn ragged(&mut self, list: &mut Vec<u32>, lamps: &[Vec<u32>]) {
        let starts: Vec<usize> =
            lamps.iter().scan(1, |at, lamp| Some(std::mem::replace(at, *at + lamp.len()))).collect();
        let bit = 1 << self.below(32);
        let groups: Vec<usize> = (0..starts.len()).filter(|place| list[starts[*place]] >> 30 == 3).collect();
        match self.below(10) {
            0 if !starts.is_empty() => list[self.of(&starts)] ^= bit,
            1 if !starts.is_empty() => {
                let at = self.of(&starts);
                list[at] = list[at] & 0x3fff_ffff | (self.below(4) as u32) << 30;
            }
            2 if !starts.is_empty() => {
                let (at, any) = (self.of(&starts), self.bits() as u32);
                let handle = self.of(&[list[at] + 1, starts.len() as u32, any]);
                list[at] = list[at] & 0xc000_0000 | handle & 0x3fff_ffff;
            }
            3 if !groups.is_empty() => list[starts[self.of(&groups)] + 3] = self.of(&[2, 3, bit, u32::MAX]),
            4 if !groups.is_empty() => {
                let place = self.of(&groups);
                let at = starts[place];
                let [count, rest] = [list[at + 4], (list.len() - at - 5) as u32];
                list[at + 4] =
                    self.of(&[count + 1, count.wrapping_sub(1), count ^ bit, u32::MAX, u32::MAX / 13, rest / 13]);
                if self.chance(3) {
                    list[0] = place as u32 + 1;
                    list[at + 4] = wrapping_count(rest);
                }
            }
            5 => {
                let count = list[0];
                list[0] = self.of(&[count + 1, count.wrapping_sub(1), count ^ bit, 4096, 4097, u32::MAX]);
            }
            6 => list.truncate(self.below(list.len() as u64 + 1) as usize),
            7 => (0..1 + self.below(14)).for_each(|_| list.push(self.bits() as u32)),
            8 => list.truncate(list.len() - 1),
            _ => {
                let place = self.below(list.len() as u64) as usize;
                list[place] ^= bit;
            }
        }
    }

    /// How many words are lent where so many are needed: as many, more, one less, fewer, or none.
    pub fn room(&mut self, reserve: usize) -> usize {
        match self.below(32) {
            0 => 0,
            1 => self.below(reserve as u64 + 1) as usize,
            2 | 3 => reserve.saturating_sub(1),
            4..=11 => reserve + 1 + self.below(40) as usize,
            _ => reserve,
        }
    }

    pub fn list_case(&mut self) -> Case {
        let count = self.lamps();
        let lamps = self.scene(count);
        let mut list = list_of(lamps.iter().cloned());
        if self.chance(5) {
            self.ragged(&mut list, &lamps);
        }
        if self.chance(4000) {
            list.resize(MOST_WORDS + self.below(3) as usize, 0);
        }
        Case { room: self.room(1 + BLOCK_RECORD * count as usize), list }
    }
}
