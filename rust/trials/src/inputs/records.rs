//! Records and queries for the runs: random, degenerate and damaged, as words.

use crate::inputs::random::Random;
pub use crate::inputs::random::Vector;

/// Box min 3, max 3, direction 3, phi, cos_theta_o, cos_theta_e, side.
pub type Record = [u32; 13];
/// Point 3, normal 3.
pub type Query = [u32; 6];

pub(crate) const SMALLEST: f32 = f32::from_bits(1);
const BELOW_1: f32 = f32::from_bits(0x3f7f_ffff);
pub(crate) const ABOVE_1: f32 = f32::from_bits(0x3f80_0001);
/// Three NaN patterns, then the infinities.
pub(crate) const UNFIT: [u32; 5] = [0x7fc0_0000, 0xffc0_0001, 0x7f80_0001, 0x7f80_0000, 0xff80_0000];

pub(crate) fn bits(v: Vector) -> [u32; 3] {
    v.map(f32::to_bits)
}

pub fn query_at(p: Vector, n: Vector) -> Query {
    let mut query = [0; 6];
    query[..3].copy_from_slice(&bits(p));
    query[3..].copy_from_slice(&bits(n));
    query
}

/// A query's point and its normal.
pub fn vectors(query: &Query) -> [Vector; 2] {
    [0, 3].map(|from| [0, 1, 2].map(|i| f32::from_bits(query[from + i])))
}

fn scaled(v: Vector, k: f32) -> Vector {
    v.map(|x| x * k)
}

impl Random {
    /// One of few places, so that boxes and points often meet; or any within some size.
    pub(crate) fn coordinate(&mut self) -> f32 {
        let size = self.of(&[1.0, 10.0, 1000.0]);
        match self.below(12) {
            0..=3 => self.of(&[0.0, 1.0, 2.0, -1.0, -0.0, 0.5]),
            4 => {
                let far = self.of(&[1e-40, 1e-20, 1e10, 1e18, 1e19, 1e20, 3e38, f32::MAX]);
                self.within(far)
            }
            5 => self.of(&[f32::MAX, -f32::MAX, SMALLEST, -SMALLEST, 1e-23]),
            _ => self.within(size),
        }
    }

    /// A point box, one flat along some axes, or any; min at most max.
    pub(crate) fn bounds(&mut self) -> (Vector, Vector) {
        let calm = !self.chance(3);
        let mut corner = || [(); 3].map(|()| if calm { self.within(4.0) } else { self.coordinate() });
        let (a, b) = (corner(), corner());
        let flat = self.of(&[0u32, 0, 0, 1, 2, 4, 3, 7, 7, 7]);
        let ends = |i: usize| if flat >> i & 1 == 1 { (a[i], a[i]) } else { (a[i].min(b[i]), a[i].max(b[i])) };
        ([0, 1, 2].map(|i| ends(i).0), [0, 1, 2].map(|i| ends(i).1))
    }

    pub(crate) fn unit(&mut self) -> Vector {
        let v = self.vector(1.0);
        let length = v.iter().map(|x| x * x).sum::<f32>().sqrt();
        if length > 0.0 { scaled(v, 1.0 / length) } else { [0.0, 0.0, 1.0] }
    }

    /// Mostly of length 1; else 40, small, so small that its square is 0 or nearly, or so large that it is not finite.
    pub(crate) fn direction(&mut self) -> Vector {
        let axes = [[1.0, 0.0, 0.0], [0.0, 1.0, 0.0], [0.0, 0.0, 1.0], [0.0, 0.0, -1.0], [-1.0, 0.0, -0.0]];
        let v = if self.chance(3) { self.of(&axes) } else { self.unit() };
        if self.chance(6) {
            scaled(v, self.of(&[40.0, 2.0, 1.5, 0.5, 1e-3, 1e-20, 1e-22, 4e-23, 1e18, 1e19, 1e20, 3e38]))
        } else {
            v
        }
    }

    pub(crate) fn cosine(&mut self) -> f32 {
        match self.below(3) {
            0 => self.of(&[-1.0, -0.0, 0.0, 1.0, 0.5, -0.5, BELOW_1, -BELOW_1, SMALLEST]),
            _ => self.within(1.0),
        }
    }

    pub(crate) fn phi(&mut self) -> f32 {
        match self.below(6) {
            0 => self.of(&[0.0, -0.0, SMALLEST, 1e-40, f32::MIN_POSITIVE, 1e30, f32::MAX]),
            1 => 1.0,
            _ => self.within(100.0).abs(),
        }
    }

    /// A record that passes its check, but for a direction too small.
    pub(crate) fn sound(&mut self) -> Record {
        let (min, max) = self.bounds();
        let rest = [self.phi(), self.cosine(), self.cosine()];
        let mut record = [0; 13];
        let vectors = [min, max, self.direction(), rest];
        record.iter_mut().zip(vectors.concat()).for_each(|(word, figure)| *word = figure.to_bits());
        record[12] = self.below(2) as u32;
        record
    }

    /// One word or more made unfit: any place not finite, ends of a box exchanged, no direction, a power or a
    /// cosine out of range, an unknown side, or any bits.
    pub(crate) fn damage(&mut self, record: &mut Record) {
        let axis = self.below(3) as usize;
        match self.below(8) {
            0 | 1 => record[self.below(12) as usize] = self.of(&UNFIT),
            2 => {
                record[axis] = (f32::from_bits(record[axis + 3]) + self.of(&[1.0, 1e10])).to_bits();
            }
            3 => {
                let small = self.of(&[0.0, -0.0, 1e-30, SMALLEST, 2e-23]);
                record[6..9].fill(small.to_bits());
            }
            4 => record[9] = self.of(&[-1.0, -SMALLEST, -f32::MAX]).to_bits(),
            5 => record[10 + self.below(2) as usize] = self.of(&[ABOVE_1, -ABOVE_1, 2.0, f32::MAX]).to_bits(),
            6 => {
                record[self.below(12) as usize] = self.bits() as u32;
                if self.chance(8) {
                    record[12] = self.of(&[2, 3, 0x100, 0x8000_0000, u32::MAX]);
                }
            }
            _ => {
                self.damage(record);
                self.damage(record);
            }
        }
    }

    /// A record as a scene has them: a small box or a point, a direction of length 1, a power above 0.
    pub fn usual(&mut self) -> Record {
        let mut record = self.sound();
        let low = self.vector(4.0);
        let size = if self.chance(3) { 0.0 } else { 2.0 };
        let high = low.map(|x| x + self.within(size).abs());
        let cones = [1.0 + self.within(1.0), self.within(1.0), self.within(1.0)];
        record[..3].copy_from_slice(&bits(low));
        record[3..6].copy_from_slice(&bits(high));
        record[6..9].copy_from_slice(&bits(self.unit()));
        record[9..12].copy_from_slice(&bits(cones));
        record
    }

    /// A point among such records, and a normal of length 1.
    pub fn usual_query(&mut self) -> Query {
        query_at(self.vector(8.0), self.unit())
    }

    /// One in forty of any bits but for the side, one in twelve damaged.
    pub fn record(&mut self) -> Record {
        let mut record = self.sound();
        if self.chance(40) {
            record[..12].fill_with(|| self.bits() as u32);
        }
        if self.chance(12) {
            self.damage(&mut record);
        }
        record
    }

    /// Two records: apart, or the second like the first in its axis (the same, opposite, longer, nearly so) or in all.
    pub fn pair(&mut self) -> [Record; 2] {
        let first = self.record();
        let axis = [6, 7, 8].map(|i| f32::from_bits(first[i]));
        let near = self.of(&[1e-7, 1e-4, 1e-2]);
        let like = match self.below(10) {
            0 => axis,
            1 => scaled(axis, -1.0),
            2 => scaled(axis, self.of(&[2.0, 0.5, -2.0, 40.0, 1.5, -0.9])),
            3 => axis.map(|x| x + self.within(near)),
            4 => axis.map(|x| -x + self.within(near)),
            5 => return [first, first],
            _ => return [first, self.record()],
        };
        let mut second = self.record();
        second[6..9].copy_from_slice(&bits(like));
        [first, second]
    }

    /// A point about the record's box, and a normal.
    pub fn query(&mut self, record: &Record) -> Query {
        let (min, max) = ([0, 1, 2].map(|i| f32::from_bits(record[i])), [3, 4, 5].map(|i| f32::from_bits(record[i])));
        let center = [0, 1, 2].map(|i| (min[i] + max[i]) * 0.5);
        let near = self.of(&[1e-7, 1e-3, 1.0, 10.0, 1000.0]);
        let point = match self.below(12) {
            0 => center,
            1 => self.of(&[min, max]),
            2 | 3 => [0, 1, 2].map(|i| min[i] + (max[i] - min[i]) * self.within(1.0).abs()),
            4..=8 => [0, 1, 2].map(|i| center[i] + self.within(near)),
            9 => [0, 1, 2].map(|i| center[i] + f32::from_bits(record[6 + i]) * near),
            _ => [(); 3].map(|()| self.coordinate()),
        };
        let normal = match self.below(8) {
            0 => [0.0; 3],
            1 => self.of(&[
                [-0.0; 3],
                [1e-30; 3],
                [2e-23; 3],
                [1e-22; 3],
                [0.0, 0.0, SMALLEST],
                [1e19; 3],
                [2e19; 3],
                [3e38; 3],
            ]),
            2 => self.direction(),
            3 => self.vector(100.0),
            _ => self.unit(),
        };
        let mut query = [0; 6];
        query[..3].copy_from_slice(&bits(point));
        query[3..].copy_from_slice(&bits(normal));
        if self.chance(24) {
            let any = self.bits() as u32;
            query[self.below(6) as usize] = self.of(&[f32::NAN.to_bits(), 0x7f80_0000, 0xff80_0000, 0xffff_ffff, any]);
        }
        query
    }

    /// An argument of cos, sin, acos or asin: mostly where they are numbers, often by an end or by a half.
    pub fn angle(&mut self) -> u32 {
        match self.below(8) {
            0 => self.bits() as u32,
            1 | 2 => self.within(8.0).to_bits(),
            3 => {
                let beside = self.below(9) as i32 - 4;
                let end = self.of(&[0.5f32, 1.0, 8.0, std::f32::consts::PI, std::f32::consts::FRAC_PI_2, 1e-4]);
                end.to_bits().wrapping_add_signed(beside) | (self.below(2) as u32) << 31
            }
            _ => self.within(1.0).to_bits(),
        }
    }
}
