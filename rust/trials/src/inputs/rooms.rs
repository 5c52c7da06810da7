//! Offices for the benchmarks: lamps as a lighting plan has them, and the points that they light. Metres,
//! lumens, candelas; z is up.

use crate::inputs::lists::{BLOCK_RECORD, Kind, head, list_of};
use crate::inputs::random::Random;
use crate::inputs::records::{Query, Vector, bits, query_at};
use std::f32::consts::PI;

/// One lamp to a square of this side.
const PITCH: f32 = 2.4;
const CEILING: f32 = 2.8;
const PENDANT: f32 = 2.2;
const BENCH: f32 = 0.75;
const DESK_LAMP: f32 = 1.15;
const DOWN: Vector = [0.0, 0.0, -1.0];

/// Half the angle of a spot's full beam, half of all its light's, both in degrees, and the candelas of the beam.
type Beam = [f32; 3];
const BEAMS: [Beam; 3] = [[12.0, 18.0, 1800.0], [18.0, 26.0, 1000.0], [30.0, 40.0, 450.0]];
const WASH: Beam = [30.0, 45.0, 900.0];

/// An office: its lamps as a list, and its floor, from the corner (0, 0) to this one.
pub struct Room {
    pub list: Vec<u32>,
    floor: [f32; 2],
}

impl Room {
    /// So many lamps over a floor that grows with them, half as long again as it is wide.
    pub fn new(random: &mut Random, lamps: usize) -> Room {
        let columns = ((1.5 * lamps as f32).sqrt().ceil() as usize).max(1);
        let rows = lamps.div_ceil(columns).max(1);
        let lamp = |place: usize| {
            let square = [place % columns, place / columns];
            let middle = square.map(|i| (i as f32 + 0.5) * PITCH);
            random.office_lamp(middle, from_wall(square, [columns, rows]))
        };
        Room { list: list_of((0..lamps).map(lamp)), floor: [columns, rows].map(|squares| squares as f32 * PITCH) }
    }

    /// Its lamps' block.
    pub fn block(&self, build: impl Fn(&[u32], &mut [u32]) -> Result<(), u32>) -> Vec<u32> {
        let mut block = vec![0; 1 + BLOCK_RECORD * self.list[0] as usize];
        build(&self.list, &mut block).expect("an office is taken");
        block
    }

    /// A point of a bench with a normal up or with none, half and half; one in eight is on a wall instead.
    pub fn query(&self, random: &mut Random) -> Query {
        let mut point = [self.floor[0], self.floor[1], CEILING].map(|end| random.within(end).abs());
        let mut normal = [0.0; 3];
        if random.chance(8) {
            let axis = random.below(2) as usize;
            (point[axis], normal[axis]) = random.of(&[(0.0, 1.0), (self.floor[axis], -1.0)]);
        } else {
            (point[2], normal[2]) = (BENCH, random.of(&[0.0, 1.0]));
        }
        query_at(point, normal)
    }
}

/// The direction away from the wall that a square of the ceiling lies at.
fn from_wall([column, row]: [usize; 2], [columns, rows]: [usize; 2]) -> Option<[f32; 2]> {
    let walls = [
        (column == 0, [1.0, 0.0]),
        (column + 1 == columns, [-1.0, 0.0]),
        (row == 0, [0.0, 1.0]),
        (row + 1 == rows, [0.0, -1.0]),
    ];
    walls.into_iter().find_map(|(here, inward)| here.then_some(inward))
}

/// A spot, dimmed to a part of its light.
fn spot(position: Vector, direction: Vector, [beam, end, candelas]: Beam, dimmed: f32) -> Vec<u32> {
    let figures = [candelas, dimmed, beam.to_radians().cos(), end.to_radians().cos()].map(f32::to_bits);
    [&[head(Kind::Spot)], &bits(position)[..], &bits(direction), &figures].concat()
}

/// A panel of two triangles that faces down, or up too where it is two-sided.
fn panel([x, y, z]: Vector, size: [f32; 2], lumens: f32, dimmed: f32, two_sided: bool) -> Vec<u32> {
    let [dx, dy] = size.map(|side| side / 2.0);
    let [a, b, c, d] = [[-dx, -dy], [dx, -dy], [dx, dy], [-dx, dy]].map(|[dx, dy]| bits([x + dx, y + dy, z]));
    let area = size[0] * size[1];
    let rest = [&[(area / 2.0).to_bits()], &bits(DOWN)[..]].concat();
    let figures = [(lumens / (PI * area)).to_bits(), dimmed.to_bits(), two_sided.into(), 2];
    [&[head(Kind::Group)], &figures[..], &a, &b, &c, &rest, &a, &c, &d, &rest].concat()
}

impl Random {
    /// The lamp of a square. At a wall every second one washes the wall with light; of the others half are
    /// panels, and the rest downlights, pendants and desk lamps.
    fn office_lamp(&mut self, [x, y]: [f32; 2], from_wall: Option<[f32; 2]>) -> Vec<u32> {
        let dimmed = self.of(&[1.0, 1.0, 0.8, 0.5]);
        if let Some([u, v]) = from_wall.filter(|_| self.chance(2)) {
            let back = PITCH / 2.0 - 0.5;
            return spot([x - u * back, y - v * back, CEILING], [-0.5 * u, -0.5 * v, -1.4], WASH, dimmed);
        }
        match self.below(8) {
            0 => {
                let desk = [x + self.within(0.7), y + self.within(0.7), DESK_LAMP];
                let candelas = self.of(&[250.0, 470.0, 806.0]) / (4.0 * PI);
                [&[head(Kind::Point)], &bits(desk)[..], &[candelas.to_bits(), dimmed.to_bits()]].concat()
            }
            1 | 2 => {
                let aim = [self.within(0.15), self.within(0.15), -1.0];
                spot([x, y, CEILING], aim, self.of(&BEAMS), dimmed)
            }
            3 => panel([x, y, PENDANT], [1.2, 0.2], 4000.0, dimmed, true),
            _ => panel([x, y, CEILING], [0.6, 0.6], 3600.0, dimmed, false),
        }
    }
}
