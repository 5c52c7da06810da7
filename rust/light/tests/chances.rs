//! All chances by name at once are those that are asked for lamp by lamp, bit for bit.

mod common;

use light::bench::Place;
use light::chances::Chances;
use light::room::Room;

/// Counts of chances above 0, of those that are 0, of those that are not finite, and of refusals.
type Kinds = [usize; 4];

/// Compares both ways at some benches.
fn compare(room: &str, benches: &[[f32; 6]]) -> Kinds {
    let room = Room::read("room", room.as_bytes()).ok().unwrap();
    let tree = room.tree().ok().unwrap();
    let chances = Chances::of(&tree);
    let mut kinds = [0; 4];
    for [x, y, z, nx, ny, nz] in benches {
        let place = Place { p: [*x, *y, *z], n: [*nx, *ny, *nz] };
        let all: Vec<_> = chances.all(place).collect();
        assert_eq!(all.len(), tree.powered());
        for (handle, chance) in all {
            let named = tree.pmf(place.p, place.n, handle);
            assert_eq!(chance.map(bits), named.map(bits), "lamp {handle} at {place:?}");
            kinds[named.map_or(3, |named| if !named.is_finite() { 2 } else { usize::from(named == 0.0) })] += 1;
        }
    }
    kinds
}

/// Every NaN is one.
fn bits(figure: f32) -> u32 {
    if figure.is_nan() { f32::NAN.to_bits() } else { figure.to_bits() }
}

/// Numbers from 0 to 1 that look drawn.
struct Random(u64);

impl Random {
    fn next(&mut self) -> f32 {
        self.0 = self.0.wrapping_mul(6_364_136_223_846_793_005).wrapping_add(1_442_695_040_888_963_407);
        (self.0 >> 40) as f32 / (1 << 24) as f32
    }
}

#[test]
fn rooms() {
    let mut random = Random(7);
    let mut kinds = [0; 4];
    for lamps in [0, 1, 2, 3, 10, 100, 1000] {
        let mut figure = || random.next();
        let mut room = String::new();
        for _ in 0..lamps {
            let [x, y, z, power] = [figure(), figure(), figure(), (figure() * 8.0).floor()];
            room += &match (figure() * 3.0) as u32 {
                0 => format!("point {x} {y} {z} {power} 1\n"),
                1 => format!("spot {x} {y} {z} {} {} -1 {power} 1 0.9 0.8\n", figure(), figure()),
                _ => format!("group {power} 1 one | {x} {y} {z} {} {y} {z} {x} {} {z} - -\n", x + 0.1, y + 0.1),
            };
        }
        let benches: Vec<[f32; 6]> =
            (0..20).map(|at| [figure(), figure(), figure(), 0.0, 0.0, [0.0, 1.0, -1.0][at % 3]]).collect();
        let found = compare(&room, &benches);
        kinds = [0, 1, 2, 3].map(|kind| kinds[kind] + found[kind]);
    }
    assert!(kinds[0] > 1000 && kinds[1] > 1000, "{kinds:?}");
}

#[test]
fn infinite_and_refused() {
    let pair = |a: &str, b: &str, x: u32| format!("point 0 0 0 {a} 1\npoint {x} 0 0 {b} 1\n");
    let (near, between) = ([0.0, 0.0, 0.001, 0.0, 0.0, 0.0], [1.0, 0.0, 0.0, 0.0, 0.0, 0.0]);
    let mut nans = 0;
    for (a, b, x) in
        [("2.387e37", "1", 2), ("2.387e37", "2.387e37", 2), ("1", "2.387e37", 0), ("2.387e37", "2.387e37", 0)]
    {
        nans += compare(&pair(a, b, x), &[near, between])[2];
    }
    assert!(nans > 0);
    let room: String =
        ["0 2", "5 2", "4 1", "5 1", "2 2", "0 0"].iter().map(|place| format!("point {place} 0 1 1\n")).collect();
    let centre = [5.0, 1.5, 0.0, 0.0, 0.0, 0.0];
    let kinds = compare(&room, &[centre, [f32::NAN; 6]]);
    assert!(kinds[0] > 0 && kinds[3] > 6, "{kinds:?}");
    let laboratory = std::fs::read_to_string(format!("{}/laboratory.txt", common::EXAMPLES)).unwrap();
    assert!(compare(&laboratory, &[[10.0, 6.0, 0.9, 0.0, 0.0, 1.0]])[1] > 0);
}
