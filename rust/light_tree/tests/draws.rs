//! Runs of u against draws one by one, and draws from alias tables against their bins.

mod random;

use light_tree::*;
use random::Random;

type Vector = [f32; 3];

/// Mostly a small room of lamps of every kind, some without power.
fn room(random: &mut Random) -> Vec<Lamp> {
    let count = [1, 2, 3, 5, 12, 60][random.below(6)];
    let lamp = |random: &mut Random| {
        let (world_position, direction) = (random.vector(4.0), random.vector(1.0));
        let (strength, scale) = (40.0 * random.share(), [0.0, 1.0, 1.0, 1.0][random.below(4)]);
        match random.below(3) {
            0 => Lamp::Point { world_position, intensity_max: strength, scale },
            1 => {
                let cos_theta_o = random.share();
                let cos_falloff_end = cos_theta_o * random.share();
                Lamp::Spot { world_position, direction, intensity_max: strength, scale, cos_theta_o, cos_falloff_end }
            }
            _ => {
                let world_positions = [world_position, random.vector(4.0), random.vector(4.0)];
                let triangles = vec![Triangle { world_positions, area: 1.0, geometric_normal: direction }];
                Lamp::Group { triangles, emission_max: strength, scale, two_sided: random.below(2) == 0 }
            }
        }
    };
    (0..count).map(|_| lamp(random)).collect()
}

/// The lamp of a draw by a float's word, none also where the draw is refused.
fn lamp_of(tree: &LightTree, p: Vector, n: Vector, word: u32) -> Option<u32> {
    tree.sample(p, n, f32::from_bits(word)).ok().flatten().map(|(lamp, _)| lamp)
}

const ONE: u32 = 0x3f80_0000;

/// All words near either end of a run: those within it draw its lamp, the others do not. How many were without.
fn near_ends(tree: &LightTree, p: Vector, n: Vector, lamp: u32, first: u32, last: u32) -> usize {
    let words = |end: u32| end.saturating_sub(40)..=(end + 40).min(ONE);
    let near = || words(first).chain(words(last));
    near().for_each(|word| {
        let within = (first..=last).contains(&word);
        assert_eq!(lamp_of(tree, p, n, word) == Some(lamp), within, "{word:08x} in {first:08x} to {last:08x}");
    });
    near().filter(|word| !(first..=last).contains(word)).count()
}

/// In random rooms, for u all over the bar: what a u draws, every u of its run draws, and no other u that was tried.
#[test]
fn runs_by_brute_force() {
    let mut random = Random(22);
    let (mut runs, mut without, mut none) = (0, 0, 0);
    for _ in 0..150 {
        let tree = LightTree::of_lamps(&room(&mut random)).unwrap();
        let (p, n) = (random.vector(5.0), [[0.0; 3], random.vector(1.0)][random.below(2)]);
        // even over the bar, and even over its words, of which most lie close to 0
        let mut even = |i| if i % 2 == 0 { random.share().to_bits() } else { random.below(ONE as usize + 1) as u32 };
        let words: Vec<u32> = [0, ONE].into_iter().chain((0..100).map(&mut even)).collect();
        for word in &words {
            let u = f32::from_bits(*word);
            match tree.run_of(u, p, n).unwrap() {
                Some((first, last)) => {
                    let (first, last) = (first.to_bits(), last.to_bits());
                    let lamp = lamp_of(&tree, p, n, *word).unwrap();
                    assert!((first..=last).contains(word));
                    let draws_it = |other: &u32| lamp_of(&tree, p, n, *other) == Some(lamp);
                    let alike = |other: &u32| (first..=last).contains(other) == draws_it(other);
                    assert!(words.iter().all(alike), "lamp {lamp} from {first:08x} to {last:08x}");
                    without += near_ends(&tree, p, n, lamp, first, last);
                    runs += 1;
                }
                None => {
                    assert_eq!(tree.sample(p, n, u), Ok(None));
                    none += 1;
                }
            }
        }
    }
    println!("{runs} runs, {without} words tried outside near their ends, {none} of none");
    assert!(runs > 10_000 && without > 100_000 && none > 100);
}

fn bulb(x: f32, phi: f32) -> LightBounds {
    LightBounds::new(Bounds3 { min: [x, 0.0, 0.0], max: [x, 0.0, 0.0] }, phi)
}

/// The ends of the bar, -0 as 0, one lamp alone, no lamp, and a u or a point that is refused.
#[test]
fn runs_known_by_hand() {
    let pair = LightTree::build(&[bulb(0.0, 1.0), bulb(2.0, 1.0)]).unwrap();
    let (p, n) = ([1.0, 0.0, 1.0], [0.0; 3]);
    let (left, right) = ((0.0, 0.5f32.next_down()), (0.5, 1.0));
    for (u, run) in [(-0.0, left), (0.0, left), (left.1, left), (0.5, right), (1.0, right)] {
        assert_eq!(pair.run_of(u, p, n), Ok(Some(run)), "u {u}");
    }
    assert_eq!(pair.run_of(-0.0, p, n).unwrap().unwrap().0.to_bits(), 0);
    for u in [-1e-45, 1.0f32.next_up(), f32::NAN] {
        assert_eq!(pair.run_of(u, p, n), Err(Refusal::BadU), "u {u}");
    }
    assert_eq!(pair.run_of(0.5, [f32::NAN; 3], n), Err(Refusal::NotFinite));
    assert_eq!(LightTree::build(&[bulb(0.0, 1.0)]).unwrap().run_of(0.3, p, n), Ok(Some((0.0, 1.0))));
    assert_eq!(LightTree::build(&[]).unwrap().run_of(0.3, p, n), Ok(None));
}

/// A lamp beside one so weak that three floats alone draw it.
#[test]
fn run_of_three_floats() {
    let tree = LightTree::build(&[bulb(0.0, 1.0), bulb(2.0, 6e-8)]).unwrap();
    let (p, n) = ([1.0, 0.0, 1.0], [0.0; 3]);
    let first = 1.0f32.next_down().next_down();
    assert_eq!(tree.run_of(0.5, p, n), Ok(Some((0.0, first.next_down()))));
    assert_eq!(tree.run_of(1.0, p, n), Ok(Some((first, 1.0))));
}

/// A point at the centre of a box below the left branch: there each draw is refused, and the right lamp has its run.
#[test]
fn run_beside_refused_draws() {
    let tree = LightTree::build(&[bulb(0.0, 1.0), bulb(3.0, 1.0), bulb(5.0, 1.0), bulb(100.0, 1e4)]).unwrap();
    let (p, n) = ([4.0, 0.0, 0.0], [0.0; 3]);
    assert_eq!(tree.run_of(0.0, p, n), Err(Refusal::NoDirection));
    let (first, last) = tree.run_of(1.0, p, n).unwrap().unwrap();
    assert_eq!((last, tree.sample(p, n, first).unwrap().unwrap().0), (1.0, 3));
    assert_eq!(tree.sample(p, n, first.next_down()), Err(Refusal::NoDirection));
}

/// Within a bin, away from its q, its own place is drawn below and its alias above, each with its own p.
#[test]
fn alias_draws_are_the_bins() {
    let mut random = Random(4096);
    let (mut own, mut other) = (0, 0);
    for _ in 0..300 {
        let count = [1, 2, 3, 7, 64, 1000, MAX_LAMPS][random.below(7)];
        let weights: Vec<f32> = (0..count).map(|_| [0.0, 1.0, random.share(), 9.0][random.below(4)]).collect();
        let table = AliasTable::build(&weights).unwrap();
        let bins = table.bins();
        for _ in 0..200 {
            let (place, within) = (random.below(count), f64::from(random.share()));
            let u = ((place as f64 + within) / count as f64) as f32;
            let q = f64::from(bins[place].q);
            // u is rounded, and a draw rounds once more
            if (within - q).abs() < 0.001 || !(0.001..0.999).contains(&within) {
                continue;
            }
            let drawn = if within < q { place } else { bins[place].alias as usize };
            (own, other) = (own + usize::from(within < q), other + usize::from(within > q));
            assert_eq!(table.sample(u), Ok(Some((drawn as u32, bins[drawn].p))), "u {u} of {count}");
        }
    }
    assert!(own > 10_000 && other > 5_000, "{own} own, {other} aliases");
}

/// Each place is drawn by as much of the bar as its weight has of the sum.
#[test]
fn alias_draws_go_by_weight() {
    let weights = [1.0, 0.0, 3.0, 0.5, 7.0, 2.25];
    let table = AliasTable::build(&weights).unwrap();
    const DRAWS: u32 = 1 << 20;
    let mut drawn = [0u32; 6];
    for i in 0..DRAWS {
        let (place, chance) = table.sample((i as f32 + 0.5) / DRAWS as f32).unwrap().unwrap();
        assert_eq!(chance, table.bins()[place as usize].p);
        drawn[place as usize] += 1;
    }
    for (count, weight) in drawn.iter().zip(weights) {
        let (share, expected) = (f64::from(*count) / f64::from(DRAWS), f64::from(weight) / 13.75);
        assert!((share - expected).abs() < 1e-5, "{share} for {expected}");
    }
    assert_eq!(drawn[1], 0);
}

/// The ends of a bin's two parts, to the last float, where no rounding is left; the ends of the bar; what is refused.
#[test]
fn alias_draws_at_ends() {
    let table = AliasTable::build(&[1.0, 3.0]).unwrap();
    let place = |u: f32| table.sample(u).map(|drawn| drawn.unwrap().0);
    let quarter = 0.25f32;
    for (u, drawn) in [(0.0, 0), (-0.0, 0), (quarter.next_down(), 0), (quarter, 1), (0.5, 1), (1.0, 1)] {
        assert_eq!(place(u), Ok(drawn), "u {u}");
    }
    for u in [-1e-45, 1.0f32.next_up(), f32::NAN, f32::INFINITY, f32::NEG_INFINITY] {
        assert_eq!(place(u), Err(Refusal::BadU), "u {u}");
        assert_eq!(AliasTable::build(&[]).unwrap().sample(u), Err(Refusal::BadU));
    }
    assert_eq!(AliasTable::build(&[]).unwrap().sample(0.5), Ok(None));
    // a full bin has no alias: what is left of u stays below its q
    for count in [1, 3, 7, 4095, MAX_LAMPS] {
        let table = AliasTable::build(&vec![1.0; count]).unwrap();
        for u in [1.0, 1.0f32.next_down()] {
            assert_eq!(table.sample(u), Ok(Some((count as u32 - 1, table.bins()[count - 1].p))));
        }
    }
    // a sum past the largest float: drawn alike, with p 0, as in pbrt-r4
    let past = AliasTable::build(&[f32::MAX, f32::MAX]).unwrap();
    assert_eq!([0.25, 0.75].map(|u| past.sample(u)), [Ok(Some((0, 0.0))), Ok(Some((1, 0.0)))]);
}
