//! Random rooms: what the crate `light_tree` answers against what the C functions answer to words that are
//! laid out here once more, and pbrt-r4's names against the crate's own.

use light_tree::pbrt::{self, LightBoundInput};
use light_tree::{AliasTable, Lamp, LightTree, Refusal, Triangle, bounds_block, lamp_list};
use trials::inputs::random::Random;
use trials::inputs::records::{Vector, query_at};
use trials::inputs::trees::{built, lent, reserves};
use trials::inputs::walks::bytes;
use trials::proved::{
    NUMBERS, alias_build_power_alias_table, lamps_build_light_bounds, packed_by_value, sampler_pmf, sampler_sample,
    tree_build_light_bvh,
};
use trials::stored::PATTERN;

/// Mostly a number within a size, now and then one that is special.
fn figure(random: &mut Random, size: f32) -> f32 {
    const SPECIAL: [f32; 10] = [0.0, -0.0, 1.0, -1.0, 1e-45, 3e38, -1e30, f32::NAN, f32::INFINITY, f32::NEG_INFINITY];
    match random.below(60) {
        0 => SPECIAL[random.below(10) as usize],
        _ => random.within(size),
    }
}

fn vector(random: &mut Random, size: f32) -> Vector {
    [(); 3].map(|()| figure(random, size))
}

fn lamp(random: &mut Random) -> Lamp {
    let scale = [0.0, 0.5, 1.0, 1.0, 1.0][random.below(5) as usize];
    let strength = figure(random, 40.0);
    let strength = if random.below(30) == 0 { strength } else { strength.abs() };
    match random.below(3) {
        0 => Lamp::Point { world_position: vector(random, 8.0), intensity_max: strength, scale },
        1 => Lamp::Spot {
            world_position: vector(random, 8.0),
            direction: vector(random, 1.0),
            intensity_max: strength,
            scale,
            cos_theta_o: figure(random, 1.0),
            cos_falloff_end: figure(random, 1.0),
        },
        _ => {
            let count = random.below(5).max(random.below(20).min(1));
            let triangles = (0..count).map(|_| Triangle {
                world_positions: [(); 3].map(|()| vector(random, 8.0)),
                area: figure(random, 1.0).abs(),
                geometric_normal: vector(random, 1.0),
            });
            Lamp::Group { triangles: triangles.collect(), emission_max: strength, scale, two_sided: count % 2 == 1 }
        }
    }
}

fn words(figures: &[&[f32]]) -> Vec<u32> {
    figures.concat().iter().map(|figure| figure.to_bits()).collect()
}

/// The list of lamps, as `include/light_tree.h` tells it.
fn list_of(lamps: &[Lamp]) -> Vec<u32> {
    let mut list = vec![lamps.len() as u32];
    for (handle, lamp) in (0..).zip(lamps) {
        match lamp {
            Lamp::Point { world_position, intensity_max, scale } => {
                list.push(0x4000_0000 | handle);
                list.extend(words(&[world_position, &[*intensity_max, *scale]]));
            }
            Lamp::Spot { world_position, direction, intensity_max, scale, cos_theta_o, cos_falloff_end } => {
                list.push(0x8000_0000 | handle);
                list.extend(words(&[
                    world_position,
                    direction,
                    &[*intensity_max, *scale, *cos_theta_o, *cos_falloff_end],
                ]));
            }
            Lamp::Group { triangles, emission_max, scale, two_sided } => {
                list.push(0xc000_0000 | handle);
                list.extend(words(&[&[*emission_max, *scale]]));
                list.extend([u32::from(*two_sided), triangles.len() as u32]);
                for Triangle { world_positions: [a, b, c], area, geometric_normal } in triangles {
                    list.extend(words(&[a, b, c, &[*area], geometric_normal]));
                }
            }
            other => panic!("no words for {other:?}"),
        }
    }
    list
}

fn input_of((handle, lamp): (u32, &Lamp)) -> LightBoundInput {
    match lamp.clone() {
        Lamp::Point { world_position, intensity_max, scale } => {
            LightBoundInput::Point { handle, world_position, intensity_max, scale }
        }
        Lamp::Spot { world_position, direction, intensity_max, scale, cos_theta_o, cos_falloff_end } => {
            LightBoundInput::Spot {
                handle,
                world_position,
                direction,
                intensity_max,
                scale,
                cos_theta_o,
                cos_falloff_end,
            }
        }
        Lamp::Group { triangles, emission_max, scale, two_sided } => {
            LightBoundInput::AreaGroup { handle, triangles, emission_max, scale, two_sided }
        }
        other => panic!("pbrt-r4 has no {other:?}"),
    }
}

/// The refusal of a number.
fn named(number: u32) -> Refusal {
    Refusal::from_number(number).unwrap()
}

/// A tree as the C functions see it.
struct Built {
    nodes: Vec<u8>,
    table: Vec<u32>,
    k: usize,
    all: Option<[u32; 6]>,
}

fn build(block: &[u32]) -> Result<Built, u32> {
    let mut trays = reserves(block[0] as usize).map(|reserve| vec![PATTERN; reserve]);
    tree_build_light_bvh(block[0], block, lent(&mut trays))?;
    let [mut nodes, table, _, answer] = trays;
    let (k, all) = built(&answer);
    nodes.truncate(reserves(k as usize)[0]);
    Ok(Built { nodes: bytes(&nodes), table, k: k as usize, all })
}

/// The crate's tree against the C functions', with draws, chances and packing; and pbrt-r4's names. How many
/// draws gave a lamp.
fn compare(random: &mut Random, tree: &LightTree, bvh: &pbrt::LightBVH, built: &Built) -> usize {
    let Built { nodes, table, k, all } = built;
    assert_eq!((tree.node_bytes(), tree.handle_to_leaf(), tree.powered()), (&nodes[..], &table[..], *k));
    assert_eq!((&bvh.nodes, &bvh.handle_to_leaf), (&tree.nodes().collect(), table));
    assert_eq!((bvh.all_bounds, &bvh.bounded_handles), (tree.all_bounds(), &tree.bounded_handles().collect()));
    assert_eq!((bvh.bounded_handles.len(), bvh.all_bounds.is_some()), (*k, *k > 0));
    let corners = tree.all_bounds().map(|all| words(&[&all.min, &all.max]).try_into().unwrap());
    assert_eq!(&corners, all);
    let drawn = (0..20).filter(|_| walks(random, tree, bvh, built)).count();

    let mut out = vec![0xab; if nodes.is_empty() { 0 } else { 32 + nodes.len() / 2 }];
    let expected = packed_by_value(nodes, *k, u32::from(*k > 0), all.unwrap_or_default(), &mut out);
    let packed = tree.pack();
    assert_eq!(packed, pbrt::pack_light_bvh(bvh));
    assert_eq!(
        packed.as_ref().map(|packed| packed.as_ref().map(|_| 8 + 8 * tree.len())),
        expected.map_err(named).as_ref().copied()
    );
    if let Ok(Some(packed)) = packed {
        assert_eq!(bytes(&[&packed.header_words[..], packed.node_words.as_flattened()].concat()), out);
        assert_eq!(&packed.handle_to_leaf[..], tree.handle_to_leaf());
    }
    drawn
}

/// A draw, and the chance of the lamp that it gives or of any; whether it gives one.
fn walks(random: &mut Random, tree: &LightTree, bvh: &pbrt::LightBVH, Built { nodes, table, .. }: &Built) -> bool {
    let (p, n) = (vector(random, 10.0), if random.below(3) == 0 { [0.0; 3] } else { vector(random, 1.0) });
    let u = if random.below(20) == 0 { figure(random, 1.0) } else { random.share() };
    let expected = sampler_sample(nodes, &query_at(p, n), u).map_err(named);
    let bits = |draw: Option<(u32, f32)>| draw.map(|(lamp, chance)| (lamp, chance.to_bits()));
    assert_eq!(tree.sample(p, n, u).map(bits), expected);
    assert_eq!(pbrt::bvh_light_sampler_sample(bvh, p, n, u).map(bits), expected);
    let drawn = expected.ok().flatten().map(|(lamp, _)| lamp);
    let handle = drawn.unwrap_or_else(|| random.below(tree.lamps() as u64 + 2) as u32);
    let expected = sampler_pmf(nodes, &bytes(table), &query_at(p, n), handle).map_err(named);
    assert_eq!(tree.pmf(p, n, handle).map(f32::to_bits), expected);
    assert_eq!(pbrt::bvh_light_sampler_pmf(bvh, p, n, handle).map(f32::to_bits), expected);
    drawn.is_some()
}

#[test]
fn rooms() {
    let mut random = Random::new(1);
    let (mut refused, mut lost, mut trees, mut drawn) = ([0; NUMBERS], [0; NUMBERS], 0, 0);
    for _ in 0..20_000 {
        let count = random.below(4) + random.below(4) * random.below(8);
        let lamps: Vec<Lamp> = (0..count).map(|_| lamp(&mut random)).collect();
        let inputs: Vec<LightBoundInput> = (0..).zip(&lamps).map(input_of).collect();
        let (list, mut block) = (list_of(&lamps), vec![PATTERN; 1 + 14 * lamps.len()]);
        let answer = lamps_build_light_bounds(&list, &mut block);
        refused[answer.err().unwrap_or(0) as usize] += 1;
        assert_eq!(lamp_list(&lamps).unwrap(), list);
        let ours = bounds_block(&lamps);
        if let Err(number) = answer {
            assert_eq!(ours, Err(named(number)));
            assert_eq!(pbrt::build_light_bounds(&inputs), Err(named(number)));
            assert_eq!(LightTree::of_lamps(&lamps), Err(named(number)));
            continue;
        }
        let ours = ours.unwrap();
        assert_eq!(ours.words(), block);
        let bounds: Vec<_> = ours.records().collect();
        // a NaN is not equal to itself, its words are
        assert_eq!(pbrt::pack_exhaustive_bounds(&pbrt::build_light_bounds(&inputs).unwrap()).unwrap(), block);
        let tree = LightTree::from_block(&block);
        match build(&block) {
            Ok(built) => {
                let tree = tree.unwrap();
                let again = LightTree::build(&bounds).unwrap();
                assert_eq!((again.node_bytes(), again.handle_to_leaf()), (tree.node_bytes(), tree.handle_to_leaf()));
                drawn += compare(&mut random, &tree, &pbrt::build_light_bvh(&lamps, &bounds).unwrap(), &built);
                trees += 1;
            }
            Err(number) => {
                lost[number as usize] += 1;
                assert_eq!(tree, Err(named(number)));
                assert_eq!(LightTree::build(&bounds), Err(named(number)));
            }
        }
    }
    println!("blocks refused {refused:?}, trees refused {lost:?}, {trees} built, {drawn} lamps drawn");
    assert!([0, 5, 7, 8, 9].iter().all(|number| refused[*number] > 0), "{refused:?}");
    assert!(trees > 1000 && drawn > 10_000, "{trees} trees, {drawn} drawn");
}

#[test]
fn weights() {
    let mut random = Random::new(7);
    for _ in 0..20_000 {
        let count = random.below(4) + random.below(4) * random.below(12);
        let weights: Vec<f32> =
            (0..count).map(|_| if random.below(40) == 0 { figure(&mut random, 1.0) } else { random.share() }).collect();
        let (mut bins, mut work) = (vec![PATTERN; 3 * weights.len()], vec![PATTERN; 4 * weights.len()]);
        let answer = alias_build_power_alias_table(&words(&[&weights]), &mut bins, &mut work);
        let table = AliasTable::build(&weights).map(|table| -> Vec<u32> {
            table.bins().iter().flat_map(|bin| [bin.q.to_bits(), bin.p.to_bits(), bin.alias]).collect()
        });
        assert_eq!(table, answer.map(|()| bins).map_err(named));
    }
}
