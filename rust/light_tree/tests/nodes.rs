//! Nodes by themselves: what one fork weighs makes up the chances by name, and words draw as the tree does.

mod random;

use light_tree::*;
use random::Random;

/// A room of points and of narrow spots, some of which turn away from a bench.
fn room(random: &mut Random, lamps: usize) -> LightTree {
    let lamp = |at| match at % 3 {
        0 => Lamp::Point { world_position: random.vector(8.0), intensity_max: random.share(), scale: 1.0 },
        _ => Lamp::Spot {
            world_position: random.vector(8.0),
            direction: random.vector(4.0),
            intensity_max: 1.0,
            scale: random.share(),
            cos_theta_o: 0.95,
            cos_falloff_end: 0.9,
        },
    };
    LightTree::of_lamps(&(0..lamps).map(lamp).collect::<Vec<_>>()).unwrap()
}

fn words(tree: &LightTree) -> Vec<u32> {
    tree.node_bytes().as_chunks().0.iter().map(|bytes| u32::from_le_bytes(*bytes)).collect()
}

/// The chance by name, of the forks' shares from the leaf up; a fork without weight ends it with 0.
fn product(tree: &LightTree, p: [f32; 3], n: [f32; 3], handle: u32) -> f32 {
    let mut place = tree.handle_to_leaf()[handle as usize];
    let mut chance = 1.0;
    loop {
        let above = tree.node(place as usize).unwrap().parent();
        if above == INVALID_INDEX {
            return chance;
        }
        let Some([left, right]) = tree.shares(p, n, above as usize).unwrap() else { return 0.0 };
        chance *= if place == above + 1 { left } else { right };
        place = above;
    }
}

#[test]
fn chances_are_products_of_shares() {
    let mut random = Random(22);
    let (mut some, mut none) = (0, 0);
    for lamps in 2..40 {
        let tree = room(&mut random, lamps);
        let (p, n) = (random.vector(8.0), if lamps % 2 == 0 { [0.0; 3] } else { random.vector(4.0) });
        for handle in tree.bounded_handles() {
            let chance = tree.pmf(p, n, handle).unwrap();
            assert_eq!(product(&tree, p, n, handle).to_bits(), chance.to_bits(), "{lamps} lamps, lamp {handle}");
            *(if chance > 0.0 { &mut some } else { &mut none }) += 1;
        }
    }
    assert!(some > 100 && none > 100, "{some} lamps with a chance, {none} without");
}

#[test]
fn words_draw_as_the_tree() {
    let mut random = Random(23);
    let tree = room(&mut random, 30);
    let words = words(&tree);
    for _ in 0..1000 {
        let (p, u) = (random.vector(8.0), random.share());
        assert_eq!(sample_nodes(&words, p, [0.0; 3], u), tree.sample(p, [0.0; 3], u));
    }
    assert_eq!(sample_nodes(&words[1..], [0.0; 3], [0.0; 3], 0.5), Err(Refusal::Ragged));
    assert_eq!(sample_nodes(&[0; 16], [0.0; 3], [0.0; 3], 0.5), Err(Refusal::BrokenTree));
}

/// Where the weights together are infinite both shares by name are 0, and a draw goes on all the same.
#[test]
fn infinite_weights_are_no_none() {
    let bulb = |x| LightBounds::new(Bounds3 { min: [x, 0.0, 0.0], max: [x, 0.0, 0.0] }, 1e38);
    let tree = LightTree::build(&[bulb(0.0), bulb(0.5)]).unwrap();
    let (p, n) = ([0.25, 0.0, 0.6], [0.0; 3]);
    assert_eq!(tree.sample(p, n, 0.25).unwrap(), Some((1, 1.0)));
    assert_eq!(tree.shares(p, n, 0).unwrap(), Some([0.0, 0.0]));
}
