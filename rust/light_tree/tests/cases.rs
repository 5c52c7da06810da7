//! Cases known by hand: those of docs/REQUIREMENTS.md R14, limits, refusals and their sentences.

use light_tree::*;
use std::error::Error;

fn bulb(position: [f32; 3], phi: f32) -> LightBounds {
    LightBounds::new(Bounds3 { min: position, max: position }, phi)
}

/// Two bulbs of power 1 at (0, 0, 0) and (2, 0, 0).
fn pair() -> [LightBounds; 2] {
    [bulb([0.0; 3], 1.0), bulb([2.0, 0.0, 0.0], 1.0)]
}

const BETWEEN: [f32; 3] = [1.0, 0.0, 1.0];
const NO_NORMAL: [f32; 3] = [0.0; 3];
const HUGE: f32 = f32::from_bits(0x7f61_b1e6);

#[test]
fn pair_case() {
    let tree = LightTree::build(&pair()).unwrap();
    for (u, lamp) in [(0.25, 0), (0.75, 1), (1.0, 1), (-0.0, 0), (0.0, 0), (0.5, 1)] {
        assert_eq!(tree.sample(BETWEEN, NO_NORMAL, u), Ok(Some((lamp, 0.5))), "u {u}");
        assert_eq!(tree.pmf(BETWEEN, NO_NORMAL, lamp), Ok(0.5));
    }
    for u in [f32::from_bits(0x3f80_0001), -1e-45, f32::NAN, f32::INFINITY, f32::NEG_INFINITY] {
        assert_eq!(tree.sample(BETWEEN, NO_NORMAL, u), Err(Refusal::BadU), "u {u}");
    }
    assert_eq!(tree.pmf(BETWEEN, NO_NORMAL, 2), Ok(0.0));
    assert_eq!(tree.pmf(BETWEEN, NO_NORMAL, u32::MAX), Ok(0.0));
    assert_eq!((tree.lamps(), tree.powered(), tree.len(), tree.node_bytes().len()), (2, 2, 3, 192));
    assert_eq!(tree.all_bounds(), Some(Bounds3 { min: [0.0; 3], max: [2.0, 0.0, 0.0] }));

    let packed = tree.pack().unwrap().unwrap();
    assert_eq!(packed.header_words, [0, 0, 0, 0, 0x4000_0000, 0, 0, 0]);
    assert_eq!(
        packed.node_words[2],
        [0x0000_ffff, 0xffff_0000, 0, 0x8000_8000, 0x3f80_0000, 0x1fff_8000, 0x8000_0001, 0]
    );
    assert_eq!(packed.handle_to_leaf, [1, 2]);
}

/// The pair with positions exchanged: leaves stand in the order of places.
#[test]
fn pair_exchanged() {
    let [left, right] = pair();
    let tree = LightTree::build(&[right, left]).unwrap();
    assert_eq!(tree.handle_to_leaf(), [2, 1]);
    assert_eq!(tree.sample(BETWEEN, NO_NORMAL, 0.25), Ok(Some((1, 0.5))));
}

#[test]
fn three_lamps_at_one_point() {
    let tree = LightTree::build(&[bulb([1.0; 3], 1.0); 3]).unwrap();
    let leaves: Vec<usize> =
        tree.nodes().enumerate().filter(|(_, node)| node.is_leaf()).map(|(place, _)| place).collect();
    assert_eq!(leaves, [1, 3, 4]);
    assert_eq!(tree.handle_to_leaf(), [1, 3, 4]);
    assert_eq!(tree.bounded_handles().collect::<Vec<_>>(), [0, 1, 2]);
    let forks: Vec<_> = tree.nodes().map(|node| (node.right_child(), node.parent(), node.light_handle())).collect();
    let none = INVALID_INDEX;
    let expected =
        [(Some(2), none, None), (None, 0, Some(0)), (Some(4), 0, None), (None, 2, Some(1)), (None, 2, Some(2))];
    assert_eq!(forks, expected);
}

/// No lamps, and lamps without power: no nodes, so none is drawn, but u is judged.
#[test]
fn no_nodes() {
    for bounds in [vec![], vec![bulb([0.0; 3], 0.0)], vec![bulb([0.0; 3], -0.0), bulb([1.0; 3], 0.0)]] {
        let tree = LightTree::build(&bounds).unwrap();
        assert_eq!((tree.is_empty(), tree.powered(), tree.lamps(), tree.all_bounds()), (true, 0, bounds.len(), None));
        assert_eq!(tree.sample(BETWEEN, NO_NORMAL, 0.5), Ok(None));
        assert_eq!(tree.sample(BETWEEN, NO_NORMAL, f32::NAN), Err(Refusal::BadU));
        assert_eq!(tree.pmf(BETWEEN, NO_NORMAL, 0), Ok(0.0));
        assert_eq!(tree.pack(), Ok(None));
        assert_eq!(tree.nodes().len(), 0);
    }
}

/// A lone lamp is drawn unweighed, and the lamps without power beside it never.
#[test]
fn lone_lamp() {
    let tree = LightTree::build(&[bulb([0.0; 3], 0.0), bulb([1.0; 3], 2.0)]).unwrap();
    assert_eq!(tree.sample([f32::NAN; 3], NO_NORMAL, 1.0), Ok(Some((1, 1.0))));
    assert_eq!(tree.handle_to_leaf(), [INVALID_INDEX, 0]);
    assert_eq!(tree.pmf(BETWEEN, NO_NORMAL, 0), Ok(0.0));
}

/// Where a total of weights is infinite the two chances can part grossly, as in pbrt-r4.
#[test]
fn infinite_totals() {
    let tree = LightTree::build(&[bulb([0.0; 3], HUGE), bulb([2.0, 0.0, 0.0], 1.0)]).unwrap();
    let near = [0.0, 0.0, f32::from_bits(0x3a83_126f)];
    for u in [0.0, 0.5, 1.0] {
        let (lamp, drawn) = tree.sample(near, NO_NORMAL, u).unwrap().unwrap();
        assert_eq!((lamp, drawn.to_bits()), (1, 0x7fc0_0000));
        assert_eq!(tree.pmf(near, NO_NORMAL, lamp).map(f32::to_bits), Ok(0));
    }
    let tree = LightTree::build(&[bulb([0.0; 3], HUGE), bulb([2.0, 0.0, 0.0], HUGE)]).unwrap();
    assert_eq!(tree.sample([1.0, 0.0, 0.0], NO_NORMAL, 0.0), Ok(Some((1, 1.0))));
    assert_eq!(tree.pmf([1.0, 0.0, 0.0], NO_NORMAL, 1), Ok(0.0));
    assert_eq!(tree.pack(), Err(Refusal::NotFinite));
}

#[test]
fn alias_tables() {
    let bins = |weights: &[f32]| AliasTable::build(weights).map(AliasTable::into_bins);
    let bin = |q, p, alias| PowerAliasBin { q, p, alias };
    assert_eq!(bins(&[1.0, 3.0]), Ok(vec![bin(0.5, 0.25, 1), bin(1.0, 0.75, INVALID_INDEX)]));
    assert_eq!(bins(&[]), Ok(vec![]));
    assert_eq!(bins(&[0.0; 2]), Ok(vec![bin(1.0, 0.5, INVALID_INDEX); 2]));
    assert_eq!(bins(&vec![2.0; MAX_LAMPS]), Ok(vec![bin(1.0, 1.0 / 4096.0, INVALID_INDEX); MAX_LAMPS]));
    assert_eq!(bins(&vec![2.0; MAX_LAMPS + 1]), Err(Refusal::Crowded));
    for weight in [-1.0, f32::NAN, f32::INFINITY] {
        assert_eq!(bins(&[1.0, weight]), Err(Refusal::OutOfRange));
    }
}

/// 4,096 lamps pass, and 4,097 are too many, whatever else is wrong with them.
#[test]
fn limits() {
    let lamps = |count| vec![bulb([1.0; 3], 1.0); count];
    assert_eq!(LightTree::build(&lamps(MAX_LAMPS)).map(|tree| tree.len()), Ok(8191));
    assert_eq!(LightTree::build(&lamps(MAX_LAMPS + 1)), Err(Refusal::Crowded));
    assert_eq!(Block::new(&lamps(MAX_LAMPS + 1)), Err(Refusal::Crowded));
    assert_eq!(pbrt::build_light_bvh(&[0u8; 3], &lamps(MAX_LAMPS + 1)), Err(Refusal::Crowded));
    assert_eq!(pbrt::build_light_bvh(&[0u8; MAX_LAMPS + 1], &lamps(3)), Err(Refusal::Ragged));
    let point = |scale| Lamp::Point { world_position: [0.0; 3], intensity_max: 1.0, scale };
    assert_eq!(bounds_block(&vec![point(1.0); MAX_LAMPS]).map(|block| block.records().len()), Ok(MAX_LAMPS));
    assert_eq!(bounds_block(&vec![point(-1.0); MAX_LAMPS + 1]), Err(Refusal::Crowded));
    assert_eq!(lamp_list(&vec![point(1.0); MAX_LAMPS + 1]), Err(Refusal::Crowded));
    let triangle = Triangle { world_positions: [[0.0; 3]; 3], area: 1.0, geometric_normal: [0.0, 0.0, 1.0] };
    let group =
        |count| Lamp::Group { triangles: vec![triangle; count], emission_max: 1.0, scale: 1.0, two_sided: true };
    // one word, and five and thirteen a triangle: 80,659 are the most that fit 2^20
    assert!(bounds_block(&[group(80_659)]).is_ok());
    assert_eq!(bounds_block(&[group(80_660)]), Err(Refusal::Crowded));
}

#[test]
fn blocks() {
    let block = Block::new(&pair()).unwrap();
    let tree = LightTree::build(&pair()).unwrap();
    assert_eq!(LightTree::from_block(block.words()), Ok(tree));
    assert_eq!(block.records().collect::<Vec<_>>(), pair());
    let words = block.words();
    let with = |place: usize, word: u32| {
        let mut words = words.to_vec();
        words[place] = word;
        LightTree::from_block(&words)
    };
    assert_eq!(LightTree::from_block(&[]), Err(Refusal::Ragged));
    assert_eq!(LightTree::from_block(&words[..28]), Err(Refusal::Ragged));
    assert_eq!(LightTree::from_block(&[words, &[0]].concat()), Err(Refusal::Ragged));
    assert_eq!(with(0, 1), Err(Refusal::Ragged));
    assert_eq!(with(0, 4097), Err(Refusal::Crowded));
    assert_eq!(with(14, 2), Err(Refusal::Ragged));
    assert_eq!(with(15, 0), Err(Refusal::Misplaced));
    assert_eq!(with(16, 0x7fc0_0001), Err(Refusal::NotFinite));
    assert_eq!(with(16, 0x4040_0000), Err(Refusal::Inverted));
    assert_eq!(with(24, 0), Err(Refusal::NoDirection));
    assert_eq!(with(25, 0xbf80_0000), Err(Refusal::OutOfRange));
}

/// The bounds' own checks, as build makes them.
#[test]
fn checks() {
    let good = bulb([0.0; 3], 1.0);
    assert_eq!(good.validate(), Ok(good));
    let with = |spoil: fn(&mut LightBounds)| {
        let mut lamp = good;
        spoil(&mut lamp);
        lamp
    };
    for (wrong, refusal) in [
        (with(|lamp| lamp.bounds.min = [f32::NAN; 3]), Refusal::NotFinite),
        (with(|lamp| (lamp.bounds.min, lamp.direction) = ([1.0; 3], [0.0; 3])), Refusal::Inverted),
        (with(|lamp| (lamp.direction, lamp.phi) = ([f32::INFINITY, 0.0, 0.0], -1.0)), Refusal::NotFinite),
        (with(|lamp| (lamp.direction, lamp.phi) = ([1e-30, 0.0, 0.0], -1.0)), Refusal::NoDirection),
        (with(|lamp| lamp.phi = -1.0), Refusal::OutOfRange),
        (with(|lamp| lamp.cos_theta_o = 1.5), Refusal::OutOfRange),
        (with(|lamp| lamp.cos_theta_e = -1.5), Refusal::OutOfRange),
    ] {
        assert_eq!(wrong.validate(), Err(refusal));
        assert_eq!(LightTree::build(&[good, wrong]), Err(refusal));
    }
    // bounds that pass, but whose powers together do not
    assert_eq!(
        LightTree::build(&[bulb([0.0; 3], HUGE), bulb([1.0; 3], HUGE), bulb([2.0; 3], HUGE)]),
        Err(Refusal::LostUnion)
    );
}

/// A group's triangles are joined one by one: two whose powers add up to infinity pass, and build refuses their
/// bounds; a third cannot be joined to these.
#[test]
fn triangles() {
    let half = Triangle {
        world_positions: [[0.0; 3], [1.0, 0.0, 0.0], [0.0, 1.0, 0.0]],
        area: 1.0,
        geometric_normal: [0.0, 0.0, 1.0],
    };
    let group = |count| Lamp::Group { triangles: vec![half; count], emission_max: 1e38, scale: 1.0, two_sided: false };
    let phi = |count| bounds_block(&[group(count)]).map(|block| block.records().next().unwrap().phi.to_bits());
    assert_eq!([1, 2].map(phi), [Ok(0x7f6c_58e0), Ok(0x7f80_0000)]);
    assert_eq!(phi(3), Err(Refusal::LostUnion));
    assert_eq!(phi(0), Err(Refusal::NoArea));
    assert_eq!(LightTree::of_lamps(&[group(2)]), Err(Refusal::NotFinite));
}

/// A handle that is not its lamp's place, even one whose low thirty bits are.
#[test]
fn handles() {
    for handle in [1, 1 << 30, 1 << 31, u32::MAX] {
        let input = pbrt::LightBoundInput::Point { handle, world_position: [0.0; 3], intensity_max: 1.0, scale: 1.0 };
        assert_eq!(pbrt::build_light_bounds(&[input]), Err(Refusal::Misplaced));
    }
}

/// One tree serves many threads.
#[test]
fn threads() {
    let tree = LightTree::build(&pair()).unwrap();
    let draw = || tree.sample(BETWEEN, NO_NORMAL, 0.75);
    std::thread::scope(|scope| {
        let drawn: Vec<_> = (0..4).map(|_| scope.spawn(draw)).collect();
        drawn.into_iter().for_each(|thread| assert_eq!(thread.join().unwrap(), Ok(Some((1, 0.5)))));
    });
}

/// Each refusal has a number, a sentence of its own on one line, and is an error.
#[test]
fn sentences() {
    let refusals: Vec<Refusal> = (1..=1000).filter_map(Refusal::from_number).collect();
    let mut sentences: Vec<String> = refusals.iter().map(Refusal::to_string).collect();
    for (refusal, sentence) in refusals.iter().zip(&sentences) {
        assert_eq!(Refusal::from_number(refusal.number()), Some(*refusal));
        assert!(sentence.len() > 15 && !sentence.contains('\n') && !sentence.ends_with('.'), "{sentence}");
        let error: Box<dyn Error + Send + Sync> = Box::new(*refusal);
        assert!(error.source().is_none());
        assert_eq!(&error.to_string(), sentence);
    }
    assert_eq!(Refusal::BadU.to_string(), "u is not a number from 0 to 1");
    sentences.sort();
    sentences.dedup();
    assert_eq!(sentences.len(), refusals.len());
    assert_eq!([0, 1001, u32::MAX].map(Refusal::from_number), [None; 3]);
}
