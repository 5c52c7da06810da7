//! The differential runs of the gate: the proved packing against the oracle over built and damaged words.
//! The marked cases (R14) and others known by hand are asked of the proved functions, and of the oracle
//! where it is there.

use trials::inputs::packing::{Case, Corners, Packed, reserve};
use trials::inputs::trees::{INTERIOR, all_about};
use trials::inputs::walks::{MOST_NODES, NODE_BYTES, Words, words};
use trials::proved::packed_by_value;
use trials::runs::both::{build_light_bvh, pack_light_bvh};

const NAN: u32 = 0x7fc0_0000;

/// A tree with k and its box, as packing takes it, into bytes of its own that are a5 before, with some past
/// the reserve.
#[derive(Clone)]
struct Tree {
    words: Words,
    k: usize,
    all: Option<Corners>,
}

impl Tree {
    fn new(lamps: &[([f32; 3], f32)]) -> Tree {
        let records: Vec<_> = lamps.iter().map(|(position, phi)| all_about(*position, *position, *phi)).collect();
        let (words, (k, all)) = Words::with_box(build_light_bvh, &records).unwrap();
        Tree { words, k: k as usize, all }
    }

    /// The pair of R14.
    fn pair() -> Tree {
        Tree::new(&[([0.0; 3], 1.0), ([2.0, 0.0, 0.0], 1.0)])
    }

    fn changed(&self, changes: &[(usize, usize, u32)]) -> Tree {
        let mut tree = self.clone();
        changes.iter().for_each(|(node, word, to)| tree.words.nodes[*node][*word] = *to);
        tree
    }

    fn in_box(&self, min: [f32; 3], max: [f32; 3]) -> Tree {
        let all = [min, max].concat().iter().map(|x| x.to_bits()).collect::<Vec<u32>>();
        Tree { all: Some(all.try_into().unwrap()), ..self.clone() }
    }

    fn case(&self) -> Case {
        let nodes = self.words.tree().nodes;
        Case { room: reserve(nodes.len() / NODE_BYTES), nodes, k: self.k, all: self.all }
    }

    /// The eight words of each node.
    fn packed(&self) -> Vec<[u32; 8]> {
        let Case { nodes, k, all, room } = self.case();
        let mut out = vec![0xa5; room + 5];
        assert_eq!(pack_light_bvh(&nodes, k, all, &mut out), Ok(Some(room / 4)));
        assert_eq!(out[room..], [0xa5; 5]);
        words(&out[32..room]).as_chunks().0.to_vec()
    }
}

/// The marked cases (R14.5 to R14.7).
#[test]
fn marked_cases() {
    let pair = Tree::pair();
    let lamp_1 = [0x0000_ffff, 0xffff_0000, 0, 0x8000_8000, 0x3f80_0000, 0x1fff_8000, 0x8000_0001, 0];
    assert_eq!(pair.packed()[2], lamp_1);
    let mut out = [0xa5; 128];
    assert_eq!(pack_light_bvh(&pair.case().nodes, 2, pair.all, &mut out), Ok(Some(32)));
    assert_eq!(words(&out)[..8], [0, 0, 0, 0, 0x4000_0000, 0, 0, 0]);
    // 0.5 in 0 to 1: 32767 down, 32768 up; min = max gives 0
    let half = 0.5f32.to_bits();
    let [lows, middle, highs, ..] =
        pair.changed(&[(1, 3, half), (1, 6, half)]).in_box([0.0; 3], [1.0, 0.0, -0.0]).packed()[1];
    assert_eq!([lows, middle, highs], [32767, 32768 << 16, 0]);
    // cosines -1, 0, 1: 0, 16383, 32767
    for (cosine, quantized) in [(-1f32, 0), (0.0, 16383), (-0.0, 16383), (1.0, 32767)] {
        for side in [0, 1] {
            let cones = [
                (1, 13, cosine.to_bits()),
                (1, 14, 0),
                (2, 13, (-1f32).to_bits()),
                (2, 14, cosine.to_bits()),
                (2, 15, side),
            ];
            let packed = pair.changed(&cones).packed();
            assert_eq!(
                [packed[1][5], packed[2][5]],
                [quantized | 16383 << 15, quantized << 15 | side << 30],
                "{cosine}"
            );
        }
    }
    // direction (0, 0, -1), and others: folded by each one's own sign, -0 too
    let directions = [
        ([0.0, 0.0, -1.0], 0xffff_ffff),
        ([0.0, 0.0, 1.0], 0x8000_8000),
        ([-0.0, 0.0, -1.0], 0xffff_0000),
        ([0.0, -0.0, -7.0], 0x0000_ffff),
        ([1.0, 0.0, 0.0], 0x8000_ffff),
        ([-1.0, 0.0, -0.0], 0x8000_0000),
        ([0.0, 3e-20, 0.0], 0xffff_8000),
    ];
    for (direction, word) in directions {
        let [x, y, z] = direction.map(f32::to_bits);
        assert_eq!(pair.changed(&[(1, 9, x), (1, 10, y), (1, 11, z)]).packed()[1][3], word, "{direction:?}");
    }
}

/// The C function's own: how the box is handed over. Any mark but 0 says that it is there; without it the
/// corners are not read, and it has no refusal before that of lengths.
#[test]
fn box_by_value() {
    let Case { nodes, k, all, room } = Tree::pair().case();
    let all = all.unwrap();
    let packed = |present: u32, all: Corners, k: usize, nodes: &[u8]| {
        let mut out = vec![0xa5; room];
        (packed_by_value(nodes, k, present, all, &mut out), out)
    };
    let whole = packed(1, all, k, &nodes);
    assert_eq!(whole.0, Ok(Some(32)));
    [2, 0x100, 1 << 31, u32::MAX].into_iter().for_each(|present| assert_eq!(packed(present, all, k, &nodes), whole));
    for corners in [[NAN; 6], [0; 6], all] {
        assert_eq!(packed(0, corners, 0, &[]), (Ok(None), vec![0xa5; room]));
        assert_eq!(packed(0, corners, k, &nodes), (Err(12), vec![0; room]));
        for present in [0, 1] {
            assert_eq!(packed(present, corners, k, &nodes[1..]), (Err(1), vec![0xa5; room]));
            assert_eq!(
                packed(present, corners, k, &vec![0; NODE_BYTES * (MOST_NODES + 1)]),
                (Err(2), vec![0xa5; room])
            );
        }
    }
    // each corner by its own place
    for place in 0..6 {
        let mut corners = all;
        corners[place] = if place < 3 { -1f32 } else { 7.0 }.to_bits();
        let (answer, out) = packed(1, corners, k, &nodes);
        assert_eq!(
            (answer, words(&out)[..8].to_vec()),
            (Ok(Some(32)), [&corners[..3], &[0], &corners[3..], &[0]].concat())
        );
    }
}

/// The answer; what is refused later than by lengths leaves zeros in the reserve.
#[track_caller]
fn answers(case: &Case, expected: Packed) {
    let mut out = vec![0xa5; case.room];
    assert_eq!(pack_light_bvh(&case.nodes, case.k, case.all, &mut out), expected);
    let zeros = match expected {
        Ok(Some(_)) => return,
        Ok(None) | Err(1..=3) => 0,
        Err(_) => reserve(case.nodes.len() / NODE_BYTES),
    };
    let kept = |(place, byte): (usize, &u8)| *byte == if place < zeros { 0 } else { 0xa5 };
    assert!(out.iter().enumerate().all(kept), "{expected:?}");
}

/// The pair with changes is refused so.
#[track_caller]
fn refused(changes: &[(usize, usize, u32)], number: u32) {
    answers(&Tree::pair().changed(changes).case(), Err(number));
}

/// Which refusal comes first, and the limits.
#[test]
fn order_of_refusals() {
    let tree = Tree::pair();
    let mut chain = tree.clone();
    chain.words.nodes = (0..MOST_NODES as u32)
        .map(|place| {
            let mut node = tree.words.nodes[0];
            (node[0], node[1]) = (INTERIOR | (place + 1), 0);
            node
        })
        .collect();
    let case = chain.case();
    assert_eq!((case.nodes.len(), case.room), (524_224, 262_144));
    answers(&case, Ok(Some(65_536)));
    let sized = |nodes: usize, room: usize, all: Option<Corners>| {
        let mut case = Case { room, all, ..case.clone() };
        case.nodes.resize(nodes, 0xff);
        case
    };
    let (limit, full, bad) = (case.nodes.len(), case.room, Some([NAN; 6]));
    // 2, 1, 3, whatever else there is
    [64, 65, 127, 6400].into_iter().for_each(|over| answers(&sized(limit + over, 0, bad), Err(2)));
    for part in [1, 4, 32, 63] {
        answers(&sized(limit + part, 0, bad), Err(1));
        answers(&sized(part, 0, None), Err(1));
        answers(&sized(limit - part, full + 7, bad), Err(1));
    }
    [0, 1, full - 4, full - 1].into_iter().for_each(|room| answers(&sized(limit, room, bad), Err(3)));
    answers(&sized(limit, full, bad), Err(5));
    answers(&sized(limit, full + 3, case.all), Ok(Some(65_536)));
    answers(&sized(64, 63, None), Err(3));
    answers(&sized(64, 64, None), Err(12));
    // without nodes nothing is to be lent
    for room in [0, 1, 31, 32, 100] {
        let none = Case { nodes: vec![], k: 0, all: None, room };
        answers(&none, Ok(None));
        answers(&Case { k: 1, ..none.clone() }, Err(12));
        answers(&Case { k: usize::MAX, ..none.clone() }, Err(12));
        answers(&Case { all: tree.all, ..none.clone() }, Err(12));
        answers(&Case { all: bad, k: 1, ..none.clone() }, Err(12));
    }
}

/// Box, nodes and k; the box's own 5 before its 6, both before any node's.
#[test]
fn box_and_k() {
    let tree = Tree::pair();
    let case = tree.case();
    // trap 21
    [1, 3, 1 << 32, usize::MAX].into_iter().for_each(|k| answers(&Case { k, ..case.clone() }, Ok(Some(32))));
    for all in [None, case.all, Some([NAN; 6])] {
        answers(&Case { k: 0, all, ..case.clone() }, Err(12));
    }
    answers(&Case { all: None, ..case.clone() }, Err(12));
    let broken = tree.changed(&[(0, 0, 0), (1, 15, 9)]);
    let (low, nan) = ([0.0; 3], f32::NAN);
    for (max, number) in
        [([nan, -1.0, 0.0], 5), ([1.0, f32::INFINITY, -1.0], 5), ([1.0, 1.0, -1e-45], 6), ([1.0; 3], 12)]
    {
        answers(&broken.in_box(low, max).case(), Err(number));
    }
    for max in [f32::NEG_INFINITY, f32::INFINITY, nan] {
        answers(&tree.in_box([3.0, 3.0, 3.0], [2.0, 2.0, max]).case(), Err(5));
    }
    // coordinates out of the box, a box without width, one infinitely wide
    let steps = |tree: Tree| {
        answers(&tree.case(), Ok(Some(32)));
        let packed = tree.packed();
        [packed[1][0] & 0xffff, packed[1][1] >> 16, packed[2][0] & 0xffff, packed[2][1] >> 16]
    };
    assert_eq!(steps(tree.in_box([0.5; 3], [1.0; 3])), [0, 0, 65535, 65535]);
    assert_eq!(steps(tree.in_box([2.0, 0.0, 0.0], [2.0, 0.0, 0.0])), [0; 4]);
    assert_eq!(steps(tree.in_box([-0.0, 0.0, 0.0], [0.0; 3])), [0; 4]);
    assert_eq!(steps(tree.in_box([-f32::MAX; 3], [f32::MAX; 3])), [0; 4]);
    let far = tree.changed(&[(2, 3, f32::MAX.to_bits()), (2, 6, f32::MAX.to_bits())]);
    assert_eq!(steps(far.in_box([-f32::MAX; 3], [f32::MAX; 3])), [0; 4]);
    assert_eq!(steps(far.in_box([-1.0; 3], [2.0; 3])), [21845, 21845, 65535, 65535]);
    // trap 16: a union is not checked, so a built root may have an infinite power
    answers(&Tree::new(&[([0.0; 3], 3e38), ([1.0; 3], 3e38)]).case(), Err(5));
}

/// What is judged of a node, and in which order.
#[test]
fn judged() {
    let (one, nan, wide) = (1f32.to_bits(), NAN, 0x8000_0000);
    let tree = Tree::pair();
    let whole = |changes: &[(usize, usize, u32)]| answers(&tree.changed(changes).case(), Ok(Some(32)));
    // kind, side, record, length, payload, parent, left child
    let huge = |node: usize| [(node, 9, 1e20f32.to_bits()), (node, 10, 0)];
    for kind in [0, 3 << 30, 3 << 30 | 1] {
        refused(&[(0, 0, kind), (0, 15, 2), (0, 3, nan), (0, 1, wide), (0, 2, 3)], 12);
        refused(&[(0, 3, nan), (1, 0, kind)], 5);
    }
    for side in [2, 0x100, 1 << 31, u32::MAX, one] {
        refused(&[(1, 15, side), (1, 3, nan)], 12);
        refused(&[(1, 15, side), (2, 3, nan)], 12);
        refused(&[(1, 3, nan), (2, 15, side)], 5);
    }
    refused(&[(2, 3, 5f32.to_bits()), (2, 12, nan)], 6);
    refused(&[(2, 12, nan), (2, 9, 0), (2, 10, 0), (2, 11, 0)], 5);
    refused(&[(2, 9, 0), (2, 10, 1 << 31), (2, 11, 0x0da2_4260), (2, 12, one | 1 << 31)], 7);
    refused(&[(0, 12, one | 1 << 31), (0, 1, wide)], 8);
    refused(&[(0, 13, 0x3f80_0001), (0, 0, INTERIOR | 7)], 8);
    refused(&[&huge(0)[..], &[(0, 12, 0x8000_0001)]].concat(), 8);
    refused(&[&huge(0)[..], &[(0, 1, wide)]].concat(), 7);
    refused(&[&huge(2)[..], &[(2, 2, 3)]].concat(), 7);
    for right in [wide, wide + 1, u32::MAX] {
        refused(&[(0, 1, right)], 13);
        refused(&[(0, 1, right), (0, 2, 3), (0, 0, INTERIOR | 7)], 13);
        // not read at a leaf
        whole(&[(1, 1, right), (2, 1, right)]);
    }
    // trap 20: a right child that is no node
    [0, 3, 0x7fff_ffff].into_iter().for_each(|right| whole(&[(0, 1, right)]));
    for parent in [3, 4, 0x7fff_ffff, u32::MAX - 1] {
        (0..3).for_each(|node| refused(&[(node, 2, parent)], 12));
        refused(&[(1, 2, parent), (2, 3, nan)], 12);
        refused(&[(0, 2, parent), (0, 0, INTERIOR)], 12);
    }
    // any node may be a parent, and any number of nodes be roots
    whole(&[(0, 2, 2), (1, 2, 1), (2, 2, u32::MAX)]);
    for left in [0, 2, 3, (1 << 30) - 1] {
        refused(&[(0, 0, INTERIOR | left)], 12);
    }
    // the last node as a fork: its left child is past the end, and that is not judged
    whole(&[(2, 0, INTERIOR | 3), (2, 1, 0)]);
    whole(&[(0, 12, 1 << 31), (1, 0, 2 << 30 | 2), (1, 1, 5)]);
    whole(&[(1, 0, 1 << 30 | 0x3fff_ffff)]);
}

trials::differential! {
    /// Random trees with words, box, k, lengths and tray changed: every refusal, every branch and every change is met.
    fn packings() {
        let tally = trials::runs::packing::packings(0, 20_000);
        println!("packings: {tally}");
        let records = ["error 5: Light bounds", "error 6: Light", "error 7: Light bounds", "error 8: Light bounds"];
        let boxes = ["error 5: Global", "error 6: Global", "error 12: Non-empty", "error 12: Light BVH global"];
        let nodes = ["error 7: Light BVH", "error 12: a packed", "error 12: Light BVH node", "error 13"];
        let branches = ["packing", "packed", "change", "order", "room", "broken"];
        tally.check(&[0, 1, 2, 3, 5, 6, 7, 8, 12, 13], &[&records[..], &boxes, &nodes, &branches].concat());
        [4, 9, 10, 11].into_iter().for_each(|number| assert_eq!(tally.answers[number], 0, "{number}"));
    }

    /// Each word of each node and each word of the box replaced by each kind of wrong value; each length of the tray.
    fn each_word() {
        let tally = trials::runs::packing::each_word(0, 2);
        println!("each word: {tally}");
        tally.check(&[0, 3, 5, 6, 7, 8, 12, 13], &["error 12: Light BVH node", "error 12: a packed", "room"]);
    }
}
