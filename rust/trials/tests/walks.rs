//! The differential runs of the gate: the proved draws and chances by name against the oracle over built
//! trees and damaged words; and the search for a violation of demand 3. What is known by hand is asked of the
//! proved functions, and of the oracle where it is there.

use trials::inputs::records::{Query, Record, query_at};
use trials::inputs::trees::all_about;
use trials::inputs::walks::{Chance, Drawn, MOST_NODES, NODE_BYTES, Tree, Words};
use trials::runs::both::{build_light_bvh, importance, pmf, sample};
use trials::runs::demand3::{SLIPS, Search, Slip, Violation};

/// No violation on the proved build, draw and chance; one in each broken copy of the draw, of the kind that
/// its slip makes.
#[test]
fn demand_3() {
    let search = Search::run(&trials::proved::sampler_sample, 0, 60_000, false);
    println!("demand 3: {search}");
    assert!(search.found.is_empty() && search.trees == 60_000);
    let met = [search.lone, search.infinite_roots, search.none, search.draws_refused, search.mixed, search.nan_chances];
    assert!(met.into_iter().all(|count| count > 0) && search.lamps > 200_000, "{met:?}");
    let broken = |slip: Slip| Search::run(&|nodes, query, u| slip.draw(nodes, query, u), 0, 500, false).found;
    assert!(broken(Slip::Whole).is_empty(), "the copy itself is broken");
    for slip in SLIPS {
        let expected = match slip {
            Slip::RightFirst => Violation::Order,
            Slip::OneLamp => Violation::DrawnNodes,
            _ => Violation::Run,
        };
        let found = broken(slip);
        let first = found.iter().find(|(_, violation, _)| *violation == expected);
        let (tree, ..) = first.unwrap_or_else(|| panic!("{slip:?}: not found"));
        println!("{slip:?}: {expected:?} at tree {tree}, {} violations in 500 trees", found.len());
    }
}

/// What the search says of a tree that is not whole: of each head, child and parent word, each box and each table word.
#[test]
fn shapes() {
    use trials::runs::demand3::shape_flaw;

    let records = [0.0, 1.0, 3.0, 7.0].map(|x| all_about([x; 3], [x + 1.0; 3], if x == 3.0 { 0.0 } else { 1.0 }));
    let sound = Words::built(trials::proved::tree_build_light_bvh, &records).unwrap();
    assert_eq!((sound.nodes.len(), shape_flaw(&records, &sound)), (5, None));
    let flawed = |change: &dyn Fn(&mut Words)| {
        let mut words = sound.clone();
        change(&mut words);
        shape_flaw(&records, &words).is_some()
    };
    for (place, node) in sound.nodes.iter().enumerate() {
        let fork = sound.children(place).is_some();
        for (word, bit) in (0..3).flat_map(|word| (0..32).map(move |bit| (word, bit))) {
            // a leaf's right child is not read
            assert!(
                flawed(&|words| words.nodes[place][word] ^= 1 << bit) || word == 1 && !fork,
                "{place} {word} {bit}"
            );
        }
        for (word, end) in node.iter().enumerate().take(9).skip(3) {
            let inward = f32::from_bits(*end) + if word < 6 { 0.5 } else { -0.5 };
            assert!(!fork || flawed(&|words| words.nodes[place][word] = inward.to_bits()), "{place} {word}");
        }
    }
    for (handle, bit) in (0..4).flat_map(|handle| (0..32).map(move |bit| (handle, bit))) {
        assert!(flawed(&|words| words.table[handle] ^= 1 << bit) || sound.table[handle] == u32::MAX, "{handle} {bit}");
    }
    assert!(
        flawed(&|words| words.table[2] = 0)
            && flawed(&|words| words.nodes.truncate(4))
            && flawed(&|words| words.nodes.push([0; 16]))
    );
}

const HALF: u32 = 0x3f00_0000;
const NAN: u32 = 0x7fc0_0000;

fn point(position: [f32; 3], phi: f32) -> Record {
    all_about(position, position, phi)
}

fn words(records: &[Record]) -> Words {
    Words::built(build_light_bvh, records).unwrap()
}

/// The pair of R14.
fn the_pair() -> Words {
    words(&[point([0.0; 3], 1.0), point([2.0, 0.0, 0.0], 1.0)])
}

/// Six lamps of a row, a fork at each even place but the last.
fn row() -> Words {
    words(&[0.0, 1.0, 2.0, 4.0, 8.0, 16.0].map(|x| point([x, 0.0, 0.0], 1.0)))
}

fn changed(words: &Words, changes: &[(usize, usize, u32)]) -> Words {
    let mut words = words.clone();
    changes.iter().for_each(|(node, word, to)| words.nodes[*node][*word] = *to);
    words
}

#[track_caller]
fn drawn(tree: &Tree, query: &Query, u: u32, expected: Drawn) {
    assert_eq!(sample(tree, query, f32::from_bits(u)), expected, "u {u:08x}, {} bytes", tree.nodes.len());
}

#[track_caller]
fn named(tree: &Tree, query: &Query, handle: u32, expected: Chance) {
    assert_eq!(pmf(tree, query, handle), expected, "handle {handle}");
}

/// The draw's and the chance's answer alike.
#[track_caller]
fn refused(words: &Words, query: &Query, u: u32, handle: u32, number: u32) {
    drawn(&words.tree(), query, u, Err(number));
    named(&words.tree(), query, handle, Err(number));
}

/// The pair of R14, and no nodes.
#[test]
fn pair() {
    let (pair, query) = (the_pair().tree(), query_at([1.0, 0.0, 1.0], [0.0; 3]));
    for (u, lamp) in [(0.25f32, 0), (0.75, 1), (1.0, 1), (0.0, 0), (-0.0, 0), (0.5, 1)] {
        drawn(&pair, &query, u.to_bits(), Ok(Some((lamp, HALF))));
    }
    [(0, HALF), (1, HALF), (2, 0), (u32::MAX, 0)]
        .into_iter()
        .for_each(|(lamp, chance)| named(&pair, &query, lamp, Ok(chance)));
    for u in [0x3f80_0001, NAN, 0xffc0_0001, 0x7f80_0001, 0x8000_0001, 0xbf80_0000, 0x7f80_0000, 0xff80_0000] {
        drawn(&pair, &query, u, Err(11));
        drawn(&Tree { nodes: vec![], table: vec![] }, &query, u, Err(11));
    }
    drawn(&Tree { nodes: vec![], table: vec![] }, &query, HALF, Ok(None));
    named(&Tree { nodes: vec![], table: vec![0; 4] }, &query, 0, Err(12));
    named(&Tree { nodes: vec![], table: vec![0xff; 4] }, &query, 0, Ok(0));
    named(&Tree { nodes: vec![], table: vec![] }, &query, 0, Ok(0));
    // a lone leaf is drawn unweighed, whatever its record and the query
    let lone = words(&[point([5.0; 3], 1.0)]);
    let (odd, no_point) = (changed(&lone, &[(0, 15, 7), (0, 3, NAN)]), query_at([f32::NAN; 3], [f32::INFINITY; 3]));
    for tree in [lone.tree(), odd.tree()] {
        drawn(&tree, &no_point, HALF, Ok(Some((0, 0x3f80_0000))));
        named(&tree, &no_point, 0, Ok(0x3f80_0000));
    }
    // trap 26: no lamp has power, and the whole tray is handed on
    drawn(&Tree { nodes: vec![0; 64], table: vec![] }, &query, HALF, Err(12));
}

/// Totals and weights that are infinite, a tiny share, an importance of -0, normals too large and too small.
#[test]
fn figures() {
    let (zero, huge) = ([0.0; 3], f32::from_bits(0x7f61_b1e6));
    let lamps = |phis: [f32; 2]| words(&[point(zero, phis[0]), point([2.0, 0.0, 0.0], phis[1])]).tree();
    let near = query_at([0.0, 0.0, f32::from_bits(0x3a83_126f)], zero);
    for u in [0, HALF, 0x3f80_0000] {
        drawn(&lamps([huge, 1.0]), &near, u, Ok(Some((1, NAN))));
        drawn(&lamps([huge; 2]), &query_at([1.0, 0.0, 0.0], zero), u, Ok(Some((1, 0x3f80_0000))));
    }
    named(&lamps([huge, 1.0]), &near, 1, Ok(0));
    named(&lamps([huge; 2]), &query_at([1.0, 0.0, 0.0], zero), 1, Ok(0));
    // a weight that is infinite, at the right and at both sides
    for (first, chance) in [(1.0, 0x3f80_0000), (huge, NAN)] {
        let near_both = words(&[point(zero, first), point(zero, huge)]).tree();
        drawn(&near_both, &near, HALF, Ok(Some((1, chance))));
        named(&near_both, &near, 1, Ok(NAN));
    }
    // a right share that is tiny: 1 less the left one's is twice its own
    drawn(&lamps([1.0, 6e-8]), &query_at([1.0, 0.0, 1.0], zero), 0x3f80_0000, Ok(Some((1, 0x3400_0000))));
    named(&lamps([1.0, 6e-8]), &query_at([1.0, 0.0, 1.0], zero), 1, Ok(0x3380_d958));
    // trap 7
    for (x, refused) in [(0x7149_f2ca, true), (0x0da2_4260, false)] {
        let query = query_at([1.0, 0.0, 1.0], [f32::from_bits(x), 0.0, 0.0]);
        let tree = lamps([1.0; 2]);
        drawn(&tree, &query, 0, if refused { Err(7) } else { Ok(Some((0, HALF))) });
        named(&tree, &query, 0, if refused { Err(7) } else { Ok(HALF) });
    }
    // trap 3: both children weigh -0 or 0, so there is no weight
    let mut lamp = point([-1.0, 1.0, 1.0], 1.0);
    [(7, 1.0f32), (8, 0.0), (10, 0.5), (11, -0.5)].into_iter().for_each(|(word, figure)| lamp[word] = figure.to_bits());
    let query = query_at([-1.0, -1.0, 0.0], [1.0, 1.0, -2.0]);
    assert_eq!(importance(&lamp, &query), Ok(1 << 31));
    let tree = words(&[lamp, lamp]).tree();
    drawn(&tree, &query, HALF, Ok(None));
    named(&tree, &query, 0, Ok(0));
    // on a lamp: its share is 0, and none where both are there
    drawn(&lamps([1.0; 2]), &query_at(zero, zero), 0, Ok(Some((1, 0x3f80_0000))));
    drawn(&words(&[point(zero, 1.0); 2]).tree(), &query_at(zero, zero), 0, Ok(None));
}

/// Which refusal comes first, and the limits.
#[test]
fn order_of_refusals() {
    let query = query_at([1.0, 0.0, 1.0], [0.0; 3]);
    let Tree { nodes, table } = the_pair().tree();
    let sized = |nodes_len: usize, table_len: usize| {
        let mut tree = Tree { nodes: nodes.clone(), table: table.clone() };
        tree.nodes.resize(nodes_len, 0);
        tree.table.resize(table_len, 0xff);
        tree
    };
    let limit = NODE_BYTES * MOST_NODES;
    assert_eq!(limit, 524_224);
    drawn(&sized(limit, 0), &query, 0, Ok(Some((0, HALF))));
    named(&sized(limit, 4 * 4096), &query, 0, Ok(HALF));
    named(&sized(limit, 4 * 4096), &query, 4095, Ok(0));
    // 2, then 1, then 11: a part node beyond 8,191 is still no node
    for over in [64, 65, 128, 127] {
        drawn(&sized(limit + over, 0), &query, NAN, Err(2));
        named(&sized(limit + over, 3), &query, 0, Err(2));
    }
    for part in [1, 4, 32, 63] {
        drawn(&sized(limit + part, 0), &query, NAN, Err(1));
        named(&sized(limit + part, 8), &query, 0, Err(1));
        drawn(&sized(part, 0), &query, NAN, Err(1));
        drawn(&sized(192 + part, 0), &query, HALF, Err(1));
        named(&sized(64 + part, 4 * 4097), &query, 0, Err(2));
    }
    for part in 1..4 {
        named(&sized(192, 8 + part), &query, 9, Err(1));
        named(&sized(192, 4 * 4096 + part), &query, 0, Err(1));
        named(&sized(192, 4 * 4097 + part), &query, 0, Err(2));
    }
    // the table is no part of a draw
    drawn(&sized(192, 4 * 4097 + 1), &query, 0, Ok(Some((0, HALF))));
}

/// What a walk judges, and when.
#[test]
fn judged() {
    let (pair, query) = (the_pair(), query_at([1.0, 0.0, 1.0], [0.0; 3]));
    let (last, nan) = (0x3f80_0000, f32::NAN.to_bits());
    let change = |changes: &[(usize, usize, u32)]| changed(&pair, changes);
    // trap 18: the left one in full, then the right one's index; the side before the record's check
    refused(&change(&[(0, 1, 9), (1, 3, nan)]), &query, 0, 0, 5);
    refused(&change(&[(0, 1, 9), (1, 15, 2)]), &query, 0, 0, 12);
    refused(&change(&[(0, 1, u32::MAX)]), &query, last, 0, 12);
    refused(&change(&[(1, 15, 2), (1, 3, nan)]), &query, 0, 0, 12);
    refused(&change(&[(1, 3, 5f32.to_bits()), (2, 15, 2)]), &query, 0, 0, 6);
    refused(&change(&[(2, 9, 0), (2, 10, 0), (2, 11, 0)]), &query, 0, 0, 7);
    refused(&change(&[(1, 12, (-1f32).to_bits())]), &query, 0, 0, 8);
    refused(&change(&[(2, 15, u32::MAX)]), &query, 0, 0, 12);
    // trap 20: the left child word is not read; a leaf's right child word neither
    let odd = change(&[(0, 0, 2 << 30 | 77), (1, 1, 0), (2, 1, 1)]).tree();
    drawn(&odd, &query, 0, Ok(Some((0, HALF))));
    named(&odd, &query, 1, Ok(HALF));
    // trap 22: a kind is judged on entry, a root's record never
    let unknown = change(&[(2, 0, 3 << 30), (0, 3, nan), (0, 15, 9)]).tree();
    drawn(&unknown, &query, 0, Ok(Some((0, HALF))));
    drawn(&unknown, &query, last, Err(12));
    named(&unknown, &query, 0, Ok(HALF));
    named(&unknown, &query, 1, Err(12));
    refused(&change(&[(0, 0, 0), (1, 15, 9)]), &query, 0, 0, 12);
    // a root that is a leaf: drawn; as a parent it is refused
    let leaf = change(&[(0, 0, 1 << 30 | 5)]).tree();
    drawn(&leaf, &query, last, Ok(Some((5, 0x3f80_0000))));
    named(&leaf, &query, 0, Err(12));
    // trap 19: ownership comes behind the weights and behind no weight
    let mut owned = change(&[(0, 1, 1)]);
    named(&owned.tree(), &query, 1, Err(12));
    named(&changed(&owned, &[(1, 3, nan)]).tree(), &query, 1, Err(5));
    (1..3).for_each(|node| owned.nodes[node][12] = 0);
    named(&owned.tree(), &query, 1, Ok(0));
    // parents: past the end, a leaf, itself, none
    for parent in [3, 2, 1, u32::MAX - 1] {
        named(&change(&[(1, 2, parent)]).tree(), &query, 0, Err(12));
    }
    named(&change(&[(1, 2, u32::MAX)]).tree(), &query, 0, Ok(0x3f80_0000));
    // table words: past the end, a fork, none
    let table = |word: u32| {
        let mut words = pair.clone();
        words.table[0] = word;
        words.tree()
    };
    for (word, chance) in
        [(3, Err(12)), (u32::MAX - 1, Err(12)), (0, Ok(0x3f80_0000)), (2, Ok(HALF)), (u32::MAX, Ok(0))]
    {
        named(&table(word), &query, 0, chance);
    }
}

/// Cycles: as many nodes are entered as there are, then 12.
#[test]
fn cycles() {
    let (row, query) = (row(), query_at([3.0, 5.0, 1.0], [0.0; 3]));
    let last = 0x3f80_0000;
    let fork = (1..row.nodes.len()).find(|place| row.children(*place).is_some()).unwrap();
    drawn(&changed(&row, &[(0, 1, 0)]).tree(), &query, last, Err(12));
    let down = changed(&row, &[(fork, 1, fork as u32), (0, 1, fork as u32)]);
    drawn(&down.tree(), &query, last, Err(12));
    // a fork and the root, each the other's child
    let up = changed(&row, &[(fork, 1, 0), (0, 2, fork as u32), (0, 1, fork as u32)]);
    (0..6).for_each(|handle| named(&up.tree(), &query, handle, Err(12)));
    // both children of each fork are the node behind it: every node is entered, and the chance, halved each
    // time, ends at 0
    let mut chain = the_pair();
    chain.nodes.resize(MOST_NODES, chain.nodes[1]);
    (0..MOST_NODES - 1).for_each(|place| chain.nodes[place] = chain.nodes[0]);
    (0..MOST_NODES - 1).for_each(|place| chain.nodes[place][1] = place as u32 + 1);
    let chain = chain.tree();
    drawn(&chain, &query, last, Ok(Some((0, 0))));
    // a root that is its own right child: a u near 1 passes it too often, a lower one ends at the leaf in time
    let own = changed(&the_pair(), &[(0, 1, 0)]).tree();
    let answers: Vec<bool> = (0..=256).map(|i| sample(&own, &query, i as f32 / 256.0).is_ok()).collect();
    assert!(answers[0] && !answers[256] && answers.iter().filter(|given| **given).count() > 128);
}

trials::differential! {
    /// Random trees, sound and damaged: every refusal, every branch and every damage is met.
    fn draws() {
        let tally = trials::runs::walks::draws(0, 200_000);
        println!("draws: {tally}");
        let records = ["error 5: Light bounds", "error 6: Light", "error 7: Light bounds", "error 8: Light bounds"];
        let errors = ["error 5: Imp", "error 7: Light direction", "error 11"];
        let broken = ["error 12: the left", "error 12: the right", "error 12: the node", "error 12: Light BVH traversal"];
        let branches = ["draw", "damage", "order", "oracle", "walk: u at", "walk: e", "walk: i", "walk: n", "walk: a"];
        tally.check(&[0, 1, 2, 5, 6, 7, 8, 11, 12], &[&records[..], &errors, &broken, &branches].concat());
        [3, 4, 9, 10, 13].into_iter().for_each(|number| assert_eq!(tally.answers[number], 0, "{number}"));
    }

    fn chances() {
        let tally = trials::runs::walks::chances(0, 200_000);
        println!("chances: {tally}");
        let records = ["error 5: Light bounds", "error 6: Light", "error 7: Light bounds", "error 8: Light bounds"];
        let errors = ["error 5: Imp", "error 7: Light direction"];
        let branches = ["error 12: the", "error 12: Light BVH PMF", "chance", "damage", "order", "oracle", "walk: up", "walk: no"];
        tally.check(&[0, 1, 2, 5, 6, 7, 8, 12], &[&records[..], &errors, &branches].concat());
        [3, 4, 9, 10, 11, 13].into_iter().for_each(|number| assert_eq!(tally.answers[number], 0, "{number}"));
    }

    /// Each word of each node replaced by each kind of wrong value.
    fn each_word() {
        let [draws, chances] = trials::runs::walks::each_word(0, 3);
        println!("each word, draws: {draws}each word, chances: {chances}");
        draws.check(&[0, 5, 6, 7, 8, 12], &["oracle: the"]);
        chances.check(&[0, 5, 6, 7, 8, 12], &["oracle: the"]);
    }

    /// What the walks tell: a draw enters the nodes from the root to its lamp's leaf, and weighs at each but
    /// the last; the chance of that lamp enters and weighs the same, leaf first.
    fn told() {
        use trials::inputs::random::Random;
        use trials::oracle::walks::Decoded;

        let mut random = Random::new(1);
        let (mut told, mut forks) = (0, 0);
        while told < 20_000 {
            let words = random.grown(build_light_bvh, 64);
            let (decoded, query) = (Decoded::new(&words.tree()), random.walk_query(&words));
            for u in [0.0, 0.25, 0.5, 0.75, 1.0] {
                let drawn = decoded.descent(&query, u);
                let Ok(Some((handle, _))) = drawn.ended else { continue };
                let named = decoded.ascent(&query, handle);
                let of_forks: Vec<usize> = drawn.forks.iter().map(|fork| fork.place).collect();
                assert_eq!((drawn.places[0], drawn.places.last()), (0, Some(&(words.table[handle as usize] as usize))));
                assert_eq!(of_forks, drawn.places[..drawn.places.len() - 1]);
                assert!(drawn.places.iter().rev().eq(&named.places) && of_forks.iter().rev().eq(named.forks.iter().map(|fork| &fork.place)));
                (told, forks) = (told + 1, forks + of_forks.len());
            }
        }
        println!("told: {told} lamps drawn and named, {forks} forks passed");
    }

    /// The draw's loop over Rust's own library functions, which the benchmark takes its nodes from, is the reference's.
    fn own_loop() {
        use trials::inputs::random::Random;
        use trials::inputs::records::vectors;
        use trials::inputs::rooms::Room;
        use trials::oracle::loops::Own;
        use trials::oracle::reference::native::light_bvh::bvh_light_sampler_sample;
        use trials::oracle::reference::{build_light_bounds, native_tree};

        let mut random = Random::new(1);
        for lamps in [1, 2, 12, 512, 4096] {
            let room = Room::new(&mut random, lamps);
            let tree = native_tree(&room.block(build_light_bounds)).unwrap();
            let own = Own::new(&tree);
            for _ in 0..500 {
                let (query, u) = (room.query(&mut random), random.within(1.0).abs());
                let [p, n] = vectors(&query);
                assert_eq!(own.descent(&query, u).ended, bvh_light_sampler_sample(&tree, p, n, u));
            }
        }
    }
}
