//! The differential runs of the gate: the proved build against the oracle, and the stack of the deepest tree. What is
//! known by hand is asked of the proved functions, and of the oracle where it is there.

use trials::inputs::blocks::{block_of, records};
use trials::inputs::lists::{BLOCK_RECORD, MOST_LAMPS, MOST_WORDS};
use trials::inputs::random::Random;
use trials::inputs::records::{Record, query_at};
use trials::inputs::rooms::Room;
use trials::inputs::trees::{ANSWER, Built, INTERIOR, LEAF, NODE, all_about, deepest, depth, lent, reserves};
use trials::inputs::walks::{Chance, Drawn, Words};
use trials::proved::tree_build_light_bvh;
use trials::runs::both::{build_light_bounds, build_light_bvh, pmf, sample};
use trials::stored::PATTERN;

const NONE: u32 = u32::MAX;
const HUGE: f32 = 3e38; // two of them overflow

fn lamp(position: [f32; 3], phi: f32) -> Record {
    all_about(position, position, phi)
}

/// A lamp on the first axis.
fn along(x: f32, phi: f32) -> Record {
    lamp([x, 0.0, 0.0], phi)
}

/// A box of side 1, so that its cost is not 0.
fn cube(x: f32, phi: f32) -> Record {
    all_about([x, 0.0, 0.0], [x + 1.0, 1.0, 1.0], phi)
}

fn the_pair() -> [Record; 2] {
    [along(0.0, 1.0), along(2.0, 1.0)]
}

fn with(record: Record, place: usize, figure: f32) -> Record {
    let mut record = record;
    record[place] = figure.to_bits();
    record
}

/// The refusal's number, 0 for none, and nodes, table, work and answer after the call.
fn built(light_count: u32, block: &[u32], rooms: [usize; 4]) -> (u32, [Vec<u32>; 4]) {
    let mut trays = rooms.map(|room| vec![PATTERN; room]);
    let number = build_light_bvh(light_count, block, lent(&mut trays)).err().unwrap_or(0);
    (number, trays)
}

/// A refusal; the words lent are left, or zeroed with those behind the reserve left.
#[track_caller]
fn refused(light_count: u32, block: &[u32], rooms: [usize; 4], number: u32) {
    let (answer, trays) = built(light_count, block, rooms);
    assert_eq!(answer, number, "{:08x?}, rooms {rooms:?}", &block[..block.len().min(40)]);
    let zeros = if number < 5 { [0; 4] } else { reserves(light_count as usize) };
    for (words, zeros) in trays.iter().zip(zeros) {
        assert!(
            words.iter().enumerate().all(|(i, word)| *word == if i < zeros { 0 } else { PATTERN }),
            "{number}: {words:08x?}"
        );
    }
}

/// The answer, the nodes that are used and the table, given in slices one word longer than they need be.
fn tree(records: &[Record]) -> (Built, Vec<[u32; NODE]>, Vec<u32>) {
    let reserves = reserves(records.len());
    let (number, mut trays) = built(records.len() as u32, &block_of(records), reserves.map(|reserve| reserve + 1));
    assert_eq!(number, 0);
    trays.iter_mut().for_each(|words| assert_eq!(words.pop(), Some(PATTERN)));
    let [nodes, table, work, answer] = trays;
    let answer = trials::inputs::trees::built(&answer);
    let (used, unused) = nodes.split_at(NODE * (2 * answer.0 as usize).saturating_sub(1));
    assert!(unused.iter().chain(&work).all(|word| *word == 0));
    (answer, used.as_chunks().0.to_vec(), table)
}

fn table(records: &[Record]) -> Vec<u32> {
    tree(records).2
}

/// A draw from the tree of the records, with no normal.
fn drawn(records: &[Record], p: [f32; 3], u: f32) -> Drawn {
    sample(&Words::built(build_light_bvh, records).unwrap().tree(), &query_at(p, [0.0; 3]), u)
}

fn named(records: &[Record], p: [f32; 3], handle: u32) -> Chance {
    pmf(&Words::built(build_light_bvh, records).unwrap().tree(), &query_at(p, [0.0; 3]), handle)
}

/// The pair of R14, every word of its tree; and with the places exchanged.
#[test]
fn pair() {
    let [first, second] = the_pair();
    let (two, root_box) = (2f32.to_bits(), [0, 0, 0, 2f32.to_bits(), 0, 0]);
    let (answer, nodes, table) = tree(&[first, second]);
    assert_eq!((answer, &table[..]), ((2, Some(root_box)), &[1, 2][..]));
    let cones = [0, 0, 1f32.to_bits(), two, (-1f32).to_bits(), 0, 0];
    let expected = [
        [&[INTERIOR | 1, 2, NONE], &root_box[..], &cones].concat(),
        [&[LEAF, NONE, 0], &first[..]].concat(),
        [&[LEAF | 1, NONE, 0], &second[..]].concat(),
    ];
    assert_eq!(nodes.as_flattened(), expected.concat());
    assert_eq!(self::table(&[second, first]), [2, 1]);
    // the box answered takes the lamps by their handles, the root its halves: of unlike zeros each has its first
    let (answer, nodes, _) = tree(&[second, lamp([0.0, -0.0, 0.0], 1.0)]);
    assert_eq!((answer.1.unwrap()[1], nodes[0][4]), (0, 1 << 31));
}

/// The draws of the pair and with no nodes (R14.1 to R14.3).
#[test]
fn draws() {
    let (pair, p, half) = (the_pair(), [1.0, 0.0, 1.0], 0x3f00_0000);
    for (u, lamp) in [(0.25, 0), (0.75, 1), (1.0, 1), (-0.0, 0)] {
        assert_eq!(drawn(&pair, p, u), Ok(Some((lamp, half))), "u {u}");
    }
    assert_eq!([0, 1, 2].map(|handle| named(&pair, p, handle)), [half, half, 0].map(Ok));
    assert_eq!(drawn(&pair, p, f32::from_bits(0x3f80_0001)), Err(11));
    assert_eq!((drawn(&[], p, 0.5), drawn(&[], p, f32::NAN)), (Ok(None), Err(11)));
    assert_eq!(drawn(&pair[..1], [f32::NAN; 3], 0.5), Ok(Some((0, 0x3f80_0000))));
    // totals that are infinite
    let huge = f32::from_bits(0x7f61_b1e6);
    let one = [with(pair[0], 9, huge), pair[1]];
    let near = [0.0, 0.0, f32::from_bits(0x3a83_126f)];
    assert_eq!((drawn(&one, near, 0.0), named(&one, near, 1)), (Ok(Some((1, 0x7fc0_0000))), Ok(0)));
    let both = pair.map(|lamp| with(lamp, 9, huge));
    let between = [1.0, 0.0, 0.0];
    assert_eq!((drawn(&both, between, 0.0), named(&both, between, 1)), (Ok(Some((1, 0x3f80_0000))), Ok(0)));
}

/// Three lamps at one point.
fn at_one_point() -> Vec<Record> {
    vec![lamp([5.0; 3], 1.0); 3]
}

/// Four lamps of which the first three lie left of the cut.
fn three_left() -> Vec<Record> {
    [0.0, 12.0, 1.0, 2.0].map(|x| along(x, 1.0)).into()
}

/// Lamps at one point, and on a line.
#[test]
fn middles() {
    assert_eq!(table(&at_one_point()), [1, 3, 4]);
    // along the third axis no cost is above 0, and the first axis has one bucket
    let upward = |z: f32| lamp([0.0, 0.0, z], 1.0);
    assert_eq!(table(&[upward(9.0), upward(1.0), upward(2.0)]), [1, 3, 4]);
    // where neither side is empty nothing is cut at the middle: three of four lie left
    assert_eq!(table(&three_left()), [2, 6, 4, 5]);
}

/// Lamps without power are checked but are in no tree and no box.
#[test]
fn powerless() {
    let (far, [first, second]) = ([9.0; 3], the_pair());
    let (answer, nodes, table) = tree(&[lamp(far, -0.0), first, lamp(far, 0.0), second]);
    assert_eq!((answer, nodes.len()), ((2, Some([0, 0, 0, 2f32.to_bits(), 0, 0])), 3));
    assert_eq!(table, [NONE, 1, NONE, 2]);
    assert_eq!(tree(&[lamp(far, 0.0), lamp(far, -0.0)]), ((0, None), vec![], vec![NONE; 2]));
    assert_eq!(tree(&[]), ((0, None), vec![], vec![]));
    assert_eq!(tree(&[lamp(far, 0.0), first]).2, [NONE, 0]);
    let bad = block_of(&[first, with(lamp(far, -0.0), 10, 2.0)]);
    refused(2, &bad, reserves(2), 8);
}

/// The order of refusals: 2, 1, 4, 3, then the records' in order, then 10; and the limits.
#[test]
fn order_of_refusals() {
    let enough = reserves(3);
    let good = block_of(&[cube(0.0, 1.0), cube(4.0, 1.0), cube(8.0, 1.0)]);
    let change = |changes: &[(usize, u32)]| {
        let mut block = good.clone();
        changes.iter().for_each(|(at, word)| block[*at] = *word);
        block
    };
    let (nan, handle, side) = (f32::NAN.to_bits(), (15, 7), (14, 2));
    refused(3, &change(&[(0, 4097), handle, side]), [0; 4], 2);
    refused(4097, &[4097], [0; 4], 2);
    refused(0, &vec![0; MOST_WORDS + 1], [0; 4], 2);
    refused(0, &vec![0; MOST_WORDS], [0; 4], 1);
    refused(0, &[], [0; 4], 1);
    [2, 4, 5000, u32::MAX].into_iter().for_each(|count| refused(count, &change(&[handle]), [0; 4], 1));
    refused(3, &change(&[handle, side]), [0; 4], 1);
    (0..good.len()).for_each(|length| refused(3, &good[..length], enough, 1));
    refused(3, &[&good[..], &[0]].concat(), enough, 1);
    refused(3, &change(&[handle, (2, nan)]), [0; 4], 4);
    for short in 0..4 {
        let rooms = |room: usize| std::array::from_fn(|i| if i == short { room } else { enough[i] });
        (0..enough[short]).for_each(|room| refused(3, &change(&[(2, nan)]), rooms(room), 3));
        refused(3, &change(&[(2, nan)]), rooms(enough[short] + 1), 5);
    }
    // the first record that fails, whatever the later ones fail for
    let behind = enough.map(|room| room + 2);
    refused(3, &change(&[(30, nan), (25, 2f32.to_bits())]), behind, 5);
    refused(3, &change(&[(16, 9f32.to_bits()), (30, nan)]), behind, 6);
    refused(3, &change(&[(10, 0), (16, 9f32.to_bits())]), behind, 7);
    refused(3, &change(&[(11, (-1f32).to_bits()), (24, 0)]), behind, 8);
    let huge = HUGE.to_bits();
    refused(3, &change(&[(11, huge), (25, huge), (39, huge), (41, 2f32.to_bits())]), behind, 8);

    let mut most = vec![cube(0.0, 1.0); MOST_LAMPS + 1];
    refused(4097, &block_of(&most), reserves(4097), 2);
    most.pop();
    assert_eq!(tree(&most).0.0, 4096);
}

/// The answer's own: of every length from 0 to 8, what is written of it, left and zeroed, by trees, without
/// lamps or power, and refused.
#[test]
fn answers() {
    let [first, second] = the_pair();
    let answer = |block: &[u32], room: usize| {
        let [nodes, table, work, _] = reserves(block[0] as usize);
        let (number, [nodes, .., answer]) = built(block[0], block, [nodes, table, work, room]);
        (number, answer, nodes.iter().all(|word| *word == PATTERN))
    };
    let dark = lamp([9.0; 3], 0.0);
    let pair = [2, 0, 0, 0, 2f32.to_bits(), 0, 0];
    let blocks = [(vec![first, second], pair), (vec![], [0; 7]), (vec![dark, dark], [0; 7])];
    for (block, words) in blocks.map(|(records, words)| (block_of(&records), words)) {
        for room in 0..=8 {
            let expected = match room < ANSWER {
                true => (3, vec![PATTERN; room], true),
                false => (0, [&words[..], &vec![PATTERN; room - ANSWER]].concat(), words[0] == 0 && block[0] == 0),
            };
            assert_eq!(answer(&block, room), expected, "{room} words");
        }
    }
    // 1, 4 and 2 leave it, and come before a short one; 5 to 8 and 10 zero it, behind a short one
    let mut block = block_of(&[first, second]);
    let changes = [(0, 1, 1), (14, 2, 1), (0, 4097, 2), (15, 7, 4)];
    for (place, word, number) in changes {
        let before = std::mem::replace(&mut block[place], word);
        (0..=8).for_each(|room| refused(2, &block, [46, 2, 4, room], number));
        block[place] = before;
    }
    let huge = lost().map(|lamps| (block_of(&lamps), 10));
    let bad = [(2, f32::NAN, 5), (2, 9.0, 6), (10, 0.0, 7), (11, -1.0, 8)].map(|(place, figure, number)| {
        let mut block = block.clone();
        block[place] = f32::to_bits(figure);
        (block, number)
    });
    for (block, number) in huge.into_iter().chain(bad) {
        let [nodes, table, work, _] = reserves(block[0] as usize);
        (0..=8).for_each(|room| {
            refused(block[0], &block, [nodes, table, work, room], if room < ANSWER { 3 } else { number })
        });
    }
}

/// Two huge lamps in one bucket, in one half, and on either side of the cut that wins but together with a
/// third lamp on one of another.
fn lost() -> [Vec<Record>; 3] {
    [
        vec![cube(0.0, HUGE), cube(0.0, HUGE), cube(0.0, 1.0), cube(9.0, 1.0)],
        // no cost of lamps on a line is above 0: the two are joined as one half, and again at the root
        vec![along(0.0, HUGE), along(1.0, HUGE), along(12.0, 1.0)],
        four(HUGE),
    ]
}

fn four(huge: f32) -> Vec<Record> {
    vec![cube(0.0, huge / HUGE), cube(2.0, huge), cube(10.0, huge), cube(12.0, huge / HUGE)]
}

fn refused_union(lamps: &[Record]) {
    refused(lamps.len() as u32, &block_of(lamps), reserves(lamps.len()), 10);
}

/// Powers that overflow: given where only the root has the sum, refused 10 wherever that is joined again.
#[test]
fn lost_unions() {
    let (_, nodes, _) = tree(&[cube(0.0, HUGE), cube(9.0, HUGE)]);
    assert_eq!(nodes[0][12], 0x7f80_0000);
    lost().iter().for_each(|lamps| refused_union(lamps));
    assert_eq!(table(&four(1e20)), [2, 3, 5, 6]);
}

/// As many lamps as there may be, as many forks above the deepest as there can be: the stack that the proved
/// build takes.
#[test]
fn stack() {
    println!("4,095 forks on 2 MiB, a Rust thread's own size; 2,488 on 1 MiB");
    for (lamps, stack) in [(MOST_LAMPS, 2 << 20), (2489, 1 << 20)] {
        let block = block_of(&deepest(lamps));
        let build = move || {
            let mut trays = reserves(lamps).map(|reserve| vec![0; reserve]);
            tree_build_light_bvh(lamps as u32, &block, lent(&mut trays)).map(|()| (trays[3][0], depth(&trays[0])))
        };
        let deep = std::thread::Builder::new().stack_size(stack).spawn(build).unwrap().join().unwrap();
        assert_eq!(deep, Ok((lamps as u32, lamps - 1)));
    }
}

/// A room is accepted whole, and what is drawn there has a chance by name.
#[test]
fn rooms() {
    let mut random = Random::new(1);
    for lamps in [0, 1, 2, 12, 512, 4096] {
        let room = Room::new(&mut random, lamps);
        let mut block = vec![0; 1 + BLOCK_RECORD * lamps];
        assert_eq!(build_light_bounds(&room.list, &mut block), Ok(()));
        let records: Vec<Record> = records(&block).copied().collect();
        let (words, (k, _)) = Words::with_box(build_light_bvh, &records).unwrap();
        assert_eq!((k as usize, words.nodes.len()), (lamps, (2 * lamps).saturating_sub(1)));
        let tree = words.tree();
        for _ in 0..if lamps == 0 { 0 } else { 100 } {
            let query = room.query(&mut random);
            let drawn = sample(&tree, &query, random.within(1.0).abs()).unwrap();
            assert!(
                drawn.is_none_or(|(handle, _)| pmf(&tree, &query, handle).is_ok_and(|chance| chance > 0)),
                "{drawn:?}"
            );
        }
    }
}

trials::differential! {
    /// The deepest tree is the oracle's.
    fn deepest_tree() {
        let nodes = trials::runs::trees::on_deep_stack(|| tree(&deepest(MOST_LAMPS)).1);
        assert_eq!((nodes.len(), depth(nodes.as_flattened())), (8191, 4095));
    }

    /// The branches that the oracle takes in `middles` and in `lost_unions`.
    fn branches() {
        use trials::oracle::reference::{marked, Branch};

        let (_, branches) = marked(|| table(&at_one_point()));
        let taken = [Branch::AxisLeftOut, Branch::DefaultSplit, Branch::OneBucket, Branch::MiddleCut];
        assert!(taken.into_iter().all(|branch| branches.has(branch)));
        let (_, branches) = marked(|| table(&three_left()));
        assert!(branches.has(Branch::DefaultSplit) && !branches.has(Branch::MiddleCut));
        let all = [Branch::LostBucket, Branch::LostNode, Branch::LostRange];
        for (lamps, branch) in lost().iter().zip(all) {
            let (_, branches) = marked(|| refused_union(lamps));
            assert!(all.into_iter().all(|other| branches.has(other) == (other == branch)), "not {branch:?}");
        }
    }

    /// Random blocks: every refusal and every branch is met, but for a branch that no block reaches and for
    /// unions of no power.
    fn trees() {
        let tally = trials::runs::trees::trees(0, 40_000);
        println!("trees: {tally}");
        let errors = ["error 5: Light", "error 6: Light", "error 7: Light bounds", "error 8: Light bounds", "error 10"];
        let branches = ["cones", "tree", "split", "bucket", "cost", "refused", "order", "room", "answer"];
        tally.check(&[0, 1, 2, 3, 4, 5, 6, 7, 8, 10], &[&errors[..], &branches].concat());
        [9, 11, 12, 13].into_iter().for_each(|number| assert_eq!(tally.answers[number], 0, "{number}"));
        let unmet = tally.labels.iter().filter(|(label, _)| label.starts_with("never") || label.starts_with("union"));
        unmet.for_each(|(label, count)| assert_eq!(*count, 0, "{label}"));
    }
}
