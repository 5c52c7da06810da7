//! The differential runs of the gate: the proved lamp lists and blocks against the oracle, the limits, and the program
//! that turns lists into blocks.

use trials::inputs::lists::{BLOCK_RECORD, KINDS, Kind, MOST_LAMPS, MOST_WORDS, list_of, wrapping_count};
use trials::inputs::random::Random;
use trials::proved::programs;
use trials::proved::{lamps_build_light_bounds, lamps_check_block};
use trials::runs::blocks::blocks;
use trials::stored::PATTERN;

/// The answer, and the block of so many words after the call.
fn built(list: &[u32], room: usize) -> (Result<(), u32>, Vec<u32>) {
    let mut block = vec![PATTERN; room];
    let answer = lamps_build_light_bounds(list, &mut block);
    (answer, block)
}

/// A list refused with a number; the block is left, or zeroed with a word behind it left.
fn refused(list: &[u32], room: usize, number: u32) {
    let (answer, block) = built(list, room);
    assert_eq!(answer, Err(number), "{:08x?}, room {room}", &list[..list.len().min(40)]);
    let zeros = if number < 5 { 0 } else { 1 + BLOCK_RECORD * list[0] as usize };
    assert!(
        block.iter().enumerate().all(|(i, word)| *word == if i < zeros { 0 } else { PATTERN }),
        "{number}: {block:08x?}"
    );
}

fn words(figures: &[f32]) -> Vec<u32> {
    figures.iter().map(|figure| figure.to_bits()).collect()
}

/// A triangle in the plane z = 0, and with it the group of so many.
fn triangle(area: f32) -> Vec<u32> {
    words(&[0.0, 0.0, 0.0, 1.0, 0.0, 0.0, 0.0, 1.0, 0.0, area, 0.0, 0.0, 1.0])
}

fn group(emission: f32, triangles: &[Vec<u32>]) -> Vec<u32> {
    let head = [3 << 30, emission.to_bits(), 1f32.to_bits(), 0, triangles.len() as u32];
    [&head[..], &triangles.concat()].concat()
}

/// Every cut and every room of a list of all kinds, and its order of refusals.
#[test]
fn lengths() {
    let mut random = Random::new(1);
    let lamps = KINDS.map(|kind| random.usual_lamp(kind));
    let good = list_of(lamps.clone());
    let room = 1 + BLOCK_RECORD * 3;
    assert_eq!(built(&good, room).0, Ok(()));
    (0..room).for_each(|room| refused(&good, room, 3));
    (0..good.len()).for_each(|length| refused(&good[..length], room, 1));
    refused(&[&good[..], &[0]].concat(), room, 1);
    let with = |changes: &[(usize, u32)]| {
        let mut list = good.clone();
        changes.iter().for_each(|(at, word)| list[*at] = *word);
        list
    };
    let (spot, group) = (1 + lamps[0].len(), 1 + lamps[0].len() + lamps[1].len());
    refused(&with(&[(1, 0)]), room, 1);
    refused(&with(&[(group + 3, 2)]), room, 1);
    [3, 80660, u32::MAX / 13, u32::MAX].into_iter().for_each(|count| refused(&with(&[(group + 4, count)]), room, 1));
    let mut wrapping = list_of([random.usual_group(2), random.usual_lamp(Kind::Point)]);
    (wrapping[0], wrapping[5]) = (1, wrapping_count(wrapping.len() as u32 - 6));
    assert!(wrapping[5] > 1 << 20);
    refused(&wrapping, room, 1);
    refused(&with(&[(0, 4096)]), room, 1);
    refused(&with(&[(0, 4097), (1, 0)]), 0, 2);
    refused(&[4097], 0, 2);
    refused(&with(&[(spot, 2 << 30)]), room, 4);
    refused(&with(&[(spot, 2 << 30), (group + 3, 2)]), 0, 1);
    refused(&with(&[(spot, 2 << 30), (5, u32::MAX)]), 0, 4);
    refused(&with(&[(5, u32::MAX)]), room - 1, 3);
    refused(&with(&[(5, u32::MAX)]), room + 1, 8);
    assert_eq!(built(&[0], 2), (Ok(()), vec![0, PATTERN]));
}

/// As many lamps and words as there may be, and one more.
#[test]
fn limits() {
    let mut random = Random::new(2);
    let mut lamps: Vec<Vec<u32>> = (0..MOST_LAMPS + 1).map(|i| random.usual_lamp(KINDS[i % 3])).collect();
    let room = 1 + BLOCK_RECORD * (MOST_LAMPS + 1);
    refused(&list_of(lamps.clone()), room, 2);
    lamps.pop();
    let (answer, block) = built(&list_of(lamps), room);
    assert_eq!((answer, block[0]), (Ok(()), MOST_LAMPS as u32));
    assert_eq!((lamps_check_block(&block), lamps_check_block(&block[..room - BLOCK_RECORD])), (Err(1), Ok(())));

    let long = [0, 0, 0, 1].map(|kind| random.usual_lamp(KINDS[kind])).into_iter().chain([random.usual_group(80657)]);
    let mut list = list_of(long);
    assert_eq!((list.len(), built(&list, 71).0), (MOST_WORDS, Ok(())));
    list.push(0);
    refused(&list, 71, 2);
}

/// What a lamp is refused for first, where there is more than one reason; and the first lamp before the second.
#[test]
fn order_of_checks() {
    let nan = f32::NAN.to_bits();
    let spot = [vec![2 << 30], words(&[1.0, 2.0, 3.0, 0.0, 0.0, 1.0, 1.0, 1.0, 0.9, 0.8])].concat();
    let panel = group(1.0, &[triangle(1.0), triangle(1.0)]);
    let with = |lamp: &[u32], changes: &[(usize, u32)]| {
        let mut lamp = lamp.to_vec();
        changes.iter().for_each(|(at, word)| lamp[*at] = *word);
        lamp
    };
    let lamp_refused =
        |lamp: &[u32], changes: &[(usize, u32)], number| refused(&list_of([with(lamp, changes)]), 16, number);
    let (corners, area, normal) = ([(5, nan), (8, nan), (11, nan)], (14, 0), (17, 0));
    let overflow = [(1, 3e38f32.to_bits()), (2, 3e38f32.to_bits())];
    lamp_refused(&spot, &[(7, nan), (1, nan)], 8);
    lamp_refused(&spot, &[(9, nan), (1, nan)], 8);
    lamp_refused(&spot, &[(1, nan), (6, 0)], 5);
    lamp_refused(&spot, &[(6, 0), (7, overflow[0].1)], 7);
    lamp_refused(&spot, &[(7, overflow[0].1)], 5);
    lamp_refused(&panel, &[&[(1, nan)], &corners[..]].concat(), 8);
    lamp_refused(&panel, &[&[area, normal], &corners[..]].concat(), 5);
    lamp_refused(&panel, &[area, normal], 9);
    lamp_refused(&panel, &[&[normal], &overflow[..]].concat(), 7);
    lamp_refused(&panel, &overflow, 5);
    // the second triangle's box is 5, but for the first one's normal
    let second = corners.map(|(at, word)| (at + 13, word));
    lamp_refused(&panel, &second, 5);
    lamp_refused(&panel, &[&[normal], &second[..]].concat(), 7);
    refused(&list_of([with(&spot, &[(6, 0)]), with(&spot, &[(7, nan)])]), 30, 7);
}

/// Powers that overflow, in a lamp (5) and in a union (10), and powers that vanish.
#[test]
fn powers() {
    let point =
        |intensity: f32, scale: f32| list_of([[vec![1 << 30], words(&[1.0, 2.0, 3.0, intensity, scale])].concat()]);
    refused(&point(0.0, 3e38), 16, 5);
    refused(&point(f32::NAN, 1.0), 16, 8);
    let phi = |list: &[u32]| built(list, 15).1[11];
    assert_eq!(phi(&point(1.0, 1.0)), 0x4149_0fdb);
    let groups = [1, 2, 3].map(|count| list_of([group(1e38, &vec![triangle(1.0); count])]));
    assert_eq!((phi(&groups[0]), phi(&groups[1])), (0x7f6c_58e0, 0x7f80_0000));
    refused(&groups[2], 16, 10);
    refused(&list_of([group(1.0, &[])]), 16, 9);
    refused(&list_of([group(-1.0, &[])]), 16, 8);
    // a triangle without power gives way whole, so that its box is not joined; of two such the last stays
    let mut far = triangle(1e-20);
    (0..3).for_each(|i| far[3 * i] = 9f32.to_bits());
    let boxes = |triangles: &[Vec<u32>]| {
        let (answer, block) = built(&list_of([group(1e-38, triangles)]), 15);
        assert_eq!(answer, Ok(()));
        [block[2], block[5]].map(f32::from_bits)
    };
    assert_eq!(boxes(&[triangle(1.0), far.clone()]), [0.0, 1.0]);
    assert_eq!(boxes(&[far.clone(), triangle(1.0)]), [0.0, 1.0]);
    assert_eq!(boxes(&[triangle(1e-20), far]), [9.0, 9.0]);
}

/// A NaN coordinate is passed over unless all three vertices have it on one axis.
#[test]
fn nan_coordinates() {
    for vertices in 0..8 {
        for axis in 0..3 {
            let mut triangle = triangle(1.0);
            (0..3).filter(|i| vertices >> i & 1 == 1).for_each(|i| triangle[3 * i + axis] = 0xffc0_0001);
            let list = list_of([group(1.0, &[triangle])]);
            if vertices == 7 {
                refused(&list, 16, 5);
            } else {
                assert_eq!(built(&list, 15).0, Ok(()), "{list:08x?}");
            }
        }
    }
}

/// Blocks, good and damaged.
#[test]
fn check_block() {
    let counts = blocks(0, 200_000);
    println!("blocks: good {}, 1: {}, 2: {}, 4: {}, none differs", counts[0], counts[1], counts[2], counts[4]);
    [0, 1, 2, 4].into_iter().for_each(|n| assert!(counts[n] > 0, "no block ended in {n}"));
    assert_eq!(lamps_check_block(&[]), Err(1));
    assert_eq!(lamps_check_block(&[4097]), Err(2));
    assert_eq!(lamps_check_block(&vec![0; MOST_WORDS]), Err(1));
    assert_eq!(lamps_check_block(&vec![0; MOST_WORDS + 1]), Err(2));
}

/// What the program lamps_to_block is to write for a list.
fn converted(list: &[u32]) -> Vec<u8> {
    let lamps = list.first().map_or(0, |count| *count as usize).min(MOST_LAMPS);
    let (answer, block) = built(list, 1 + BLOCK_RECORD * lamps);
    answer.map_or_else(told, |()| little_endian(&block))
}

fn told(number: u32) -> Vec<u8> {
    format!("refused {number}\n").into_bytes()
}

fn program(input: &[u8]) -> Vec<u8> {
    programs::answer("lamps_to_block", input)
}

/// Lists, good and damaged: the block's bytes, or `refused N`.
#[test]
fn program_on_lists() {
    let mut random = Random::new(3);
    for _ in 0..40 {
        let list = random.list_case().list;
        assert_eq!(program(&little_endian(&list)), converted(&list), "{list:08x?}");
    }
    // a lamp without power before one with it
    let point = |intensity: f32| [vec![1 << 30], words(&[1.0, 2.0, 3.0, intensity, 1.0])].concat();
    let dark = list_of([point(0.0), point(1.0)]);
    let block = program(&little_endian(&dark));
    assert_eq!((block.len(), &block), (4 * (1 + 2 * BLOCK_RECORD), &converted(&dark)));
    assert_eq!(
        [11, 25].map(|word| block[4 * word..4 * word + 4].to_vec()),
        [0u32, 0x4149_0fdb].map(|word| word.to_le_bytes().to_vec())
    );
}

/// Bytes behind the last whole word are 1, unless the list is over the limits; no word at all is 1.
#[test]
fn program_on_stray_bytes() {
    let good = little_endian(&list_of([Random::new(4).usual_lamp(Kind::Spot)]));
    let many = little_endian(&[MOST_LAMPS as u32 + 1]);
    for stray in 1..4 {
        let behind = |bytes: &[u8]| program(&[bytes, &vec![0; stray]].concat());
        assert_eq!((behind(&good), behind(&many), behind(&[])), (told(1), told(2), told(1)));
    }
    assert_eq!((program(&good).len(), program(&many), program(&[])), (60, told(2), told(1)));
}

/// The longest lists and the largest block, around the ends of the chunks of 16,384 words that the program reads.
#[test]
fn program_on_long_lists() {
    let mut random = Random::new(5);
    // 12 words without its triangles, 13 for each of these
    for triangles in [1258, 1259, 1260, 2519, 80658] {
        let list = list_of([random.usual_lamp(Kind::Point), random.usual_group(triangles)]);
        assert_eq!(list.len(), 12 + 13 * triangles as usize);
        assert_eq!(program(&little_endian(&list)), converted(&list), "{triangles}");
    }
    let points = [0; 3].map(|_| random.usual_lamp(Kind::Point)).into_iter().chain([random.usual_lamp(Kind::Spot)]);
    let list = list_of(points.chain([random.usual_group(80657)]));
    assert_eq!((list.len(), program(&little_endian(&list))), (MOST_WORDS, converted(&list)));
    for (words, stray) in [(1, 0), (1, 3), (16_383, 0), (16_384, 0), (16_384, 1), (16_385, 2), (50_000, 0)] {
        let long = [little_endian(&list), vec![0; 4 * words + stray]].concat();
        assert_eq!(program(&long), told(2), "{words} words more and {stray} bytes");
    }
    let most = list_of((0..MOST_LAMPS).map(|i| random.usual_lamp(KINDS[i % 3])));
    let block = program(&little_endian(&most));
    assert_eq!((block.len(), block), (229_380, converted(&most)));
}

/// An input in pieces; an output that cannot be written; an input that cannot be read, which is one that has ended.
#[test]
fn program_on_pieces_and_on_nothing() {
    let mut random = Random::new(6);
    let list = little_endian(&list_of((0..3000).map(|i| random.usual_lamp(KINDS[i % 3]))));
    let whole = program(&list);
    assert_eq!(whole.len(), 4 * (1 + 3000 * BLOCK_RECORD));
    for pieces in [&[1, 2, 4093][..], &[65_535], &[65_537, 3]] {
        assert_eq!(programs::answer_in_pieces("lamps_to_block", &list, pieces), whole, "{pieces:?}");
    }
    for input in [&list[..], &[]] {
        let message = "lamps_to_block: standard output could not be written whole\n";
        assert_eq!(programs::complaint("lamps_to_block", input), message);
    }
    assert_eq!(programs::answer_unread("lamps_to_block"), told(1));
}

fn little_endian(words: &[u32]) -> Vec<u8> {
    words.iter().flat_map(|word| word.to_le_bytes()).collect()
}

trials::differential! {
    fn lists() {
        let tally = trials::runs::lists::lists(0, 300_000);
        println!("lists: {tally}");
        let errors = [
            "error 4",
            "error 5: Light",
            "error 7: Light direction",
            "error 8: Light emission",
            "error 8: Spot",
            "error 9",
            "error 10",
        ];
        let branches = ["union", "cones: the first", "cones: axes", "cones: turned", "spot", "list", "room", "order", "block"];
        tally.check(&[0, 1, 2, 3, 4, 5, 7, 8, 9, 10], &[&errors[..], &branches].concat());
        assert_eq!(tally.answers[6], 0, "min above max: a box of a list's vertices has it never");
    }
}
