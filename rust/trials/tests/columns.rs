//! The light report: the program columns on good, bad and cut input, its lines against those of the proved
//! draw and chance by name.

use trials::inputs::blocks::block_of;
use trials::inputs::lists::BLOCK_RECORD;
use trials::inputs::random::Random;
use trials::inputs::records::{Query, Record};
use trials::inputs::rooms::Room;
use trials::inputs::trees::all_about;
use trials::inputs::walks::{Words, bytes};
use trials::proved::programs;
use trials::proved::{lamps_build_light_bounds, sampler_pmf, sampler_sample, tree_build_light_bvh};

const HEADER: &str = "lamp drawn named\n";
/// The groups that the program reads at a time.
const CHUNK: usize = 2048;

/// What the program writes for an input.
fn report(input: &[u8]) -> String {
    String::from_utf8(programs::answer("columns", input)).unwrap()
}

/// A tree by the exported build, and the lines of groups by the exported walks.
struct Tree {
    nodes: Vec<u8>,
    table: Vec<u8>,
}

impl Tree {
    fn of(block: &[u32]) -> Tree {
        let (words, _) = Words::of_block(tree_build_light_bvh, block).unwrap();
        Tree { nodes: bytes(words.nodes.as_flattened()), table: bytes(&words.table) }
    }

    fn line(&self, query: &Query, u: u32) -> String {
        let shown = sampler_sample(&self.nodes, query, f32::from_bits(u)).and_then(|drawn| {
            let named = |(handle, chance)| {
                sampler_pmf(&self.nodes, &self.table, query, handle).map(|by_name| (handle, chance, by_name))
            };
            drawn.map(named).transpose()
        });
        match shown {
            Ok(Some((handle, drawn, named))) => format!("{handle} {drawn:08x} {named:08x}\n"),
            Ok(None) => "none\n".into(),
            Err(number) => format!("refused {number}\n"),
        }
    }
}

/// A report of good groups is the header and a line each; with bytes behind them, one more.
fn agrees(block: &[u32], groups: &[(Query, u32)]) -> String {
    let tree = Tree::of(block);
    let mut input = bytes(block);
    groups.iter().for_each(|(query, u)| input.extend(bytes(&[&query[..], &[*u]].concat())));
    let lines: String = groups.iter().map(|(query, u)| tree.line(query, *u)).collect();
    assert!(report(&input) == format!("{HEADER}{lines}"), "a report of {} groups differs", groups.len());
    for stray in [1, 27] {
        let part = [&input[..], &vec![0; stray]].concat();
        assert!(report(&part) == format!("{HEADER}{lines}refused 1\n"), "{stray} bytes behind {} groups", groups.len());
    }
    lines
}

fn refused(input: &[u8], number: u32) {
    assert_eq!(report(input), format!("{HEADER}refused {number}\n"));
}

fn office(random: &mut Random, lamps: usize) -> (Room, Vec<u32>) {
    let room = Room::new(random, lamps);
    let mut block = vec![0; 1 + BLOCK_RECORD * lamps];
    lamps_build_light_bounds(&room.list, &mut block).unwrap();
    (room, block)
}

fn office_groups(random: &mut Random, room: &Room, count: usize) -> Vec<(Query, u32)> {
    (0..count).map(|_| (room.query(random), ((random.bits() >> 40) as f32 / (1 << 24) as f32).to_bits())).collect()
}

fn pair() -> Vec<u32> {
    block_of(&[0.0, 2.0].map(|x| all_about([x, 0.0, 0.0], [x, 0.0, 0.0], 1.0)))
}

/// Blocks that end the report, in the order of their refusals.
#[test]
fn bad_blocks() {
    refused(&[], 1);
    refused(&[1, 2, 3], 1);
    refused(&bytes(&[1]), 1);
    refused(&bytes(&[513]), 2);
    refused(&bytes(&[u32::MAX]), 2);
    refused(&bytes(&[512]), 1);
    let good = bytes(&pair());
    (0..good.len()).for_each(|end| refused(&good[..end], 1));
    assert_eq!(report(&good), HEADER);
    let with = |place: usize, word: u32| {
        let mut block = pair();
        block[place] = word;
        // what follows is not read as groups
        bytes(&[&block[..], &[0; 70]].concat())
    };
    let nan = f32::NAN.to_bits();
    for (place, word, number) in
        [(14, 2, 1), (1, 1, 4), (2, nan, 5), (2, 9f32.to_bits(), 6), (10, 0, 7), (11, (-1f32).to_bits(), 8)]
    {
        refused(&with(place, word), number);
    }
    let big = all_about([-3e38; 3], [3e38; 3], 3e38);
    refused(&bytes(&block_of(&[big, big, big])), 10);
    let (_, block) = office(&mut Random::new(3), 513);
    refused(&bytes(&block), 2);
}

/// Without powered lamps there is none to draw, whatever the point; a bad u is still refused.
#[test]
fn no_nodes() {
    let groups = [0.5f32, f32::NAN, -0.0, 2.0].map(|u| ([f32::NAN.to_bits(); 6], u.to_bits()));
    let dark: Vec<Record> = vec![all_about([0.0; 3], [1.0; 3], 0.0); 3];
    for block in [vec![0], block_of(&dark)] {
        assert_eq!(agrees(&block, &groups), "none\nrefused 11\nnone\nrefused 11\n");
    }
}

/// Lamps without power before powered ones: the table has a word for each, the nodes are of the powered ones alone.
#[test]
fn dark_lamps_first() {
    let lamp = |x: f32, phi: f32| all_about([x, 0.0, 0.0], [x, 0.0, 0.0], phi);
    let half = 0.5f32.to_bits();
    let here = [1f32.to_bits(), 0, 1f32.to_bits(), 0, 0, 0];
    assert_eq!(agrees(&block_of(&[lamp(0.0, 0.0), lamp(2.0, 1.0)]), &[(here, half)]), "1 3f800000 3f800000\n");
    let (dark, lit) = (lamp(5.0, 0.0), [lamp(0.0, 1.0), lamp(2.0, 1.0)]);
    let pair = [&[dark; 7][..], &lit].concat();
    let groups = [(here, 0x3e80_0000), (here, 0x3f40_0000)];
    assert_eq!(agrees(&block_of(&pair), &groups), "7 3f000000 3f000000\n8 3f000000 3f000000\n");
    // as many lamps as a report takes, and one more
    let most = [&[dark; 510][..], &lit].concat();
    assert_eq!(agrees(&block_of(&most), &groups), "510 3f000000 3f000000\n511 3f000000 3f000000\n");
    refused(&bytes(&block_of(&[&[dark; 511][..], &lit].concat())), 2);
}

/// A chunk is 57,344 bytes, 2,048 groups: one chunk whole, a group less, and a group more.
#[test]
fn chunks() {
    let mut random = Random::new(5);
    let (room, block) = office(&mut random, 16);
    for count in [2047, 2048, 2049, 4096, 4097] {
        let lines = agrees(&block, &office_groups(&mut random, &room, count));
        assert_eq!(lines.lines().count(), count);
    }
}

/// An input that arrives in pieces, which end within words, within the block and within chunks.
#[test]
fn pieces() {
    let mut random = Random::new(6);
    let (room, block) = office(&mut random, 40);
    let groups = office_groups(&mut random, &room, 2100);
    let input =
        [bytes(&block), groups.iter().flat_map(|(query, u)| bytes(&[&query[..], &[*u]].concat())).collect()].concat();
    let whole = programs::answer("columns", &input);
    assert_eq!(whole.iter().filter(|byte| **byte == b'\n').count(), 2101);
    for pieces in [&[1, 2, 4093][..], &[3, 57_343], &[2245, 1], &[2247, 57_344]] {
        assert_eq!(programs::answer_in_pieces("columns", &input, pieces), whole, "{pieces:?}");
    }
}

/// An output that cannot be written is told once; an input that cannot be read is one that has ended.
#[test]
fn no_output_and_no_input() {
    let (room, block) = office(&mut Random::new(7), 16);
    let groups = office_groups(&mut Random::new(8), &room, 5000);
    let input =
        [bytes(&block), groups.iter().flat_map(|(query, u)| bytes(&[&query[..], &[*u]].concat())).collect()].concat();
    for input in [&input[..], &bytes(&[513]), &[]] {
        assert_eq!(programs::complaint("columns", input), "columns: standard output could not be written whole\n");
    }
    assert_eq!(programs::answer_unread("columns"), format!("{HEADER}refused 1\n").into_bytes());
}

/// A lone lamp is drawn unweighed; with two a point that is no point is refused, and the report goes on.
#[test]
fn refused_groups() {
    let nowhere = [f32::NAN.to_bits(); 6];
    let mut here = [0; 6];
    (here[0], here[2]) = (1f32.to_bits(), 1f32.to_bits());
    let lone = block_of(&[all_about([0.0; 3], [0.0; 3], 1.0)]);
    assert_eq!(agrees(&lone, &[(nowhere, 0)]), "0 3f800000 3f800000\n");
    let groups = [(here, 0x3e80_0000), (nowhere, 0), (here, 0x3f80_0001), (here, 0x3f40_0000)];
    assert_eq!(agrees(&pair(), &groups), "0 3f000000 3f000000\nrefused 5\nrefused 11\n1 3f000000 3f000000\n");
}

/// Where a total is infinite the two chances part: the draw's share is no number, or is taken from one, and
/// the name's is 0.
#[test]
fn columns_apart() {
    let lamp = |x: f32, phi: u32| all_about([x, 0.0, 0.0], [x, 0.0, 0.0], f32::from_bits(phi));
    let (huge, one) = (0x7f61_b1e6, 0x3f80_0000);
    let near = [0, 0, 0x3a83_126f, 0, 0, 0];
    let block = block_of(&[lamp(0.0, huge), lamp(2.0, one)]);
    assert_eq!(agrees(&block, &[(near, 0), (near, one)]), "1 7fc00000 00000000\n1 7fc00000 00000000\n");
    let between = [one, 0, 0, 0, 0, 0];
    let block = block_of(&[lamp(0.0, huge), lamp(2.0, huge)]);
    assert_eq!(agrees(&block, &[(between, 0x3f00_0000)]), "1 3f800000 00000000\n");
}

/// Offices up to 512 lamps, and reports of many chunks and of just one or two.
#[test]
fn offices() {
    let mut random = Random::new(4);
    for (lamps, count) in
        [(64, 100_000), (512, 20_000), (512, CHUNK), (7, 2 * CHUNK), (130, CHUNK - 1), (3, CHUNK + 1), (1, 1)]
    {
        let (room, block) = office(&mut random, lamps);
        let lines = agrees(&block, &office_groups(&mut random, &room, count));
        assert_eq!(lines.lines().count(), count);
        assert!(lines.contains(' '), "no lamp was drawn of {lamps}");
    }
}

/// What `light` writes or prints of the laboratory and its benches.
fn light(command: &[&str]) -> Vec<u8> {
    let examples = concat!(env!("CARGO_MANIFEST_DIR"), "/../../examples");
    let files = ["laboratory.txt", "benches.txt"].map(|file| format!("{examples}/{file}"));
    let arguments: Vec<String> = command.iter().map(|word| word.to_string()).chain(files).collect();
    let mut output = light::output::Output::kept();
    assert!(light::run(&arguments, &mut output).is_ok());
    output.into_bytes()
}

/// The program on the words of `light columns` prints what `light report` does.
#[test]
fn the_room_tool() {
    let table = String::from_utf8(light(&["report", "--csv", "--no-sum"])).unwrap();
    let mut rows = table.split("\r\n").map(|row| row.split(',').collect::<Vec<_>>());
    let fields = rows.next().unwrap();
    let place = |name: &str| fields.iter().position(|field| *field == name).unwrap();
    let [lamp, drawn, named] = ["lamp", "drawn_bits", "named_bits"].map(place);
    let bits = |word: &str| word.trim_start_matches("0x").to_string();
    let rows = rows.filter(|row| row.len() > 1);
    let lines: String = rows.map(|row| format!("{} {} {}\n", row[lamp], bits(row[drawn]), bits(row[named]))).collect();
    assert_eq!(lines.lines().count(), 20);
    assert_eq!(report(&light(&["columns"])), format!("{HEADER}{lines}"));
}
