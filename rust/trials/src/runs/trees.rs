//! Runs of the proved build against the oracle over random blocks, counted by how each case ended; the
//! oracle's trees are held against what is true of every tree.

use super::progress::turns;
use super::tally::{self, OWN, Tally};
use crate::inputs::blocks::{check_block, records};
use crate::inputs::lent::{Lent, word};
use crate::inputs::lists::{BLOCK_RECORD, MOST_LAMPS, MOST_WORDS};
use crate::inputs::random::Random;
use crate::inputs::records::Record;
use crate::inputs::rooms::Room;
use crate::inputs::trees::{ANSWER, Build, Built, Case, INTERIOR, LEAF, NODE, built, depth, reserves};
use crate::inputs::walks::Words;
use crate::oracle::reference::{self, Branch, Branches, INVALID_INDEX, LOST_UNION, marked};
use crate::parts::{Ended, count_and_seed};
use crate::proved;
use std::sync::LazyLock;

/// Nodes, table, work and answer.
type Trays = [Lent<u32>; 4];

fn call(build: Build, case: &Case, trays: &mut Trays) -> Result<(), u32> {
    build(case.light_count, &case.block, trays.each_mut().map(Lent::slice))
}

/// What R12 says of lent words that is not so after a call, if anything.
fn flaw(case: &Case, before: &Trays, after: &Trays, given: Result<(), u32>) -> Option<&'static str> {
    let written = match given {
        Err(1..=4) => [0; 4],
        _ => reserves(case.light_count as usize),
    };
    for ((before, after), written) in before.iter().zip(after).zip(written) {
        let mut rest = before.clone();
        rest.slice()[..written].copy_from_slice(&after.words()[..written]);
        if rest != *after {
            return Some("a word changed that is not to be written");
        }
    }
    let [nodes, table, work, answer] = [0, 1, 2, 3].map(|i| &after[i].words()[..written[i]]);
    match given {
        Err(1..=4) => None,
        _ if work.iter().any(|word| *word != 0) => Some("the work is not zero"),
        Ok(()) if answer[0] == 0 && answer.iter().any(|word| *word != 0) => Some("a box without lamps"),
        Ok(()) => tree_flaw(&case.block, &built(answer), nodes, table),
        Err(_) if [nodes, table, answer].concat().iter().any(|word| *word != 0) => Some("a refusal left words"),
        Err(number) if number != first_refusal(&case.block).unwrap_or(LOST_UNION) => {
            Some("another refusal comes first")
        }
        Err(_) => None,
    }
}

/// The number of the first record that fails its check.
fn first_refusal(block: &[u32]) -> Option<u32> {
    records(block).find_map(|record| reference::validate(record).err())
}

/// The same of the tree itself.
fn tree_flaw(block: &[u32], (k, around): &Built, nodes: &[u32], table: &[u32]) -> Option<&'static str> {
    let records: Vec<&Record> = records(block).collect();
    let powered = || records.iter().filter(|record| f32::from_bits(record[9]) > 0.0);
    if first_refusal(block).is_some() {
        return Some("a record fails its check");
    }
    if powered().count() != *k as usize {
        return Some("k is not the count of lamps with power");
    }
    if *around != box_around(powered()) {
        return Some("the box is not around the lamps with power");
    }
    let (used, unused) = nodes.split_at(NODE * (2 * *k as usize).saturating_sub(1));
    if unused.iter().any(|word| *word != 0) {
        return Some("words behind the nodes");
    }
    if (0..records.len()).any(|i| (table[i] == INVALID_INDEX) == (f32::from_bits(records[i][9]) > 0.0)) {
        return Some("a lamp with power has no leaf, or one without has");
    }
    let nodes = used.as_chunks().0;
    let mut ends = vec![0; nodes.len()];
    (0..nodes.len()).rev().find_map(|place| node_flaw(nodes, place, &records, table, &mut ends))
}

/// The same of a node; `ends` has the place behind each later node's subtree.
fn node_flaw(
    nodes: &[[u32; NODE]],
    place: usize,
    records: &[&Record],
    table: &[u32],
    ends: &mut [usize],
) -> Option<&'static str> {
    let [head, right, parent, ref record @ ..] = nodes[place];
    let (kind, low) = (head & 3 << 30, (head & !(3 << 30)) as usize);
    if (parent == INVALID_INDEX) != (place == 0) {
        return Some("a root that is not the first node");
    }
    if kind == LEAF {
        ends[place] = place + 1;
        let good = right == INVALID_INDEX && table.get(low) == Some(&(place as u32)) && record == records[low];
        return (!good).then_some("a leaf is not its lamp's");
    }
    if kind != INTERIOR || low != place + 1 || ends.get(low) != Some(&(right as usize)) || right as usize >= nodes.len()
    {
        return Some("the right half does not lie behind the left");
    }
    ends[place] = ends[right as usize];
    let [left, right] = [low, right as usize].map(|child| &nodes[child]);
    if left[2] as usize != place || right[2] as usize != place {
        return Some("a child has another parent");
    }
    let joined = reference::union(left[3..].try_into().unwrap(), right[3..].try_into().unwrap());
    (joined != Ok(*record)).then_some("a record is not its children's union")
}

/// The least and the greatest on each axis, the first of equal ones.
fn box_around<'a>(records: impl Iterator<Item = &'a &'a Record>) -> Option<[u32; 6]> {
    let value = f32::from_bits;
    let passes =
        |i: usize, word: u32, other: u32| if i < 3 { value(other) < value(word) } else { value(other) > value(word) };
    let boxes = records.map(|record| std::array::from_fn(|i| record[i]));
    boxes.reduce(|a, b: [u32; 6]| std::array::from_fn(|i| if passes(i, a[i], b[i]) { b[i] } else { a[i] }))
}

/// Runs on a stack that the deepest tree fits on; a test's own of 2 MiB is too small for the reference.
pub fn on_deep_stack<A: Send>(run: impl FnOnce() -> A + Send) -> A {
    std::thread::scope(|scope| {
        let thread = std::thread::Builder::new().stack_size(64 << 20).spawn_scoped(scope, run).unwrap();
        thread.join().unwrap_or_else(|panic| std::panic::resume_unwind(panic))
    })
}

/// A room with its tree, k and the overall box.
pub(crate) type Grown = (Room, Words, Built);

/// Rooms with their trees, made once for a run.
pub(crate) fn rooms(random: &mut Random) -> [Grown; 3] {
    [64, 512, 4096].map(|lamps| {
        let room = Room::new(random, lamps);
        let block = room.block(reference::build_light_bounds);
        let (words, built) = Words::of_block(reference::build_light_bvh, &block).unwrap();
        (room, words, built)
    })
}

/// What a short room is called, by its place.
const ROOMS: [&str; 4] = ["nodes", "table", "work", "answer"];

/// Which rooms are short, by a mask from 1 up.
static SHORT: LazyLock<Vec<String>> = LazyLock::new(|| {
    let short = |mask: usize| {
        let rooms: Vec<&str> = (0..4).filter(|i| mask >> i & 1 == 1).map(|i| ROOMS[i]).collect();
        format!("room: short of {}", rooms.join(" and "))
    };
    (1..16).map(short).collect()
});

/// How long the answer is, from 0 to 8 words.
static LENGTHS: LazyLock<Vec<String>> = LazyLock::new(|| {
    (0..9).map(|length| format!("answer: {length} words, {}", if length < ANSWER { "3" } else { "given" })).collect()
});

/// What a case is.
fn ways(case: &Case, after: &Trays, answer: Result<(), u32>, branches: Branches) -> Vec<(&'static str, bool)> {
    let (m, count) = (case.light_count as usize, case.block.first().map_or(0, |count| *count as usize));
    let layout = check_block(&case.block);
    let given = answer.is_ok();
    let needed = if layout.is_ok() { reserves(count) } else { [0; 4] };
    let [nodes, table] = [0, 1].map(|i| if given { &after[i].words()[..needed[i]] } else { &[] });
    let (k, around) = if given { built(after[3].words()) } else { (0, None) };
    let k = k as usize;
    let leaves: Vec<u32> = table.iter().copied().filter(|place| *place != INVALID_INDEX).collect();
    let refused = || records(&case.block).find(|record| reference::validate(record).is_err());
    let short = (0..4).filter(|i| case.rooms[*i] < needed[*i]).map(|i| 1 << i).sum::<usize>();
    let mut ways = vec![
        ("tree: no lamps", given && m == 0),
        ("tree: 512 lamps", given && m == 512),
        ("tree: 4,096 lamps", given && m == MOST_LAMPS),
        ("tree: over 4,096 lamps by word 0", count > MOST_LAMPS),
        ("tree: over 2^20 words", case.block.len() > MOST_WORDS),
        ("tree: lamps, but none with power", given && m > 0 && k == 0),
        ("tree: leaves not in the order of their handles", !leaves.is_sorted()),
        ("tree: 16 lamps or more, a fork above each but one", k >= 16 && depth(&nodes[..NODE * (2 * k - 1)]) == k - 1),
        ("tree: a root of infinite power", k > 0 && nodes[12] == 0x7f80_0000),
        ("tree: a root whose direction is NaN", k > 0 && nodes[9] == 0x7fc0_0000),
        (
            "tree: a root whose box has a zero of the other sign than the box answered",
            around.is_some_and(|around| around != nodes[3..9]),
        ),
        (
            "split: no cost wins, and neither side is empty",
            branches.has(Branch::DefaultSplit) && !branches.has(Branch::MiddleCut),
        ),
        (
            "refused: a lamp without power",
            matches!(answer, Err(5..=8)) && refused().is_some_and(|record| record[9] & !(1 << 31) == 0),
        ),
        ("order: 2 before a wrong length", answer == Err(2) && case.block.len() != 1 + BLOCK_RECORD * count),
        ("order: 1 for the count before a handle out of place", answer == Err(1) && layout == Err(4)),
        (
            "order: 4 before a short room",
            answer == Err(4) && case.rooms.iter().zip(reserves(m)).any(|(room, reserve)| *room < reserve),
        ),
        ("order: 3 before what a record is refused for", answer == Err(3) && refused().is_some()),
        ("room: more than is needed", given && (0..4).any(|i| case.rooms[i] > needed[i])),
    ];
    ways.extend((1..).zip(SHORT.iter()).map(|(which, label)| (label.as_str(), answer == Err(3) && short == which)));
    let fits = |length: usize| if length < ANSWER { Err(3) } else { Ok(()) };
    ways.extend(
        (0..)
            .zip(LENGTHS.iter())
            .map(|(length, label)| (label.as_str(), case.rooms[3] == length && answer == fits(length))),
    );
    ways
}

/// The trays are lent from the middle of other words, which must stay.
pub fn trees(seed: u64, cases: u64) -> Tally {
    on_deep_stack(|| run(seed, cases))
}

fn run(seed: u64, cases: u64) -> Tally {
    let mut random = Random::new(seed);
    let mut tally = Tally::new();
    for _ in turns("trees", cases) {
        let mut case = random.tree_case();
        case.rooms[3] = random.answer_room();
        let before = case.rooms.map(|room| Lent::new(&mut random, room, word));
        let [mut after, mut own, mut ours] = [(); 3].map(|()| before.clone());
        let (answer, branches) = marked(|| call(reference::build_light_bvh, &case, &mut after));
        let own_answer = call(reference::native_build_light_bvh, &case, &mut own);
        let proved = call(proved::tree_build_light_bvh, &case, &mut ours);
        let flaw = flaw(&case, &before, &after, answer);
        let same = flaw.is_none() && proved == answer && ours == after;
        let mut more = ways(&case, &after, answer, branches);
        more.push((OWN, own_answer != answer || own != after));
        tally.case(&answer, branches, &more, same, || {
            format!("build_light_bvh({case:08x?}): {answer:?}, {proved:?}, {flaw:?}")
        });
    }
    tally
}

/// `trees COUNT [SEED]`.
pub fn by_hand(arguments: &[String]) -> Ended {
    Ok(tally::by_hand("trees", trees, count_and_seed(arguments)?) == 0)
}
