//! Runs of the proved packing against the oracle, over built and damaged words with the box, k, the lengths
//! and the tray changed too, counted by how each case ended. What is packed is also read back.

use super::progress::Progress;
use super::tally::{self, OWN, Tally};
use super::trees::{on_deep_stack, rooms};
use crate::inputs::lent::{Lent, byte};
use crate::inputs::packing::{CHANGES, Case, Change, Corners, HEADER, PACKED_NODE, Packed, Unpacked, reserve, unit};
use crate::inputs::random::Random;
use crate::inputs::records::{Record, UNFIT};
use crate::inputs::trees::{INTERIOR, LEAF, NODE, PAYLOAD};
use crate::inputs::walks::{MOST_NODES, NODE_BYTES, NONE, words, wrong_words};
use crate::oracle::packing::{native_pack_light_bvh, pack_light_bvh};
use crate::oracle::reference::{self, CROWDED, RAGGED, SHORT_TRAY, marked, three};
use crate::parts::{Ended, count_and_seed};
use crate::proved;
use crate::stored::PATTERN;

/// How many lamps a random tree has at the most, and how many packings a tree is for.
const LAMPS: u64 = 64;
const PACKINGS: u64 = 4;
/// One tree in so many is a room's.
const ROOMS: u64 = 150;

/// Why a node is not packed.
#[derive(Clone, Copy, Debug, PartialEq)]
enum Reason {
    Kind,
    Side,
    Record(u32),
    Length,
    Payload,
    Parent,
    Left,
}

use Reason::*;

impl Reason {
    fn number(self) -> u32 {
        match self {
            Kind | Side | Parent | Left => 12,
            Record(number) => number,
            Length => 7,
            Payload => 13,
        }
    }
}

/// Every reason of a node, in R9.3's order; of the record's own check the first. Written apart from the oracle.
fn reasons(node: &[u32; NODE], index: usize, count: usize) -> Vec<Reason> {
    let (kind, payload, [right, parent]) = (node[0] & !PAYLOAD, node[0] & PAYLOAD, [node[1], node[2]]);
    let mut record: Record = node[3..].try_into().unwrap();
    let side = record[12];
    record[12] = 0;
    let check = reference::validate(&record).err();
    let square = three(&record[6..]).iter().fold(0.0, |sum, x| sum + x * x);
    let interior = kind == INTERIOR;
    let all = [
        (kind != LEAF && !interior).then_some(Kind),
        (side > 1).then_some(Side),
        check.map(Record),
        (check.is_none() && !f32::is_finite(square)).then_some(Length),
        (interior && right >= 1 << 31).then_some(Payload),
        (parent != NONE && parent as usize >= count).then_some(Parent),
        (interior && payload as usize != index + 1).then_some(Left),
    ];
    all.into_iter().flatten().collect()
}

/// What the overall box is refused for.
fn box_reason(all: &Corners) -> Option<u32> {
    let inverted = (0..3).any(|i| f32::from_bits(all[i]) > f32::from_bits(all[3 + i]));
    match all.iter().any(|word| !f32::from_bits(*word).is_finite()) {
        true => Some(5),
        false => inverted.then_some(6),
    }
}

/// What a case is to be refused for, judged from R9 and R11 and apart from the reference: every
/// reason there is, in order.
struct Judged {
    lengths: Vec<u32>,
    disagree: bool,
    of_box: Option<u32>,
    nodes: Vec<Vec<Reason>>,
}

impl Judged {
    fn new(case: &Case) -> Judged {
        let (count, part) = (case.nodes.len() / NODE_BYTES, case.nodes.len() % NODE_BYTES);
        let lengths = [(count > MOST_NODES, CROWDED), (part != 0, RAGGED), (case.room < reserve(count), SHORT_TRAY)];
        let lengths = lengths.into_iter().filter(|(met, _)| *met).map(|(_, number)| number).collect();
        let all = if count > MOST_NODES { vec![] } else { words(&case.nodes) };
        let nodes: &[[u32; NODE]] = all.as_chunks().0;
        Judged {
            lengths,
            disagree: match case.all {
                None => count > 0 || case.k > 0,
                Some(_) => count == 0 || case.k == 0,
            },
            of_box: case.all.as_ref().and_then(box_reason),
            nodes: nodes.iter().enumerate().map(|(index, node)| reasons(node, index, count)).collect(),
        }
    }

    /// The reasons of the first node that is refused.
    fn first(&self) -> &[Reason] {
        self.nodes.iter().find(|reasons| !reasons.is_empty()).map_or(&[], |reasons| reasons)
    }

    /// Every number there is a reason for, in order.
    fn numbers(&self) -> Vec<u32> {
        let nodes = self.nodes.iter().flatten().map(|reason| reason.number());
        self.lengths.iter().copied().chain(self.disagree.then_some(12)).chain(self.of_box).chain(nodes).collect()
    }

    /// Which number comes before another one that is met too.
    fn orders(&self, numbers: &[u32]) -> Vec<(&'static str, bool)> {
        let (given, first) = (numbers.first(), self.first());
        let later = numbers.iter().any(|number| Some(number) != given);
        let lengths = |number: u32| given == Some(&number) && later;
        let (by_length, by_tree) = (!self.lengths.is_empty(), self.disagree);
        let other = |reason: Reason| first.iter().any(|next| next.number() != reason.number());
        let node = |met: fn(&Reason) -> bool| {
            !by_length
                && !by_tree
                && self.of_box.is_none()
                && first.first().is_some_and(|reason| met(reason) && other(*reason))
        };
        let last = self.nodes.iter().rev().find(|reasons| !reasons.is_empty());
        let across =
            first.first().zip(last.and_then(|last| last.first())).is_some_and(|(a, b)| a.number() != b.number());
        vec![
            ("order: 2 before another", lengths(CROWDED)),
            ("order: 1 before another", lengths(RAGGED)),
            ("order: 3 before another", lengths(SHORT_TRAY)),
            ("order: 12 of box, nodes and k before the box's own", !by_length && by_tree && self.of_box.is_some()),
            (
                "order: the box's before a node's",
                !by_length
                    && !by_tree
                    && self.of_box.is_some_and(|number| first.first().is_some_and(|next| next.number() != number)),
            ),
            ("order: a kind's before another of its node", node(|reason| *reason == Kind)),
            ("order: a side's before another of its node", node(|reason| *reason == Side)),
            ("order: the record's before another of its node", node(|reason| matches!(reason, Record(_)))),
            ("order: the length's before another of its node", node(|reason| *reason == Length)),
            ("order: 13 before 12 of its node", node(|reason| *reason == Payload)),
            (
                "order: an earlier node's before a later one's",
                !by_length && !by_tree && self.of_box.is_none() && across,
            ),
        ]
    }
}

/// Why the words packed for a node are not those of its words, if they are not: what is kept is read back
/// exact, the rest within its step.
fn node_flaw(node: &[u32; NODE], packed: &[u32; PACKED_NODE], all: &Corners) -> Option<&'static str> {
    let read = Unpacked::new(packed);
    let (leaf, figure) = (node[0] & !PAYLOAD == LEAF, |word: u32| f64::from(f32::from_bits(word)));
    if read.leaf != leaf || read.payload != if leaf { node[0] & PAYLOAD } else { node[1] } || read.parent != node[2] {
        return Some("the payload, the leaf's bit or the parent");
    }
    if read.phi != node[12] || read.two_sided != (node[15] == 1) || read.spare {
        return Some("the power, the side or the bit that is spare");
    }
    let direction = unit([9, 10, 11].map(|word| figure(node[word])));
    if (0..3).any(|i| (direction[i] - read.direction[i]).abs() > 1e-4) {
        return Some("the direction");
    }
    // a step is at most one off downward, or upward, and hardly the other way
    let off = |step: u32, share: f64, up: bool| {
        let by = if up { f64::from(step) - share } else { share - f64::from(step) };
        !(-0.02..1.02).contains(&by)
    };
    if (0..2).any(|i| off(read.cosines[i], 32767.0 * ((figure(node[13 + i]) + 1.0) / 2.0), false)) {
        return Some("a cosine");
    }
    for (end, axis) in [0, 1].into_iter().flat_map(|end| [0, 1, 2].map(|axis| (end, axis))) {
        let (low, high, place) = (figure(all[axis]), figure(all[3 + axis]), figure(node[3 + 3 * end + axis]));
        let step = read.steps[end][axis];
        let wrong = if low == high {
            step != 0
        } else if high - low > f64::from(f32::MAX) {
            // the Rust's difference is infinite
            step != 0
        } else {
            off(step, ((place - low) / (high - low)).clamp(0.0, 1.0) * 65535.0, end == 1)
        };
        if wrong {
            return Some("a step of the box");
        }
    }
    None
}

/// What R9 and R12 say of the answer and of the lent bytes that is not so after a call, if anything.
fn flaw(case: &Case, before: &Lent<u8>, after: &Lent<u8>, answer: &Packed, numbers: &[u32]) -> Option<&'static str> {
    let count = case.nodes.len() / NODE_BYTES;
    let reserve = match answer {
        Err(1..=3) | Ok(None) => 0,
        _ => reserve(count),
    };
    let mut rest = before.clone();
    rest.slice()[..reserve].copy_from_slice(&after.words()[..reserve]);
    if rest != *after {
        return Some("a byte changed that is not to be written");
    }
    if answer.err() != numbers.first().copied() {
        return Some("another refusal comes first");
    }
    let written = words(&after.words()[..reserve]);
    let (Ok(Some(packed)), Some(all)) = (answer, &case.all) else {
        let right = match answer {
            Ok(Some(_)) => false,
            Ok(None) => case.all.is_none(),
            Err(_) => written.iter().all(|word| *word == 0),
        };
        return (!right).then_some("none, or a refusal that left bytes");
    };
    let (header, rows) = written.split_at(HEADER);
    if *packed != written.len() || header != [&all[..3], &[0], &all[3..], &[0]].concat() {
        return Some("the count or the header");
    }
    let nodes = words(&case.nodes);
    let (nodes, rows) = (nodes.as_chunks().0, rows.as_chunks().0);
    nodes.iter().zip(rows).find_map(|(node, row)| node_flaw(node, row, all))
}

fn shown(case: &Case, changes: &[Change]) -> String {
    let nodes: Vec<_> = words(&case.nodes).chunks(NODE).take(16).map(<[u32]>::to_vec).collect();
    let Case { k, all, room, .. } = case;
    format!("{changes:?}, {} bytes {nodes:08x?}, k {k}, box {all:08x?}, {room} bytes lent", case.nodes.len())
}

/// One packing by both, from and to the middle of other bytes, which must stay.
fn packing(tally: &mut Tally, random: &mut Random, case: &Case, changes: &[Change]) {
    let nodes = Lent::of(random, &case.nodes, PATTERN as u8);
    let before = Lent::new(random, case.room, byte);
    let (mut whole, mut lent, mut own) = (before.clone(), before.clone(), before.clone());
    let (expected, branches) = marked(|| pack_light_bvh(nodes.words(), case.k, case.all, whole.slice()));
    let got = proved::packed_pack_light_bvh(nodes.words(), case.k, case.all, lent.slice());
    let own_answer = native_pack_light_bvh(nodes.words(), case.k, case.all, own.slice());

    let judged = Judged::new(case);
    let numbers = judged.numbers();
    let flaw = flaw(case, &before, &lent, &got, &numbers);
    let count = case.nodes.len() / NODE_BYTES;
    let packed = matches!(expected, Ok(Some(_)));
    let rows = || words(&case.nodes).as_chunks::<NODE>().0.to_vec();
    let mut more: Vec<_> = CHANGES.iter().map(|(change, label)| (*label, changes.contains(change))).collect();
    more.extend(judged.orders(&numbers));
    more.extend([
        ("packed: a tree", packed),
        ("packed: none", expected == Ok(None)),
        ("packed: a lone leaf", packed && count == 1),
        ("packed: 8,191 nodes", packed && count == MOST_NODES),
        ("packed: though k is another", packed && case.k != count.div_ceil(2)),
        ("packed: into a longer tray", packed && case.room > reserve(count)),
        (
            "packed: though a right child is past the end",
            packed && rows().iter().any(|node| node[0] & !PAYLOAD == INTERIOR && node[1] as usize >= count),
        ),
        ("packed: two-sided", packed && rows().iter().any(|node| node[15] == 1)),
        ("packed: a power of -0", packed && rows().iter().any(|node| node[12] == 1 << 31)),
        ("packed: none though there are bytes", expected == Ok(None) && case.room > 0),
        ("room: one byte short", expected == Err(3) && case.room + 1 == reserve(count)),
        ("room: none", expected == Err(3) && case.room == 0),
        ("broken: without nodes", expected == Err(12) && count == 0),
        (OWN, own_answer != expected || own != whole),
    ]);
    let same = got == expected && lent == whole && flaw.is_none();
    tally.case(&expected, branches, &more, same, || {
        let first = lent.words().iter().zip(whole.words()).position(|(a, b)| a != b);
        format!("{}: {got:?}, not {expected:?}, first at {first:?}, flaw {flaw:?}", shown(case, changes))
    });
}

/// Packings of built trees, some packings a tree, until there are so many.
pub fn packings(seed: u64, cases: u64) -> Tally {
    on_deep_stack(|| {
        let mut random = Random::new(seed);
        let rooms = rooms(&mut random);
        let (mut tally, mut progress) = (Tally::new(), Progress::new("packings", cases));
        while tally.cases < cases {
            progress.at(tally.cases);
            let grown = if random.chance(ROOMS) {
                let (_, words, built) = &rooms[random.below(rooms.len() as u64) as usize];
                (words.clone(), *built)
            } else {
                random.grown_with_box(reference::build_light_bvh, LAMPS)
            };
            for _ in 0..PACKINGS.min(cases - tally.cases) {
                let (case, changes) = random.packing_case(&grown.0, grown.1);
                packing(&mut tally, &mut random, &case, &changes);
            }
        }
        tally
    })
}

/// Each word of each node of some small trees that are packed, and each word of their boxes, replaced by each
/// kind of wrong value in turn; and every length of the tray up to some bytes past the reserve.
pub fn each_word(seed: u64, trees: u64) -> Tally {
    let mut random = Random::new(seed);
    let mut tally = Tally::new();
    for _ in 0..trees {
        let (sound, case) = loop {
            let (words, (k, all)) = random.grown_with_box(reference::build_light_bvh, 4);
            let case = Case { nodes: words.tree().nodes, k: k as usize, all, room: reserve(words.nodes.len()) };
            if (5..=7).contains(&words.nodes.len()) && Judged::new(&case).numbers().is_empty() {
                break (words, case);
            }
        };
        for (place, word) in (0..sound.nodes.len()).flat_map(|place| (0..NODE).map(move |word| (place, word))) {
            for wrong in wrong_words(place, sound.nodes.len()) {
                let mut words = sound.clone();
                words.nodes[place][word] = wrong;
                packing(
                    &mut tally,
                    &mut random,
                    &Case { nodes: words.tree().nodes, ..case.clone() },
                    &[Change::OfWords],
                );
            }
        }
        for (word, wrong) in
            (0..6).flat_map(|word| wrong_words(0, 1).into_iter().chain(UNFIT).map(move |wrong| (word, wrong)))
        {
            let mut all = case.all.unwrap();
            all[word] = wrong;
            packing(&mut tally, &mut random, &Case { all: Some(all), ..case.clone() }, &[Change::EndOfBox]);
        }
        for room in 0..case.room + 9 {
            packing(&mut tally, &mut random, &Case { room, ..case.clone() }, &[Change::Short]);
        }
    }
    tally
}

/// `packing COUNT [SEED]`: packings, then each word of some trees.
pub fn by_hand(arguments: &[String]) -> Ended {
    let run = count_and_seed(arguments)?;
    let differences = tally::by_hand("packings", packings, run);
    let words = each_word(run.1, 10);
    print!("each word of 10 trees: {words}");
    Ok(differences + words.differences == 0)
}
