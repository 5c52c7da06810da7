//! Runs of the proved draws and chances against the oracle, over built trees and trees with words made wrong,
//! counted by how each case ended.

use super::progress::Progress;
use super::tally::{self, OWN, Tally};
use super::trees::{Grown, on_deep_stack, rooms};
use crate::inputs::lent::Lent;
use crate::inputs::random::Random;
use crate::inputs::records::Query;
use crate::inputs::rooms::Room;
use crate::inputs::trees::NODE;
use crate::inputs::walks::{DAMAGES, Damage, MOST_NODES, NODE_BYTES, Tree, Words, words, wrong_words};
use crate::oracle::reference::{self, Branch, marked};
use crate::oracle::walks::Decoded;
use crate::parts::{Ended, count_and_seed};
use crate::proved;
use crate::stored::PATTERN;

/// How many lamps a random tree has at the most, and how many walks a tree is for.
const LAMPS: u64 = 64;
const WALKS: u64 = 16;
/// One tree in so many is a room's.
const ROOMS: u64 = 150;

/// A tree to walk, with what it was before damage.
struct Plot<'a> {
    room: Option<&'a Room>,
    sound: Words,
    damages: Vec<Damage>,
    nodes: Lent<u8>,
    table: Lent<u8>,
    decoded: Decoded,
}

impl Plot<'_> {
    fn new<'a>(random: &mut Random, rooms: &'a [Grown]) -> Plot<'a> {
        let (room, sound) = if random.chance(ROOMS) {
            let (room, words, _) = &rooms[random.below(rooms.len() as u64) as usize];
            (Some(room), words.clone())
        } else {
            (None, random.grown(reference::build_light_bvh, LAMPS))
        };
        let (tree, damages) = random.weathered(sound.clone());
        Plot::of(random, room, sound, damages, &tree)
    }

    fn of<'a>(
        random: &mut Random,
        room: Option<&'a Room>,
        sound: Words,
        damages: Vec<Damage>,
        tree: &Tree,
    ) -> Plot<'a> {
        let [nodes, table] = [&tree.nodes, &tree.table].map(|bytes| Lent::of(random, bytes, PATTERN as u8));
        Plot { room, sound, damages, nodes, table, decoded: Decoded::new(tree) }
    }

    fn query(&self, random: &mut Random) -> Query {
        match self.room.filter(|_| !random.chance(4)) {
            Some(room) => room.query(random),
            None => random.walk_query(&self.sound),
        }
    }

    fn more(&self) -> Vec<(&'static str, bool)> {
        DAMAGES.iter().map(|(damage, label)| (*label, self.damages.contains(damage))).collect()
    }

    /// For a message, cut where it is long.
    fn shown(&self) -> String {
        let nodes: Vec<_> = words(self.nodes.words()).chunks(NODE).take(16).map(<[u32]>::to_vec).collect();
        let table = words(self.table.words());
        let [nodes_len, table_len] = [&self.nodes, &self.table].map(|bytes| bytes.words().len());
        format!(
            "{:?}, {nodes_len} bytes {nodes:08x?}, {table_len} bytes {:x?}",
            self.damages,
            &table[..table.len().min(24)]
        )
    }

    fn draw(&self, tally: &mut Tally, query: &Query, u: f32) {
        let (expected, branches) = marked(|| self.decoded.sample(query, u));
        let got = proved::sampler_sample(self.nodes.words(), query, u);
        let chance = expected.ok().flatten().map(|(_, chance)| chance);
        let nodes = self.decoded.nodes();
        let by_length = matches!(expected, Err(1 | 2));
        let mut more = self.more();
        more.extend([
            ("draw: a lamp", chance.is_some()),
            ("draw: none, no weight", expected == Ok(None) && nodes > 0),
            ("draw: none, no nodes", expected == Ok(None) && nodes == 0),
            ("draw: the chance is NaN", chance == Some(0x7fc0_0000)),
            ("draw: the chance is 0", chance == Some(0)),
            ("draw: a lamp of 8,191 nodes", chance.is_some() && nodes == MOST_NODES),
            ("draw: a lamp by -0", chance.is_some() && u.to_bits() == 1 << 31),
            (
                "draw: a lamp for a query that is not finite",
                chance.is_some() && query.iter().any(|word| !f32::from_bits(*word).is_finite()),
            ),
            ("draw: 12 behind a right child", expected == Err(12) && branches.has(Branch::IntoRight)),
            ("order: 11 though there are no nodes", expected == Err(11) && nodes == 0),
            ("order: 1 before 11", expected == Err(1) && !(0.0..=1.0).contains(&u)),
            (BY_LENGTH, by_length),
            (BY_REFERENCE, !by_length && self.decoded.by_reference()),
            (BY_COPY, !by_length && !self.decoded.by_reference()),
            (OWN, self.decoded.own_sample(query, u).is_some_and(|own| own != expected)),
        ]);
        let shown =
            || format!("draw({query:08x?}, {:08x}) of {}: {got:08x?}, not {expected:08x?}", u.to_bits(), self.shown());
        tally.case(&expected, branches, &more, got == expected, shown);
    }

    fn chance(&self, tally: &mut Tally, query: &Query, handle: u32) {
        let (expected, branches) = marked(|| self.decoded.pmf(query, handle));
        let got = proved::sampler_pmf(self.nodes.words(), self.table.words(), query, handle);
        let table = self.table.words().as_chunks::<4>().0;
        let leaf = table.get(handle as usize).map(|word| u32::from_le_bytes(*word));
        let by_length = matches!(expected, Err(1 | 2));
        let mut more = self.more();
        let walked = branches.has(Branch::FromLeft) || branches.has(Branch::FromRight);
        more.extend([
            ("chance: above 0, by a walk", walked && expected.is_ok_and(|chance| f32::from_bits(chance) > 0.0)),
            ("chance: 0, past the table", expected == Ok(0) && leaf.is_none()),
            ("chance: 0, no leaf", expected == Ok(0) && leaf == Some(u32::MAX)),
            ("chance: 0, no weight", expected == Ok(0) && branches.has(Branch::NoWeight)),
            ("chance: NaN", expected == Ok(0x7fc0_0000)),
            ("chance: of 8,191 nodes", expected.is_ok() && walked && self.decoded.nodes() == MOST_NODES),
            ("chance: 12 behind a step up", expected == Err(12) && walked),
            ("chance: 12, no nodes", expected == Err(12) && self.decoded.nodes() == 0),
            ("order: 2 before 1", expected == Err(2) && !self.nodes.words().len().is_multiple_of(NODE_BYTES)),
            (BY_LENGTH, by_length),
            (BY_REFERENCE, !by_length && self.decoded.by_reference()),
            (BY_COPY, !by_length && !self.decoded.by_reference()),
            (OWN, self.decoded.own_pmf(query, handle).is_some_and(|own| own != expected)),
        ]);
        let shown = || format!("chance({query:08x?}, {handle:x}) of {}: {got:08x?}, not {expected:08x?}", self.shown());
        tally.case(&expected, branches, &more, got == expected, shown);
    }
}

const BY_LENGTH: &str = "oracle: our own check of lengths";
const BY_REFERENCE: &str = "oracle: the reference itself";
const BY_COPY: &str = "oracle: the copy of its loop, some word decodes to no node of the Rust";

/// Walks over trees, some walks a tree, until there are so many.
fn run(
    what: &'static str,
    seed: u64,
    cases: u64,
    mut walk: impl FnMut(&mut Random, &Plot, &mut Tally) + Send,
) -> Tally {
    on_deep_stack(|| {
        let mut random = Random::new(seed);
        let rooms = rooms(&mut random);
        let (mut tally, mut progress) = (Tally::new(), Progress::new(what, cases));
        while tally.cases < cases {
            progress.at(tally.cases);
            let plot = Plot::new(&mut random, &rooms);
            for _ in 0..WALKS.min(cases - tally.cases) {
                walk(&mut random, &plot, &mut tally);
            }
        }
        tally
    })
}

pub fn draws(seed: u64, cases: u64) -> Tally {
    let mut asked = (0, [0; 6], vec![]);
    run("draws", seed, cases, move |random, plot, tally| {
        // some u for each query
        let (turn, query, edges) = &mut asked;
        if *turn % 4 == 0 {
            *query = plot.query(random);
            *edges = plot.sound.edges(query, reference::importance, 6);
        }
        *turn += 1;
        let u = random.u(edges);
        plot.draw(tally, query, u);
    })
}

pub fn chances(seed: u64, cases: u64) -> Tally {
    run("chances", seed, cases, |random, plot, tally| {
        let (query, handle) = (plot.query(random), random.walk_handle(plot.table.words().len() / 4));
        plot.chance(tally, &query, handle);
    })
}

/// Each word of each node of some small trees replaced by each kind of wrong value in turn: draws and chances.
pub fn each_word(seed: u64, trees: u64) -> [Tally; 2] {
    let mut random = Random::new(seed);
    let mut tallies = [(); 2].map(|()| Tally::new());
    for _ in 0..trees {
        // a query that all is drawn for, so that an answer turns on the word
        let (sound, query) = loop {
            let words = random.grown(reference::build_light_bvh, 4);
            let (query, decoded) = (random.walk_query(&words), Decoded::new(&words.tree()));
            if (5..=7).contains(&words.nodes.len())
                && [0.0, 0.5, 1.0].iter().all(|u| matches!(decoded.sample(&query, *u), Ok(Some(_))))
            {
                break (words, query);
            }
        };
        let edges = sound.edges(&query, reference::importance, 8);
        for (place, word) in (0..sound.nodes.len()).flat_map(|place| (0..NODE).map(move |word| (place, word))) {
            for wrong in wrong_words(place, sound.nodes.len()) {
                let mut words = sound.clone();
                words.nodes[place][word] = wrong;
                let plot = Plot::of(&mut random, None, words.clone(), vec![Damage::AnyWord], &words.tree());
                let [draws, chances] = &mut tallies;
                for u in [0.0, 0.5, 1.0, random.u(&edges)] {
                    plot.draw(draws, &query, u);
                }
                (0..words.table.len() as u32).for_each(|handle| plot.chance(chances, &query, handle));
            }
        }
    }
    tallies
}

/// `walks COUNT [SEED]`: draws and chances, then each word of some trees.
pub fn by_hand(arguments: &[String]) -> Ended {
    let run = count_and_seed(arguments)?;
    let mut differences = tally::by_hand("draws", draws, run) + tally::by_hand("chances", chances, run);
    for (name, tally) in ["draws", "chances"].into_iter().zip(each_word(run.1, 20)) {
        print!("each word of 20 trees, {name}: {tally}");
        differences += tally.differences;
    }
    Ok(differences == 0)
}
