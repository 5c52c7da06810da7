//! The search for a violation of demand 3 on built trees: u in order draw lamps in order, each lamp in one
//! run; the named chance of a lamp drawn is given, and enters the nodes of the draw; the tree is whole. A
//! draw is handed in, so that broken ones can be found out.

use super::progress::Progress;
use crate::inputs::random::Random;
use crate::inputs::records::{Query, Record};
use crate::inputs::trees::{INTERIOR, LEAF, PAYLOAD};
use crate::inputs::walks::{Drawn, MOST_U, NODE_BYTES, NONE, Tree, Words, beside, words};
use crate::oracle::standins;
use crate::parts::{Ended, count_and_seed};
use crate::proved;
use std::time::Instant;

pub type Draw<'a> = &'a dyn Fn(&[u8], &Query, f32) -> Drawn;

/// The lamps of a tree at the most, and the forks whose edges are tried.
const LAMPS: u64 = 40;
const EDGES: usize = 24;
/// Random u beside those at the edges, and the edges that are found to the last bit.
const ANY_U: usize = 12;
const SHARPENED: usize = 6;

/// How demand 3 is violated.
#[derive(Clone, Copy, Debug, PartialEq)]
pub enum Violation {
    /// Between two u that draw a lamp, or at the same u, another or none is drawn.
    Run,
    /// A greater u draws a lamp whose leaf comes earlier.
    Order,
    /// The chance by name of a lamp drawn is refused.
    Unnamed,
    /// The draw enters other nodes than parent words lead to from the lamp's leaf.
    DrawnNodes,
    /// The chance by name does.
    NamedNodes,
    /// The tree is not whole.
    Shape(&'static str),
}

#[derive(Default, Debug)]
pub struct Search {
    pub trees: u64,
    /// Blocks that build refused; they are not counted as trees.
    pub refused: u64,
    pub lone: u64,
    pub infinite_roots: u64,
    pub draws: u64,
    pub none: u64,
    pub draws_refused: u64,
    /// Queries for which some u draw a lamp and others are refused.
    pub mixed: u64,
    /// Lamps drawn for a query, each followed up to the root.
    pub lamps: u64,
    pub nan_chances: u64,
    /// By the tree's number, from 1, and the words of what showed it.
    pub found: Vec<(u64, Violation, String)>,
}

impl std::fmt::Display for Search {
    fn fmt(&self, out: &mut std::fmt::Formatter) -> std::fmt::Result {
        let Search {
            trees,
            refused,
            lone,
            infinite_roots,
            draws,
            none,
            draws_refused,
            mixed,
            lamps,
            nan_chances,
            found,
        } = self;
        writeln!(out, "{trees} trees ({refused} blocks refused), {} violations", found.len())?;
        writeln!(out, "    trees of one node: {lone}; roots of infinite power: {infinite_roots}")?;
        writeln!(
            out,
            "    draws: {draws}, of which none: {none}, refused: {draws_refused}, chance NaN: {nan_chances}"
        )?;
        writeln!(out, "    lamps drawn and followed up: {lamps}; queries that only some u are refused for: {mixed}")?;
        found
            .iter()
            .take(4)
            .try_for_each(|(tree, violation, shown)| writeln!(out, "    tree {tree}: {violation:?}: {shown}"))
    }
}

/// What of the last paragraph of demand 3 is not so: 2k - 1 nodes, each reached once by child words from the
/// first; a leaf for each lamp with power, where the table says, and no other; each box holds its children's.
/// And each child's parent word is right.
pub fn shape_flaw(records: &[Record], words: &Words) -> Option<&'static str> {
    let powered = |record: &Record| f32::from_bits(record[9]) > 0.0;
    let k = records.iter().filter(|record| powered(record)).count();
    if words.nodes.len() != (2 * k).saturating_sub(1) || words.table.len() != records.len() {
        return Some("a count");
    }
    if records.iter().zip(&words.table).any(|(record, place)| (*place == NONE) == powered(record)) {
        return Some("a table word");
    }
    let mut reached = vec![false; words.nodes.len()];
    let mut open: Vec<(u32, u32)> = if k == 0 { vec![] } else { vec![(0, NONE)] };
    let mut leaves = 0;
    while let Some((place, above)) = open.pop() {
        let Some([head, right, parent, record @ ..]) = words.nodes.get(place as usize) else {
            return Some("a child past the end");
        };
        if std::mem::replace(&mut reached[place as usize], true) || *parent != above {
            return Some("a node reached twice, or another parent word");
        }
        let payload = head & PAYLOAD;
        match head - payload {
            LEAF => {
                leaves += 1;
                if words.table.get(payload as usize) != Some(&place) {
                    return Some("a leaf that is not where the table says");
                }
            }
            INTERIOR => {
                for child in [payload, *right] {
                    if words.record(child as usize).is_none_or(|child| !holds(record, child)) {
                        return Some("a box that does not hold a child's");
                    }
                    open.push((child, place));
                }
            }
            _ => return Some("an unknown kind"),
        }
    }
    (leaves != k || reached.contains(&false)).then_some("a node not reached, or a lamp without a leaf")
}

fn holds(outer: &Record, inner: &Record) -> bool {
    let value = |record: &Record, i: usize| f32::from_bits(record[i]);
    (0..3).all(|i| value(outer, i) <= value(inner, i) && value(outer, i + 3) >= value(inner, i + 3))
}

/// Both zeros, the ends, u at the edges between lamps and beside them, and random ones.
fn us(random: &mut Random, words: &Words, query: &Query) -> Vec<f32> {
    let edges = words.edges(query, |record, query| proved::bounds_importance(record, query), EDGES);
    let mut us = vec![0.0, -0.0, 1.0, 0.5, beside(MOST_U, 1), MOST_U, beside(MOST_U, -1), beside(0.0, 1)];
    us.extend(edges.iter().flat_map(|edge| [-2, -1, 0, 1, 2].map(|by| beside(*edge, by))));
    us.extend((0..ANY_U).map(|_| random.within(1.0).abs()));
    us
}

fn lamp(drawn: &Drawn) -> Option<u32> {
    drawn.ok().flatten().map(|(handle, _)| handle)
}

/// What some u draw, in the order of the u; -0 stands before 0.
fn all_drawn(us: Vec<f32>, draw: impl Fn(f32) -> Drawn) -> Vec<(f32, Drawn)> {
    let mut us: Vec<f32> = us.into_iter().filter(|u| (0.0..=1.0).contains(u)).collect();
    us.sort_by(f32::total_cmp);
    us.dedup_by_key(|u| u.to_bits());
    us.into_iter().map(|u| (u, draw(u))).collect()
}

/// More u where neighbours draw otherwise: by halves until the two are next to each other, and beside these.
fn sharpened(drawn: &[(f32, Drawn)], draw: impl Fn(f32) -> Drawn) -> Vec<f32> {
    let mut more = Vec::new();
    let edges = drawn.windows(2).filter(|pair| lamp(&pair[0].1) != lamp(&pair[1].1));
    for pair in edges.take(SHARPENED) {
        let [mut low, mut high] = [pair[0].0, pair[1].0].map(|u| u.abs().to_bits());
        while low + 1 < high {
            let middle = low + (high - low) / 2;
            let u = f32::from_bits(middle);
            more.push(u);
            if lamp(&draw(u)) == lamp(&pair[0].1) {
                low = middle;
            } else {
                high = middle;
            }
        }
        more.extend((-3..=3).map(|by| beside(f32::from_bits(low), by)));
    }
    more
}

/// The first two, by their places, between which the runs or their order are broken.
fn broken_order(drawn: &[(f32, Drawn)], table: &[u32]) -> Option<(Violation, usize, usize)> {
    let place = |lamp: u32| table.get(lamp as usize).copied().unwrap_or(NONE);
    let equal = |i: &usize| drawn[*i].0 == drawn[i - 1].0 && lamp(&drawn[*i].1) != lamp(&drawn[i - 1].1);
    if let Some(i) = (1..drawn.len()).find(equal) {
        return Some((Violation::Run, i - 1, i));
    }
    let lamps: Vec<(usize, u32)> =
        drawn.iter().enumerate().filter_map(|(i, (_, drawn))| Some((i, lamp(drawn)?))).collect();
    lamps.windows(2).find_map(|pair| {
        let [(i, first), (j, second)] = [pair[0], pair[1]];
        match place(first).cmp(&place(second)) {
            std::cmp::Ordering::Greater => Some((Violation::Order, i, j)),
            std::cmp::Ordering::Equal if first != second || j != i + 1 => Some((Violation::Run, i, j)),
            _ => None,
        }
    })
}

/// The nodes from a leaf up, by parent words.
fn way_up(words: &Words, leaf: u32) -> Vec<usize> {
    let mut way = vec![leaf as usize];
    while way.len() <= words.nodes.len() {
        match words.nodes[way[way.len() - 1]][2] {
            NONE => break,
            parent => way.push(parent as usize),
        }
    }
    way
}

/// Makes a node's kind unknown: a draw that enters it is refused 12, and no other draw sees it.
fn spoil_kind(nodes: &mut [u8], place: usize) {
    nodes[NODE_BYTES * place + 3] &= 0x3f;
}

/// Puts a node's parent past the end: a chance by name that enters it is refused 12, and no other sees it.
fn spoil_parent(nodes: &mut [u8], place: usize) {
    nodes[NODE_BYTES * place + 8..NODE_BYTES * place + 12].copy_from_slice(&(NONE - 1).to_le_bytes());
}

/// Whether the named chance of a lamp drawn is given, and whether draw and chance enter exactly the nodes on
/// the way up from its leaf. What they enter is seen from outside: a node spoilt for the walk turns its
/// answer to 12 where the walk enters it. Nodes in such a way have one order, root first or leaf first, as
/// their parent words were found right.
fn followed(
    words: &Words,
    Tree { nodes, table }: &Tree,
    draw: Draw,
    query: &Query,
    u: f32,
    drawn: (u32, u32),
) -> Option<Violation> {
    let (handle, _) = drawn;
    let named = proved::sampler_pmf(nodes, table, query, handle);
    if named.is_err() {
        return Some(Violation::Unnamed);
    }
    let Some(leaf) = words.table.get(handle as usize).filter(|leaf| **leaf != NONE) else {
        return Some(Violation::DrawnNodes);
    };
    let way = way_up(words, *leaf);
    let (mut beside_it, mut spoilt) = (nodes.to_vec(), nodes.to_vec());
    for place in (0..words.nodes.len()).filter(|place| !way.contains(place)) {
        spoil_kind(&mut beside_it, place);
        spoil_parent(&mut beside_it, place);
    }
    let mut drawn_nodes = draw(&beside_it, query, u) == Ok(Some(drawn));
    let mut named_nodes = proved::sampler_pmf(&beside_it, table, query, handle) == named;
    for place in way {
        let node = NODE_BYTES * place..NODE_BYTES * (place + 1);
        spoil_kind(&mut spoilt, place);
        drawn_nodes &= draw(&spoilt, query, u) == Err(12);
        spoilt[node.clone()].copy_from_slice(&nodes[node.clone()]);
        spoil_parent(&mut spoilt, place);
        named_nodes &= proved::sampler_pmf(&spoilt, table, query, handle) == Err(12);
        spoilt[node.clone()].copy_from_slice(&nodes[node]);
    }
    match (drawn_nodes, named_nodes) {
        (false, _) => Some(Violation::DrawnNodes),
        (_, false) => Some(Violation::NamedNodes),
        _ => None,
    }
}

impl Search {
    fn query(&mut self, random: &mut Random, words: &Words, draw: Draw, query: &Query) -> Option<(Violation, String)> {
        let tree = words.tree();
        let draw_at = |u| draw(&tree.nodes, query, u);
        let mut us = us(random, words, query);
        us.extend(sharpened(&all_drawn(us.clone(), draw_at), draw_at));
        let drawn = all_drawn(us, draw_at);
        let count = |of: fn(&Drawn) -> bool| drawn.iter().filter(|(_, drawn)| of(drawn)).count() as u64;
        let refused = count(Result::is_err);
        self.draws += drawn.len() as u64;
        self.none += count(|drawn| *drawn == Ok(None));
        self.draws_refused += refused;
        self.mixed += u64::from(refused > 0 && count(|drawn| lamp(drawn).is_some()) > 0);
        let shown = |at: &[usize]| {
            let draws: Vec<_> =
                at.iter().map(|i| format!("u {:08x} gives {:x?}", drawn[*i].0.to_bits(), drawn[*i].1)).collect();
            format!("{draws:?}, query {query:08x?}, nodes {:08x?}, table {:x?}", words.nodes, words.table)
        };
        if let Some((violation, i, j)) = broken_order(&drawn, &words.table) {
            return Some((violation, shown(&[i, j])));
        }
        // each lamp once
        let mut last = None;
        for (i, (u, given)) in drawn.iter().enumerate() {
            let Some((handle, chance)) = given.ok().flatten().filter(|(handle, _)| last != Some(*handle)) else {
                continue;
            };
            last = Some(handle);
            self.lamps += 1;
            self.nan_chances += u64::from(chance == 0x7fc0_0000);
            if let Some(violation) = followed(words, &tree, draw, query, *u, (handle, chance)) {
                return Some((violation, shown(&[i])));
            }
        }
        None
    }

    /// Trees of the proved build with the proved chance by name and the draw given, one query a tree; it ends
    /// at so many trees, or, where it is to, at the first violation.
    pub fn run(draw: Draw, seed: u64, trees: u64, to_the_first: bool) -> Search {
        let mut random = Random::new(seed);
        let (mut search, mut progress) = (Search::default(), Progress::new("trees searched", trees));
        while search.trees < trees && (!to_the_first || search.found.is_empty()) {
            progress.at(search.trees);
            let most = random.of(&[4, 8, 16, LAMPS]);
            let lamps = random.below(most) + 1;
            let records = random.tree_records(lamps as usize);
            let Some(words) = Words::built(proved::tree_build_light_bvh, &records) else {
                search.refused += 1;
                continue;
            };
            // few of no lamp or one
            if words.nodes.len() < 3 && !random.chance(8) {
                continue;
            }
            search.trees += 1;
            search.lone += u64::from(words.nodes.len() == 1);
            search.infinite_roots += u64::from(words.nodes.first().is_some_and(|root| root[12] == 0x7f80_0000));
            let found = match shape_flaw(&records, &words) {
                Some(flaw) => Some((Violation::Shape(flaw), format!("{records:08x?}"))),
                None => {
                    let query = random.walk_query(&words);
                    search.query(&mut random, &words, draw, &query)
                }
            };
            search.found.extend(found.map(|(violation, shown)| (search.trees, violation, shown)));
        }
        search
    }
}

/// How a copy of the draw is broken.
#[derive(Clone, Copy, Debug, PartialEq)]
pub enum Slip {
    /// Not at all.
    Whole,
    /// At forks whose place is divisible by three the right child comes first.
    RightFirst,
    /// u is held against a share by their words, so that -0 is above any.
    ByWords,
    /// Every u draws the lamp of the first leaf by place; no fork is entered.
    OneLamp,
    /// A u between 3f7ffffe and 1 is refused.
    Gap,
}

pub const SLIPS: [Slip; 4] = [Slip::RightFirst, Slip::ByWords, Slip::OneLamp, Slip::Gap];

impl Slip {
    /// A draw over words, in Rust, with the proved importance.
    pub fn draw(self, nodes: &[u8], query: &Query, u: f32) -> Drawn {
        let all = words(nodes);
        let words = Words { nodes: all.as_chunks().0.to_vec(), table: vec![] };
        if !(0.0..=1.0).contains(&u) || self == Slip::Gap && u > MOST_U && u < 1.0 {
            return Err(11);
        }
        if self == Slip::OneLamp {
            let first = words.nodes.iter().find(|node| node[0] & !PAYLOAD == LEAF);
            return Ok(first.map(|leaf| (leaf[0] & PAYLOAD, 1f32.to_bits())));
        }
        let weigh = |place: usize| {
            let record = words.record(place).filter(|record| record[12] < 2).ok_or(12u32)?;
            proved::bounds_importance(record, query).map(f32::from_bits)
        };
        let (mut place, mut chance, mut u) = (0, 1.0, u.min(MOST_U));
        for _ in 0..words.nodes.len() {
            let head = words.nodes[place][0];
            let Some([left, right]) = words.children(place) else {
                return if head & !PAYLOAD == LEAF {
                    Ok(Some((head & PAYLOAD, standins::word(chance))))
                } else {
                    Err(12)
                };
            };
            let [first, second] =
                if self == Slip::RightFirst && place % 3 == 0 { [right, left] } else { [left, right] };
            let [x, y] = [weigh(first)?, weigh(second)?];
            let total = x + y;
            if total <= 0.0 {
                return Ok(None);
            }
            let share = x / total;
            let before = if self == Slip::ByWords { u.to_bits() < share.to_bits() } else { u < share };
            let (next, part, rest) =
                if before { (first, share, u / share) } else { (second, 1.0 - share, (u - share) / (1.0 - share)) };
            (place, chance, u) = (next, chance * part, rest.min(MOST_U));
        }
        if words.nodes.is_empty() {
            return Ok(None);
        }
        Err(12)
    }
}

/// `demand3 COUNT [SEED]`: so many trees by the proved draw; then each broken copy of it, up to the first violation.
pub fn by_hand(arguments: &[String]) -> Ended {
    let (count, seed) = count_and_seed(arguments)?;
    let began = Instant::now();
    let search = Search::run(&proved::sampler_sample, seed, count, false);
    print!("the proved draw, seed {seed}: {search}");
    println!("    {:.1} s", began.elapsed().as_secs_f64());
    let mut good = search.found.is_empty();
    for slip in SLIPS {
        let broken = Search::run(&|nodes, query, u| slip.draw(nodes, query, u), seed, count, true);
        let first = broken.found.first().map(|(tree, violation, _)| format!("{violation:?} at tree {tree}"));
        println!("{slip:?}: {}", first.as_deref().unwrap_or("no violation found"));
        good &= first.is_some();
    }
    Ok(good)
}
