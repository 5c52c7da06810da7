//! The two loops of the reference's walks, over links of which some may be unknown, and over any weighing:
//! what a child weighs is handed in, so a rule about weights changes neither loop. They stop where the
//! reference would, under its messages, and with messages of their own at what is unknown; and they tell
//! where they were.

use crate::inputs::records::{Query, vectors};
use crate::inputs::trees::{INTERIOR, LEAF, NODE, PAYLOAD};
use crate::inputs::walks::{MOST_U, NONE};
use crate::oracle::reference::native::light_bvh::LightBVH;
use crate::oracle::reference::{
    Branch, CHILDLESS_PARENT, NOT_OWNED, PAST_LEAF, PAST_LEFT, PAST_PARENT, PAST_RIGHT, PbrtError, SPENT_CHANCE,
    SPENT_DRAW, UNKNOWN_NODE, UNKNOWN_PARENT, mark, native_node,
};
use crate::oracle::standins;

/// What a walk reads of a node beside what it weighs: a leaf's handle or a fork's right child, none where the
/// kind is unknown; the parent.
pub struct Link {
    kind: Option<Kind>,
    parent: u32,
}

#[derive(Clone, Copy)]
enum Kind {
    Leaf(u32),
    Interior(u32),
}

impl Link {
    pub fn new([head, right, parent, ..]: &[u32; NODE]) -> Link {
        let kind = match head & !PAYLOAD {
            LEAF => Some(Kind::Leaf(head & PAYLOAD)),
            INTERIOR => Some(Kind::Interior(*right)),
            _ => None,
        };
        Link { kind, parent: *parent }
    }
}

/// A child's weight, by its place.
pub type Weigh<'a> = &'a dyn Fn(usize) -> Result<f32, PbrtError>;

/// How a walk ended, and where it was.
pub struct Walk<A> {
    pub ended: Result<A, PbrtError>,
    /// The nodes that it entered, in order.
    pub places: Vec<usize>,
    /// The forks whose children it weighed, in order.
    pub forks: Vec<Fork>,
}

/// A fork with its two children, the left one first.
#[derive(Clone, Copy, Debug, PartialEq)]
pub struct Fork {
    pub place: usize,
    pub children: [usize; 2],
    pub weights: [f32; 2],
}

/// What both walks share: what they go over, and where they were.
struct Walker<'a> {
    links: &'a [Link],
    weigh: Weigh<'a>,
    places: Vec<usize>,
    forks: Vec<Fork>,
}

impl<'a> Walker<'a> {
    /// A walk from its first step to its end.
    fn walk<A>(links: &'a [Link], weigh: Weigh<'a>, steps: impl FnOnce(&mut Self) -> Result<A, PbrtError>) -> Walk<A> {
        let mut walker = Walker { links, weigh, places: Vec::new(), forks: Vec::new() };
        let ended = steps(&mut walker);
        Walk { ended, places: walker.places, forks: walker.forks }
    }

    /// Enters a node: a walk enters as many as there are at the most.
    fn enter(&mut self, place: usize, past: &'static str) -> Result<(&'a Link, Kind), PbrtError> {
        let link = self.links.get(place).ok_or(PbrtError(past))?;
        self.places.push(place);
        Ok((link, link.kind.ok_or(PbrtError(UNKNOWN_NODE))?))
    }

    /// The weights of a fork's children, the left one's in full first, and their sum; none where they have no weight.
    fn fork(&mut self, place: usize, right: u32) -> Result<Option<(Fork, f32)>, PbrtError> {
        let children = [place + 1, right as usize];
        let weigh = |child: usize, past| match child < self.links.len() {
            true => (self.weigh)(child),
            false => Err(PbrtError(past)),
        };
        let fork = Fork { place, children, weights: [weigh(children[0], PAST_LEFT)?, weigh(children[1], PAST_RIGHT)?] };
        self.forks.push(fork);
        let total = fork.weights[0] + fork.weights[1];
        if total == f32::INFINITY {
            mark(Branch::EndlessTotal);
        }
        if total <= 0.0 {
            mark(Branch::NoWeight);
            return Ok(None);
        }
        Ok(Some((fork, total)))
    }

    /// That the walk ends where it begins.
    fn mark_unweighed(&self) {
        if self.places.len() == 1 {
            mark(Branch::Unweighed);
        }
    }
}

/// The loop of `bvh_light_sampler_sample`.
pub fn descend(links: &[Link], weigh: Weigh, u: f32) -> Walk<Option<(u32, f32)>> {
    Walker::walk(links, weigh, |walker| {
        if !(0.0..=1.0).contains(&u) {
            return Err(PbrtError("Light BVH sample coordinate is invalid."));
        }
        if u > MOST_U {
            mark(Branch::MovedDown);
        }
        let (mut place, mut pmf, mut u) = (0, 1.0, standins::min(u, MOST_U));
        for _ in 0..links.len() {
            // a child that is past the end was not weighed, so it is not entered
            let right = match walker.enter(place, PAST_RIGHT)?.1 {
                Kind::Leaf(handle) => {
                    walker.mark_unweighed();
                    return Ok(Some((handle, pmf)));
                }
                Kind::Interior(right) => right,
            };
            let Some((fork, total)) = walker.fork(place, right)? else { return Ok(None) };
            let share = fork.weights[0] / total;
            mark_share(share, u);
            let (side, part, rest) =
                if u < share { (0, share, u / share) } else { (1, 1.0 - share, (u - share) / (1.0 - share)) };
            (place, pmf, u) = (fork.children[side], pmf * part, standins::min(rest, MOST_U));
        }
        // without nodes there is none
        if links.is_empty() { Ok(None) } else { Err(PbrtError(SPENT_DRAW)) }
    })
}

fn mark_share(share: f32, u: f32) {
    mark(if u < share { Branch::IntoLeft } else { Branch::IntoRight });
    let met = [
        (u == share, Branch::OnShare),
        (share.is_nan(), Branch::NanShare),
        (share == 0.0, Branch::NoShare),
        (share == 1.0, Branch::WholeShare),
    ];
    met.into_iter().filter(|(met, _)| *met).for_each(|(_, branch)| mark(branch));
}

/// The loop of `bvh_light_sampler_pmf`.
pub fn ascend(links: &[Link], table: &[u32], weigh: Weigh, handle: u32) -> Walk<f32> {
    Walker::walk(links, weigh, |walker| {
        let Some(leaf) = table.get(handle as usize).filter(|leaf| **leaf != NONE) else { return Ok(0.0) };
        let (mut place, mut pmf) = (*leaf as usize, 1.0);
        for _ in 0..links.len() {
            let (link, _) = walker.enter(place, PAST_LEAF)?;
            if link.parent == NONE {
                walker.mark_unweighed();
                return Ok(pmf);
            }
            let parent = link.parent as usize;
            let above = links.get(parent).ok_or(PbrtError(PAST_PARENT))?;
            let right = match above.kind.ok_or(PbrtError(UNKNOWN_PARENT))? {
                Kind::Leaf(_) => return Err(PbrtError(CHILDLESS_PARENT)),
                Kind::Interior(right) => right,
            };
            let Some((Fork { children, weights, .. }, total)) = walker.fork(parent, right)? else { return Ok(0.0) };
            let side = children.into_iter().position(|child| child == place).ok_or(PbrtError(NOT_OWNED))?;
            mark([Branch::FromLeft, Branch::FromRight][side]);
            (place, pmf) = (parent, pmf * (weights[side] / total));
        }
        Err(PbrtError(SPENT_CHANCE))
    })
}

/// A tree of the reference with Rust's own library functions, to be walked by the loop here, which tells its forks.
pub struct Own<'a> {
    tree: &'a LightBVH,
    links: Vec<Link>,
}

impl Own<'_> {
    pub fn new(tree: &LightBVH) -> Own<'_> {
        Own { tree, links: tree.nodes.iter().map(|node| Link::new(&native_node(node))).collect() }
    }

    pub fn descent(&self, query: &Query, u: f32) -> Walk<Option<(u32, f32)>> {
        let [p, n] = vectors(query);
        descend(&self.links, &|place| self.tree.nodes[place].bounds().importance(p, n), u)
    }
}
