//! The oracle's draws and chances by name over words.
//!
//! The checks of lengths (2, 1) are ours alone (R6.1, R7.1). Behind them stand the reference's functions
//! themselves, on the nodes that the words decode to; the decoder is ours. Where a rule of ours applies,
//! which the reference does not have, the walks of `loops` stand in their place, with the reference's own
//! `importance`; today that is where some node has an unknown kind or side, which no node of the Rust can
//! have. Wherever none applies the loops run too, and must answer as the reference does.

use crate::inputs::lists::MOST_LAMPS;
use crate::inputs::records::{Query, vectors};
use crate::inputs::trees::NODE;
use crate::inputs::walks::{Chance, Drawn, MOST_NODES, NODE_BYTES, Tree, words};
use crate::oracle::loops::{Link, Walk, ascend, descend};
use crate::oracle::reference::oracle::light_bounds::LightBounds;
use crate::oracle::reference::oracle::light_bvh::{
    LightBVH, LightBVHNode, bvh_light_sampler_pmf, bvh_light_sampler_sample,
};
use crate::oracle::reference::{
    CROWDED, PbrtError, RAGGED, UNKNOWN_SIDE, native, native_of_node, number, of_node, oracle_of_words,
};
use crate::oracle::standins::word;

/// A tree's bytes, decoded once for any number of walks.
pub struct Decoded {
    lengths: [usize; 2],
    links: Vec<Link>,
    /// None where the side is unknown.
    bounds: Vec<Option<LightBounds>>,
    table: Vec<u32>,
    /// The reference's tree, and the same over Rust's own library functions, where every node decodes.
    trees: Option<(LightBVH, native::light_bvh::LightBVH)>,
}

impl Decoded {
    pub fn new(tree: &Tree) -> Decoded {
        let lengths = [tree.nodes.len(), tree.table.len()];
        let table = words(&tree.table);
        let all = if lengths[0] / NODE_BYTES > MOST_NODES { vec![] } else { words(&tree.nodes) };
        let nodes: &[[u32; NODE]] = all.as_chunks().0;
        let decoded: Option<Vec<LightBVHNode>> = nodes.iter().map(of_node).collect();
        let trees = decoded.map(|decoded| {
            let nodes = nodes.iter().map(|node| native_of_node(node).unwrap()).collect();
            let own = native::light_bvh::LightBVH {
                all_bounds: None,
                nodes,
                handle_to_leaf: table.clone(),
                bounded_handles: vec![],
            };
            (LightBVH { all_bounds: None, nodes: decoded, handle_to_leaf: table.clone(), bounded_handles: vec![] }, own)
        });
        let bounds = nodes.iter().map(|[_, _, _, record @ ..]| oracle_of_words(record).ok()).collect();
        Decoded { lengths, links: nodes.iter().map(Link::new).collect(), bounds, table, trees }
    }

    /// Whether the reference itself walks: no rule of ours applies.
    pub fn by_reference(&self) -> bool {
        self.trees.is_some()
    }

    pub fn nodes(&self) -> usize {
        self.lengths[0] / NODE_BYTES
    }

    /// Ours alone (R12.1): 2 of any length before 1 of any.
    fn check(&self, with_table: bool) -> Result<(), u32> {
        let [nodes, table] = self.lengths;
        let table = if with_table { table } else { 0 };
        if nodes / NODE_BYTES > MOST_NODES || table / 4 > MOST_LAMPS {
            return Err(CROWDED);
        }
        if !nodes.is_multiple_of(NODE_BYTES) || !table.is_multiple_of(4) {
            return Err(RAGGED);
        }
        Ok(())
    }

    /// What both walks weigh a child by: a rule of ours about weights has its place here.
    fn weigh(&self, query: &Query) -> impl Fn(usize) -> Result<f32, PbrtError> {
        let [p, n] = vectors(query);
        move |place| self.bounds[place].ok_or(PbrtError(UNKNOWN_SIDE))?.importance(p, n)
    }

    /// The walk of a draw, lengths unchecked.
    pub fn descent(&self, query: &Query, u: f32) -> Walk<Option<(u32, f32)>> {
        descend(&self.links, &self.weigh(query), u)
    }

    /// The walk of a chance by name, lengths unchecked.
    pub fn ascent(&self, query: &Query, handle: u32) -> Walk<f32> {
        ascend(&self.links, &self.table, &self.weigh(query), handle)
    }

    pub fn sample(&self, query: &Query, u: f32) -> Drawn {
        self.check(false)?;
        let walked = stored(self.descent(query, u).ended);
        if let Some((tree, _)) = &self.trees {
            let [p, n] = vectors(query);
            assert_eq!(stored(bvh_light_sampler_sample(tree, p, n, u)), walked, "the draw's loop");
        }
        walked.map_err(number)
    }

    pub fn pmf(&self, query: &Query, handle: u32) -> Chance {
        self.check(true)?;
        let walked = self.ascent(query, handle).ended.map(word);
        if let Some((tree, _)) = &self.trees {
            let [p, n] = vectors(query);
            assert_eq!(bvh_light_sampler_pmf(tree, p, n, handle).map(word), walked, "the chance's loop");
        }
        walked.map_err(number)
    }

    /// What the reference answers with Rust's own library functions, where it can.
    pub fn own_sample(&self, query: &Query, u: f32) -> Option<Drawn> {
        let ((_, tree), [p, n]) = (self.trees.as_ref()?, vectors(query));
        Some(
            self.check(false)
                .and_then(|()| stored(native::light_bvh::bvh_light_sampler_sample(tree, p, n, u)).map_err(number)),
        )
    }

    pub fn own_pmf(&self, query: &Query, handle: u32) -> Option<Chance> {
        let ((_, tree), [p, n]) = (self.trees.as_ref()?, vectors(query));
        let own = || native::light_bvh::bvh_light_sampler_pmf(tree, p, n, handle).map(word).map_err(number);
        Some(self.check(true).and_then(|()| own()))
    }
}

/// The chance as it is stored.
fn stored(drawn: Result<Option<(u32, f32)>, PbrtError>) -> Result<Option<(u32, u32)>, PbrtError> {
    drawn.map(|drawn| drawn.map(|(handle, chance)| (handle, word(chance))))
}
