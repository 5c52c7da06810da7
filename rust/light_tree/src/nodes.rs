//! Nodes by themselves: draws from words that a program has altered, and what one fork weighs.

use crate::tree::NODE_WORDS;
use crate::{INVALID_INDEX, LightTree, Refusal, sys};

/// The kinds of a head, in its top two bits.
const LEAF: u32 = 1 << 30;
const FORK: u32 = 2 << 30;

/// Draws from the words of nodes, 16 a node, as [`LightTree::sample`] draws from a tree's own: for a program that has
/// a copy of [`LightTree::node_bytes`] and puts something else in a node's place.
///
/// # Errors
///
/// Those of [`LightTree::sample`]; and, since nothing is known of the words, [`Ragged`](Refusal::Ragged) or
/// [`Crowded`](Refusal::Crowded) of their number and [`BrokenTree`](Refusal::BrokenTree) of a node that is absent or
/// of no kind.
///
/// ```
/// # use light_tree::{Lamp, LightTree};
/// let bulb = |x| Lamp::Point { world_position: [x, 0.0, 0.0], intensity_max: 1.0, scale: 1.0 };
/// let tree = LightTree::of_lamps(&[bulb(0.0), bulb(2.0)])?;
/// let mut words: Vec<u32> = tree.node_bytes().as_chunks().0.iter().map(|bytes| u32::from_le_bytes(*bytes)).collect();
/// // the second lamp's leaf, with another handle
/// words[2 * 16] = 1 << 30 | 70;
/// assert_eq!(light_tree::sample_nodes(&words, [1.0, 0.0, 1.0], [0.0; 3], 0.75)?, Some((70, 0.5)));
/// # Ok::<(), light_tree::Refusal>(())
/// ```
pub fn sample_nodes(nodes: &[u32], p: [f32; 3], n: [f32; 3], u: f32) -> Result<Option<(u32, f32)>, Refusal> {
    sys::sample(nodes, p, n, u)
}

/// A fork with its two children as leaves, lamps 0 and 1: a tree of its own.
fn by_itself(nodes: &[[u8; 4 * NODE_WORDS]], place: usize) -> Option<[u32; 3 * NODE_WORDS]> {
    let word = |node: usize, at: usize| {
        nodes.get(node).and_then(|node| node.as_chunks().0.get(at)).map(|bytes| u32::from_le_bytes(*bytes))
    };
    if word(place, 0)? & (LEAF | FORK) != FORK {
        return None;
    }
    let right = word(place, 1)? as usize;
    let mut words = [0; 3 * NODE_WORDS];
    for (node, (words, from)) in words.chunks_mut(NODE_WORDS).zip([place, place + 1, right]).enumerate() {
        for (at, copy) in words.iter_mut().enumerate().skip(3) {
            *copy = word(from, at)?;
        }
        let head = if node == 0 { [FORK | 1, 2, INVALID_INDEX] } else { [LEAF | (node as u32 - 1), INVALID_INDEX, 0] };
        words[..3].copy_from_slice(&head);
    }
    Some(words)
}

impl LightTree {
    /// What the two branches of the fork at a place weigh for a point p and a normal n there: the shares x / (x + y)
    /// and y / (x + y) of weights x and y. None where neither has weight, so that a draw ends there with none, and at
    /// a leaf. Nothing is allocated.
    ///
    /// The chance of a lamp by name, [`pmf`](LightTree::pmf), is the product of these from its leaf up to the root.
    ///
    /// # Errors
    ///
    /// Those of [`pmf`](LightTree::pmf), of either child.
    ///
    /// ```
    /// # use light_tree::{Lamp, LightTree};
    /// # let bulb = |x| Lamp::Point { world_position: [x, 0.0, 0.0], intensity_max: 1.0, scale: 1.0 };
    /// let tree = LightTree::of_lamps(&[bulb(0.0), bulb(2.0)])?;
    /// assert_eq!(tree.shares([1.0, 0.0, 1.0], [0.0; 3], 0)?, Some([0.5, 0.5]));
    /// assert_eq!(tree.shares([1.0, 0.0, 1.0], [0.0; 3], 1)?, None);
    /// # Ok::<(), light_tree::Refusal>(())
    /// ```
    pub fn shares(&self, p: [f32; 3], n: [f32; 3], place: usize) -> Result<Option<[f32; 2]>, Refusal> {
        let Some(nodes) = by_itself(self.node_bytes().as_chunks().0, place) else { return Ok(None) };
        let share = |handle| sys::pmf(&nodes, &[1, 2], p, n, handle);
        let shares = [share(0)?, share(1)?];
        // both are 0 too where the weights together are infinite, and then a draw goes on
        let shines = shares != [0.0; 2] || sys::sample(&nodes, p, n, 0.0)?.is_some();
        Ok(shines.then_some(shares))
    }
}
