//! All lamps' chances by name at one bench: each fork is weighed once, where asking lamp by lamp weighs it once a lamp
//! below it.

use crate::bench::Place;
use light_tree::{INVALID_INDEX, LightBVHNode, LightTree, Refusal};

/// The sum of all lamps' chances by name, or the first lamp that has none.
pub type Sum = Result<f64, (u32, Refusal)>;

/// A tree, and of each of its nodes the fork above and on which side of it the node is.
pub struct Chances<'a> {
    tree: &'a LightTree,
    above: Vec<Option<(usize, usize)>>,
}

impl<'a> Chances<'a> {
    pub fn of(tree: &'a LightTree) -> Chances<'a> {
        let fork = |(place, node): (usize, LightBVHNode)| {
            let parent = node.parent();
            // a left child comes right behind its fork
            (parent != INVALID_INDEX).then(|| (parent as usize, usize::from(place != parent as usize + 1)))
        };
        Chances { tree, above: tree.nodes().enumerate().map(fork).collect() }
    }

    /// The lamps that have power, in the order of handles, and what `LightTree::pmf` answers for each, bit for bit.
    pub fn all(&self, bench: Place) -> impl Iterator<Item = (u32, Result<f32, Refusal>)> {
        let shares: Vec<_> = (0..self.tree.len()).map(|place| self.tree.shares(bench.p, bench.n, place)).collect();
        let leaves = self.tree.handle_to_leaf();
        self.tree.bounded_handles().map(move |handle| (handle, self.named(&shares, leaves[handle as usize] as usize)))
    }

    /// The sum for a bench.
    pub fn sum(&self, bench: Place) -> Sum {
        let mut sum = 0.0;
        for (handle, chance) in self.all(bench) {
            sum += f64::from(chance.map_err(|refusal| (handle, refusal))?);
        }
        Ok(sum)
    }

    /// The chance of a leaf's lamp: as `LightTree::pmf` does, it multiplies from the leaf up, ends with 0 at a fork
    /// that has no weight, and is refused at the first fork that is.
    fn named(&self, shares: &[Result<Option<[f32; 2]>, Refusal>], leaf: usize) -> Result<f32, Refusal> {
        let (mut chance, mut node) = (1.0, leaf);
        while let Some((fork, side)) = self.above[node] {
            let Some(shares) = shares[fork]? else { return Ok(0.0) };
            chance *= shares[side];
            node = fork;
        }
        Ok(chance)
    }
}
