use crate::bounds::{Bounds3, LightBounds, block_words, index, write_block};
use crate::lamp::{Lamp, bounds_block};
use crate::{MAX_LAMPS, Refusal, sys};
use std::panic::resume_unwind;
use std::thread;

/// The words of a node: head, right child, parent, record.
pub(crate) const NODE_WORDS: usize = 16;
/// The words of a packed node.
///
/// ```
/// assert_eq!(light_tree::LIGHT_BVH_NODE_WORDS, 8);
/// ```
pub const LIGHT_BVH_NODE_WORDS: usize = 8;
/// The words of a packed tree before its nodes.
///
/// ```
/// assert_eq!(light_tree::LIGHT_BVH_HEADER_WORDS, 8);
/// ```
pub const LIGHT_BVH_HEADER_WORDS: usize = 8;

/// A light tree. It is read only, so any number of threads may draw from one.
///
/// ```
/// use light_tree::{Bounds3, LightBounds, LightTree};
///
/// let bulb = |x| LightBounds::new(Bounds3 { min: [x, 0.0, 0.0], max: [x, 0.0, 0.0] }, 1.0);
/// let tree = LightTree::build(&[bulb(0.0), bulb(2.0)])?;
/// let (p, n) = ([1.0, 0.0, 1.0], [0.0; 3]);
/// assert_eq!(tree.sample(p, n, 0.75)?, Some((1, 0.5)));
/// assert_eq!(tree.pmf(p, n, 1)?, 0.5);
/// # Ok::<(), light_tree::Refusal>(())
/// ```
#[derive(Clone, Debug, PartialEq)]
pub struct LightTree {
    /// Exactly the words of the 2k - 1 nodes: what the library left as zeros behind them is cut off.
    nodes: Vec<u32>,
    table: Vec<u32>,
    k: usize,
    all_bounds: Option<Bounds3>,
}

/// A node of a tree.
///
/// ```
/// # use light_tree::{Lamp, LightTree};
/// let bulb = Lamp::Point { world_position: [0.0; 3], intensity_max: 1.0, scale: 1.0 };
/// let tree = LightTree::of_lamps(&[bulb.clone(), bulb])?;
/// let root = tree.node(0).unwrap();
/// assert!(!root.is_leaf());
/// assert_eq!((root.light_handle(), root.right_child(), root.parent()), (None, Some(2), light_tree::INVALID_INDEX));
/// # Ok::<(), light_tree::Refusal>(())
/// ```
#[derive(Clone, Debug, PartialEq)]
pub enum LightBVHNode {
    /// A lamp.
    Leaf {
        /// Its handle.
        light_handle: u32,
        /// Its bounds.
        bounds: LightBounds,
        /// The place of the fork above, [`INVALID_INDEX`](crate::INVALID_INDEX) at the root.
        parent: u32,
    },
    /// A fork.
    Interior {
        /// The place of the left child, the one after this.
        left_child: u32,
        /// The place of the right child.
        right_child: u32,
        /// The bounds of both children together.
        bounds: LightBounds,
        /// The place of the fork above, [`INVALID_INDEX`](crate::INVALID_INDEX) at the root.
        parent: u32,
    },
}

impl LightBVHNode {
    fn from_words(words: &[u32; NODE_WORDS]) -> LightBVHNode {
        let [head, right_child, parent, record @ ..] = words;
        let (bounds, parent, low) = (LightBounds::from_words(record), *parent, head & 0x3fff_ffff);
        match head >> 30 {
            1 => LightBVHNode::Leaf { light_handle: low, bounds, parent },
            _ => LightBVHNode::Interior { left_child: low, right_child: *right_child, bounds, parent },
        }
    }

    /// The bounds of the lamp, or of all lamps below.
    ///
    /// ```
    /// # use light_tree::{Lamp, LightTree};
    /// # let bulb = Lamp::Point { world_position: [1.0; 3], intensity_max: 1.0, scale: 1.0 };
    /// let tree = LightTree::of_lamps(&[bulb])?;
    /// assert_eq!(tree.node(0).unwrap().bounds().bounds.min, [1.0; 3]);
    /// # Ok::<(), light_tree::Refusal>(())
    /// ```
    pub fn bounds(&self) -> LightBounds {
        match self {
            Self::Leaf { bounds, .. } | Self::Interior { bounds, .. } => *bounds,
        }
    }

    /// The place of the fork above, [`INVALID_INDEX`](crate::INVALID_INDEX) at the root.
    ///
    /// ```
    /// # use light_tree::{Lamp, LightTree};
    /// # let bulb = Lamp::Point { world_position: [1.0; 3], intensity_max: 1.0, scale: 1.0 };
    /// let tree = LightTree::of_lamps(&[bulb.clone(), bulb])?;
    /// assert_eq!(tree.node(2).unwrap().parent(), 0);
    /// # Ok::<(), light_tree::Refusal>(())
    /// ```
    pub fn parent(&self) -> u32 {
        match self {
            Self::Leaf { parent, .. } | Self::Interior { parent, .. } => *parent,
        }
    }

    /// Whether it is a lamp.
    ///
    /// ```
    /// # use light_tree::{Lamp, LightTree};
    /// # let bulb = Lamp::Point { world_position: [1.0; 3], intensity_max: 1.0, scale: 1.0 };
    /// let tree = LightTree::of_lamps(&[bulb])?;
    /// assert!(tree.node(0).unwrap().is_leaf());
    /// # Ok::<(), light_tree::Refusal>(())
    /// ```
    pub fn is_leaf(&self) -> bool {
        matches!(self, Self::Leaf { .. })
    }

    /// The lamp's handle, none at a fork.
    ///
    /// ```
    /// # use light_tree::{Lamp, LightTree};
    /// # let bulb = Lamp::Point { world_position: [1.0; 3], intensity_max: 1.0, scale: 1.0 };
    /// let tree = LightTree::of_lamps(&[bulb])?;
    /// assert_eq!(tree.node(0).unwrap().light_handle(), Some(0));
    /// # Ok::<(), light_tree::Refusal>(())
    /// ```
    pub fn light_handle(&self) -> Option<u32> {
        match self {
            Self::Leaf { light_handle, .. } => Some(*light_handle),
            Self::Interior { .. } => None,
        }
    }

    /// The place of the right child, none at a leaf.
    ///
    /// ```
    /// # use light_tree::{Lamp, LightTree};
    /// # let bulb = Lamp::Point { world_position: [1.0; 3], intensity_max: 1.0, scale: 1.0 };
    /// let tree = LightTree::of_lamps(&[bulb])?;
    /// assert_eq!(tree.node(0).unwrap().right_child(), None);
    /// # Ok::<(), light_tree::Refusal>(())
    /// ```
    pub fn right_child(&self) -> Option<u32> {
        match self {
            Self::Leaf { .. } => None,
            Self::Interior { right_child, .. } => Some(*right_child),
        }
    }
}

/// A tree as the words that a graphics card is given.
///
/// ```
/// # use light_tree::{Lamp, LightTree};
/// # let bulb = Lamp::Point { world_position: [1.0; 3], intensity_max: 1.0, scale: 1.0 };
/// let packed = LightTree::of_lamps(&[bulb.clone(), bulb])?.pack()?.unwrap();
/// assert_eq!(packed.node_words.len(), 3);
/// assert_eq!(packed.handle_to_leaf, [1, 2]);
/// # Ok::<(), light_tree::Refusal>(())
/// ```
#[derive(Clone, Debug, PartialEq, Eq)]
pub struct PackedLightBVH {
    /// The box of all powered lamps: min 3, 0, max 3, 0.
    pub header_words: [u32; LIGHT_BVH_HEADER_WORDS],
    /// The nodes, in the order of their places.
    pub node_words: Vec<[u32; LIGHT_BVH_NODE_WORDS]>,
    /// The place of each lamp's leaf, [`INVALID_INDEX`](crate::INVALID_INDEX) for a lamp without power.
    pub handle_to_leaf: Vec<u32>,
}

/// The nodes of so many powered lamps.
fn node_count(lamps: usize) -> usize {
    (2 * lamps).saturating_sub(1)
}

/// Of so many lamps the deepest tree takes 37 kB of stack, 288 bytes a fork, and 5 kB besides.
const LAMPS_IN_PLACE: usize = 128;
/// More than twice what the deepest tree of 4,096 lamps takes.
const BUILD_STACK: usize = 4 << 20;

/// Builds a tree of so many lamps: where the caller is, or on a thread of its own, since how much stack the caller has
/// left cannot be known.
fn with_stack<T: Send>(lamps: usize, build: impl FnOnce() -> Result<T, Refusal> + Send) -> Result<T, Refusal> {
    if lamps <= LAMPS_IN_PLACE {
        return build();
    }
    thread::scope(|scope| {
        let on_its_own = thread::Builder::new().stack_size(BUILD_STACK).spawn_scoped(scope, build);
        on_its_own.map_err(|_| Refusal::NoThread)?.join().unwrap_or_else(|panic| resume_unwind(panic))
    })
}

/// The word of 1. The words up to it are the floats from 0 to 1, in their order.
const WORD_OF_ONE: u32 = 0x3f80_0000;

/// The last word that holds on the way from one that does to an end, where all that hold follow each other: by halves.
fn last_that_holds(mut holds: u32, end: u32, is_so: impl Fn(u32) -> bool) -> u32 {
    if is_so(end) {
        return end;
    }
    let mut fails = end;
    while holds.abs_diff(fails) > 1 {
        let middle = holds.midpoint(fails);
        if is_so(middle) {
            holds = middle;
        } else {
            fails = middle;
        }
    }
    holds
}

impl LightTree {
    /// The tree of lamps' bounds. A lamp's handle is its place; one whose phi is 0 is not in the tree.
    ///
    /// Two allocations, both returned: nodes and table. The block and build's work stand behind the nodes, and their
    /// room is given back. Build calls itself, 288 bytes of stack for each fork on the way down, 1.2 MB for the
    /// deepest tree. So more than 128 lamps are built on a thread of their own with 4 MiB, and a caller needs no more
    /// than 64 KiB; what the thread allocates is freed with it.
    ///
    /// # Errors
    ///
    /// [`Crowded`](Refusal::Crowded) for more than 4,096 lamps. By the first lamp whose bounds fail their check
    /// [`NotFinite`](Refusal::NotFinite), [`Inverted`](Refusal::Inverted), [`NoDirection`](Refusal::NoDirection) or
    /// [`OutOfRange`](Refusal::OutOfRange). [`LostUnion`](Refusal::LostUnion) where bounds cannot be joined, as where
    /// powers add up to infinity. [`NoThread`](Refusal::NoThread) where the system has no thread to build on.
    ///
    /// ```
    /// use light_tree::{LightTree, Refusal};
    ///
    /// let tree = LightTree::build(&[])?;
    /// assert_eq!(tree.sample([0.0; 3], [0.0; 3], 0.5)?, None);
    /// # Ok::<(), Refusal>(())
    /// ```
    pub fn build(bounds: &[LightBounds]) -> Result<LightTree, Refusal> {
        if bounds.len() > MAX_LAMPS {
            return Err(Refusal::Crowded);
        }
        let (lamps, reserve) = (bounds.len(), NODE_WORDS * node_count(bounds.len()));
        let (mut words, mut table) = (vec![0; reserve + 2 * lamps + block_words(lamps)], vec![0; lamps]);
        let (nodes, rest) = words.split_at_mut(reserve);
        let (work, block) = rest.split_at_mut(2 * lamps);
        write_block(bounds, block);
        let answer = with_stack(lamps, || sys::build(lamps, block, nodes, &mut table, work))?;
        Ok(LightTree::of(words, table, answer))
    }

    /// The tree of a block's words, which [`Block::words`](crate::Block::words) gives, or a file.
    ///
    /// # Errors
    ///
    /// Those of [`LightTree::build`], and before all but [`Crowded`](Refusal::Crowded) [`Ragged`](Refusal::Ragged)
    /// for a block that is cut, too long or has an unknown side, [`Misplaced`](Refusal::Misplaced) for a handle that
    /// is not its lamp's place.
    ///
    /// ```
    /// use light_tree::{LightTree, Refusal};
    ///
    /// assert_eq!(LightTree::from_block(&[0])?.powered(), 0);
    /// assert_eq!(LightTree::from_block(&[2, 0, 0]), Err(Refusal::Ragged));
    /// assert_eq!(LightTree::from_block(&[4097]), Err(Refusal::Crowded));
    /// # Ok::<(), Refusal>(())
    /// ```
    pub fn from_block(block: &[u32]) -> Result<LightTree, Refusal> {
        let count = block.first().map_or(0, |count| *count as usize);
        // a block that is too long or cut is refused for that, whatever is lent
        let lamps = if count <= MAX_LAMPS && block.len() == block_words(count) { count } else { 0 };
        let reserve = NODE_WORDS * node_count(lamps);
        let (mut words, mut table) = (vec![0; reserve + 2 * lamps], vec![0; lamps]);
        let (nodes, work) = words.split_at_mut(reserve);
        let answer = with_stack(lamps, || sys::build(count, block, nodes, &mut table, work))?;
        Ok(LightTree::of(words, table, answer))
    }

    /// The tree whose nodes stand at the front of the words.
    fn of(mut words: Vec<u32>, table: Vec<u32>, (k, all): (usize, [u32; 6])) -> LightTree {
        words.truncate(NODE_WORDS * node_count(k));
        words.shrink_to_fit();
        LightTree { nodes: words, table, k, all_bounds: (k > 0).then(|| Bounds3::from_words(all)) }
    }

    /// The tree of lamps: that of their [`bounds_block`].
    ///
    /// # Errors
    ///
    /// Those of [`bounds_block`], then those of [`LightTree::build`].
    ///
    /// ```
    /// use light_tree::{Lamp, LightTree};
    ///
    /// let bulb = Lamp::Point { world_position: [0.0, 0.0, 2.0], intensity_max: 3.0, scale: 1.0 };
    /// assert_eq!(LightTree::of_lamps(&[bulb])?.sample([0.0; 3], [0.0, 0.0, 1.0], 0.5)?, Some((0, 1.0)));
    /// # Ok::<(), light_tree::Refusal>(())
    /// ```
    pub fn of_lamps(lamps: &[Lamp]) -> Result<LightTree, Refusal> {
        LightTree::from_block(bounds_block(lamps)?.words())
    }

    /// Draws a lamp for a point p and a normal n there, (0, 0, 0) for none, by a number u from 0 to 1: its handle and
    /// the chance with which it is drawn. None where there is no lamp with power, or where the draw comes to a fork
    /// neither side of which shines there. Nothing is allocated.
    ///
    /// A lone lamp is drawn with chance 1, whatever the point. Else the chance is the product of the shares taken at
    /// the forks, rounded: x / (x + y) at the left of weights x and y, 1 less that at the right. Where x + y
    /// overflows the right is taken, with share 1, or with NaN where x itself is infinite.
    ///
    /// # Errors
    ///
    /// [`BadU`](Refusal::BadU) where u is not a number from 0 to 1. At each fork on the way, what the check of a
    /// child's bounds refuses ([`LightBounds::validate`]), as where powers add up to infinity;
    /// [`NotFinite`](Refusal::NotFinite) where p or n is not finite; [`NoDirection`](Refusal::NoDirection) where n is
    /// too short to divide by, or p lies at the centre of a child's box.
    ///
    /// ```
    /// # use light_tree::{Lamp, LightTree, Refusal};
    /// # let bulb = |x| Lamp::Point { world_position: [x, 0.0, 0.0], intensity_max: 1.0, scale: 1.0 };
    /// let tree = LightTree::of_lamps(&[bulb(0.0), bulb(2.0)])?;
    /// assert_eq!(tree.sample([1.0, 0.0, 1.0], [0.0; 3], 1.0)?, Some((1, 0.5)));
    /// assert_eq!(tree.sample([1.0, 0.0, 1.0], [0.0; 3], 1.5), Err(Refusal::BadU));
    /// # Ok::<(), Refusal>(())
    /// ```
    pub fn sample(&self, p: [f32; 3], n: [f32; 3], u: f32) -> Result<Option<(u32, f32)>, Refusal> {
        sys::sample(&self.nodes, p, n, u)
    }

    /// The first and the last u that draw the lamp which u draws for a point p and a normal n there; none where u draws
    /// none. Every float from the first to the last draws that lamp, and no other float does. Nothing is allocated.
    ///
    /// Both ends are found by halves over the words of the floats from 0 to 1, some sixty draws, and are exact: it is
    /// proved that between two u which draw a lamp every u draws it (`unbroken` and `u-from-to` of
    /// `crates/light_runs/specs/Demand3.antt`, for every tree that build accepts, every point and normal).
    ///
    /// # Errors
    ///
    /// Those of the draw by u itself: see [`LightTree::sample`].
    ///
    /// ```
    /// # use light_tree::{Lamp, LightTree};
    /// # let bulb = |x| Lamp::Point { world_position: [x, 0.0, 0.0], intensity_max: 1.0, scale: 1.0 };
    /// let tree = LightTree::of_lamps(&[bulb(0.0), bulb(2.0)])?;
    /// let (p, n) = ([1.0, 0.0, 1.0], [0.0; 3]);
    /// assert_eq!(tree.run_of(0.25, p, n)?, Some((0.0, 0.5f32.next_down())));
    /// assert_eq!(tree.run_of(0.75, p, n)?, Some((0.5, 1.0)));
    /// # Ok::<(), light_tree::Refusal>(())
    /// ```
    pub fn run_of(&self, u: f32, p: [f32; 3], n: [f32; 3]) -> Result<Option<(f32, f32)>, Refusal> {
        let Some((lamp, _)) = self.sample(p, n, u)? else { return Ok(None) };
        let draws_it = |word| {
            let drawn = self.sample(p, n, f32::from_bits(word));
            drawn.is_ok_and(|drawn| drawn.is_some_and(|(handle, _)| handle == lamp))
        };
        // -0 draws as 0 does
        let word = u.abs().to_bits();
        let end = |end| f32::from_bits(last_that_holds(word, end, draws_it));
        Ok(Some((end(0), end(WORD_OF_ONE))))
    }

    /// The chance with which [`sample`](LightTree::sample) draws a lamp, from its leaf up to the root. It is 0 for a
    /// lamp without power, for a handle past the last, and where at a fork on the way neither side shines there.
    /// Nothing is allocated.
    ///
    /// Both chances multiply rounded shares, in opposite order, and by name the right one's is y / (x + y). So they
    /// part: most in their last digits, by more where a right share is tiny. Where x + y overflows the share by name
    /// is 0, or NaN for a side whose own weight is infinite.
    ///
    /// # Errors
    ///
    /// Those of the forks on the way, as in [`LightTree::sample`].
    ///
    /// ```
    /// # use light_tree::{Lamp, LightTree};
    /// # let bulb = |x| Lamp::Point { world_position: [x, 0.0, 0.0], intensity_max: 1.0, scale: 1.0 };
    /// let tree = LightTree::of_lamps(&[bulb(0.0), bulb(2.0)])?;
    /// assert_eq!(tree.pmf([1.0, 0.0, 1.0], [0.0; 3], 0)?, 0.5);
    /// assert_eq!(tree.pmf([1.0, 0.0, 1.0], [0.0; 3], 2)?, 0.0);
    /// # Ok::<(), light_tree::Refusal>(())
    /// ```
    pub fn pmf(&self, p: [f32; 3], n: [f32; 3], handle: u32) -> Result<f32, Refusal> {
        sys::pmf(&self.nodes, &self.table, p, n, handle)
    }

    /// The tree packed for a graphics card, none where it has no lamp with power. What is returned is all that is
    /// allocated.
    ///
    /// # Errors
    ///
    /// What the check of the first node's bounds refuses that fail it ([`LightBounds::validate`]), as where powers
    /// add up to infinity.
    ///
    /// ```
    /// # use light_tree::{Lamp, LightTree};
    /// # let bulb = |x| Lamp::Point { world_position: [x, 0.0, 0.0], intensity_max: 1.0, scale: 1.0 };
    /// let packed = LightTree::of_lamps(&[bulb(0.0), bulb(2.0)])?.pack()?.unwrap();
    /// assert_eq!(packed.header_words[4], 2f32.to_bits());
    /// assert_eq!(packed.node_words[2][..2], [0x0000_ffff, 0xffff_0000]);
    /// assert_eq!(LightTree::build(&[])?.pack()?, None);
    /// # Ok::<(), light_tree::Refusal>(())
    /// ```
    pub fn pack(&self) -> Result<Option<PackedLightBVH>, Refusal> {
        let nodes = self.len();
        let mut rows = vec![[0; LIGHT_BVH_NODE_WORDS]; if nodes == 0 { 0 } else { 1 + nodes }];
        let packed = sys::pack(&self.nodes, self.k, self.all_bounds, &mut rows)?;
        Ok(packed.map(|_| {
            let header_words = rows.remove(0);
            PackedLightBVH { header_words, node_words: rows, handle_to_leaf: self.table.clone() }
        }))
    }

    /// How many lamps it was built of.
    ///
    /// ```
    /// # use light_tree::{Lamp, LightTree};
    /// # let bulb = |scale| Lamp::Point { world_position: [0.0; 3], intensity_max: 1.0, scale };
    /// assert_eq!(LightTree::of_lamps(&[bulb(1.0), bulb(0.0)])?.lamps(), 2);
    /// # Ok::<(), light_tree::Refusal>(())
    /// ```
    pub fn lamps(&self) -> usize {
        self.table.len()
    }

    /// How many of these have power, and so a leaf.
    ///
    /// ```
    /// # use light_tree::{Lamp, LightTree};
    /// # let bulb = |scale| Lamp::Point { world_position: [0.0; 3], intensity_max: 1.0, scale };
    /// assert_eq!(LightTree::of_lamps(&[bulb(1.0), bulb(0.0)])?.powered(), 1);
    /// # Ok::<(), light_tree::Refusal>(())
    /// ```
    pub fn powered(&self) -> usize {
        self.k
    }

    /// The box around the lamps that have power, none where there are none.
    ///
    /// ```
    /// # use light_tree::{Lamp, LightTree};
    /// # let bulb = |x| Lamp::Point { world_position: [x, 0.0, 0.0], intensity_max: 1.0, scale: 1.0 };
    /// let all = LightTree::of_lamps(&[bulb(0.0), bulb(2.0)])?.all_bounds().unwrap();
    /// assert_eq!((all.min, all.max), ([0.0; 3], [2.0, 0.0, 0.0]));
    /// # Ok::<(), light_tree::Refusal>(())
    /// ```
    pub fn all_bounds(&self) -> Option<Bounds3> {
        self.all_bounds
    }

    /// How many nodes it has: 2k - 1 for k lamps with power, none for none.
    ///
    /// ```
    /// # use light_tree::{Lamp, LightTree};
    /// # let bulb = Lamp::Point { world_position: [0.0; 3], intensity_max: 1.0, scale: 1.0 };
    /// assert_eq!(LightTree::of_lamps(&[bulb.clone(), bulb])?.len(), 3);
    /// # Ok::<(), light_tree::Refusal>(())
    /// ```
    pub fn len(&self) -> usize {
        self.nodes.len() / NODE_WORDS
    }

    /// Whether it has no node.
    ///
    /// ```
    /// assert!(light_tree::LightTree::build(&[])?.is_empty());
    /// # Ok::<(), light_tree::Refusal>(())
    /// ```
    pub fn is_empty(&self) -> bool {
        self.nodes.is_empty()
    }

    /// The node at a place; the root is at 0.
    ///
    /// ```
    /// # use light_tree::{Lamp, LightTree};
    /// # let bulb = Lamp::Point { world_position: [0.0; 3], intensity_max: 1.0, scale: 1.0 };
    /// let tree = LightTree::of_lamps(&[bulb.clone(), bulb])?;
    /// assert_eq!(tree.node(1).unwrap().light_handle(), Some(0));
    /// assert_eq!(tree.node(3), None);
    /// # Ok::<(), light_tree::Refusal>(())
    /// ```
    pub fn node(&self, place: usize) -> Option<LightBVHNode> {
        self.nodes.as_chunks().0.get(place).map(LightBVHNode::from_words)
    }

    /// The nodes in the order of their places; a left child comes right behind its parent.
    ///
    /// ```
    /// # use light_tree::{Lamp, LightTree};
    /// # let bulb = Lamp::Point { world_position: [0.0; 3], intensity_max: 1.0, scale: 1.0 };
    /// // three lamps at one point
    /// let tree = LightTree::of_lamps(&[bulb.clone(), bulb.clone(), bulb])?;
    /// assert_eq!(tree.nodes().map(|node| node.is_leaf()).collect::<Vec<_>>(), [false, true, false, true, true]);
    /// # Ok::<(), light_tree::Refusal>(())
    /// ```
    pub fn nodes(&self) -> impl ExactSizeIterator<Item = LightBVHNode> + '_ {
        self.nodes.as_chunks().0.iter().map(LightBVHNode::from_words)
    }

    /// The nodes as bytes, 64 a node, as the library reads them and a file can hold them.
    ///
    /// ```
    /// # use light_tree::{Lamp, LightTree};
    /// # let bulb = Lamp::Point { world_position: [0.0; 3], intensity_max: 1.0, scale: 1.0 };
    /// assert_eq!(LightTree::of_lamps(&[bulb])?.node_bytes()[..4], [0, 0, 0, 0x40]);
    /// # Ok::<(), light_tree::Refusal>(())
    /// ```
    pub fn node_bytes(&self) -> &[u8] {
        sys::bytes(&self.nodes)
    }

    /// The place of each lamp's leaf by its handle, [`INVALID_INDEX`](crate::INVALID_INDEX) for a lamp without power.
    ///
    /// ```
    /// # use light_tree::{Lamp, LightTree};
    /// # let bulb = |scale| Lamp::Point { world_position: [0.0; 3], intensity_max: 1.0, scale };
    /// let tree = LightTree::of_lamps(&[bulb(0.0), bulb(1.0)])?;
    /// assert_eq!(tree.handle_to_leaf(), [light_tree::INVALID_INDEX, 0]);
    /// # Ok::<(), light_tree::Refusal>(())
    /// ```
    pub fn handle_to_leaf(&self) -> &[u32] {
        &self.table
    }

    /// The handles of the lamps that have power, ascending.
    ///
    /// ```
    /// # use light_tree::{Lamp, LightTree};
    /// # let bulb = |scale| Lamp::Point { world_position: [0.0; 3], intensity_max: 1.0, scale };
    /// let tree = LightTree::of_lamps(&[bulb(0.0), bulb(1.0)])?;
    /// assert_eq!(tree.bounded_handles().collect::<Vec<_>>(), [1]);
    /// # Ok::<(), light_tree::Refusal>(())
    /// ```
    pub fn bounded_handles(&self) -> impl Iterator<Item = u32> + '_ {
        (0..).zip(&self.table).filter_map(|(handle, leaf)| index(*leaf).map(|_| handle))
    }
}
