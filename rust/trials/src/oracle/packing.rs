//! The oracle's packing over words.
//!
//! The checks of lengths (2, 1, 3) and the rule for lent bytes are ours alone (R9.2, R12). Behind them stands the
//! reference's `pack_light_bvh` itself, on the nodes that the words decode to. No node of the Rust has an
//! unknown kind or side: where some words make one, the reference packs twice, with a node in its place that
//! it refuses with one message, then with another. Where its two answers differ it came to that node, and the
//! packing is 12; where they are the same it ended before.

use crate::inputs::packing::{self, Corners, Packed};
use crate::inputs::trees::{INTERIOR, LEAF, NODE, PAYLOAD};
use crate::inputs::walks::{MOST_NODES, NODE_BYTES, bytes, words};
use crate::oracle::reference::{CROWDED, INVALID_INDEX, PACKED_UNKNOWN_NODE, PACKED_UNKNOWN_SIDE, RAGGED, SHORT_TRAY};
use crate::oracle::reference::{PbrtError, native, native_of_node, number, of_node, oracle, three};

macro_rules! on_trees {
    ($side:ident, $of_node:ident, $words:ident, $pack:ident) => {
        /// The words of a packed tree.
        fn $words(nodes: &[[u32; NODE]], k: usize, all: Option<Corners>) -> Result<Option<Vec<u32>>, PbrtError> {
            use $side::flat::{Bounds3, LightBVH, LightBVHNode, LightBounds};

            let pack = |min: f32| {
                let corners = |all: Corners| Bounds3 { min: three(&all), max: three(&all[3..]) };
                let bounds = LightBounds {
                    bounds: Bounds3 { min: [min; 3], max: [0.0; 3] },
                    direction: [0.0, 0.0, 1.0],
                    phi: 0.0,
                    cos_theta_o: 0.0,
                    cos_theta_e: 0.0,
                    two_sided: false,
                };
                let refused = LightBVHNode::Leaf { light_handle: 0, bounds, parent: INVALID_INDEX };
                $side::packed_bvh::pack_light_bvh(&LightBVH {
                    all_bounds: all.map(corners),
                    nodes: nodes.iter().map(|node| $of_node(node).unwrap_or(refused.clone())).collect(),
                    handle_to_leaf: vec![],
                    // the reference asks only whether there is any
                    bounded_handles: vec![0; k.min(1)],
                })
            };
            let packed = pack(f32::NAN);
            let unknown = nodes.iter().find(|node| $of_node(node).is_none());
            if let Some([head, ..]) = unknown.filter(|_| packed != pack(1.0)) {
                let known = [LEAF, INTERIOR].contains(&(head & !PAYLOAD));
                return Err(PbrtError(if known { PACKED_UNKNOWN_SIDE } else { PACKED_UNKNOWN_NODE }));
            }
            Ok(packed?.map(|packed| [&packed.header_words, packed.node_words.as_flattened()].concat()))
        }

        /// The packed tree, written to the bytes lent.
        pub fn $pack(nodes: &[u8], k: usize, all: Option<Corners>, out: &mut [u8]) -> Packed {
            let count = nodes.len() / NODE_BYTES;
            if count > MOST_NODES {
                return Err(CROWDED);
            }
            if !nodes.len().is_multiple_of(NODE_BYTES) {
                return Err(RAGGED);
            }
            let reserve = packing::reserve(count);
            if out.len() < reserve {
                return Err(SHORT_TRAY);
            }
            let packed = $words(words(nodes).as_chunks().0, k, all).map_err(number);
            match &packed {
                Ok(Some(words)) => out[..reserve].copy_from_slice(&bytes(words)),
                Ok(None) => {}
                Err(_) => out[..reserve].fill(0),
            }
            packed.map(|words| words.map(|words| words.len()))
        }
    };
}

on_trees!(oracle, of_node, packed, pack_light_bvh);
on_trees!(native, native_of_node, native_packed, native_pack_light_bvh);
