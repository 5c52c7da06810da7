//! The proved packing, into a lent slice, beside the reference's with Rust's own library functions, which allocates.

use super::offices::{builds, table};
use crate::timing::SAMPLES;
use trials::inputs::packing::reserve;
use trials::proved::packed_pack_light_bvh;

pub fn rows() {
    let above = format!(
        "Rooms of points, spots and panels; microseconds a packing, medians of {SAMPLES} samples.\n\
        Proved: the whole call by C, node bytes to packed bytes lent. Rust: pack_light_bvh with its own library functions, over its own \
        nodes, to vectors of its own; or from the same bytes to the same.\n\
        lamps | nodes | Rust from | proved us | Rust us | ratio"
    );
    table(&above, |_, office| {
        let (lamps, tree, nodes) = (office.lamps, &office.tree, office.node_bytes());
        let (k, all) = (tree.bounded_handles.len(), tree.all_bounds.unwrap());
        let corners = std::array::from_fn(|i| [all.min, all.max][i / 3][i % 3].to_bits());
        let mut out = vec![0; reserve(tree.nodes.len())];
        assert_eq!(packed_pack_light_bvh(&nodes, k, Some(corners), &mut out), Ok(Some(out.len() / 4)));
        assert!(out == own::packed(tree), "the words packed of {lamps} lamps");
        let label = |from: &str| format!("{lamps} | {} | {from}", tree.nodes.len());
        let mut proved = || packed_pack_light_bvh(&nodes, k, Some(corners), &mut out).unwrap().unwrap() as u64;
        builds(&label("nodes"), [&mut proved, &mut || own::pack(tree)]);
        let mut written = vec![0; reserve(tree.nodes.len())];
        builds(&label("bytes"), [&mut proved, &mut || own::from_bytes(&nodes, tree, &mut written)]);
        assert!(out == written, "the words packed of {lamps} lamps from bytes");
    });
}

/// The reference behind a call, since the linker inlines no proved function either.
mod own {
    use trials::inputs::walks::bytes;
    use trials::oracle::reference::native::light_bvh::LightBVH;
    use trials::oracle::reference::native::packed_bvh::pack_light_bvh;
    use trials::oracle::reference::native_of_node;

    #[inline(never)]
    pub fn pack(tree: &LightBVH) -> u64 {
        std::hint::black_box(pack_light_bvh(tree).unwrap().unwrap()).node_words.len() as u64
    }

    pub fn packed(tree: &LightBVH) -> Vec<u8> {
        let packed = pack_light_bvh(tree).unwrap().unwrap();
        bytes(&[&packed.header_words, packed.node_words.as_flattened()].concat())
    }

    /// The same with the nodes read from bytes and the packed words written to bytes.
    #[inline(never)]
    pub fn from_bytes(nodes: &[u8], tree: &LightBVH, out: &mut [u8]) -> u64 {
        let node = |bytes: &[[u8; 4]; 16]| native_of_node(&bytes.map(u32::from_le_bytes)).unwrap();
        let packed = pack_light_bvh(&LightBVH {
            all_bounds: tree.all_bounds,
            nodes: nodes.as_chunks().0.as_chunks().0.iter().map(node).collect(),
            handle_to_leaf: vec![],
            bounded_handles: vec![0],
        });
        let packed = packed.unwrap().unwrap();
        let words = packed.header_words.iter().chain(packed.node_words.as_flattened());
        out.as_chunks_mut().0.iter_mut().zip(words).for_each(|(bytes, word)| *bytes = word.to_le_bytes());
        packed.node_words.len() as u64
    }
}
