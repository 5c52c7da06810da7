//! The proved build beside the reference's with Rust's own library functions.

use super::offices::{Office, builds, table};
use crate::timing::SAMPLES;
use trials::inputs::trees::{lent, reserves};
use trials::proved::tree_build_light_bvh;

pub fn rows() {
    let above = format!(
        "Rooms of points, spots and panels; microseconds a build, medians of {SAMPLES} samples.\n\
        Proved: the whole call by C, block words to node words. Rust: build_light_bvh with its own library functions, its records ready.\n\
        lamps | proved us | Rust us | ratio"
    );
    table(&above, |_, Office { lamps, block, .. }| {
        let mut trays = reserves(lamps).map(|reserve| vec![0; reserve]);
        let records = own::records(&block);
        let mut proved = || {
            tree_build_light_bvh(lamps as u32, &block, lent(&mut trays)).unwrap();
            trays[3][0].into()
        };
        builds(&lamps.to_string(), [&mut proved, &mut || own::build(&records) as u64]);
    });
}

/// The reference behind a call, since the linker inlines no proved function either.
mod own {
    use trials::inputs::blocks;
    use trials::oracle::reference::native::light_bounds::LightBounds;
    use trials::oracle::reference::native::light_bvh::build_light_bvh;
    use trials::oracle::reference::{Light, native_of_words};

    pub fn records(block: &[u32]) -> Vec<LightBounds> {
        blocks::records(block).map(|record| native_of_words(record).unwrap()).collect()
    }

    #[inline(never)]
    pub fn build(records: &[LightBounds]) -> usize {
        build_light_bvh(&vec![Light; records.len()], records).unwrap().nodes.len()
    }
}
