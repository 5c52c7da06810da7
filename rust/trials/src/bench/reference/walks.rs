//! The proved draw and chance by name beside the reference's with Rust's own library functions.

use super::offices::{Office, pass, table};
use crate::timing::{INPUTS, SAMPLES};
use trials::inputs::random::Random;
use trials::inputs::records::{Query, vectors};
use trials::inputs::walks::{NONE, bytes};
use trials::oracle::loops::Own;
use trials::oracle::reference::native::light_bvh::{LightBVH, bvh_light_sampler_pmf, bvh_light_sampler_sample};
use trials::proved::{sampler_pmf, sampler_sample};

pub fn rows() {
    let above = format!(
        "Rooms of points, spots and panels, points on benches and walls; nanoseconds a call, medians of {SAMPLES} samples.\n\
        Proved: the whole call by C, over node bytes. Rust: light_bvh.rs with its own library functions, over its own nodes.\n\
        walk | lamps | normals | forks | proved ns | Rust ns | ratio"
    );
    table(&above, |random, office| {
        let place = Place { nodes: office.node_bytes(), table: bytes(&office.tree.handle_to_leaf), office };
        [false, true].into_iter().for_each(|normals| place.rows(random, normals));
    });
}

/// An office, with its nodes and table as the proved functions read them.
struct Place {
    office: Office,
    nodes: Vec<u8>,
    table: Vec<u8>,
}

impl Place {
    /// How many forks lie above a lamp's leaf.
    fn above(&self, handle: u32) -> usize {
        let parent =
            |place: &u32| Some(self.office.tree.nodes[*place as usize].parent()).filter(|parent| *parent != NONE);
        std::iter::successors(Some(self.office.tree.handle_to_leaf[handle as usize]), parent).count() - 1
    }

    fn rows(&self, random: &mut Random, normals: bool) {
        let lamps = self.office.lamps;
        let queries: Vec<Query> = std::iter::repeat_with(|| self.office.room.query(random))
            .filter(|query| query[3..].iter().any(|word| *word << 1 != 0) == normals)
            .take(INPUTS)
            .collect();
        let us: Vec<f32> = (0..INPUTS).map(|_| random.within(1.0).abs()).collect();
        let handles: Vec<u32> = (0..INPUTS).map(|_| random.below(lamps as u64) as u32).collect();
        let points: Vec<[[f32; 3]; 2]> = queries.iter().map(vectors).collect();
        let own = Own::new(&self.office.tree);
        let passed: usize = queries.iter().zip(&us).map(|(query, u)| own.descent(query, *u).forks.len()).sum();
        let above: usize = handles.iter().map(|handle| self.above(*handle)).sum();
        let label = |walk: &str, forks: usize| {
            let normals = if normals { "with" } else { "without" };
            format!("{walk} | {lamps} | {normals} | {:.1}", forks as f64 / INPUTS as f64)
        };
        pass(
            &label("draw", passed),
            [
                &|i| sampler_sample(&self.nodes, &queries[i], us[i]).unwrap().map_or(0, |(handle, _)| handle.into()),
                &|i| own_draw(&self.office.tree, points[i], us[i]),
            ],
        );
        pass(
            &label("chance", above),
            [&|i| sampler_pmf(&self.nodes, &self.table, &queries[i], handles[i]).unwrap().into(), &|i| {
                own_chance(&self.office.tree, points[i], handles[i])
            }],
        );
    }
}

/// The reference behind a call, since the linker inlines no proved function either.
#[inline(never)]
fn own_draw(tree: &LightBVH, [p, n]: [[f32; 3]; 2], u: f32) -> u64 {
    bvh_light_sampler_sample(tree, p, n, u).unwrap().map_or(0, |(handle, _)| handle.into())
}

#[inline(never)]
fn own_chance(tree: &LightBVH, [p, n]: [[f32; 3]; 2], handle: u32) -> u64 {
    bvh_light_sampler_pmf(tree, p, n, handle).unwrap().to_bits().into()
}
