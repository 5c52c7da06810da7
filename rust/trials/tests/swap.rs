//! The renderer's swap: files of pbrt-r4 as they are, in which only `crate::gpu::flat` is ours, by one `use`.
//! What they read of a tree they find; `webgpu/light_bvh.rs` packs it to the words that the proved packing
//! gives, and `webgpu/light_sampler.rs` packs the same blocks and builds the same alias tables.

#[cfg(reference)]
#[allow(dead_code, clippy::all)]
mod gpu {
    pub mod flat {
        pub use light_tree::pbrt::*;

        pub struct Light;
        pub struct RenderSettings {
            pub light_sampler: String,
        }
    }

    pub mod webgpu {
        pub mod abi {
            #[derive(Default)]
            pub struct LightTableUniform {
                pub light_sampler_kind: u32,
                pub light_sampler_data_offset: u32,
                pub light_bvh_node_offset: u32,
                pub light_bvh_node_count: u32,
                pub light_leaf_offset: u32,
                pub light_leaf_count: u32,
            }
            pub const LIGHT_SAMPLER_KIND_BVH: u32 = 1;
        }
        pub mod light_bvh {
            include!(concat!(env!("REFERENCE_FILES"), "/src--src--gpu--webgpu--light_bvh.rs.txt"));
        }
        pub mod light_sampler {
            include!(concat!(env!("REFERENCE_FILES"), "/src--src--gpu--webgpu--light_sampler.rs.txt"));
        }
    }
}

#[cfg(reference)]
mod util {
    pub mod error {
        #[derive(Debug)]
        pub struct PbrtError;

        impl PbrtError {
            pub fn error(_: &str) -> PbrtError {
                PbrtError
            }
        }

        impl From<light_tree::Refusal> for PbrtError {
            fn from(_: light_tree::Refusal) -> PbrtError {
                PbrtError
            }
        }
    }
}

/// What a renderer does, in its own words: bounds, tree, draws, chances, packed words.
#[cfg(reference)]
fn render(
    inputs: &[gpu::flat::LightBoundInput],
    p: [f32; 3],
    n: [f32; 3],
    u: f32,
) -> Result<bool, util::error::PbrtError> {
    use gpu::flat::{Light, build_light_bounds, build_light_bvh, bvh_light_sampler_pmf, bvh_light_sampler_sample};
    use gpu::webgpu::{light_bvh, light_sampler};

    let bounds = build_light_bounds(inputs)?;
    let lights: Vec<Light> = inputs.iter().map(|_| Light).collect();
    let bvh = build_light_bvh(&lights, &bounds)?;
    if let Some((handle, pmf)) = bvh_light_sampler_sample(&bvh, p, n, u)? {
        let named = bvh_light_sampler_pmf(&bvh, p, n, handle)?;
        assert!((named - pmf).abs() <= 1e-5 * pmf, "{named} {pmf}");
    }
    let (theirs, ours) = (light_bvh::pack_light_bvh(&bvh)?, gpu::flat::pack_light_bvh(&bvh)?);
    assert_eq!(theirs.is_some(), ours.is_some());
    if let (Some(theirs), Some(ours)) = (&theirs, &ours) {
        assert_eq!((&theirs.header_words, &theirs.node_words), (&ours.header_words, &ours.node_words));
        assert_eq!(theirs.handle_to_leaf, ours.handle_to_leaf);
    }
    assert_eq!(light_sampler::pack_exhaustive_bounds(&bounds)?, gpu::flat::pack_exhaustive_bounds(&bounds)?);
    let powers: Vec<f32> = bounds.iter().map(|bounds| bounds.phi).collect();
    let (theirs, ours) =
        (light_sampler::build_power_alias_table(&powers)?, gpu::flat::build_power_alias_table(&powers)?);
    let bins = theirs.iter().zip(&ours).filter(|(a, b)| (a.q, a.p, a.alias) == (b.q, b.p, b.alias));
    assert_eq!((theirs.len(), bins.count()), (ours.len(), ours.len()));
    Ok(theirs.is_empty())
}

trials::differential! {
    fn renderer() {
        use trials::inputs::random::Random;
        use gpu::flat::{AreaTriangleInput, LightBoundInput};

        let mut random = Random::new(11);
        for _ in 0..5_000 {
            let mut vector = |size| [(); 3].map(|()| random.within(size));
            let count = (vector(12.0)[0].abs()) as u32;
            let inputs: Vec<LightBoundInput> = (0..count)
                .map(|handle| {
                    let (world_position, direction, [a, b, c]) = (vector(8.0), vector(1.0), vector(1.0));
                    let [intensity_max, scale] = [40.0 * a.abs(), if b < -0.8 { 0.0 } else { 1.0 }];
                    match (4.0 * c.abs()) as u32 {
                        0 => LightBoundInput::Point { handle, world_position, intensity_max, scale },
                        1 => {
                            let (cos_theta_o, cos_falloff_end) = (a.abs(), a.abs() * b.abs());
                            LightBoundInput::Spot {
                                handle,
                                world_position,
                                direction,
                                intensity_max,
                                scale,
                                cos_theta_o,
                                cos_falloff_end,
                            }
                        }
                        _ => {
                            let world_positions = [world_position, vector(8.0), vector(8.0)];
                            let triangle = AreaTriangleInput { world_positions, area: 1.0 + a, geometric_normal: direction };
                            let two_sided = b > 0.0;
                            LightBoundInput::AreaGroup { handle, triangles: vec![triangle; 2], emission_max: 9.0, scale, two_sided }
                        }
                    }
                })
                .collect();
            let (p, n, [u, ..]) = (vector(10.0), vector(1.0), vector(1.0));
            assert_eq!(render(&inputs, p, n, u.abs()).expect("a room as rooms are"), count == 0);
        }
        let misplaced = LightBoundInput::Point { handle: 3, world_position: [0.0; 3], intensity_max: 1.0, scale: 1.0 };
        assert!(render(&[misplaced], [0.0; 3], [0.0; 3], 0.5).is_err());
    }
}
