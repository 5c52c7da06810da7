//! The proved blocks of lamp lists beside the reference's with Rust's own library functions.

use crate::timing::{INPUTS, SAMPLES, row, slices};
use trials::inputs::lists::{BLOCK_RECORD, KINDS, Kind, list_of, read};
use trials::inputs::random::Random;
use trials::oracle::reference::native_inputs;
use trials::proved;

pub fn rows() {
    println!("Lists of {INPUTS} lamps; nanoseconds a lamp, medians of {SAMPLES} samples.");
    println!("Proved: the whole call by C, list words to block words.");
    println!(
        "Rust: build_light_bounds, then pack_exhaustive_bounds, with its own library functions, its inputs ready; or from the words."
    );
    println!("lamps | proved ns | Rust ns | ratio");
    let mut random = Random::new(0);
    let mut bench = |label: &str, kinds: &[Kind], from_words: bool| {
        let list = list_of((0..INPUTS).map(|i| random.usual_lamp(kinds[i % kinds.len()])));
        let inputs = native_inputs(&read(&list).unwrap());
        let mut block = vec![0; 1 + BLOCK_RECORD * INPUTS];
        assert_eq!(proved::lamps_build_light_bounds(&list, &mut block), Ok(()));
        let mut build = || slices(|| proved::lamps_build_light_bounds(&list, &mut block));
        if from_words {
            row(label, [&mut build, &mut || slices(|| own::block(&native_inputs(&read(&list).unwrap())))]);
        } else {
            row(label, [&mut build, &mut || slices(|| own::block(&inputs))]);
        }
    };
    bench("equal parts of points, spots and groups of 2 triangles", &KINDS, false);
    bench("points", &[Kind::Point], false);
    bench("spots", &[Kind::Spot], false);
    bench("groups of 2 triangles", &[Kind::Group], false);
    bench("equal parts, Rust from words too", &KINDS, true);
}

/// The reference behind a call, since the linker inlines no proved function either.
mod own {
    use trials::oracle::reference::native::{light_bounds, light_sampler};

    #[inline(never)]
    pub fn block(inputs: &[light_bounds::LightBoundInput]) -> Vec<u32> {
        light_sampler::pack_exhaustive_bounds(&light_bounds::build_light_bounds(inputs).unwrap()).unwrap()
    }
}
