//! The proved alias table beside the reference's.

use crate::timing::{INPUTS, SAMPLES, row, slices};
use trials::inputs::random::Random;
use trials::proved;

pub fn rows() {
    println!("{INPUTS} weights; nanoseconds a weight, medians of {SAMPLES} samples.");
    println!(
        "Proved: the whole call by C on words, bins and work lent. Rust: build_power_alias_table on floats, its Vecs its own."
    );
    println!("weights | proved ns | Rust ns | ratio");
    let mut random = Random::new(0);
    let any: Vec<f32> = (0..INPUTS).map(|_| random.within(100.0).abs()).collect();
    let mut huge: Vec<f32> = (0..INPUTS).map(|_| random.within(1e-6).abs()).collect();
    huge[INPUTS / 3] = 1e6;
    for (label, weights) in [("random", any), ("all equal", vec![1.0; INPUTS]), ("one huge among tiny", huge)] {
        let words: Vec<u32> = weights.iter().map(|weight| weight.to_bits()).collect();
        let (mut bins, mut work) = (vec![0; 3 * INPUTS], vec![0; 4 * INPUTS]);
        assert_eq!(proved::alias_build_power_alias_table(&words, &mut bins, &mut work), Ok(()));
        let table = own::table(&weights);
        let own: Vec<u32> = table.iter().flat_map(|bin| [bin.q.to_bits(), bin.p.to_bits(), bin.alias]).collect();
        assert_eq!(bins, own, "both have the same table");
        row(
            label,
            [&mut || slices(|| proved::alias_build_power_alias_table(&words, &mut bins, &mut work)), &mut || {
                slices(|| own::table(&weights))
            }],
        );
    }
}

/// The reference behind a call, since the linker inlines no proved function either.
mod own {
    use trials::oracle::reference::native::light_sampler::{PowerAliasBin, build_power_alias_table};

    #[inline(never)]
    pub fn table(weights: &[f32]) -> Vec<PowerAliasBin> {
        build_power_alias_table(weights).unwrap()
    }
}
