//! Timing of a proved function beside another, on the same inputs by the same driver.

use std::hint::black_box;
use std::time::Instant;

pub const INPUTS: usize = 4096;
pub const PASSES: usize = 32;
pub const SAMPLES: usize = 31;

/// The medians, in nanoseconds, of samples that the two sides take in turn, each of so many calls.
pub fn medians(calls: [u128; 2], mut sides: [&mut dyn FnMut() -> u64; 2]) -> [f64; 2] {
    let mut samples = [vec![], vec![]];
    for _ in 0..SAMPLES {
        for ((side, calls), samples) in sides.iter_mut().zip(calls).zip(&mut samples) {
            let began = Instant::now();
            for _ in 0..calls {
                black_box(side());
            }
            samples.push(began.elapsed().as_nanos());
        }
    }
    samples.map(|mut samples| {
        samples.sort();
        samples[SAMPLES / 2] as f64
    })
}

/// Prints the nanoseconds for an input of samples of so many.
pub fn sampled(label: &str, inputs: usize, sides: [&mut dyn FnMut() -> u64; 2]) {
    let [proved, own] = medians([1; 2], sides).map(|sample| sample / inputs as f64);
    println!("{label} | {proved:.2} | {own:.2} | {:.2}", proved / own);
}

/// The same with as many inputs as `fold` has.
pub fn row(label: &str, sides: [&mut dyn FnMut() -> u64; 2]) {
    sampled(label, PASSES * INPUTS, sides);
}

/// A checksum over all inputs, `call` being given each place and the result before.
pub fn fold(mut call: impl FnMut(usize, u64) -> u64) -> u64 {
    let (mut sum, mut last) = (0u64, 0);
    for _ in 0..PASSES {
        let from = black_box(0); // the compiler cannot tell one pass from another
        for i in from..from + INPUTS {
            last = call(i % INPUTS, last);
            sum = sum.wrapping_add(last);
        }
    }
    sum
}

/// Calls that do not wait for each other.
pub fn calls(mut call: impl FnMut(usize) -> u64) -> u64 {
    fold(|i, _| call(i))
}

/// Calls on whole slices, one a pass.
pub fn slices<A>(mut call: impl FnMut() -> A) -> u64 {
    for _ in 0..PASSES {
        black_box(call());
    }
    0
}
