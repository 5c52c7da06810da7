//! The differential runs of the gate: the proved alias table against the oracle, and the limits.

use trials::inputs::lists::MOST_LAMPS;
use trials::proved::alias_build_power_alias_table;
use trials::stored::PATTERN;

/// The answer, and the bins and the work after the call.
fn built(weights: &[f32], rooms: [usize; 2]) -> (Result<(), u32>, [Vec<u32>; 2]) {
    let words: Vec<u32> = weights.iter().map(|weight| weight.to_bits()).collect();
    let [mut bins, mut work] = rooms.map(|room| vec![PATTERN; room]);
    let answer = alias_build_power_alias_table(&words, &mut bins, &mut work);
    (answer, [bins, work])
}

fn refused(weights: &[f32], rooms: [usize; 2], number: u32) {
    let (answer, lent) = built(weights, rooms);
    assert_eq!(answer, Err(number), "{} weights, rooms {rooms:?}", weights.len());
    for (words, per_weight) in lent.iter().zip([3, 4]) {
        let zeros = if number == 8 { per_weight * weights.len() } else { 0 };
        assert!(
            words.iter().enumerate().all(|(i, word)| *word == if i < zeros { 0 } else { PATTERN }),
            "{number}: {words:08x?}"
        );
    }
}

/// The bins of weights, given in slices one word longer than they need be.
fn bins(weights: &[f32]) -> Vec<[u32; 3]> {
    let m = weights.len();
    let (answer, [bins, work]) = built(weights, [3 * m + 1, 4 * m + 1]);
    assert_eq!((answer, bins[3 * m], work[4 * m]), (Ok(()), PATTERN, PATTERN));
    assert!(work[..4 * m].iter().all(|word| *word == 0));
    bins.as_chunks().0.to_vec()
}

/// R14.9 and the corners of sums: no power, a weight -0, a sum past the largest f32.
#[test]
fn marked_weights() {
    let (half, one, none) = (0x3f00_0000, 0x3f80_0000, u32::MAX);
    assert_eq!(bins(&[1.0, 3.0]), [[half, 0x3e80_0000, 1], [one, 0x3f40_0000, none]]);
    assert_eq!(bins(&[-0.0, 1.0]), [[1 << 31, 1 << 31, 1], [one, one, none]]);
    assert_eq!(bins(&[-0.0, 0.0]), [[one, half, none]; 2]);
    assert_eq!(bins(&[3e38; 3]), [[one, 0, none]; 3]);
    assert_eq!(bins(&[]), [[0; 3]; 0]);
}

/// Slices too short leave all as it was; as many weights as there may be pass, and one more does not.
#[test]
fn lengths() {
    let weights = [1.0, f32::NAN, 2.0];
    (0..9).for_each(|room| refused(&weights, [room, 12], 3));
    (0..12).for_each(|room| refused(&weights, [9, room], 3));
    refused(&weights, [9, 12], 8);
    for unfit in [f32::INFINITY, f32::NEG_INFINITY, -1.0, -f32::from_bits(1), f32::from_bits(0xffff_ffff)] {
        refused(&[unfit], [4, 5], 8);
    }
    let most = vec![1.0; MOST_LAMPS + 1];
    refused(&most, [0, 0], 2);
    refused(&most, [3 * most.len(), 4 * most.len()], 2);
    assert!(bins(&most[1..]).iter().all(|bin| *bin == [0x3f80_0000, 0x3980_0000, u32::MAX]));
}

trials::differential! {
    fn alias_tables() {
        let tally = trials::runs::alias::alias_tables(0, 300_000);
        println!("alias tables: {tally}");
        tally.check(&[0, 2, 3, 8], &["alias", "weights", "room", "order", "bins", "error 8: Power"]);
    }
}
