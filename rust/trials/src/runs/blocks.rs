//! Runs of the proved check of a block against the one written here again.

use super::progress::turns;
use crate::inputs::blocks::check_block;
use crate::inputs::random::Random;
use crate::proved::{self, NUMBERS};

/// Counts the cases by their number.
pub fn blocks(seed: u64, cases: u64) -> [u64; NUMBERS] {
    let mut random = Random::new(seed);
    let mut counts = [0; NUMBERS];
    for _ in turns("blocks", cases) {
        let block = random.block();
        let expected = check_block(&block);
        assert_eq!(
            proved::lamps_check_block(&block),
            expected,
            "{} words: {:08x?}",
            block.len(),
            &block[..block.len().min(60)]
        );
        counts[expected.err().unwrap_or(0) as usize] += 1;
    }
    counts
}
