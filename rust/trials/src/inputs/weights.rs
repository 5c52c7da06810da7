//! Weights for the runs of the alias table, as words, with the words lent for its bins and its work.

use crate::inputs::lists::MOST_LAMPS;
use crate::inputs::random::Random;
use crate::inputs::records::{SMALLEST, UNFIT};

#[derive(Clone, Debug)]
pub struct Case {
    pub weights: Vec<u32>,
    pub bins_room: usize,
    pub work_room: usize,
}

impl Random {
    /// How many weights: mostly few, at most 64, now and then about as many as there may be.
    fn weight_count(&mut self) -> usize {
        let count = match self.below(2000) {
            0 => self.of(&[MOST_LAMPS as u64 - 1, MOST_LAMPS as u64]),
            1 => MOST_LAMPS as u64 + 1 + self.below(3),
            2..=100 => 0,
            101..=1600 => 1 + self.below(16),
            _ => self.below(65),
        };
        count as usize
    }

    /// Weights of one manner: any, all equal, one huge among tiny, few whole numbers, zeros, subnormals, so
    /// large that their sum is not finite, powers of two, or of all sizes.
    pub fn weights(&mut self, count: usize) -> Vec<f32> {
        let one = self.phi();
        let mut weights = vec![one; count];
        let manner = self.below(10);
        for weight in &mut weights {
            *weight = match manner {
                0 => one,
                1 => self.of(&[0.0, -0.0]),
                2 => self.of(&[0.0, -0.0, 1.0]),
                3 => self.below(4) as f32,
                4 => f32::from_bits(self.below(1 << 23) as u32),
                5 => self.of(&[3e38, f32::MAX, 1e38, 1.0]),
                6 => 2f32.powi(self.below(40) as i32 - 20),
                7 => self.phi(),
                8 => self.within(1e-6).abs(),
                _ => self.within(100.0).abs(),
            };
        }
        if manner == 8 && count > 0 {
            weights[self.below(count as u64) as usize] = self.of(&[1.0, 1e6, 1e30, 3e38]);
        }
        weights
    }

    pub fn weights_case(&mut self) -> Case {
        let count = self.weight_count();
        let mut weights: Vec<u32> = self.weights(count).into_iter().map(f32::to_bits).collect();
        if count > 0 && self.chance(8) {
            let not_finite = self.of(&UNFIT);
            let any = self.bits() as u32;
            weights[self.below(count as u64) as usize] =
                self.of(&[not_finite, (-1f32).to_bits(), (-SMALLEST).to_bits(), (-f32::MAX).to_bits(), any]);
        }
        Case { weights, bins_room: self.room(3 * count), work_room: self.room(4 * count) }
    }
}
