//! Slices lent to a function, with all that lies about them held in view.

use crate::inputs::random::Random;

const MARGIN: usize = 16;

/// A slice with room before and behind it, at every alignment in turn.
#[derive(Clone, PartialEq)]
pub struct Lent<T> {
    pub all: Vec<T>,
    start: usize,
    len: usize,
}

impl<T: Copy> Lent<T> {
    pub fn new(random: &mut Random, len: usize, of: fn(u64) -> T) -> Lent<T> {
        let start = MARGIN + random.below(8) as usize;
        let all = (0..start + len + MARGIN).map(|_| of(random.bits())).collect();
        Lent { all, start, len }
    }

    /// Those given, with others all alike about them.
    pub fn of(random: &mut Random, words: &[T], about: T) -> Lent<T> {
        let (start, len) = (MARGIN + random.below(8) as usize, words.len());
        let mut all = vec![about; start + len + MARGIN];
        all[start..start + len].copy_from_slice(words);
        Lent { all, start, len }
    }

    pub fn words(&self) -> &[T] {
        &self.all[self.start..self.start + self.len]
    }

    pub fn slice(&mut self) -> &mut [T] {
        &mut self.all[self.start..self.start + self.len]
    }
}

pub fn byte(bits: u64) -> u8 {
    bits as u8
}

pub fn word(bits: u64) -> u32 {
    bits as u32
}
