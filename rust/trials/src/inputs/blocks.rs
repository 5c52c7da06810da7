//! The check of a bounds block's layout, our own form, and blocks for its runs, good and damaged.

use crate::inputs::lists::{BLOCK_RECORD, MOST_LAMPS, MOST_WORDS};
use crate::inputs::random::Random;
use crate::inputs::records::Record;

/// Refusal 2 is for too many words or lamps, 1 for a length that is not the count's or a side that is not 0
/// or 1, 4 for a handle that is not its place.
pub fn check_block(block: &[u32]) -> Result<(), u32> {
    let count = block.first().map_or(0, |count| *count as usize);
    if block.len() > MOST_WORDS || count > MOST_LAMPS {
        return Err(2);
    }
    let records = || block[1..].chunks_exact(BLOCK_RECORD);
    if block.len() != 1 + BLOCK_RECORD * count || records().any(|record| record[BLOCK_RECORD - 1] > 1) {
        return Err(1);
    }
    if records().enumerate().any(|(place, record)| record[0] as usize != place) {
        return Err(4);
    }
    Ok(())
}

/// The same for a tree, where the block must also have as many records as there are light records: 1, so before 4.
pub fn check_counted(light_count: u32, block: &[u32]) -> Result<(), u32> {
    match check_block(block) {
        Ok(()) | Err(4) if block[0] != light_count => Err(1),
        answer => answer,
    }
}

/// The records of a block that has the layout.
pub fn records(block: &[u32]) -> impl Iterator<Item = &Record> {
    block[1..].chunks_exact(BLOCK_RECORD).map(|words| words[1..].try_into().unwrap())
}

/// A block of the records, each with its place as its handle.
pub fn block_of(records: &[Record]) -> Vec<u32> {
    let mut block = vec![records.len() as u32];
    for (place, record) in records.iter().enumerate() {
        block.push(place as u32);
        block.extend(record);
    }
    block
}

impl Random {
    /// A block whose figures have any bits, its layout good or not.
    pub(crate) fn block(&mut self) -> Vec<u32> {
        let count = match self.below(5000) {
            0 => MOST_LAMPS as u64,
            1 => MOST_LAMPS as u64 + 1,
            _ => self.below(9),
        };
        let records: Vec<Record> = (0..count)
            .map(|_| {
                std::array::from_fn(|i| if i == BLOCK_RECORD - 2 { self.below(2) as u32 } else { self.bits() as u32 })
            })
            .collect();
        let mut block = block_of(&records);
        let times = self.of(&[0, 0, 0, 1, 1, 2]);
        (0..times).for_each(|_| self.damage_block(&mut block, count));
        block
    }

    /// The layout of a block of so many lamps made wrong, or at least not surely right: its length, word 0, a
    /// handle or a side.
    pub(crate) fn damage_block(&mut self, block: &mut Vec<u32>, lamps: u64) {
        let bit = 1 << self.below(32);
        let place = self.below(lamps.max(1)) as usize * BLOCK_RECORD + 1;
        match self.below(8) {
            0 => block.truncate(self.below(block.len() as u64 + 1) as usize),
            1 => (0..1 + self.below(28)).for_each(|_| block.push(0)),
            2 if !block.is_empty() => block[0] = self.of(&[block[0] ^ bit, 4096, 4097, u32::MAX]),
            3 | 4 if place < block.len() => block[place] ^= bit,
            5 | 6 if place + BLOCK_RECORD <= block.len() => block[place + BLOCK_RECORD - 1] ^= bit,
            _ if self.chance(200) => block.resize(MOST_WORDS + self.below(3) as usize, 0),
            _ => {}
        }
    }
}
