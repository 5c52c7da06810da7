//! The stored answers of build: 253 words, the light records' count, the block's length, how many words are
//! lent for nodes, table and work, a refusal's number or 0, k, whether there is a box, the box (6), the block
//! (71), then nodes (147), table (8) and work (13) as they are after the call (a5a5a5a5 before).

use super::{Answer, Case, List, PATTERN, at_most, first, padded};
use crate::inputs::trees::{self, ANSWER, Build, Built, built};
#[cfg(reference)]
use crate::oracle::reference;
use crate::proved;

/// Five lamps, and three words behind each reserve.
pub const BLOCK: usize = 71;
pub const TRAYS: [usize; 3] = [147, 8, 13];

const KIND: u32 = 500;
const BLOCK_AT: usize = 14;
const TRAYS_AT: usize = BLOCK_AT + BLOCK;

#[derive(PartialEq)]
pub struct Stored {
    /// The last of its rooms is the answer's, always whole.
    case: trees::Case,
    number: u32,
    built: Built,
    trays: [Vec<u32>; 3],
}

impl Stored {
    /// A case with what a function answers and writes.
    pub fn new(case: trees::Case, build: Build) -> Stored {
        let mut trays = TRAYS.map(|words| vec![PATTERN; words]);
        let mut answer = [0; ANSWER];
        let ([nodes, table, work], rooms) = (&mut trays, case.rooms);
        let lent = [&mut nodes[..rooms[0]], &mut table[..rooms[1]], &mut work[..rooms[2]], &mut answer];
        let number = build(case.light_count, &case.block, lent).err().unwrap_or(0);
        Stored { case, number, built: built(&answer), trays }
    }

    /// Its refusal's number, or 100 and k.
    pub fn ending(&self) -> u32 {
        match self.number {
            0 => 100 + self.built.0,
            number => number,
        }
    }
}

impl Answer for Stored {
    const LIST: List =
        List { part: "trees", kinds: [KIND, KIND], words: TRAYS_AT + TRAYS[0] + TRAYS[1] + TRAYS[2], count: 1500 };

    fn of(case: &Case) -> Option<Stored> {
        let w = &case.words;
        let [nodes, table, work] = TRAYS;
        let block = first(&w[BLOCK_AT..TRAYS_AT], w[1])?;
        let rooms = [at_most(w[2], nodes)?, at_most(w[3], table)?, at_most(w[4], work)?, ANSWER];
        let tray = |from: usize, length: usize| w[TRAYS_AT + from..TRAYS_AT + from + length].to_vec();
        Some(Stored {
            case: trees::Case { light_count: w[0], block, rooms },
            number: w[5],
            built: (w[6], (w[7] == 1).then(|| padded(&w[8..14]))),
            trays: [tray(0, nodes), tray(nodes, table), tray(nodes + table, work)],
        })
    }

    fn case(&self) -> Case {
        let trees::Case { light_count, block, rooms } = &self.case;
        let [nodes, table, work, _] = rooms.map(|room| room as u32);
        let (k, around) = self.built;
        let head = [*light_count, block.len() as u32, nodes, table, work, self.number, k, around.is_some().into()];
        let words = [&head[..], &around.unwrap_or([0; 6]), &padded::<BLOCK>(block), &self.trays.concat()];
        Case { kind: KIND, words: words.concat() }
    }

    fn proved(&self) -> Stored {
        Stored::new(self.case.clone(), proved::tree_build_light_bvh)
    }

    #[cfg(reference)]
    fn oracle(&self) -> Stored {
        Stored::new(self.case.clone(), reference::build_light_bvh)
    }
}
