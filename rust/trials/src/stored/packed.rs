//! The stored answers of packing: 241 words, the bytes that there are of nodes, k, whether there is a box,
//! the box (6), how many bytes are lent, a refusal's number or 0, whether words are packed, how many, then
//! nodes (144), a5 past their bytes, and the bytes lent (84) as they are after the call (a5 before). Refusal
//! 2 needs more than a case holds.

use super::walks::filled_up;
use super::{Answer, Case, List, PATTERN, at_most, first, padded};
use crate::inputs::packing::{Case as Packing, Pack};
use crate::inputs::trees::NODE;
use crate::inputs::walks::{bytes, words};
#[cfg(reference)]
use crate::oracle::packing::pack_light_bvh;
use crate::proved;

/// Five lamps, and four words behind the reserve.
pub const NODES: usize = 9 * NODE;
pub const OUT: usize = 84;

const KIND: u32 = 700;
const NODES_AT: usize = 13;
const OUT_AT: usize = NODES_AT + NODES;

#[derive(PartialEq)]
pub struct Stored {
    case: Packing,
    /// A refusal's number, or 0, whether words are packed, and how many.
    answer: [u32; 3],
    out: Vec<u8>,
}

impl Stored {
    /// A case with what a function answers and writes.
    pub fn new(case: Packing, pack: Pack) -> Stored {
        let mut out = vec![PATTERN as u8; 4 * OUT];
        let answer = match pack(&case.nodes, case.k, case.all, &mut out[..case.room]) {
            Ok(Some(packed)) => [0, 1, packed as u32],
            Ok(None) => [0; 3],
            Err(number) => [number, 0, 0],
        };
        Stored { case, answer, out }
    }

    /// Its refusal's number; 20 where words are packed, 21 none.
    pub fn ending(&self) -> u32 {
        match self.answer {
            [0, 1, _] => 20,
            [0, ..] => 21,
            [number, ..] => number,
        }
    }
}

impl Answer for Stored {
    const LIST: List = List { part: "packed", kinds: [KIND, KIND], words: OUT_AT + OUT, count: 68 };

    fn of(case: &Case) -> Option<Stored> {
        let w = &case.words;
        let packing = Packing {
            nodes: first(&bytes(&w[NODES_AT..OUT_AT]), w[0])?,
            k: w[1] as usize,
            all: (w[2] != 0).then(|| padded(&w[3..9])),
            room: at_most(w[9], 4 * OUT)?,
        };
        Some(Stored { case: packing, answer: padded(&w[10..13]), out: bytes(&w[OUT_AT..]) })
    }

    fn case(&self) -> Case {
        let Packing { nodes, k, all, room } = &self.case;
        let head = [nodes.len() as u32, *k as u32, all.is_some().into()];
        let corners = all.unwrap_or([PATTERN; 6]);
        let words = [&head[..], &corners, &[*room as u32], &self.answer, &filled_up(nodes, NODES), &words(&self.out)];
        Case { kind: KIND, words: words.concat() }
    }

    fn proved(&self) -> Stored {
        Stored::new(self.case.clone(), proved::packed_pack_light_bvh)
    }

    #[cfg(reference)]
    fn oracle(&self) -> Stored {
        Stored::new(self.case.clone(), pack_light_bvh)
    }
}
