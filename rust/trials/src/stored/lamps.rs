//! The stored answers of the lamp lists: 243 words, the list's length, how many words are lent, a refusal's
//! number or 0, the list (160 words), the words lent and those behind them as they are after the call (80;
//! a5a5a5a5 before).

use super::{Answer, Case, List, PATTERN, at_most, first, padded};
#[cfg(reference)]
use crate::oracle::reference;
use crate::proved;

pub const LIST: usize = 160;
pub const BLOCK: usize = 80;

const KIND: u32 = 300;
const BLOCK_AT: usize = 3 + LIST;

type Build = fn(&[u32], &mut [u32]) -> Result<(), u32>;

#[derive(PartialEq)]
pub struct Stored {
    list: Vec<u32>,
    room: usize,
    pub number: u32,
    block: Vec<u32>,
}

impl Stored {
    /// A case with what a function answers and writes.
    pub fn new(list: Vec<u32>, room: usize, build: Build) -> Stored {
        let mut block = vec![PATTERN; BLOCK];
        let number = build(&list, &mut block[..room]).err().unwrap_or(0);
        Stored { list, room, number, block }
    }
}

impl Answer for Stored {
    const LIST: List = List { part: "lamps", kinds: [KIND, KIND], words: BLOCK_AT + BLOCK, count: 2000 };

    fn of(case: &Case) -> Option<Stored> {
        let w = &case.words;
        let (list, block) = (first(&w[3..BLOCK_AT], w[0])?, w[BLOCK_AT..].to_vec());
        Some(Stored { list, room: at_most(w[1], BLOCK)?, number: w[2], block })
    }

    fn case(&self) -> Case {
        let head = [self.list.len() as u32, self.room as u32, self.number];
        Case { kind: KIND, words: [&head[..], &padded::<LIST>(&self.list), &self.block].concat() }
    }

    fn proved(&self) -> Stored {
        Stored::new(self.list.clone(), self.room, proved::lamps_build_light_bounds)
    }

    #[cfg(reference)]
    fn oracle(&self) -> Stored {
        Stored::new(self.list.clone(), self.room, reference::build_light_bounds)
    }
}
