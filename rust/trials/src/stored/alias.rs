//! The stored answers of the alias table: 161 words, how many weights, how many words are lent for the bins
//! and for the work, a refusal's number or 0, the weights (17 words), the bins (60) and the work (80) as they
//! are after the call (a5a5a5a5 before).

use super::{Answer, Case, List, PATTERN, at_most, first, padded};
#[cfg(reference)]
use crate::oracle::reference;
use crate::proved;

pub const WEIGHTS: usize = 17;
pub const BINS: usize = 60;
pub const WORK: usize = 80;

const KIND: u32 = 400;
const BINS_AT: usize = 4 + WEIGHTS;
const WORK_AT: usize = BINS_AT + BINS;

type Build = fn(&[u32], &mut [u32], &mut [u32]) -> Result<(), u32>;

#[derive(PartialEq)]
pub struct Stored {
    weights: Vec<u32>,
    rooms: [usize; 2],
    pub number: u32,
    bins: Vec<u32>,
    work: Vec<u32>,
}

impl Stored {
    /// A case with what a function answers and writes.
    pub fn new(weights: Vec<u32>, rooms: [usize; 2], build: Build) -> Stored {
        let (mut bins, mut work) = (vec![PATTERN; BINS], vec![PATTERN; WORK]);
        let number = build(&weights, &mut bins[..rooms[0]], &mut work[..rooms[1]]).err().unwrap_or(0);
        Stored { weights, rooms, number, bins, work }
    }
}

impl Answer for Stored {
    const LIST: List = List { part: "alias", kinds: [KIND, KIND], words: WORK_AT + WORK, count: 2000 };

    fn of(case: &Case) -> Option<Stored> {
        let w = &case.words;
        let (weights, rooms) = (first(&w[4..BINS_AT], w[0])?, [at_most(w[1], BINS)?, at_most(w[2], WORK)?]);
        Some(Stored { weights, rooms, number: w[3], bins: w[BINS_AT..WORK_AT].to_vec(), work: w[WORK_AT..].to_vec() })
    }

    fn case(&self) -> Case {
        let head = [self.weights.len() as u32, self.rooms[0] as u32, self.rooms[1] as u32, self.number];
        Case { kind: KIND, words: [&head[..], &padded::<WEIGHTS>(&self.weights), &self.bins, &self.work].concat() }
    }

    fn proved(&self) -> Stored {
        Stored::new(self.weights.clone(), self.rooms, proved::alias_build_power_alias_table)
    }

    #[cfg(reference)]
    fn oracle(&self) -> Stored {
        Stored::new(self.weights.clone(), self.rooms, reference::build_power_alias_table)
    }
}
