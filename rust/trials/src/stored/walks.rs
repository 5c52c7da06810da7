//! The stored answers of the walks: 229 words, the bytes that there are of nodes and of table, the query (6),
//! u's word or a handle, a refusal's number or 0, whether a chance is given, the handle drawn, the chance,
//! then nodes (208) and table (8), a5 past their bytes. Kind 600 is a draw, 601 a chance by name. Refusal 2
//! needs more than a case holds.

use super::{Answer, Case, List, PATTERN, first, padded};
use crate::inputs::records::Query;
use crate::inputs::trees::NODE;
use crate::inputs::walks::{Chance, Drawn, Tree, bytes, words};
#[cfg(reference)]
use crate::oracle::walks::Decoded;
use crate::proved;

/// Seven lamps, and a table word more.
pub const NODES: usize = 13 * NODE;
pub const TABLE: usize = 8;

const DRAW: u32 = 600;
const CHANCE: u32 = 601;
const NODES_AT: usize = 13;
const TABLE_AT: usize = NODES_AT + NODES;

/// What is asked of a tree: a draw by u, or the chance of a handle.
#[derive(Clone, Copy, PartialEq)]
pub enum Asked {
    Draw(f32),
    Chance(u32),
}

/// What answers.
pub struct Side {
    draw: fn(&Tree, &Query, f32) -> Drawn,
    chance: fn(&Tree, &Query, u32) -> Chance,
}

const PROVED: Side = Side {
    draw: |tree, query, u| proved::sampler_sample(&tree.nodes, query, u),
    chance: |tree, query, handle| proved::sampler_pmf(&tree.nodes, &tree.table, query, handle),
};

#[cfg(reference)]
pub const ORACLE: Side = Side {
    draw: |tree, query, u| Decoded::new(tree).sample(query, u),
    chance: |tree, query, handle| Decoded::new(tree).pmf(query, handle),
};

#[derive(PartialEq)]
pub struct Stored {
    tree: Tree,
    query: Query,
    kind: u32,
    asked: u32,
    /// A refusal's number, or 0, whether a chance is given, the handle drawn and the chance.
    answer: [u32; 4],
}

impl Stored {
    pub fn new(tree: Tree, query: Query, asked: Asked, side: &Side) -> Stored {
        let (kind, word, answer) = match asked {
            Asked::Draw(u) => (DRAW, u.to_bits(), (side.draw)(&tree, &query, u)),
            Asked::Chance(handle) => {
                (CHANCE, handle, (side.chance)(&tree, &query, handle).map(|chance| Some((0, chance))))
            }
        };
        let answer = match answer {
            Ok(Some((handle, chance))) => [0, 1, handle, chance],
            Ok(None) => [0; 4],
            Err(number) => [number, 0, 0, 0],
        };
        Stored { tree, query, kind, asked: word, answer }
    }

    fn by(&self, side: &Side) -> Stored {
        let asked = match self.kind {
            DRAW => Asked::Draw(f32::from_bits(self.asked)),
            _ => Asked::Chance(self.asked),
        };
        Stored::new(self.tree.clone(), self.query, asked, side)
    }

    /// The kind's hundreds, and a refusal's number; 20 a chance above 0 or NaN, 21 one of 0, 22 none.
    pub fn ending(&self) -> u32 {
        let given = match self.answer {
            [0, 1, _, 0] => 21,
            [0, 1, _, _] => 20,
            [0, ..] => 22,
            [number, ..] => number,
        };
        100 * (self.kind - DRAW) + given
    }
}

/// The bytes as so many words, the rest a5.
pub fn filled_up(bytes: &[u8], count: usize) -> Vec<u32> {
    let mut all = bytes.to_vec();
    all.resize(4 * count, PATTERN as u8);
    words(&all)
}

impl Answer for Stored {
    const LIST: List = List { part: "walks", kinds: [DRAW, CHANCE], words: TABLE_AT + TABLE, count: 616 };

    fn of(case: &Case) -> Option<Stored> {
        let w = &case.words;
        let tree =
            Tree { nodes: first(&bytes(&w[NODES_AT..TABLE_AT]), w[0])?, table: first(&bytes(&w[TABLE_AT..]), w[1])? };
        Some(Stored { tree, query: padded(&w[2..8]), kind: case.kind, asked: w[8], answer: padded(&w[9..13]) })
    }

    fn case(&self) -> Case {
        let Tree { nodes, table } = &self.tree;
        let head = [nodes.len() as u32, table.len() as u32];
        let words =
            [&head[..], &self.query, &[self.asked], &self.answer, &filled_up(nodes, NODES), &filled_up(table, TABLE)];
        Case { kind: self.kind, words: words.concat() }
    }

    fn proved(&self) -> Stored {
        self.by(&PROVED)
    }

    #[cfg(reference)]
    fn oracle(&self) -> Stored {
        self.by(&ORACLE)
    }
}
