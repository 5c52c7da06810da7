//! The stored answers of the bounds: forty words, a 13, b 13, a refusal's number or 0, result 13. Kinds 201
//! to 204 are cos, sin, acos and asin of the word a; 205 is the check of the record a, 206 the union of a and
//! b, 207 the importance of a for the query b. What a kind does not use is 0.

use super::{Answer, Case, List, padded};
use crate::inputs::records::{Query, Record};
use crate::oracle::standins::word;
#[cfg(reference)]
use crate::oracle::{reference, trig};
use crate::proved;

/// What answers.
pub struct Side {
    pub angles: [fn(f32) -> f32; 4],
    validate: fn(&Record) -> Result<(), u32>,
    union: fn(&Record, &Record) -> Result<Record, u32>,
    importance: fn(&Record, &Query) -> Result<u32, u32>,
}

const PROVED: Side = Side {
    angles: [|x| proved::cos(x), |x| proved::sin(x), |x| proved::acos(x), |x| proved::asin(x)],
    validate: |record| proved::bounds_validate(record),
    union: |a, b| {
        let mut joined = [0; 13];
        proved::bounds_union(a, b, &mut joined).map(|()| joined)
    },
    importance: |record, query| proved::bounds_importance(record, query),
};

#[cfg(reference)]
pub const ORACLE: Side = Side {
    angles: [trig::cos, trig::sin, trig::acos, trig::asin],
    validate: reference::validate,
    union: reference::union,
    importance: reference::importance,
};

pub struct Stored {
    kind: u32,
    a: Record,
    b: Record,
    number: u32,
    result: Record,
}

impl Stored {
    pub fn new(kind: u32, a: Record, b: Record, side: &Side) -> Stored {
        let one = |word: u32| padded(&[word]);
        let answer = match kind {
            201..=204 => Ok(one(word(side.angles[kind as usize - 201](f32::from_bits(a[0]))))),
            205 => (side.validate)(&a).map(|()| [0; 13]),
            206 => (side.union)(&a, &b),
            _ => (side.importance)(&a, &padded(&b[..6])).map(one),
        };
        let (number, result) = answer.map_or_else(|number| (number, [0; 13]), |result| (0, result));
        Stored { kind, a, b, number, result }
    }
}

impl Answer for Stored {
    const LIST: List = List { part: "bounds", kinds: [201, 207], words: 40, count: 3000 };

    fn of(case: &Case) -> Option<Stored> {
        let w = &case.words;
        let [a, b, result] = [0, 13, 27].map(|from| padded(&w[from..from + 13]));
        Some(Stored { kind: case.kind, a, b, number: w[26], result })
    }

    fn case(&self) -> Case {
        Case { kind: self.kind, words: [&self.a[..], &self.b, &[self.number], &self.result].concat() }
    }

    fn proved(&self) -> Stored {
        Stored::new(self.kind, self.a, self.b, &PROVED)
    }

    #[cfg(reference)]
    fn oracle(&self) -> Stored {
        Stored::new(self.kind, self.a, self.b, &ORACLE)
    }
}
