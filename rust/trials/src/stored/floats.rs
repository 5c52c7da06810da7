//! The stored answers of the library functions: six words, a low and high, b, c, the result low and high. A
//! function's kind is 100 and its number in `functions.rs`. The oracle is the stand-in, which needs no
//! reference.

use super::{Answer, Case, List};
use crate::runs::functions::{self, FUNCTIONS, Function};

const BEFORE: u32 = 100;

pub struct Stored {
    function: &'static Function,
    arguments: functions::Case,
    result: u64,
}

impl Stored {
    pub fn new(function: &'static Function, arguments: functions::Case, answer: fn(&functions::Case) -> u64) -> Stored {
        Stored { function, arguments, result: answer(&arguments) }
    }
}

impl Answer for Stored {
    const LIST: List = List { part: "floats", kinds: [BEFORE + 1, BEFORE + 17], words: 6, count: 4352 };

    fn of(case: &Case) -> Option<Stored> {
        let function = FUNCTIONS.iter().find(|function| BEFORE + function.op == case.kind)?;
        let words: [u32; 6] = case.words[..].try_into().ok()?;
        let [low, high, b, c, result_low, result_high] = words.map(u64::from);
        Some(Stored { function, arguments: [low | high << 32, b, c], result: result_low | result_high << 32 })
    }

    fn case(&self) -> Case {
        let ([a, b, c], result) = (self.arguments, self.result);
        let words = [a, a >> 32, b, c, result, result >> 32].map(|word| word as u32);
        Case { kind: BEFORE + self.function.op, words: words.into() }
    }

    fn proved(&self) -> Stored {
        Stored::new(self.function, self.arguments, self.function.proved)
    }

    #[cfg(reference)]
    fn oracle(&self) -> Stored {
        Stored::new(self.function, self.arguments, self.function.standin)
    }
}
