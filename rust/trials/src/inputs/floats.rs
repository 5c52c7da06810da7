//! Arguments of the library functions: special words, and random ones that crowd where rounding is decided.

use crate::inputs::random::Random;
use crate::runs::functions::{Case, Function};

/// How many bits of a float's word are exponent and fraction.
#[derive(Clone, Copy, PartialEq)]
pub struct Width {
    exponent: u32,
    fraction: u32,
}

impl Width {
    pub const F32: Width = Width { exponent: 8, fraction: 23 };
    pub const F64: Width = Width { exponent: 11, fraction: 52 };

    pub fn bits(self) -> u32 {
        1 + self.exponent + self.fraction
    }

    /// The word of -0.
    fn sign(self) -> u64 {
        1 << (self.bits() - 1)
    }

    /// The word of the smallest normal float; as a difference of words, one exponent.
    fn normal(self) -> u64 {
        1 << self.fraction
    }

    fn infinity(self) -> u64 {
        self.sign() - self.normal()
    }

    /// The word of 2^n.
    fn power(self, n: i32) -> u64 {
        ((self.greatest() + n) as u64) << self.fraction
    }

    /// The greatest n for which 2^n is a float; also the exponents' bias.
    fn greatest(self) -> i32 {
        (1 << (self.exponent - 1)) - 1
    }

    fn word(self, x: f64) -> u64 {
        if self == Width::F32 { (x as f32).to_bits().into() } else { x.to_bits() }
    }
}

fn around(word: u64) -> [u64; 3] {
    [word - 1, word, word + 1]
}

/// The f64 in the middle between a positive f32 and the next. After the largest f32 that is 2^128, as for any rounding.
fn middle(word: u32) -> u64 {
    let value = |word| match word {
        0x7f80_0000 => 2f64.powi(128),
        _ => f32::from_bits(word).into(),
    };
    ((value(word) + value(word + 1)) / 2.0).to_bits()
}

/// Each word with either sign, once.
fn with_signs(width: Width, mut words: Vec<u64>) -> Vec<u64> {
    words.sort();
    words.dedup();
    words.into_iter().flat_map(|word| [word, word | width.sign()]).collect()
}

/// The special words that every function is tried on in every run.
pub fn few(width: Width) -> Vec<u64> {
    let (normal, infinity) = (width.normal(), width.infinity());
    let quiet = infinity + normal / 2;
    let mut words = vec![0, infinity, infinity + 1, quiet - 1, quiet, quiet + 1, infinity + normal - 1];
    // the last halves of f32 are below 2^23
    let halves = [0, 1, 2, 3, 1 << 21, (1 << 22) - 1, 1 << 22, (1 << 23) - 1].map(|n| width.word(f64::from(n) + 0.5));
    let powers = [-1, 0, 1, 22, 23, 24, 31, 32, 53, 63, 64].map(|n| width.power(n));
    let limits = [2, normal, infinity - 2];
    words.extend(halves.into_iter().chain(powers).chain(limits).flat_map(around));
    if width == Width::F64 {
        // f32's limits and their middles: half the smallest, where subnormals end, a carry into the next
        // exponent, overflow
        let singles =
            [0, 1, 0x3f_ffff, 0x7f_fffe, 0x7f_ffff, 0x80_0000, 0x3f7f_ffff, 0x3f80_0000, 0x7f7f_fffe, 0x7f7f_ffff];
        words.extend(singles.into_iter().map(middle).flat_map(around));
        words.extend(around(width.word(f32::MAX.into())));
    }
    with_signs(width, words)
}

/// More special words: the neighbours of every power of two and, at 64 bits, the middles after as many f32.
pub fn special(width: Width) -> Vec<u64> {
    let mut words: Vec<u64> = few(width).into_iter().map(|word| word & !width.sign()).collect();
    words.extend((1 - width.greatest()..=width.greatest()).map(|n| width.power(n)).flat_map(around));
    if width == Width::F64 {
        let singles = special(Width::F32).into_iter().filter(|&word| word < Width::F32.infinity());
        words.extend(singles.map(|word| middle(word as u32)).flat_map(around));
    }
    with_signs(width, words)
}

/// Every choice of so many arguments from the words.
fn choices(words: Vec<u64>, arguments: usize) -> impl Iterator<Item = Case> {
    let count = words.len();
    let word = move |i, k| if k < arguments { words[i / count.pow(k as u32) % count] } else { 0 };
    (0..count.pow(arguments as u32)).map(move |i| [word(i, 0), word(i, 1), word(i, 2)])
}

/// Every choice of special words; of the few where triples of all would be too many.
pub fn special_cases(f: &Function) -> impl Iterator<Item = Case> {
    choices(if f.arguments < 3 { special(f.width) } else { few(f.width) }, f.arguments)
}

/// The cases of the stored answers, always the same: choices of the most special words, each of the few, then
/// random ones.
pub fn stored_cases(f: &Function) -> Vec<Case> {
    const STORED: usize = 256;
    let mut random = Random::new(f.op.into());
    let (sign, infinity, one) = (f.width.sign(), f.width.infinity(), f.width.power(0));
    let most = [0, sign, one, infinity, infinity + 1, one | sign, infinity | sign, 1, !0 >> (64 - f.width.bits())];
    let most = match f.arguments {
        1 => &[],
        2 => &most[..],
        _ => &most[..4],
    };
    let mut cases: Vec<Case> = choices(most.into(), f.arguments).collect();
    cases.extend(few(f.width).into_iter().map(|word| random.case_of(f, word)));
    while cases.len() < STORED {
        let case = random.case(f);
        if !cases.contains(&case) {
            cases.push(case);
        }
    }
    cases
}

impl Random {
    /// Random arguments of a function.
    pub fn case(&mut self, f: &Function) -> Case {
        let word = self.word(f.width);
        self.case_of(f, word)
    }

    /// The first argument given; a further one equals it, lies beside it, is its negative, or is any.
    fn case_of(&mut self, f: &Function, word: u64) -> Case {
        let mut case = [word, 0, 0];
        for argument in &mut case[1..f.arguments] {
            *argument = match self.below(4) {
                0 => self.beside(f.width, word),
                1 => word ^ f.width.sign(),
                _ => self.word(f.width),
            };
        }
        case
    }

    /// A word of any bits, near a power of two, near a half, or near a square.
    pub fn word(&mut self, width: Width) -> u64 {
        let word = match self.below(4) {
            0 => return self.bits() >> (64 - width.bits()),
            1 => self.structured(width),
            2 => self.half(width),
            _ => self.square(width),
        };
        self.beside(width, word) | (width.sign() * self.below(2))
    }

    /// The word or a neighbour.
    fn beside(&mut self, width: Width, word: u64) -> u64 {
        (word + self.below(3)).wrapping_sub(1) & (!0 >> (64 - width.bits()))
    }

    /// A run of ones in the fraction, or one alone, or none; exponents mostly where functions change what they do.
    fn structured(&mut self, width: Width) -> u64 {
        let ones = width.normal() - 1;
        let place = self.below(width.fraction.into());
        let fraction = match self.below(4) {
            0 => 0,
            1 => 1 << place,
            2 => ones >> place,
            _ => ones << place & ones,
        };
        let (from, to) = match self.below(4) {
            0 => (-width.greatest(), width.greatest() + 1),
            1 => (-width.greatest(), -width.greatest()),
            _ if width == Width::F32 => (-2, 65),
            _ => (-152, 130), // all of f32, and a little more
        };
        width.power(self.between(from, to)) | fraction
    }

    /// Half-way between two whole numbers; at 64 bits, between two f32, often at the ends of the normal ones.
    fn half(&mut self, width: Width) -> u64 {
        if width == Width::F32 {
            let bits = self.below(24);
            return width.word(self.below(1 << bits) as f64 + 0.5);
        }
        let single = match self.below(8) {
            0 => self.below(16),
            1 => 0x80_0000 - 8 + self.below(16),
            2 => 0x7f80_0000 - 1 - self.below(16),
            3 => self.below(0x100_0000),
            _ => self.below(0x7f80_0000),
        };
        middle(single as u32)
    }

    /// A power of four times the square, cut to the fraction's length, of a short number, of a float or of a
    /// middle between two; or times a number just beside such a middle's square that needs no cut, so that
    /// its root all but ties.
    fn square(&mut self, width: Width) -> u64 {
        let (square, short) = (|root: u64| u128::from(root) * u128::from(root), width.fraction.div_ceil(2));
        let square = match self.below(4) {
            0 => square(self.below(1 << short) | 1),
            1 => square(self.below(width.normal()) | width.normal()),
            2 => square(self.below(2 * width.normal()) | (2 * width.normal()) | 1),
            _ => {
                let size = self.below(short.into());
                let beside = 1 + 8 * (self.below(2 << size) as i64 - (1 << size));
                square(root_modulo(beside, width.fraction + 3)).wrapping_sub(beside as u128)
            }
        };
        let length = square.ilog2() as i32;
        let significand = square << (127 - length) >> (127 - width.fraction);
        let exponent = self.between(1 - width.greatest(), width.greatest() - 1);
        // an even distance from the square's own exponent
        width.power(exponent + ((exponent + length) & 1)) | (significand as u64 & (width.normal() - 1))
    }
}

/// A number of bits - 1 digits whose square leaves n (1 more than a multiple of 8) when divided by 2^bits,
/// found digit by digit.
fn root_modulo(n: i64, bits: u32) -> u64 {
    let mut root = 1u64;
    for digit in 3..bits {
        root += (root.wrapping_mul(root).wrapping_sub(n as u64) >> digit & 1) << (digit - 1);
    }
    root.max((1 << (bits - 1)) - root) // its negative is another
}
