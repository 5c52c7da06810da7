//! The library functions of docs/REQUIREMENTS.md R2, written from its lines on bit patterns, without std's.
//! The differential runs link these.

/// The word a float is stored as: every NaN is 7fc00000.
pub fn word(x: f32) -> u32 {
    if is_nan(x) { 0x7fc0_0000 } else { x.to_bits() }
}

/// The same at 64 bits.
pub fn word64(x: f64) -> u64 {
    if x.to_bits() & !F64.sign > F64.infinity { F64.nan() } else { x.to_bits() }
}

fn is_nan(x: f32) -> bool {
    x.to_bits() & 0x7fff_ffff > 0x7f80_0000
}

/// Where a float stands in the order of all floats. Both zeros stand at 0.
fn place(x: f32) -> i32 {
    let size = (x.to_bits() & 0x7fff_ffff) as i32;
    if x.to_bits() >> 31 == 1 { -size } else { size }
}

fn less(a: f32, b: f32) -> bool {
    !is_nan(a) && !is_nan(b) && place(a) < place(b)
}

/// NaN loses to the other value; equal values give the first.
pub fn min(a: f32, b: f32) -> f32 {
    if is_nan(a) || less(b, a) { b } else { a }
}

pub fn max(a: f32, b: f32) -> f32 {
    if is_nan(a) || less(a, b) { b } else { a }
}

/// Moves a value only past an end and keeps NaN.
pub fn clamp(x: f32, lo: f32, hi: f32) -> f32 {
    let mut x = x;
    if less(x, lo) {
        x = lo
    }
    if less(hi, x) {
        x = hi
    }
    x
}

pub fn abs(x: f32) -> f32 {
    f32::from_bits(x.to_bits() & 0x7fff_ffff)
}

/// Whether the stored word has its sign bit; a NaN's has none.
pub fn is_sign_negative(x: f32) -> bool {
    word(x) >> 31 == 1
}

/// One of the two whole numbers about x: the one away from zero where `away` says so, given whether x is
/// negative and whether its fraction is at least a half. A whole x is its own answer. The sign stays, also on
/// a zero.
fn whole(x: f32, away: fn(bool, bool) -> bool) -> f32 {
    let sign = x.to_bits() & 0x8000_0000;
    let size = x.to_bits() ^ sign;
    let exponent = size >> 23;
    if exponent >= 127 + 23 {
        return x; // no bit stands for less than 1, or x is not finite
    }
    let (inner, outer, half) = if exponent < 127 {
        (0, 0x3f80_0000, size >= 0x3f00_0000)
    } else {
        let unit = 1 << (127 + 23 - exponent);
        let inner = size & !(unit - 1);
        (inner, inner + unit, size & (unit / 2) != 0) // a carry out of the fraction raises the exponent, as it should
    };
    let moved = size != inner && away(sign != 0, half);
    f32::from_bits(sign | if moved { outer } else { inner })
}

pub fn floor(x: f32) -> f32 {
    whole(x, |negative, _| negative)
}

pub fn ceil(x: f32) -> f32 {
    whole(x, |negative, _| !negative)
}

/// Halves away from zero.
pub fn round(x: f32) -> f32 {
    whole(x, |_, half| half)
}

/// The whole part in so many bits, saturating; NaN to 0.
fn saturated(x: f32, bits: u32) -> u64 {
    let w = x.to_bits();
    if is_nan(x) || w >> 31 == 1 || w < 0x3f80_0000 {
        return 0;
    }
    let exponent = (w >> 23) - 127;
    if exponent >= bits {
        return u64::MAX >> (64 - bits);
    }
    let significand = u64::from(w & 0x007f_ffff | 0x0080_0000);
    if exponent < 23 { significand >> (23 - exponent) } else { significand << (exponent - 23) }
}

pub fn to_u16(x: f32) -> u16 {
    saturated(x, 16) as u16
}

pub fn to_u32(x: f32) -> u32 {
    saturated(x, 32) as u32
}

pub fn to_usize(x: f32) -> usize {
    saturated(x, usize::BITS) as usize
}

/// A float format: the digits of a significand, the exponent of the smallest float, and the words of infinity and -0.
struct Format {
    digits: i32,
    least: i32,
    infinity: u64,
    sign: u64,
}

const F32: Format = Format { digits: 24, least: -149, infinity: 0x7f80_0000, sign: 1 << 31 };
const F64: Format = Format { digits: 53, least: -1074, infinity: 0x7ff0_0000_0000_0000, sign: 1 << 63 };

impl Format {
    fn nan(&self) -> u64 {
        self.infinity | 1 << (self.digits - 2)
    }

    /// m and e of a finite positive float m × 2^e.
    fn parts(&self, word: u64) -> (u64, i32) {
        let hidden = 1 << (self.digits - 1);
        let exponent = (word / hidden) as i32;
        if exponent == 0 { (word, self.least) } else { (word % hidden + hidden, self.least + exponent - 1) }
    }

    /// The word of the float nearest to m × 2^e, ties to even; `more` says that the value lies between that
    /// and (m + 1) × 2^e, and needs an m longer than a significand.
    fn nearest(&self, m: u64, e: i32, more: bool) -> u64 {
        let length = 64 - m.leading_zeros() as i32;
        // digits to cut: all beyond a significand's, and all below the smallest float
        let cut = (length - self.digits).max(self.least - e);
        if m == 0 || cut > length {
            return 0; // under half the smallest float
        }
        let kept = if cut > 0 {
            let half = 1 << (cut - 1);
            let (kept, rest) = (m >> cut, m & (2 * half - 1));
            let up = rest > half || rest == half && (more || kept % 2 == 1);
            kept + u64::from(up)
        } else {
            m << -cut
        };
        // the leading digit of a normal float, and a carry out of the significand, each add one to the exponent
        let word = (((e + cut - self.least) as u64) << (self.digits - 1)) + kept;
        if word > self.infinity { self.infinity } else { word }
    }

    /// The nearest float to the square root, ties to even; one fact for both widths.
    fn sqrt(&self, word: u64) -> u64 {
        if word & !self.sign == 0 || word == self.infinity {
            return word;
        }
        if word > self.infinity {
            return self.nan(); // below zero, or NaN
        }
        let (m, e) = self.parts(word);
        // Zeros behind m until its root has one digit more than a significand, by the count of leading zeros, since a
        // subnormal's m is short; one zero more where the exponent would stay odd.
        let length = 64 - m.leading_zeros() as i32;
        let mut zeros = 2 * self.digits + 1 - length;
        zeros += (e - zeros) & 1;
        let square = u128::from(m) << zeros;
        let mut root = 0u64;
        for digit in (0..=self.digits).rev() {
            let next = root | 1 << digit;
            if u128::from(next) * u128::from(next) <= square {
                root = next;
            }
        }
        let more = u128::from(root) * u128::from(root) < square;
        self.nearest(root, (e - zeros) / 2, more)
    }

    /// The nearest float of another format, ties to even.
    fn convert(&self, word: u64, to: &Format) -> u64 {
        let size = word & !self.sign;
        let sign = if size == word { 0 } else { to.sign };
        if size > self.infinity {
            to.nan()
        } else if size == self.infinity {
            sign | to.infinity
        } else {
            let (m, e) = self.parts(size);
            sign | to.nearest(m, e, false)
        }
    }
}

pub fn sqrt(x: f32) -> f32 {
    f32::from_bits(F32.sqrt(x.to_bits().into()) as u32)
}

pub fn sqrt64(x: f64) -> f64 {
    f64::from_bits(F64.sqrt(x.to_bits()))
}

/// f64 to f32, ties to even.
pub fn narrow(x: f64) -> f32 {
    f32::from_bits(F64.convert(x.to_bits(), &F32) as u32)
}

pub fn widen(x: f32) -> f64 {
    f64::from_bits(F32.convert(x.to_bits().into(), &F64))
}
