//! One table of the library functions, each as proved, as stand-in and as Rust's own, all on words: so that
//! every run that holds two of them against each other is one loop.

use std::convert::identity;

use crate::inputs::floats::{Width, special, special_cases};
use crate::inputs::random::Random;
use crate::oracle::{standins, trig};
use crate::proved;

/// The words of up to three arguments.
pub type Case = [u64; 3];

pub struct Function {
    /// Its number in the stored answers, 0 where it has none.
    pub op: u32,
    pub name: &'static str,
    pub arguments: usize,
    pub width: Width,
    pub proved: fn(&Case) -> u64,
    pub standin: fn(&Case) -> u64,
    /// None where Rust's own panics or is no measure.
    pub own: fn(&Case) -> Option<u64>,
}

/// A number as a word; a NaN is written as it is stored.
trait Word {
    const WIDTH: Width;
    fn of(word: u64) -> Self;
    fn word(self) -> u64;
}

macro_rules! word {
    ($($kind:ty, $width:expr, $of:expr, $word:expr;)*) => {
        $(impl Word for $kind {
            const WIDTH: Width = $width;
            fn of(word: u64) -> Self {
                $of(word as _)
            }
            fn word(self) -> u64 {
                $word(self) as u64
            }
        })*
    };
}

word! {
    f32, Width::F32, f32::from_bits, standins::word;
    f64, Width::F64, f64::from_bits, standins::word64;
    bool, Width::F32, |word: u64| word != 0, u64::from;
    u16, Width::F32, identity::<u16>, identity;
    u32, Width::F32, identity::<u32>, identity;
    u64, Width::F64, identity::<u64>, identity;
    usize, Width::F64, identity::<usize>, identity;
}

macro_rules! functions {
    ($($op:literal $name:ident($x:ident: $kind:ty $(, $more:ident)*), $standin:expr, $own:expr $(, if $defined:expr)?;)*) => {
        pub const FUNCTIONS: &[Function] = &[$(Function {
            op: $op,
            name: stringify!($name),
            arguments: [stringify!($x) $(, stringify!($more))*].len(),
            width: <$kind>::WIDTH,
            proved: |&[$x $(, $more)*, ..]| proved::$name(<$kind>::of($x) $(, <$kind>::of($more))*).word(),
            standin: |&[$x $(, $more)*, ..]| $standin(<$kind>::of($x) $(, <$kind>::of($more))*).word(),
            own: |&[$x $(, $more)*, ..]| {
                let ($x, ($($more,)*)) = (<$kind>::of($x), ($(<$kind>::of($more),)*));
                (true $(&& $defined)?).then(|| $own($x $(, $more)*).word())
            },
        }),*];
    };
}

/// R2.9 to R2.13 fix the steps of cos, sin, acos and asin; Rust's own take others, and are no measure.
const OWN_ANGLES: bool = false;

functions! {
    1 min(a: f32, b), standins::min, f32::min;
    2 max(a: f32, b), standins::max, f32::max;
    3 clamp(x: f32, lo, hi), standins::clamp, f32::clamp, if lo <= hi;
    4 abs(x: f32), standins::abs, f32::abs;
    5 floor(x: f32), standins::floor, f32::floor;
    6 ceil(x: f32), standins::ceil, f32::ceil;
    7 round(x: f32), standins::round, f32::round;
    8 to_u32(x: f32), standins::to_u32, |x| x as u32;
    9 to_usize(x: f32), standins::to_usize, |x| x as usize;
    10 sqrt(x: f32), standins::sqrt, f32::sqrt;
    11 sqrt64(x: f64), standins::sqrt64, f64::sqrt;
    12 narrow(x: f64), standins::narrow, |x| x as f32;
    13 widen(x: f32), standins::widen, f64::from;
    14 word_of_f32(x: f32), standins::word, |x: f32| if x.is_nan() { f32::NAN.to_bits() } else { x.to_bits() };
    15 word_of_f64(x: f64), standins::word64, |x: f64| if x.is_nan() { f64::NAN.to_bits() } else { x.to_bits() };
    16 to_u16(x: f32), standins::to_u16, |x| x as u16;
    17 is_sign_negative(x: f32), standins::is_sign_negative, f32::is_sign_negative, if !x.is_nan();
    0 f32_of_word(w: u32), f32::from_bits, f32::from_bits;
    0 f64_of_word(w: u64), f64::from_bits, f64::from_bits;
    0 cos(x: f32), trig::cos, f32::cos, if OWN_ANGLES;
    0 sin(x: f32), trig::sin, f32::sin, if OWN_ANGLES;
    0 acos(x: f32), trig::acos, f32::acos, if OWN_ANGLES;
    0 asin(x: f32), trig::asin, f32::asin, if OWN_ANGLES;
}

impl Function {
    pub fn named(name: &str) -> &'static Function {
        FUNCTIONS.iter().find(|f| f.name == name).unwrap_or_else(|| panic!("no function {name}"))
    }

    /// Whether the case is a pair of unlike zeros. R2.4 gives the first; Rust leaves open which, and
    /// its answer changes with the code about the call.
    pub fn unlike_zeros(&self, case: &Case) -> bool {
        self.arguments == 2 && (case[0] | case[1]) == 1 << 31 && case[0] != case[1]
    }

    /// The call and its answers, for a difference's report.
    pub fn show(&self, case: &Case) -> String {
        let digits = |w: u64| format!("{w:0width$x}", width = self.width.bits() as usize / 4);
        let arguments: Vec<String> = case[..self.arguments].iter().map(|&w| digits(w)).collect();
        let own = (self.own)(case).map_or("none".into(), |w| format!("{w:08x}"));
        let (proved, standin) = ((self.proved)(case), (self.standin)(case));
        format!(
            "{}({}): proved {proved:08x}, stand-in {standin:08x}, Rust's own {own}",
            self.name,
            arguments.join(", ")
        )
    }

    /// Holds the proved function against the stand-in: every special case, then random ones.
    pub fn check(&self, random_cases: u32) {
        let check = |case: Case| assert!((self.proved)(&case) == (self.standin)(&case), "{}", self.show(&case));
        special_cases(self).for_each(check);
        let mut random = Random::new(self.op.into());
        (0..random_cases).for_each(|_| check(random.case(self)));
    }

    /// The same on special words and on random angles and cosines; counts the answers that are numbers and
    /// those that are NaN.
    pub fn check_angles(&self, seed: u64, random_cases: u64) -> [u64; 2] {
        let mut random = Random::new(seed);
        let words = special(self.width).into_iter().chain((0..random_cases).map(|_| random.angle().into()));
        let mut counts = [0; 2];
        for word in words {
            let case = [word, 0, 0];
            let expected = (self.standin)(&case);
            assert!((self.proved)(&case) == expected, "{}", self.show(&case));
            counts[usize::from(expected == f32::NAN.word())] += 1;
        }
        counts
    }
}
