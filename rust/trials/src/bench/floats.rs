//! The proved library functions and words of slices beside Rust's own.

use crate::timing::{INPUTS, SAMPLES, calls, fold, row, slices};
use trials::inputs::random::Random;
use trials::proved;

/// Rust's own, each behind a call, since the linker inlines no proved function either.
mod own {
    macro_rules! own {
        ($($name:ident($($x:ident: $kind:ty),*) -> $answer:ty { $body:expr })*) => {
            $(#[inline(never)]
            pub extern "C" fn $name($($x: $kind),*) -> $answer {
                $body
            })*
        };
    }

    own! {
        min(a: f32, b: f32) -> f32 { a.min(b) }
        max(a: f32, b: f32) -> f32 { a.max(b) }
        clamp(x: f32, lo: f32, hi: f32) -> f32 { x.clamp(lo, hi) }
        abs(x: f32) -> f32 { x.abs() }
        is_sign_negative(x: f32) -> bool { !x.is_nan() && x.is_sign_negative() }
        floor(x: f32) -> f32 { x.floor() }
        ceil(x: f32) -> f32 { x.ceil() }
        round(x: f32) -> f32 { x.round() }
        to_u16(x: f32) -> u16 { x as u16 }
        to_u32(x: f32) -> u32 { x as u32 }
        to_usize(x: f32) -> usize { x as usize }
        sqrt(x: f32) -> f32 { x.sqrt() }
        sqrt64(x: f64) -> f64 { x.sqrt() }
        narrow(x: f64) -> f32 { x as f32 }
        widen(x: f32) -> f64 { x.into() }
        f32_of_word(w: u32) -> f32 { f32::from_bits(w) }
        f64_of_word(w: u64) -> f64 { f64::from_bits(w) }
        word_of_f32(x: f32) -> u32 { if x.is_nan() { f32::NAN.to_bits() } else { x.to_bits() } }
        word_of_f64(x: f64) -> u64 { if x.is_nan() { f64::NAN.to_bits() } else { x.to_bits() } }
    }

    #[inline(never)]
    pub fn word_at(bytes: &[u8], place: usize) -> u32 {
        bytes.as_chunks().0.get(place).map_or(0, |word| u32::from_le_bytes(*word))
    }

    #[inline(never)]
    pub fn set_word(bytes: &mut [u8], place: usize, w: u32) {
        if let Some(word) = bytes.as_chunks_mut().0.get_mut(place) {
            *word = w.to_le_bytes();
        }
    }

    #[inline(never)]
    pub fn fill(words: &mut [u32], from: usize, to: usize, v: u32) {
        words[from..to].fill(v);
    }

    #[inline(never)]
    pub fn words_of_bytes(bytes: &[u8], words: &mut [u32]) -> Result<(), u32> {
        words.iter_mut().zip(bytes.as_chunks().0).for_each(|(word, bytes)| *word = u32::from_le_bytes(*bytes));
        Ok(())
    }

    #[inline(never)]
    pub fn bytes_of_words(words: &[u32], bytes: &mut [u8]) -> Result<(), u32> {
        words.iter().zip(bytes.as_chunks_mut().0).for_each(|(word, bytes)| *bytes = word.to_le_bytes());
        Ok(())
    }
}

/// A row of the table: the same lines over the proved functions and over Rust's own, which they call by one name.
macro_rules! row {
    ($label:expr, |$side:ident| $body:expr) => {
        row(
            $label,
            [
                &mut || {
                    use proved as $side;
                    $body
                },
                &mut || {
                    use own as $side;
                    $body
                },
            ],
        )
    };
}

pub fn rows() {
    let mut random = Random::new(0);
    let mut inputs = |of: &dyn Fn(u64) -> f32| -> [f32; INPUTS] { std::array::from_fn(|_| of(random.bits() >> 32)) };
    let positive = |word: u64| f32::from_bits((word % 0x7f80_0000) as u32);
    let (x, y) = (inputs(&positive), inputs(&positive));
    let mixed = inputs(&|word| if word % 2 == 0 { positive(word) } else { -positive(word) });
    let million = inputs(&|word| (word as f64 / 2f64.powi(31) * 1e6 - 1e6) as f32);
    let wide = x.map(|x| f64::from(x) * 1.000_000_1);
    let (lo, hi): ([f32; INPUTS], [f32; INPUTS]) =
        (std::array::from_fn(|i| x[i].min(y[i])), std::array::from_fn(|i| x[i].max(y[i])));
    let words = x.map(f32::to_bits);
    let wide_words = wide.map(f64::to_bits);
    let bytes: Vec<u8> = words.iter().flat_map(|word| word.to_le_bytes()).collect();

    println!(
        "Every function is called, on both sides, and never inlined. {INPUTS} inputs; medians of {SAMPLES} samples."
    );
    println!("The call alone is most of a short row: f32_of_word does nothing else.");
    println!("x: positive floats of every exponent; mixed: of either sign; million: between -10^6 and 10^6.");
    println!("function | proved ns | Rust ns | ratio");
    row!("min x", |side| calls(|i| side::min(x[i], y[i]).to_bits().into()));
    row!("max x", |side| calls(|i| side::max(x[i], y[i]).to_bits().into()));
    row!("clamp mixed", |side| calls(|i| side::clamp(mixed[i], lo[i], hi[i]).to_bits().into()));
    row!("abs mixed", |side| calls(|i| side::abs(mixed[i]).to_bits().into()));
    row!("is_sign_negative mixed", |side| calls(|i| side::is_sign_negative(mixed[i]).into()));
    for (kind, x) in [("million", &million), ("mixed", &mixed)] {
        row!(&format!("floor {kind}"), |side| calls(|i| side::floor(x[i]).to_bits().into()));
        row!(&format!("ceil {kind}"), |side| calls(|i| side::ceil(x[i]).to_bits().into()));
        row!(&format!("round {kind}"), |side| calls(|i| side::round(x[i]).to_bits().into()));
        row!(&format!("to_u16 {kind}"), |side| calls(|i| side::to_u16(x[i]).into()));
        row!(&format!("to_u32 {kind}"), |side| calls(|i| side::to_u32(x[i]).into()));
        row!(&format!("to_usize {kind}"), |side| calls(|i| side::to_usize(x[i]) as u64));
    }
    row!("sqrt x", |side| calls(|i| side::sqrt(x[i]).to_bits().into()));
    row!("sqrt64 x", |side| calls(|i| side::sqrt64(wide[i]).to_bits()));
    // a root's sign bit is 0, which changes no argument but must be waited for
    row!("sqrt x, in a chain", |side| fold(|i, last| side::sqrt(f32::from_bits(words[i] ^ (last >> 31) as u32))
        .to_bits()
        .into()));
    row!("sqrt64 x, in a chain", |side| fold(
        |i, last| side::sqrt64(f64::from_bits(wide_words[i] ^ last >> 63)).to_bits()
    ));
    row!("narrow x", |side| calls(|i| side::narrow(wide[i]).to_bits().into()));
    row!("widen x", |side| calls(|i| side::widen(x[i]).to_bits()));
    row!("f32_of_word x", |side| calls(|i| side::f32_of_word(words[i]).to_bits().into()));
    row!("word_of_f32 x", |side| calls(|i| side::word_of_f32(x[i]).into()));
    row!("f64_of_word x", |side| calls(|i| side::f64_of_word(wide_words[i]).to_bits()));
    row!("word_of_f64 x", |side| calls(|i| side::word_of_f64(wide[i])));
    row!("word_at", |side| calls(|i| side::word_at(&bytes, i).into()));
    row!("set_word", |side| {
        let mut bytes = bytes.clone();
        calls(|i| {
            side::set_word(&mut bytes, i, words[i]);
            0
        })
    });
    println!("A slice of {INPUTS} words at once, for a word:");
    row!("fill", |side| {
        let mut words = words;
        slices(|| side::fill(&mut words, 0, INPUTS, 7))
    });
    row!("words_of_bytes", |side| {
        let mut words = words;
        slices(|| side::words_of_bytes(&bytes, &mut words))
    });
    row!("bytes_of_words", |side| {
        let mut bytes = bytes.clone();
        slices(|| side::bytes_of_words(&words, &mut bytes))
    });
}
