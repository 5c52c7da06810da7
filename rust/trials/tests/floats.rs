//! The differential runs of the gate: proved against stand-in.

macro_rules! runs {
    ($($name:ident)*) => {
        $(#[test]
        fn $name() {
            trials::runs::functions::Function::named(stringify!($name)).check(4_000_000);
        })*
    };
}

runs! {
    min max clamp abs is_sign_negative floor ceil round to_u16 to_u32 to_usize sqrt sqrt64 narrow widen
    word_of_f32 word_of_f64 f32_of_word f64_of_word
}

/// The functions to whole numbers give every NaN as the one that is stored.
#[test]
fn one_nan() {
    for bits in [0x7f80_0001, 0x7fc0_0000, 0x7fff_ffff, 0xff80_0001, 0xffc1_2345] {
        for whole in [trials::proved::floor, trials::proved::ceil, trials::proved::round] {
            assert_eq!(whole(f32::from_bits(bits)).to_bits(), 0x7fc0_0000, "of {bits:08x}");
        }
    }
}
