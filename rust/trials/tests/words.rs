//! The differential runs of the gate: words in slices, proved against std's, with all that lies about a slice
//! held in view.

use std::fmt::Debug;
use trials::inputs::lent::{Lent, byte, word};
use trials::inputs::random::Random;
use trials::proved;

const CASES: usize = 1_000_000;

/// Runs the cases: lengths from 0 to 70, each many times over, and now and then a longer one.
fn lengths(mut run: impl FnMut(&mut Random, usize)) {
    let mut random = Random::new(0);
    for i in 0..CASES {
        let len = if i % 1000 == 999 { 71 + random.below(1000) as usize } else { i % 71 };
        run(&mut random, len);
    }
}

/// Both write to copies of the same memory, and must answer alike and leave it alike, outside the slice too.
fn same<T: Copy + PartialEq + Debug, A: PartialEq + Debug>(
    mut lent: Lent<T>,
    proved: impl FnOnce(&mut [T]) -> A,
    expected: impl FnOnce(&mut [T]) -> A,
    show: impl FnOnce() -> String,
) {
    let mut copy = lent.clone();
    let answers = (proved(lent.slice()), expected(copy.slice()));
    assert!(answers.0 == answers.1 && lent == copy, "{}: {answers:x?}\n{:x?}\n{:x?}", show(), lent.all, copy.all);
}

/// A place within, about or far past the end of so many words; so far that four times it wraps.
fn place(random: &mut Random, words: usize) -> usize {
    match random.below(8) {
        0 => usize::MAX - random.below(8) as usize,
        1 => (1 << (59 + random.below(5))) + random.below(words as u64 + 2) as usize,
        _ => random.below(words as u64 + 3) as usize,
    }
}

fn word_at(bytes: &[u8], place: usize) -> u32 {
    bytes.chunks_exact(4).nth(place).map_or(0, |word| u32::from_le_bytes(word.try_into().unwrap()))
}

fn set_word(bytes: &mut [u8], place: usize, w: u32) {
    if let Some(word) = bytes.chunks_exact_mut(4).nth(place) {
        word.copy_from_slice(&w.to_le_bytes());
    }
}

#[test]
fn word_at_place() {
    lengths(|random, len| {
        let at = place(random, len / 4);
        same(
            Lent::new(random, len, byte),
            |bytes| proved::word_at(bytes, at),
            |bytes| word_at(bytes, at),
            || format!("word_at({len} bytes, {at})"),
        );
    });
}

#[test]
fn set_word_at_place() {
    lengths(|random, len| {
        let (at, w) = (place(random, len / 4), word(random.bits()));
        same(
            Lent::new(random, len, byte),
            |bytes| proved::set_word(bytes, at, w),
            |bytes| set_word(bytes, at, w),
            || format!("set_word({len} bytes, {at}, {w:x})"),
        );
    });
}

#[test]
fn word_count() {
    let bytes = vec![0; CASES];
    for len in 0..=CASES {
        let expected = (len % 4 == 0).then_some(len / 4);
        assert_eq!(proved::word_count(&bytes[..len]), expected, "word_count({len} bytes)");
    }
}

#[test]
fn fill() {
    lengths(|random, len| {
        let (from, to, v) = (place(random, len), place(random, len), word(random.bits()));
        same(
            Lent::new(random, len, word),
            |words| proved::fill(words, from, to, v),
            |words| words.iter_mut().take(to).skip(from).for_each(|word| *word = v),
            || format!("fill({len} words, {from}, {to}, {v:x})"),
        );
    });
}

/// What a place of a slice holds, of random bits.
type Unit<T> = fn(u64) -> T;

/// A slice copied to one of other units, whose room is about what is needed, at most so much more or less.
fn copied<T: Copy, U: Copy + PartialEq + Debug>(
    name: &str,
    (from, to): (Unit<T>, Unit<U>),
    (needed, about): (fn(usize) -> usize, usize),
    proved: fn(&[T], &mut [U]) -> Result<(), u32>,
    expected: fn(&[T], &mut [U]) -> Result<(), u32>,
) {
    lengths(|random, len| {
        let mut lent = Lent::new(random, len, from);
        let given = &*lent.slice();
        let room = (needed(len) + random.below(2 * about as u64 + 1) as usize).saturating_sub(about);
        same(
            Lent::new(random, room, to),
            |taken| proved(given, taken),
            |taken| expected(given, taken),
            || format!("{name}({len} to {room})"),
        );
    });
}

#[test]
fn words_of_bytes() {
    copied("words_of_bytes", (byte, word), (|bytes| bytes / 4, 2), proved::words_of_bytes, |bytes, words| {
        if bytes.len() % 4 != 0 {
            return Err(1);
        }
        let read = words.get_mut(..bytes.len() / 4).ok_or(3u32)?;
        read.iter_mut().enumerate().for_each(|(i, word)| *word = word_at(bytes, i));
        Ok(())
    });
}

#[test]
fn bytes_of_words() {
    copied("bytes_of_words", (word, byte), (|words| 4 * words, 8), proved::bytes_of_words, |words, bytes| {
        let written = bytes.get_mut(..4 * words.len()).ok_or(3u32)?;
        words.iter().enumerate().for_each(|(i, &word)| set_word(written, i, word));
        Ok(())
    });
}
