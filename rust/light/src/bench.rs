//! Benches: points and normals that lamps shine on, and the number by which one is drawn.

use crate::text::{Line, Word, Wrong, number, numbers};

/// A point and a normal there, zeros for none.
#[derive(Clone, Copy, Debug)]
pub struct Place {
    pub p: [f32; 3],
    pub n: [f32; 3],
}

/// A bench of a table.
pub struct Bench {
    /// Its line, from 1 on.
    pub line: usize,
    pub name: Option<String>,
    pub place: Place,
    /// The number from 0 to 1 that picks the lamp.
    pub u: f32,
    /// The columns of its first figure and of u.
    pub columns: [usize; 2],
}

const POINT: &str = "X Y Z";
const NORMAL: &str = "NX NY NZ, or - for none";

/// The place at the front of the words, and those behind it.
fn front<'a, 'b>(words: &'a [Word<'b>], end: usize) -> Result<(Place, &'a [Word<'b>]), Wrong> {
    let take = |words: &'a [Word<'b>]| words.split_at(words.len().min(3));
    let until = |rest: &[Word]| rest.first().map_or(end, |word| word.column);
    let (point, rest) = take(words);
    let p = numbers(point, until(rest), POINT)?;
    if let Some((_, rest)) = rest.split_first().filter(|(word, _)| word.text == "-") {
        return Ok((Place { p, n: [0.0; 3] }, rest));
    }
    let (normal, rest) = take(rest);
    Ok((Place { p, n: numbers(normal, until(rest), NORMAL)? }, rest))
}

/// The bench of a line's text, none where it is empty.
pub fn bench(line: usize, text: &str) -> Result<Option<Bench>, Wrong> {
    let Line { name, words, end } = match Line::of(text)? {
        empty if empty.is_empty() => return Ok(None),
        line => line,
    };
    let (place, rest) = front(&words, end)?;
    let [u] = numbers(rest, end, "U")?;
    let columns = [words.first(), words.last()].map(|word| word.map_or(end, |word| word.column));
    Ok(Some(Bench { line, name, place, u, columns }))
}

/// A bench without u, and its name.
pub fn place(text: &str) -> Result<(Place, Option<String>), Wrong> {
    let Line { name, words, end } = Line::of(text)?;
    let (place, rest) = front(&words, end)?;
    numbers::<0>(rest, end, "a bench here has no U").map(|_| (place, name))
}

/// A number by itself.
pub fn alone(text: &str) -> Result<f32, Wrong> {
    number(Word { column: 1, text })
}
