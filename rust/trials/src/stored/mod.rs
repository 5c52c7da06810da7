//! The stored answers of the oracle, a list of cases a part, `answers/PART.words`: little-endian words, a case
//! being its kind, how many words follow, and those words. A test replays each list by the proved functions,
//! with no need of the reference (`tests/stored.rs`); `tools/answers` answers their cases again by the oracle,
//! or draws a list anew. A module a part says what its words mean; kinds are 101 to 117 for floats, 201 to 207
//! for bounds, 300 for lamp lists, 400 for alias tables, 500 for trees, 600 and 601 for walks, 700 for packing.

#[cfg(reference)]
pub mod again;
pub mod alias;
#[cfg(reference)]
mod anew;
pub mod bounds;
pub mod floats;
pub mod lamps;
pub mod packed;
pub mod trees;
pub mod walks;

/// What stands in lent words before a call.
pub const PATTERN: u32 = 0xa5a5_a5a5;

/// A case as it stands in a list.
#[derive(Clone, Debug, PartialEq)]
pub struct Case {
    pub kind: u32,
    pub words: Vec<u32>,
}

impl Case {
    pub fn bytes(&self) -> Vec<u8> {
        let words = [&[self.kind, self.words.len() as u32], &self.words[..]].concat();
        words.into_iter().flat_map(u32::to_le_bytes).collect()
    }
}

/// What a list is.
pub struct List {
    pub part: &'static str,
    /// The first kind and the last.
    pub kinds: [u32; 2],
    /// The words of a case.
    pub words: usize,
    /// How many cases are stored.
    pub count: usize,
}

impl List {
    pub fn path(&self) -> String {
        format!("{}/answers/{}.words", env!("CARGO_MANIFEST_DIR"), self.part)
    }

    /// The bytes of a case.
    pub fn case_bytes(&self) -> usize {
        8 + 4 * self.words
    }
}

/// A stored answer of one part.
pub trait Answer: Sized {
    const LIST: List;
    /// None where the words ask for more than a case has room for.
    fn of(case: &Case) -> Option<Self>;
    fn case(&self) -> Case;
    /// The same case with the proved functions' answer.
    fn proved(&self) -> Self;
    /// The same case with the oracle's.
    #[cfg(reference)]
    fn oracle(&self) -> Self;
}

/// The stored cases of a part.
pub fn stored<A: Answer>() -> Result<Vec<A>, String> {
    let path = A::LIST.path();
    let bytes = std::fs::read(&path).map_err(|why| format!("{path}: {why}"))?;
    read(&bytes).map_err(|why| format!("{path}: {why}"))
}

/// Stores the cases of a part.
pub fn store<A: Answer>(stored: &[A]) -> Result<(), String> {
    let (path, bytes) = (A::LIST.path(), stored.iter().flat_map(|answer| answer.case().bytes()).collect::<Vec<u8>>());
    std::fs::write(&path, bytes).map_err(|why| format!("{path}: {why}"))
}

/// The cases of a list's bytes; where they are no cases of the part, at which case and byte, and why.
pub fn read<A: Answer>(bytes: &[u8]) -> Result<Vec<A>, String> {
    let (mut answers, mut left) = (Vec::new(), bytes);
    while !left.is_empty() {
        let answer = next(&mut left);
        let at =
            || format!("case {}, which begins at byte {}", answers.len() + 1, answers.len() * A::LIST.case_bytes());
        answers.push(answer.map_err(|why| format!("{}: {why}", at()))?);
    }
    Ok(answers)
}

/// Takes the first case of the bytes.
fn next<A: Answer>(left: &mut &[u8]) -> Result<A, String> {
    let List { part, kinds: [first, last], words, .. } = A::LIST;
    let [kind, count] = [take(left)?, take(left)?];
    if !(first..=last).contains(&kind) {
        return Err(format!("kind {kind}, but {part} has {first} to {last}"));
    }
    if count as usize != words {
        return Err(format!("{count} words, but a case of {part} has {words}"));
    }
    let case = Case { kind, words: (0..count).map(|_| take(left)).collect::<Result<Vec<u32>, String>>()? };
    let answer = A::of(&case).ok_or("it asks for more words than a case has")?;
    if answer.case() != case {
        return Err("a word that it has no use for is not as it is stored".into());
    }
    Ok(answer)
}

/// Takes the first word of the bytes.
fn take(left: &mut &[u8]) -> Result<u32, String> {
    let (word, rest) =
        left.split_first_chunk().ok_or_else(|| format!("the list ends {} bytes into a word", left.len()))?;
    *left = rest;
    Ok(u32::from_le_bytes(*word))
}

/// The cases that a side answers otherwise than it is stored: each with its place, from 1 on, as it is stored
/// and as it is answered.
pub fn changed<A: Answer>(stored: &[A], again: fn(&A) -> A) -> Vec<(usize, Case, Case)> {
    let cases = stored.iter().map(|answer| (answer.case(), again(answer).case()));
    (1..).zip(cases).filter(|(_, (was, is))| was != is).map(|(place, (was, is))| (place, was, is)).collect()
}

/// So many words that begin with those given, then zeros.
pub fn padded<const N: usize>(words: &[u32]) -> [u32; N] {
    let mut all = [0; N];
    all[..words.len()].copy_from_slice(words);
    all
}

/// The first so many, none where there are not so many.
fn first<T: Copy>(all: &[T], count: u32) -> Option<Vec<T>> {
    all.get(..count as usize).map(<[T]>::to_vec)
}

/// A length, none where it is over the most.
fn at_most(length: u32, most: usize) -> Option<usize> {
    Some(length as usize).filter(|length| *length <= most)
}
