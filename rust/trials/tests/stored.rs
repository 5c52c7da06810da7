//! The oracle's stored answers, every list replayed by the proved functions with no need of the reference;
//! what the reader of lists refuses; and, where the reference is there, the same cases answered again by the
//! oracle.

use trials::stored::{Answer, changed, read, stored};

/// Ends the test where a case of a list is answered otherwise than it is stored, or where they are not so
/// many as they are to be.
fn replay<A: Answer>(again: fn(&A) -> A) {
    let stored: Vec<A> = stored().unwrap();
    let differ = changed(&stored, again);
    println!("{}: {} answers replayed, {} differ", A::LIST.part, stored.len(), differ.len());
    assert!(
        stored.len() == A::LIST.count && differ.is_empty(),
        "{} of {}: {:x?}",
        differ.len(),
        A::LIST.count,
        differ.first()
    );
}

/// The words of the first case, its kind and its count with them.
fn first_case<A: Answer>() -> Vec<u32> {
    let bytes = std::fs::read(A::LIST.path()).unwrap();
    bytes[..A::LIST.case_bytes()].as_chunks().0.iter().map(|word| u32::from_le_bytes(*word)).collect()
}

/// Why such words, and some bytes behind them, are no list.
#[track_caller]
fn refused<A: Answer>(words: &[u32], behind: usize, why: &str) {
    let bytes: Vec<u8> = words.iter().flat_map(|word| word.to_le_bytes()).chain(vec![0; behind]).collect();
    let said = read::<A>(&bytes).err().unwrap_or_default();
    assert!(said.contains(why), "{}: {said:?}, not {why:?}", A::LIST.part);
}

/// A list that is cut, a kind or a count that is not the part's, and words (their places given) that ask for
/// more than a case has.
fn misfits<A: Answer>(lengths: &[usize]) {
    let (case, [first, last], words) = (first_case::<A>(), A::LIST.kinds, A::LIST.words as u32);
    let with = |place: usize, word: u32| {
        let mut case = case.clone();
        case[place] = word;
        case
    };
    assert_eq!(read::<A>(&[]).map(|none| none.len()), Ok(0));
    refused::<A>(&case[..1], 0, "case 1, which begins at byte 0: the list ends");
    refused::<A>(&case[..case.len() - 1], 3, "the list ends 3 bytes into a word");
    (1..4).for_each(|stray| {
        refused::<A>(&case, stray, &format!("case 2, which begins at byte {}: the list", 4 * case.len()))
    });
    [0, first - 1, last + 1, u32::MAX].into_iter().for_each(|kind| refused::<A>(&with(0, kind), 0, "kind"));
    for count in [0, words - 1, words + 1, u32::MAX] {
        refused::<A>(&with(1, count), 4, &format!("{count} words, but a case of {} has {}", A::LIST.part, words));
    }
    for place in lengths {
        refused::<A>(&with(2 + place, 4 * 256), 0, "it asks for more words than a case has");
        refused::<A>(&with(2 + place, u32::MAX), 0, "it asks for more words than a case has");
    }
}

/// A word behind a list that is shorter than a case has room for.
#[test]
fn words_without_use() {
    use trials::stored::lamps::{LIST, Stored};

    let mut case = first_case::<Stored>();
    assert!((case[2] as usize) < LIST);
    case[2 + 3 + LIST - 1] ^= 1;
    refused::<Stored>(&case, 0, "a word that it has no use for is not as it is stored");
}

/// A bit of an answer's word changed, in the first case of each kind and in the last case of all: that case
/// differs and no other.
fn found_out<A: Answer>(places: &[usize]) {
    let (bytes, [first, last], size) = (std::fs::read(A::LIST.path()).unwrap(), A::LIST.kinds, A::LIST.case_bytes());
    let of_kind =
        |kind: u32| bytes.chunks(size).position(|case| case[..4] == kind.to_le_bytes()).expect("a case of each kind");
    let cases: Vec<usize> = (first..=last).map(of_kind).chain([A::LIST.count - 1]).collect();
    for (case, place) in cases.into_iter().flat_map(|case| places.iter().map(move |place| (case, place))) {
        let mut wrong = bytes.clone();
        wrong[case * size + 8 + 4 * place] ^= 1;
        let stored: Vec<A> = read(&wrong).unwrap();
        let differ: Vec<usize> = changed(&stored, A::proved).into_iter().map(|(place, ..)| place).collect();
        assert_eq!(differ, [case + 1], "{} word {place}", A::LIST.part);
    }
}

/// A module a list: its part, the words of a case that are lengths, and some that are an answer's.
macro_rules! lists {
    ($($part:ident, $lengths:expr, $answers:expr;)*) => {
        $(mod $part {
            use super::*;
            use trials::stored::$part::Stored;

            #[test]
            fn replayed() {
                replay(Stored::proved);
            }

            #[test]
            fn wrong_lists() {
                misfits::<Stored>(&$lengths);
            }

            #[test]
            fn wrong_answers() {
                found_out::<Stored>(&$answers);
            }

            trials::differential! {
                fn answered_again() {
                    replay(Stored::oracle);
                }
            }
        })*
    };
}

lists! {
    floats, [], [4, 5];
    bounds, [], [26, 27, 39];
    lamps, [0, 1], [2, 163, 242];
    alias, [0, 1, 2], [3, 21, 81, 160];
    trees, [1, 2, 3, 4], [5, 6, 85, 232, 252];
    walks, [0, 1], [9, 10, 11, 12];
    packed, [0, 9], [10, 12, 157, 240];
}
