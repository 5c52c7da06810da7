//! The lists in the oracle's hands: their cases answered again, after a rule changed, so that all others stay
//! byte for byte; or drawn anew.

use super::{Answer, Case, alias, anew, bounds, changed, floats, lamps, packed, store, stored, trees, walks};
use crate::parts::Ended;

/// A list by its part, with what can be done with it.
struct Named {
    part: &'static str,
    /// Answers its cases again, and stores what changed where it is to; whether the list has the oracle's answers then.
    again: fn(bool) -> Ended,
    anew: fn() -> Ended,
}

macro_rules! named {
    ($($part:ident)*) => {
        &[$(Named {
            part: <$part::Stored as Answer>::LIST.part,
            again: again::<$part::Stored>,
            anew: || drawn(anew::$part()),
        }),*]
    };
}

const LISTS: &[Named] = named!(floats bounds lamps alias trees walks packed);

/// At the most so many words of a case are shown.
const SHOWN: usize = 6;

/// The words of a case that changed.
fn difference(was: &Case, is: &Case) -> String {
    let words = (0..).zip(was.words.iter().zip(&is.words)).filter(|(_, (was, is))| was != is);
    let mut shown: Vec<String> =
        words.map(|(place, (was, is))| format!("word {place} {was:08x} -> {is:08x}")).collect();
    let more = shown.len().saturating_sub(SHOWN);
    shown.truncate(SHOWN);
    shown.extend((more > 0).then(|| format!("{more} more")));
    shown.join(", ")
}

fn again<A: Answer>(to_store: bool) -> Ended {
    let (part, cases) = (A::LIST.part, stored::<A>()?);
    let changed = changed(&cases, A::oracle);
    for (place, was, is) in &changed {
        println!("{part}, case {place}, kind {}: {}", was.kind, difference(was, is));
    }
    println!("{part}: {} cases answered again, {} changed", cases.len(), changed.len());
    if to_store && !changed.is_empty() {
        store(&cases.iter().map(A::oracle).collect::<Vec<A>>())?;
        println!("{part}: stored");
    }
    Ok(to_store || changed.is_empty())
}

fn drawn<A: Answer>(cases: Vec<A>) -> Ended {
    store(&cases)?;
    println!("{}: {} cases drawn and stored", A::LIST.part, cases.len());
    match cases.len() == A::LIST.count {
        true => Ok(true),
        false => Err(format!("{} cases are to be stored", A::LIST.count)),
    }
}

/// The lists of these names.
fn chosen(names: &[&String]) -> Result<Vec<&'static Named>, String> {
    let named = |name: &&String| {
        LISTS.iter().find(|list| list.part == **name).ok_or_else(|| format!("there is no list {name}"))
    };
    names.iter().map(named).collect()
}

/// `answers-again [--store] [LIST…]`: all lists where none is named.
pub fn answers_again(arguments: &[String]) -> Ended {
    let (options, names): (Vec<&String>, Vec<&String>) = arguments.iter().partition(|word| word.starts_with('-'));
    if let Some(unknown) = options.iter().find(|option| **option != "--store") {
        return Err(format!("there is no option {unknown}"));
    }
    let lists = if names.is_empty() { LISTS.iter().collect() } else { chosen(&names)? };
    lists.iter().try_fold(true, |good, list| Ok((list.again)(!options.is_empty())? && good))
}

/// `answers-anew LIST…`.
pub fn answers_anew(arguments: &[String]) -> Ended {
    if arguments.is_empty() {
        return Err("no list is named".into());
    }
    let lists = chosen(&arguments.iter().collect::<Vec<&String>>())?;
    lists.iter().try_fold(true, |good, list| Ok((list.anew)()? && good))
}
