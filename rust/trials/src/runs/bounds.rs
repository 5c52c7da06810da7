//! Runs of the proved checks, unions and importances of records against the oracle.

use super::functions::Function;
use super::progress::turns;
use super::tally::{self, OWN, Tally};
use crate::inputs::random::Random;
use crate::inputs::records::Record;
use crate::oracle::reference::{self, Branch, marked};
use crate::parts::{Ended, count_and_seed};
use crate::proved;

pub fn validates(seed: u64, cases: u64) -> Tally {
    let mut random = Random::new(seed);
    let mut tally = Tally::new();
    for _ in turns("validate", cases) {
        let record = random.record();
        let (expected, branches) = marked(|| reference::validate(&record));
        let got = proved::bounds_validate(&record);
        tally.case(&expected, branches, &[], got == expected, || {
            format!("validate({record:08x?}): {got:?}, not {expected:?}")
        });
    }
    tally
}

/// The words that a union is written to lie at the front of a longer slice, whose rest must stay; a refusal
/// 10 zeroes them, a refusal 1 leaves them.
pub fn unions(seed: u64, cases: u64) -> Tally {
    let mut random = Random::new(seed);
    let mut tally = Tally::new();
    for _ in turns("union", cases) {
        let [a, b] = random.pair();
        let (expected, branches) = marked(|| reference::union(&a, &b));
        let before: [u32; 16] = std::array::from_fn(|_| random.bits() as u32);
        let (mut got, mut whole) = (before, before);
        match &expected {
            Ok(joined) => whole[..13].copy_from_slice(joined),
            Err(reference::LOST_UNION) => whole[..13].fill(0),
            Err(_) => {}
        }
        let answer = proved::bounds_union(&a, &b, &mut got);
        let same = answer == expected.map(|_| ()) && got == whole;
        let lost = expected == Err(reference::LOST_UNION);
        let fails = [reference::validate(&a).err(), reference::validate(&b).err()];
        let why = if lost { fails[0].or(fails[1]) } else { None };
        let joined = |place: usize, word: u32| expected.is_ok_and(|joined| joined[place] == word);
        let more = [
            ("lost: the first fails its check", lost && fails[0].is_some()),
            ("lost: the second fails its check", lost && fails[0].is_none()),
            ("lost: by 5", why == Some(5)),
            ("lost: by 6", why == Some(6)),
            ("lost: by 7", why == Some(7)),
            ("lost: by 8", why == Some(8)),
            ("joined: NaN in the direction", joined(6, 0x7fc0_0000)),
            ("joined: the power is infinite", joined(9, 0x7f80_0000)),
            (OWN, reference::native_union(&a, &b) != expected),
        ];
        tally.case(&expected, branches, &more, same, || {
            format!("union({a:08x?}, {b:08x?}): {answer:?} {:08x?}, not {expected:08x?}", &got[..13])
        });
    }
    tally
}

fn at_center(record: &Record, query: &[u32]) -> bool {
    let value = |word: u32| f32::from_bits(word);
    (0..3).all(|i| value(query[i]) == (value(record[i]) + value(record[i + 3])) * 0.5)
}

pub fn importances(seed: u64, cases: u64) -> Tally {
    let mut random = Random::new(seed);
    let mut tally = Tally::new();
    for _ in turns("importance", cases) {
        let record = random.record();
        let query = random.query(&record);
        let (expected, branches) = marked(|| reference::importance(&record, &query));
        let got = proved::bounds_importance(&record, &query);
        let lit = expected.is_ok() && branches.has(Branch::Weighed) && !branches.has(Branch::Dark);
        let weight = expected.map_or(0.0, f32::from_bits);
        let check = reference::validate(&record).err();
        let (seven, normal) = (expected == Err(7) && check.is_none(), branches.has(Branch::Normal));
        let center = at_center(&record, &query);
        let more = [
            ("weight: above 0", lit && weight > 0.0),
            ("weight: 0 where the cosine is within the cone", lit && weight == 0.0),
            ("weight: infinite", weight == f32::INFINITY),
            ("weight: -0", expected == Ok(1 << 31)),
            ("weight: lit, without a normal", lit && !normal),
            ("weight: facing, with a normal", lit && normal),
            ("refused: 5 of the record", expected == Err(5) && check.is_some()),
            ("refused: 5 of the query", expected == Err(5) && check.is_none()),
            ("refused: 7 of the record", expected == Err(7) && check.is_some()),
            ("refused: 7 at the centre of a box", seven && !normal && center),
            ("refused: 7 of a distance not finite", seven && !normal && !center),
            ("refused: 7 of the normal", seven && normal),
            (OWN, reference::native_importance(&record, &query) != expected),
        ];
        tally.case(&expected, branches, &more, got == expected, || {
            format!("importance({record:08x?}, {query:08x?}): {got:08x?}, not {expected:08x?}")
        });
    }
    tally
}

/// `bounds COUNT [SEED]`.
pub fn by_hand(arguments: &[String]) -> Ended {
    let (count, seed) = count_and_seed(arguments)?;
    let differences = tally::by_hand("union", unions, (count, seed))
        + tally::by_hand("importance", importances, (count, seed))
        + tally::by_hand("validate", validates, (count, seed));
    for name in ["cos", "sin", "acos", "asin"] {
        let [numbers, nans] = Function::named(name).check_angles(seed, count);
        println!("{name}, seed {seed}: {numbers} numbers and {nans} NaN, none differs");
    }
    Ok(differences == 0)
}
