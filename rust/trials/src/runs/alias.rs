//! Runs of the proved alias table against the oracle.

use super::progress::turns;
use super::tally::{self, OWN, Tally, shown};
use crate::inputs::lent::{Lent, word};
use crate::inputs::random::Random;
use crate::inputs::weights::Case;
use crate::oracle::reference::{self, marked};
use crate::parts::{Ended, count_and_seed};
use crate::proved;

/// Bins and work are lent from the middle of other words, which must stay.
pub fn alias_tables(seed: u64, cases: u64) -> Tally {
    let mut random = Random::new(seed);
    let mut tally = Tally::new();
    for _ in turns("alias tables", cases) {
        let Case { weights, bins_room, work_room } = random.weights_case();
        let mut lent = [bins_room, work_room].map(|room| Lent::new(&mut random, room, word));
        let (mut whole, mut own) = (lent.clone(), lent.clone());
        let (expected, branches) = marked(|| {
            let [bins, work] = &mut whole;
            reference::build_power_alias_table(&weights, bins.slice(), work.slice())
        });
        let [bins, work] = &mut lent;
        let got = proved::alias_build_power_alias_table(&weights, bins.slice(), work.slice());
        let [bins, work] = &mut own;
        let own_answer = reference::native_build_power_alias_table(&weights, bins.slice(), work.slice());

        let m = weights.len();
        let (given, short) = (expected.is_ok(), expected == Err(3));
        let any = |word: u32| given && weights.contains(&word);
        let sum: f64 = weights.iter().map(|weight| f64::from(f32::from_bits(*weight))).sum();
        let table: Vec<[u32; 3]> = if given { whole[0].slice()[..3 * m].as_chunks().0.to_vec() } else { vec![] };
        let value = f32::from_bits;
        let more = [
            ("weights: none", given && m == 0),
            ("weights: one", given && m == 1),
            ("weights: 4,096", given && m == 4096),
            ("weights: over 4,096", m > 4096),
            ("weights: a zero", any(0)),
            ("weights: -0", any(1 << 31)),
            ("weights: all subnormal", given && m > 0 && weights.iter().all(|weight| value(*weight).is_subnormal())),
            ("weights: a sum not finite", given && sum > f64::from(f32::MAX)),
            ("room: more than is needed", given && bins_room > 3 * m && work_room > 4 * m),
            ("room: bins short", short && bins_room < 3 * m),
            ("room: work short", short && work_room < 4 * m && bins_room >= 3 * m),
            (
                "order: 3 before a weight out of range",
                short && weights.iter().any(|weight| !(value(*weight).is_finite() && value(*weight) >= 0.0)),
            ),
            ("bins: q is -0", table.iter().any(|[q, _, _]| *q == 1 << 31)),
            (OWN, own_answer != expected || own != whole),
        ];
        tally.case(&expected, branches, &more, got == expected && lent == whole, || {
            let [got_bins, bins] = [&mut lent, &mut whole].map(|lent| shown(lent[0].slice()));
            format!("build_power_alias_table({}): {got:?} {got_bins}, not {expected:?} {bins}", shown(&weights))
        });
    }
    tally
}

/// `alias COUNT [SEED]`.
pub fn by_hand(arguments: &[String]) -> Ended {
    Ok(tally::by_hand("alias tables", alias_tables, count_and_seed(arguments)?) == 0)
}
