//! Runs of the proved lamp lists against the oracle.

use super::blocks::blocks;
use super::progress::turns;
use super::tally::{self, OWN, Tally, shown};
use crate::inputs::lent::{Lent, word};
use crate::inputs::lists::{self, BLOCK_RECORD, KINDS, Kind, MOST_LAMPS, MOST_WORDS};
use crate::inputs::random::Random;
use crate::oracle::reference::{self, marked};
use crate::parts::{Ended, count_and_seed};
use crate::proved;

/// The block is lent from the middle of other words, which must stay.
pub fn lists(seed: u64, cases: u64) -> Tally {
    let mut random = Random::new(seed);
    let mut tally = Tally::new();
    for _ in turns("lists", cases) {
        let lists::Case { list, room } = random.list_case();
        let mut lent = Lent::new(&mut random, room, word);
        let (mut whole, mut own) = (lent.clone(), lent.clone());
        let (expected, branches) = marked(|| reference::build_light_bounds(&list, whole.slice()));
        let got = proved::lamps_build_light_bounds(&list, lent.slice());

        let lamps = lists::read(&list);
        let count = list.first().map_or(0, |count| *count as usize);
        let reserve = 1 + BLOCK_RECORD * count.min(MOST_LAMPS);
        let of = |kind: Kind| lamps.as_ref().is_ok_and(|lamps| lamps.iter().any(|lamp| lamp.kind == kind));
        let given = expected.is_ok();
        let records = if given { whole.slice()[1..reserve].to_vec() } else { vec![] };
        let figure =
            |at: usize, word: u32| records.chunks_exact(BLOCK_RECORD).any(|record| record[at] & 0x7fff_ffff == word);
        let is_nan = |word: &u32| f32::from_bits(*word).is_nan();
        let nan_corner = || {
            let groups = lamps.iter().flatten().filter(|lamp| lamp.kind == Kind::Group);
            groups.flat_map(|group| lists::triangles(group.words)).any(|triangle| triangle[..9].iter().any(is_nan))
        };
        let more = [
            ("list: points", of(KINDS[0])),
            ("list: spots", of(KINDS[1])),
            ("list: groups", of(KINDS[2])),
            ("list: no lamps", given && count == 0),
            ("list: 512 lamps", given && count == 512),
            ("list: 4,096 lamps", given && count == MOST_LAMPS),
            ("list: over 4,096 lamps by word 0", count > MOST_LAMPS),
            ("list: over 2^20 words", list.len() > MOST_WORDS),
            ("room: more than is needed", given && room > reserve),
            ("room: one word short", expected == Err(3) && room + 1 == reserve),
            ("room: none", expected == Err(3) && room == 0),
            (
                "order: 1 before a handle out of place",
                expected == Err(1) && list.get(1).is_some_and(|head| head & 0x3fff_ffff != 0),
            ),
            ("order: 4 before a short room", expected == Err(4) && room < reserve),
            (
                "order: 3 before what a lamp is refused for",
                expected == Err(3) && reference::build_light_bounds(&list, &mut vec![0; reserve]).is_err(),
            ),
            ("block: an infinite power", figure(10, 0x7f80_0000)),
            ("block: no power", figure(10, 0)),
            ("block: a triangle with a NaN coordinate", given && nan_corner()),
            (OWN, reference::native_build_light_bounds(&list, own.slice()) != expected || own != whole),
        ];
        tally.case(&expected, branches, &more, got == expected && lent == whole, || {
            let [got_words, words] = [lent.slice(), whole.slice()].map(|words| shown(words));
            format!("build_light_bounds({}): {got:?} {got_words}, not {expected:?} {words}", shown(&list))
        });
    }
    tally
}

/// `lamps COUNT [SEED]`: lists, and blocks.
pub fn by_hand(arguments: &[String]) -> Ended {
    let (count, seed) = count_and_seed(arguments)?;
    let differences = tally::by_hand("lists", lists, (count, seed));
    let counts = blocks(seed, count);
    println!(
        "blocks, seed {seed}: {count}, none differs; good: {}, 1: {}, 2: {}, 4: {}",
        counts[0], counts[1], counts[2], counts[4]
    );
    Ok(differences == 0)
}
