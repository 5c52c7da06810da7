//! Draws each list of stored answers anew: always the same cases, with the oracle's answers. No proved
//! function has a part in them.

use super::{alias, bounds, floats, lamps, packed, padded, trees, walks};
use crate::inputs::floats::stored_cases;
use crate::inputs::random::Random;
use crate::inputs::{lists, weights};
use crate::oracle::{packing, reference};
use crate::runs::functions::FUNCTIONS;

/// Cases as they come, each once, until so many of each number are there; 0 is the number of an answer given.
fn filled<S: PartialEq>(quotas: &[(u32, usize)], mut next: impl FnMut() -> Option<(u32, S)>) -> Vec<S> {
    let mut left = quotas.to_vec();
    let mut stored = Vec::new();
    while left.iter().any(|(_, left)| *left > 0) {
        let Some((number, case)) = next() else { continue };
        let Some((_, left)) = left.iter_mut().find(|(n, left)| *n == number && *left > 0) else { continue };
        if !stored.contains(&case) {
            *left -= 1;
            stored.push(case);
        }
    }
    stored
}

/// The stand-ins' answers, held against Rust's own where the two are defined the same.
pub fn floats() -> Vec<floats::Stored> {
    let mut stored = Vec::new();
    for f in FUNCTIONS.iter().filter(|f| f.op > 0) {
        for case in stored_cases(f) {
            let own = (f.own)(&case).filter(|_| !f.unlike_zeros(&case));
            assert!(own.is_none_or(|own| own == (f.standin)(&case)), "{}", f.show(&case));
            stored.push(floats::Stored::new(f, case, f.standin));
        }
    }
    stored
}

pub fn bounds() -> Vec<bounds::Stored> {
    let (mut random, none) = (Random::new(3), [0; 13]);
    let mut stored = Vec::new();
    let mut add = |kind, a, b| stored.push(bounds::Stored::new(kind, a, b, &bounds::ORACLE));
    let words =
        [0, 1 << 31, 0x3f80_0000, 0xbf80_0000, 0x3f00_0000, 0xbf00_0000, 0x3fc9_0fdb, 0x4100_0000, 0x7f80_0000, !0];
    for kind in 201..=204 {
        words.into_iter().for_each(|word| add(kind, padded(&[word]), none));
        (0..190).for_each(|_| add(kind, padded(&[random.angle()]), none));
    }
    (0..200).for_each(|_| add(205, random.record(), none));
    for _ in 0..1000 {
        let [a, b] = random.pair();
        add(206, a, b);
    }
    for _ in 0..1000 {
        let record = random.record();
        add(207, record, padded(&random.query(&record)));
    }
    stored
}

pub fn lamps() -> Vec<lamps::Stored> {
    use lamps::{BLOCK, LIST, Stored};

    let mut random = Random::new(4);
    // no list meets 6
    let quotas = [(0, 1000), (1, 200), (2, 60), (3, 150), (4, 100), (5, 150), (7, 100), (8, 100), (9, 70), (10, 70)];
    filled(&quotas, || {
        let lists::Case { list, room } = random.list_case();
        let fits = list.len() <= LIST && room <= BLOCK;
        fits.then(|| Stored::new(list, room, reference::build_light_bounds)).map(|case| (case.number, case))
    })
}

pub fn alias() -> Vec<alias::Stored> {
    use alias::{BINS, Stored, WEIGHTS, WORK};

    let mut random = Random::new(5);
    // refusal 2 needs more weights than a case holds
    filled(&[(0, 1400), (3, 300), (8, 300)], || {
        let weights::Case { weights, bins_room, work_room } = random.weights_case();
        let fits = weights.len() <= WEIGHTS && bins_room <= BINS && work_room <= WORK;
        let case = fits.then(|| Stored::new(weights, [bins_room, work_room], reference::build_power_alias_table));
        case.map(|case| (case.number, case))
    })
}

pub fn trees() -> Vec<trees::Stored> {
    use trees::{BLOCK, Stored, TRAYS};

    let mut random = Random::new(6);
    let given = [(100, 50), (101, 50), (102, 150), (103, 150), (104, 150), (105, 150)];
    let refused = [(1, 150), (2, 50), (3, 200), (4, 100), (5, 60), (6, 60), (7, 60), (8, 60), (10, 60)];
    filled(&[&given[..], &refused].concat(), || {
        let case = random.tree_case();
        let fits = case.block.len() <= BLOCK && case.rooms.iter().zip(TRAYS).all(|(room, words)| *room <= words);
        fits.then(|| Stored::new(case, reference::build_light_bvh)).map(|stored| (stored.ending(), stored))
    })
}

pub fn walks() -> Vec<walks::Stored> {
    use walks::{Asked, NODES, ORACLE, Stored, TABLE};

    let mut random = Random::new(7);
    let draws = [(20, 100), (21, 3), (22, 25), (1, 20), (5, 25), (6, 12), (7, 25), (8, 12), (11, 20), (12, 60)];
    let chances = [(120, 100), (121, 40), (101, 20), (105, 25), (106, 12), (107, 25), (108, 12), (112, 80)];
    filled(&[&draws[..], &chances].concat(), || {
        let words = random.grown(reference::build_light_bvh, 7);
        let query = random.walk_query(&words);
        let u = random.u(&words.edges(&query, reference::importance, 6));
        let (tree, _) = random.weathered(words);
        let handle = random.walk_handle(tree.table.len() / 4);
        let asked = random.of(&[Asked::Draw(u), Asked::Chance(handle)]);
        let fits = tree.nodes.len() <= 4 * NODES && tree.table.len() <= 4 * TABLE;
        fits.then(|| Stored::new(tree, query, asked, &ORACLE)).map(|stored| (stored.ending(), stored))
    })
}

pub fn packed() -> Vec<packed::Stored> {
    use packed::{NODES, OUT, Stored};

    let mut random = Random::new(8);
    let quotas = [(20, 24), (21, 2), (1, 4), (3, 5), (5, 5), (6, 4), (7, 4), (8, 4), (12, 12), (13, 4)];
    filled(&quotas, || {
        let (words, built) = random.grown_with_box(reference::build_light_bvh, 5);
        let (case, _) = random.packing_case(&words, built);
        let fits = case.nodes.len() <= 4 * NODES && case.room <= 4 * OUT && u32::try_from(case.k).is_ok();
        fits.then(|| Stored::new(case, packing::pack_light_bvh)).map(|stored| (stored.ending(), stored))
    })
}
