//! The proved importance and union beside the reference's with Rust's own library functions.

use super::offices::Office;
use crate::timing::{INPUTS, SAMPLES, calls, row};
use trials::inputs::random::Random;
use trials::inputs::records::{Query, Record, vectors};
use trials::oracle::loops::Own;
use trials::oracle::reference::native::light_bounds::LightBounds;
use trials::oracle::reference::{native_of_words, native_to_words};
use trials::proved;

const LAMPS: usize = 512;

pub fn rows() {
    let mut random = Random::new(0);
    let records = (0..INPUTS).map(|_| random.usual()).collect();
    let usual = Mix::new(records, (0..INPUTS).map(|_| random.usual_query()).collect());
    println!(
        "{INPUTS} records, {} with an importance above 0; medians of {SAMPLES} samples. Proved: records as words, by C.",
        usual.lit()
    );
    println!(
        "Rust: the reference with its own library functions, not inlined, its records ready; or read from the same words."
    );
    println!("function | proved ns | Rust ns | ratio");
    usual.importance("importance");
    usual.union("union");
    let office = Office::new(&mut random, LAMPS);
    office.walks(&mut random).importance("importance, a room's walk");
    office.all(&mut random).importance("importance, all of a room");
}

type Point = [[f32; 3]; 2];

/// Records, each with a query, as words and as the reference takes them.
pub struct Mix {
    records: Vec<Record>,
    queries: Vec<Query>,
    bounds: Vec<LightBounds>,
    points: Vec<Point>,
}

fn of_words(record: &Record) -> LightBounds {
    native_of_words(record).unwrap()
}

fn next(i: usize) -> usize {
    (i + 1) % INPUTS
}

impl Mix {
    pub fn new(records: Vec<Record>, queries: Vec<Query>) -> Mix {
        let (bounds, points) = (records.iter().map(of_words).collect(), queries.iter().map(vectors).collect());
        Mix { records, queries, bounds, points }
    }

    fn proved(&self, i: usize) -> Result<u32, u32> {
        proved::bounds_importance(&self.records[i], &self.queries[i])
    }

    /// How many have an importance above 0.
    pub fn lit(&self) -> usize {
        (0..INPUTS).filter(|&i| self.proved(i).is_ok_and(|w| f32::from_bits(w) > 0.0)).count()
    }

    pub fn importance(&self, label: &str) {
        let mut importance = || calls(|i| self.proved(i).map_or(0, u64::from));
        let weight = |importance: Option<f32>| importance.map_or(0, |x| x.to_bits().into());
        row(label, [&mut importance, &mut || calls(|i| weight(own::importance(&self.bounds[i], &self.points[i])))]);
        row(
            &format!("{label}, Rust from words too"),
            [&mut importance, &mut || {
                calls(|i| weight(own::importance(&of_words(&self.records[i]), &vectors(&self.queries[i]))))
            }],
        );
    }

    /// Each record with the next.
    pub fn union(&self, label: &str) {
        let (records, bounds) = (&self.records, &self.bounds);
        let mut out = [0; 13];
        let mut union = || {
            calls(|i| {
                let number = proved::bounds_union(&records[i], &records[next(i)], &mut out).is_err();
                u64::from(out[9]) + u64::from(number)
            })
        };
        let power = |joined: Option<LightBounds>| joined.map_or(0, |joined| joined.phi.to_bits().into());
        row(label, [&mut union, &mut || calls(|i| power(own::union(&bounds[i], &bounds[next(i)])))]);
        row(
            &format!("{label}, Rust from words too"),
            [&mut union, &mut || calls(|i| power(own::union(&of_words(&records[i]), &of_words(&records[next(i)]))))],
        );
    }
}

impl Office {
    /// The nodes that draws in the room weigh, one draw after the other.
    pub fn walks(&self, random: &mut Random) -> Mix {
        let (own, mut weighed) = (Own::new(&self.tree), Vec::new());
        while weighed.len() < INPUTS {
            let query = self.room.query(random);
            let forks = own.descent(&query, random.within(1.0).abs()).forks;
            weighed.extend(forks.iter().flat_map(|fork| fork.children).map(|place| (place, query)));
        }
        self.mix("as draws weigh them, one draw after the other", weighed)
    }

    /// Every node in turn, lamps and inner nodes, each time for another point.
    pub fn all(&self, random: &mut Random) -> Mix {
        let nodes = (0..INPUTS).map(|i| (i % self.tree.nodes.len(), self.room.query(random)));
        self.mix("in their order, again and again", nodes.collect())
    }

    fn mix(&self, order: &str, mut weighed: Vec<(usize, Query)>) -> Mix {
        weighed.truncate(INPUTS);
        let nodes = || weighed.iter().map(|(place, _)| &self.tree.nodes[*place]);
        let records = nodes().map(|node| native_to_words(&node.bounds())).collect();
        let mix = Mix::new(records, weighed.iter().map(|(_, query)| *query).collect());
        let inner = nodes().filter(|node| !node.is_leaf()).count();
        let points = mix.bounds.iter().filter(|record| record.bounds.min == record.bounds.max).count();
        println!("A room of {LAMPS} lamps, {INPUTS} nodes {order}:");
        println!("{inner} are inner nodes, {points} are points, {} have an importance above 0.", mix.lit());
        mix
    }
}

/// The reference behind a call, since the linker inlines no proved function either.
mod own {
    use super::LightBounds;

    #[inline(never)]
    pub fn importance(record: &LightBounds, [p, n]: &[[f32; 3]; 2]) -> Option<f32> {
        record.importance(*p, *n).ok()
    }

    #[inline(never)]
    pub fn union(a: &LightBounds, b: &LightBounds) -> Option<LightBounds> {
        a.union(*b).ok()
    }
}
