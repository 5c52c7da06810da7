//! The proved library functions against the stand-ins and against Rust's own: every argument of a function of
//! one 32-bit word, 10^8 random cases of the others.

use super::functions::{Case, FUNCTIONS, Function};
use super::progress::Progress;
use crate::inputs::floats::Width;
use crate::inputs::random::Random;
use crate::parts::Ended;
use std::time::Instant;

const RANDOM: u64 = 100_000_000;
const THREADS: u64 = 2;
/// How many cases pass between two looks at the clock.
const STRETCH: u64 = 1 << 16;

#[derive(Default)]
struct Count {
    cases: u64,
    from_standin: u64,
    with_own: u64,
    from_own: u64,
    unlike_zeros: u64,
    from_own_there: u64,
    shown: Vec<Case>,
}

impl Count {
    fn take(&mut self, f: &Function, case: &Case) {
        let (proved, own) = ((f.proved)(case), (f.own)(case));
        let from_standin = proved != (f.standin)(case);
        let from_own = own.is_some_and(|own| own != proved);
        self.cases += 1;
        self.from_standin += u64::from(from_standin);
        if f.unlike_zeros(case) {
            self.unlike_zeros += 1;
            self.from_own_there += u64::from(from_own);
        } else {
            self.with_own += u64::from(own.is_some());
            self.from_own += u64::from(from_own);
        }
        if (from_standin || from_own) && self.shown.len() < 4 && !self.shown.contains(case) {
            self.shown.push(*case);
        }
    }

    /// One thread's share of the cases; the first one's tells how far it is.
    fn share(f: &Function, thread: u64) -> Count {
        let every_word = f.arguments == 1 && f.width == Width::F32;
        let cases = if every_word { (1 << 32) / THREADS } else { RANDOM / THREADS };
        let (mut count, mut random, mut progress) =
            (Count::default(), Random::new(thread), Progress::new(f.name, cases));
        for start in (0..cases).step_by(STRETCH as usize) {
            let stretch = start..cases.min(start + STRETCH);
            if every_word {
                stretch.for_each(|i| count.take(f, &[THREADS * i + thread, 0, 0]));
            } else {
                stretch.for_each(|_| count.random(f, &mut random));
            }
            if thread == 0 {
                progress.at(start);
            }
        }
        count
    }

    fn random(&mut self, f: &Function, random: &mut Random) {
        let [x, lo, hi] = random.case(f);
        self.take(f, &[x, lo, hi]);
        if (f.own)(&[x, lo, hi]).is_none() {
            self.take(f, &[x, hi, lo]); // clamp panics on ends out of order
        }
    }

    fn of_all_threads(f: &'static Function) -> Vec<Count> {
        std::thread::scope(|scope| {
            let threads: Vec<_> = (0..THREADS).map(|thread| scope.spawn(move || Count::share(f, thread))).collect();
            threads.into_iter().map(|thread| thread.join().unwrap()).collect()
        })
    }
}

/// `exhaustive [FUNCTION…]`: all where none is named.
pub fn by_hand(names: &[String]) -> Ended {
    let named =
        |name: &String| FUNCTIONS.iter().find(|f| f.name == name).ok_or_else(|| format!("there is no function {name}"));
    let chosen: Vec<&Function> = match names.is_empty() {
        true => FUNCTIONS.iter().collect(),
        false => names.iter().map(named).collect::<Result<_, String>>()?,
    };
    println!(
        "function: cases, differences from the stand-in | cases that Rust's own answers, differences from it | seconds"
    );
    Ok(chosen.into_iter().map(shown).filter(|good| !good).count() == 0)
}

/// Prints a function's counts; whether none differs.
fn shown(f: &'static Function) -> bool {
    let began = Instant::now();
    let counts = Count::of_all_threads(f);
    let sum = |part: fn(&Count) -> u64| counts.iter().map(part).sum::<u64>();
    print!("{}: {}, {} | ", f.name, sum(|c| c.cases), sum(|c| c.from_standin));
    print!("{}, {} | {:.1}", sum(|c| c.with_own), sum(|c| c.from_own), began.elapsed().as_secs_f64());
    match sum(|c| c.unlike_zeros) {
        0 => println!(),
        zeros => {
            println!(
                " | apart: {zeros} pairs of unlike zeros, where Rust leaves it open; {} differ",
                sum(|c| c.from_own_there)
            );
            [[0, 1 << 31, 0], [1 << 31, 0, 0]].iter().for_each(|case| println!("    {}", f.show(case)));
        }
    }
    counts.iter().flat_map(|c| &c.shown).for_each(|case| println!("    {}", f.show(case)));
    sum(|c| c.from_standin + c.from_own) == 0
}
