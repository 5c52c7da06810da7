//! How far a long run is, told on standard error every few seconds. Nothing is told until a program asks for
//! it: tests stay quiet.

use std::sync::atomic::{AtomicBool, Ordering};
use std::time::{Duration, Instant};

const EVERY: Duration = Duration::from_secs(5);

static TOLD: AtomicBool = AtomicBool::new(false);

/// From here on runs tell how far they are.
pub fn tell() {
    TOLD.store(true, Ordering::Relaxed);
}

pub struct Progress {
    what: &'static str,
    of: u64,
    began: Instant,
    next: Duration,
}

impl Progress {
    /// So many are to be done of what is named.
    pub fn new(what: &'static str, of: u64) -> Progress {
        Progress { what, of, began: Instant::now(), next: EVERY }
    }

    /// So many are done.
    pub fn at(&mut self, done: u64) {
        let passed = self.began.elapsed();
        if passed >= self.next && TOLD.load(Ordering::Relaxed) {
            self.next = passed + EVERY;
            eprintln!("{}: {done} of {}, {} s", self.what, self.of, passed.as_secs());
        }
    }
}

/// So many turns of a loop.
pub fn turns(what: &'static str, of: u64) -> impl Iterator<Item = u64> {
    let mut progress = Progress::new(what, of);
    // a look at the clock is not worth a turn
    (0..of).inspect(move |turn| {
        if turn % 64 == 0 {
            progress.at(*turn);
        }
    })
}
