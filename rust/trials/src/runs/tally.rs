//! The count of a run: how each case ended, by refusal, by branch of the reference and by what else the run
//! tells apart.

use crate::oracle::reference::{BRANCHES, Branches, REFUSALS};
use crate::proved::NUMBERS;
use std::time::Instant;

/// Not a difference: what the reference would answer with Rust's own library functions.
pub(crate) const OWN: &str = "apart: another answer with Rust's own library functions";

/// How the cases of a run ended: given or refused, and the branches on the way.
#[derive(Default)]
pub struct Tally {
    pub cases: u64,
    pub differences: u64,
    /// Counts by refusal's number; 0 counts the answers given.
    pub answers: [u64; NUMBERS],
    /// Counts by label: the reference's branches and errors, then what else the run tells apart.
    pub labels: Vec<(String, u64)>,
    /// The first differences.
    pub shown: Vec<String>,
}

impl Tally {
    pub(crate) fn new() -> Tally {
        let branches = BRANCHES.iter().map(|(_, label)| label.to_string());
        let errors = REFUSALS.iter().map(|(message, n)| format!("error {n}: {message}"));
        Tally { labels: branches.chain(errors).map(|label| (label, 0)).collect(), ..Tally::default() }
    }

    /// Counts a case: its answer, the branches on the way to it, and which of the run's own labels it has, in
    /// the same order each time.
    pub(crate) fn case<A>(
        &mut self,
        answer: &Result<A, u32>,
        branches: Branches,
        more: &[(&str, bool)],
        same: bool,
        show: impl FnOnce() -> String,
    ) {
        if self.cases == 0 {
            self.labels.extend(more.iter().map(|(label, _)| (label.to_string(), 0)));
        }
        self.cases += 1;
        self.answers[answer.as_ref().err().map_or(0, |n| *n as usize)] += 1;
        let taken = branches.all().chain(more.iter().map(|(_, taken)| *taken));
        self.labels.iter_mut().zip(taken).for_each(|((_, count), taken)| *count += u64::from(taken));
        if !same {
            self.differences += 1;
            if self.shown.len() < 4 {
                self.shown.push(show());
            }
        }
    }

    /// Ends the test where a case differs, where an answer named or a label with a prefix named is without a
    /// case, or where no label has the prefix.
    pub fn check(&self, answers: &[usize], prefixes: &[&str]) {
        assert!(self.differences == 0, "{} of {} differ: {:#?}", self.differences, self.cases, self.shown);
        answers.iter().for_each(|&n| assert!(self.answers[n] > 0, "no case ended in {}", ending(n)));
        for prefix in prefixes {
            let mut chosen = self.labels.iter().filter(|(label, _)| label.starts_with(prefix)).peekable();
            assert!(chosen.peek().is_some(), "no label begins with: {prefix}");
            chosen.for_each(|(label, count)| assert!(*count > 0, "no case of: {label}"));
        }
    }
}

fn ending(number: usize) -> String {
    match number {
        0 => "given".into(),
        n => format!("refused {n}"),
    }
}

impl std::fmt::Display for Tally {
    fn fmt(&self, out: &mut std::fmt::Formatter) -> std::fmt::Result {
        writeln!(out, "{} cases, {} differ", self.cases, self.differences)?;
        for (n, count) in self.answers.iter().enumerate().filter(|(_, count)| **count > 0) {
            writeln!(out, "    {}: {count}", ending(n))?;
        }
        for (label, count) in self.labels.iter().filter(|(_, count)| *count > 0) {
            writeln!(out, "    {label}: {count}")?;
        }
        self.shown.iter().try_for_each(|shown| writeln!(out, "    {shown}"))
    }
}

/// Prints the tally of a run and its time, and answers how many cases differ.
pub fn by_hand(name: &str, run: fn(u64, u64) -> Tally, (count, seed): (u64, u64)) -> u64 {
    let began = Instant::now();
    let tally = run(seed, count);
    print!("{name}, seed {seed}: {tally}");
    println!("    {:.1} s", began.elapsed().as_secs_f64());
    tally.differences
}

/// A list for a message, cut where it is long.
pub(crate) fn shown(words: &[u32]) -> String {
    format!("{} words {:08x?}", words.len(), &words[..words.len().min(96)])
}
