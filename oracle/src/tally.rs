//! What a run counts and prints.

use std::collections::{BTreeMap, BTreeSet};
use std::time::Instant;

/// The most differences that are made small, and the most of these that are printed.
const SMALLEST: u64 = 400;
const SHOWN: usize = 20;

/// What a case came to.
pub enum Outcome {
    Same,
    /// Outside the equality domain, by a reason; our side is held to the model alone.
    Aside(&'static str),
    Different,
}

/// How often each byte of a card was held to the model's, by the refusal's number.
pub struct Columns {
    what: &'static str,
    seen: [[u64; 80]; 9],
}

impl Columns {
    pub fn new(what: &'static str) -> Self {
        Columns { what, seen: [[0; 80]; 9] }
    }

    /// Counts the byte that a refusal names, if it names one.
    pub fn count(&mut self, number: u8, column: Option<usize>) {
        if let Some(column) = column {
            self.seen[usize::from(number)][column] += 1;
        }
    }

    pub fn print(&self) {
        let total: u64 = self.seen.iter().flatten().sum();
        println!("    {total:>9} columns compared: {}", self.what);
        for (number, seen) in self.seen.iter().enumerate().skip(1) {
            let bytes = seen.iter().filter(|&&n| n > 0).count();
            println!("    {:>9}     of refusal {number}, at {bytes} bytes", seen.iter().sum::<u64>());
        }
    }
}

/// The counts of one subject.
pub struct Tally {
    subject: &'static str,
    started: Instant,
    parts: Vec<(String, u64)>,
    compared: u64,
    aside: BTreeMap<&'static str, u64>,
    different: u64,
    shown: BTreeSet<String>,
}

impl Tally {
    pub fn new(subject: &'static str) -> Self {
        Tally {
            subject,
            started: Instant::now(),
            parts: Vec::new(),
            compared: 0,
            aside: BTreeMap::new(),
            different: 0,
            shown: BTreeSet::new(),
        }
    }

    /// The cases from here on belong to a part.
    pub fn part(&mut self, name: &str) {
        self.parts.push((name.to_string(), 0));
    }

    /// Counts a case; a difference is explained by its smallest form, once.
    pub fn count(&mut self, outcome: Outcome, explain: impl FnOnce() -> String) {
        match outcome {
            Outcome::Same => {
                self.compared += 1;
                if let Some(part) = self.parts.last_mut() {
                    part.1 += 1;
                }
            }
            Outcome::Aside(reason) => *self.aside.entry(reason).or_default() += 1,
            Outcome::Different => {
                self.different += 1;
                if self.different <= SMALLEST && self.shown.len() < SHOWN {
                    let words = explain();
                    if !self.shown.contains(&words) {
                        println!("DIFFERENT {}: {words}", self.subject);
                        self.shown.insert(words);
                    }
                }
            }
        }
    }

    /// How many differed.
    pub fn different(&self) -> u64 {
        self.different
    }

    pub fn print(&self) {
        let seconds = self.started.elapsed().as_secs_f64();
        let aside: u64 = self.aside.values().sum();
        let total = self.compared + aside + self.different;
        println!(
            "{}: {} compared, {} different, {} set aside; {:.1} s, {:.2} million a minute",
            self.subject,
            self.compared + self.different,
            self.different,
            aside,
            seconds,
            total as f64 / seconds * 60.0 / 1e6
        );
        for (name, n) in &self.parts {
            println!("    {n:>9} equal: {name}");
        }
        for (reason, n) in &self.aside {
            println!("    {n:>9} set aside: {reason}");
        }
    }
}
