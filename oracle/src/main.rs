//! Compares this project's answers with those of the published Rust, in one process.
//!
//! oracle compare [SEED [MANY]]   cards, headers and tiles; MANY random cases a part
//! oracle power [SEED [MANY]]     the wrong variants that the comparison must tell apart
//! oracle stored [SEED [FOLDER]]  the stored list, with the Rust's answers

mod cards;
mod columns;
mod faults;
mod headers;
mod joining;
mod miscounts;
mod model;
mod ours;
mod power;
mod printed;
mod purposes;
mod random;
mod reading;
mod stored;
mod tally;
mod theirs;
mod tiles;
mod unpacking;
mod variants;
mod views;

use tally::{Columns, Outcome, Tally};

/// The length of the short texts that are all tried, and of the short sequences of cards.
const TEXTS: usize = 6;
const SEQUENCES: usize = 4;

/// Counts a subject's outcomes by part.
struct Counter {
    tally: Tally,
    part: &'static str,
}

impl Counter {
    fn new(subject: &'static str) -> Self {
        Counter { tally: Tally::new(subject), part: "" }
    }

    fn count(&mut self, part: &'static str, outcome: Outcome, explain: impl FnOnce() -> String) -> bool {
        if part != self.part {
            self.part = part;
            self.tally.part(part);
        }
        self.tally.count(outcome, explain);
        true
    }

    fn end(self) -> u64 {
        self.tally.print();
        self.tally.different()
    }
}

fn compare(seed: u64, many: usize) -> u64 {
    ours::check_lengths();
    let mut counter = Counter::new("cards");
    let mut seen = Columns::new("cards");
    cards::cases(seed, TEXTS, many, &mut |part, card| {
        counter.count(part, cards::compare(card, &mut seen), || cards::explain(card))
    });
    let mut different = counter.end();
    seen.print();
    let mut counter = Counter::new("headers");
    let mut seen = headers::Seen::new();
    headers::cases(seed, SEQUENCES, many / 2, &mut |part, header| {
        counter.count(part, headers::compare(header, &mut seen), || headers::explain(header))
    });
    different += counter.end();
    seen.print();
    let mut counter = Counter::new("tiles");
    tiles::cases(seed, true, many / 2, &mut |part, case| {
        counter.count(part, tiles::compare(case), || tiles::explain(case))
    });
    different + counter.end()
}

fn main() {
    theirs::silence();
    let words: Vec<String> = std::env::args().collect();
    let number = |at: usize, default: u64| words.get(at).and_then(|w| w.parse().ok()).unwrap_or(default);
    let (seed, many) = (number(2, 1), number(3, 200_000) as usize);
    println!("boundary version {}, seed {seed}, {many} random cases a part", widrekas_sys::version());
    cards::check_columns();
    let bad = match words.get(1).map(String::as_str) {
        Some("power") => power::run(seed, many) as u64,
        Some("stored") => {
            let folder = words.get(3).map_or("stored", String::as_str);
            match stored::write(std::path::Path::new(folder), seed) {
                Ok(few) => few as u64,
                Err(error) => {
                    println!("{folder}: {error}");
                    1
                }
            }
        }
        Some("compare") | None => compare(seed, many),
        Some(word) => {
            println!("no such command: {word}");
            1
        }
    };
    std::process::exit(i32::from(bad != 0));
}
