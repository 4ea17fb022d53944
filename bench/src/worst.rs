//! Inputs that are made to be slow, each beside an ordinary one of its kind.
//!
//! A job's name is its kind, a colon, and its input. The first job of a kind has the ordinary input; what the others take is told over
//! what that one takes.

use crate::cfitsio::Opened;
use crate::headers::{self, Work, FIRST, JOINED};
use crate::job::{Job, Side, Spec};
use crate::{theirs, tiles, writing};
use std::fs;
use std::hint::black_box;
use std::path::PathBuf;
use widrekas::Header;

pub const GROUP: &str = "worst";

/// The cards of the longest header, and of those the ones between its first three and END.
const CARDS: usize = 720;
const MIDDLE: usize = CARDS - FIRST.len() - 1;

/// A header of 720 cards, by what stands between its first three and END.
fn filled(card: impl Fn(usize) -> String) -> Vec<u8> {
    let mut all: Vec<String> = FIRST.map(String::from).into();
    all.extend((0..MIDDLE).map(card));
    all.push("END".to_string());
    headers::blocks(&all)
}

fn ordinary() -> Vec<u8> {
    headers::bytes(CARDS, 3)
}

/// Every card is an open string, with nothing to join to it.
fn open_strings() -> Vec<u8> {
    filled(|at| format!("K{at:03}    = '&'"))
}

/// One string over all cards, each as full as it can be.
fn one_string() -> Vec<u8> {
    filled(|at| match at {
        0 => format!("{JOINED:8}= '{}&'", "a".repeat(66)),
        _ => format!("CONTINUE  '{}{}'", "b".repeat(66), if at + 1 < MIDDLE { "&" } else { "" }),
    })
}

/// One string over all cards, which have little text and much comment.
fn one_commented() -> Vec<u8> {
    filled(|at| match at {
        0 => format!("{JOINED:8}= 'a&' /{}", "c".repeat(60)),
        _ => format!("CONTINUE  '{}' /{}", if at + 1 < MIDDLE { "&" } else { "b" }, "d".repeat(60)),
    })
}

/// Every card is a string with a doubled quote near its end, so that it is scanned byte by byte after all.
fn doubled_quotes() -> Vec<u8> {
    filled(|at| format!("K{at:03}    = '{}''b'", "a".repeat(64)))
}

/// Every card is refused.
fn refused() -> Vec<u8> {
    filled(|at| format!("K{at:03}    = (1.0, 2.0)"))
}

/// Every second card is refused, while a string is open.
fn refused_in_strings() -> Vec<u8> {
    filled(|at| if at % 2 == 0 { format!("K{at:03}    = '&'") } else { "CONTINUE  'not closed &".to_string() })
}

/// Where `run` has `slow_names.py` write its headers.
const SLOW_NAMES: &str = concat!(env!("CARGO_MANIFEST_DIR"), "/target/slow_names");

/// Headers of 720 cards whose names are slow to tell apart, with what each is called. Their first cards make room for those that
/// CFITSIO wants.
fn slow_names() -> Vec<(String, Vec<u8>)> {
    let files = fs::read_dir(SLOW_NAMES).into_iter().flatten().flatten().map(|file| file.path());
    let mut files: Vec<PathBuf> = files.filter(|path| path.extension().is_some_and(|end| end == "fits")).collect();
    files.sort();
    let read = |path: PathBuf| {
        let mut bytes = fs::read(&path).ok().filter(|bytes| bytes.len() == CARDS * 80)?;
        let first: String = FIRST.map(|card| format!("{card:80}")).concat();
        bytes.get_mut(..first.len())?.copy_from_slice(first.as_bytes());
        Some((path.file_stem()?.to_str()?.replace('_', " "), bytes))
    };
    files.into_iter().filter_map(read).collect()
}

/// A header read on past its refused cards; fitsrs as its file reader does it, with undefined cards instead; CFITSIO, which reads
/// such cards as any other, as for the list.
struct ReadOn {
    bytes: Vec<u8>,
    /// The refused cards that each side met; of CFITSIO its cards.
    met: [Option<usize>; 3],
}

impl Job for ReadOn {
    fn units(&self) -> usize {
        CARDS
    }

    fn run(&mut self, side: Side) {
        let bytes = black_box(&self.bytes);
        self.met[side as usize] = Some(match side {
            Side::Ours => {
                let read = Header::read_on(bytes).expect("our reading past refused cards");
                black_box(&read).refusals().len()
            }
            Side::Fitsrs => {
                let (header, unread) = theirs::read_on(bytes);
                black_box(header);
                unread
            }
            Side::Cfitsio => Opened::new(bytes).cards(),
        });
    }

    fn check(&mut self) {
        let [ours, theirs, cfitsio] = self.met;
        assert!(ours.is_some() && ours == theirs, "fitsrs refuses other cards: {ours:?}, {theirs:?}");
        assert!(cfitsio == Some(CARDS - 1), "CFITSIO counts other cards: {cfitsio:?}");
        self.met = [None; 3];
    }
}

fn read_on(input: &str, bytes: fn() -> Vec<u8>) -> Spec {
    let make = move || -> Box<dyn Job> { Box::new(ReadOn { bytes: bytes(), met: [None; 3] }) };
    Spec { group: GROUP, name: format!("read on: {input}"), unit: "card", make: Box::new(make) }
}

/// The jobs. Rows of tiles are as many as elsewhere.
pub fn specs(rows: usize) -> Vec<Spec> {
    let mut specs = Vec::new();
    let mut push = |kind: &str, input: &str, work: Work, bytes: Vec<u8>| {
        let name = format!("{kind}: {input}");
        specs.push(headers::of_bytes(GROUP, name, "card", work, CARDS, move || bytes.clone()));
    };
    push("list", "an ordinary header", Work::List, ordinary());
    push("list", "open strings", Work::List, open_strings());
    push("list", "doubled quotes", Work::List, doubled_quotes());
    for (input, bytes) in slow_names() {
        push("list", &input, Work::List, bytes);
    }
    for (kind, work) in
        [("all values and comments", Work::Entries), ("all values and comments, Rust binding", Work::Bound)]
    {
        push(kind, "an ordinary header", work, ordinary());
        push(kind, "open strings", work, open_strings());
        push(kind, "one string", work, one_string());
    }
    for (kind, work) in [
        ("one name", Work::FromBytes),
        ("one name and its comment", Work::BothFromBytes),
        ("one name, Rust binding", Work::BoundFromBytes),
    ] {
        push(kind, "an ordinary header", work, ordinary());
        push(kind, "one string", work, one_string());
        push(kind, "one string of comments", work, one_commented());
    }
    specs.push(read_on("an ordinary header", ordinary));
    specs.push(read_on("refused cards", refused));
    specs.push(read_on("every second one refused, in open strings", refused_in_strings));
    specs.extend(writing::slow(GROUP));
    specs.extend(tiles::blocks(GROUP, rows));
    specs
}
