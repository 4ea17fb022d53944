//! Headers: the list, all entries, one name.

use crate::cfitsio::{self, Opened};
use crate::job::{Job, Side, Spec};
use crate::ours::{self, Lent};
use crate::theirs;
use fitsrs::hdu::header::Header as Theirs;
use fitsrs::Any;
use std::ffi::CString;
use std::hint::black_box;
use widrekas::{Header as Ours, Value};

/// The bytes of a card and of a block of a FITS file.
const CARD: usize = 80;
const BLOCK: usize = 2880;

/// The name of the string over several cards, and the last name of a header, with its value.
pub const JOINED: &str = "KIT";
const LAST: &str = "LASTNAME";
const NUMBER: i64 = 4711;

/// The cards with which a header begins, without which CFITSIO does not open it.
pub const FIRST: [&str; 3] = [
    "SIMPLE  =                    T / a FITS file",
    "BITPIX  =                    8",
    "NAXIS   =                    0",
];

fn card(at: usize) -> String {
    match at % 8 {
        0 => format!("K{at:05}  = {:20} / a whole number", at * 37),
        1 => format!("K{at:05}  = {:20} /[mm] depth of a groove", format!("{}.{}E-02", at % 10, at * 7919)),
        2 => format!("K{at:05}  = 'part {at}  '        / a part's name"),
        3 => format!("K{at:05}  = {:>20}", if at % 16 == 3 { "T" } else { "F" }),
        4 => format!("K{at:05}  = {:>20} /", format!("-{}.5", at)),
        5 => format!("COMMENT measured on bench {at}, cooled"),
        6 => format!("K{at:05}  = 'O''RING {at}/7'"),
        _ => format!("HISTORY step {at} of the acceptance run"),
    }
}

/// A header of so many cards, END included, with a string over `more` CONTINUE cards, padded to whole blocks.
pub fn bytes(cards: usize, more: usize) -> Vec<u8> {
    let mut all: Vec<String> = FIRST.map(String::from).into();
    let tail = more + 3;
    all.extend((all.len()..cards - tail).map(card));
    all.push(format!("{JOINED:8}= 'SEAL-KIT-{}'", if more > 0 { "&" } else { "" }));
    for at in 1..=more {
        let open = if at < more { "&" } else { "" };
        all.push(format!("CONTINUE  'FKM {at:04} ring, cord 3.53, hardness 75 shore;{open}' / card {at}"));
    }
    all.push(format!("{LAST:8}= {NUMBER:20} / the last one"));
    all.push("END".to_string());
    assert!(all.len() == cards);
    blocks(&all)
}

/// The bytes of cards, padded to whole blocks.
pub fn blocks(cards: &[String]) -> Vec<u8> {
    let mut bytes: Vec<u8> = cards.iter().flat_map(|card| format!("{card:80}").into_bytes()).collect();
    assert!(bytes.len() == cards.len() * CARD);
    bytes.resize(bytes.len().next_multiple_of(BLOCK), b' ');
    bytes
}

/// What is done with a header.
#[derive(Clone, Copy, PartialEq)]
pub enum Work {
    /// From bytes to the list of names: ours is one call of the boundary.
    List,
    /// From bytes to all values, over the boundary.
    Values,
    /// From bytes to all entries, values and comments, over the boundary.
    Entries,
    /// From bytes to all entries, by the Rust binding.
    Bound,
    /// From bytes to one joined string, over the boundary.
    FromBytes,
    /// The same with its comment.
    BothFromBytes,
    /// From bytes to one joined string, by the Rust binding.
    BoundFromBytes,
    /// The last name in a header that is read already, by the Rust binding.
    Last,
    /// A joined string in a header that is read already, by the Rust binding.
    Joined,
}

/// A header, and what each side keeps of it.
struct Headers {
    work: Work,
    cards: usize,
    bytes: Vec<u8>,
    units: usize,
    lent: Lent,
    ours: Ours,
    theirs: Theirs<Any>,
    opened: Opened,
    joined: CString,
    last: CString,
    /// What each side's last run came to.
    said: [Option<Said>; 3],
    /// Whether all entries were held to each other.
    compared: bool,
}

/// A count, a number or a string, in one form for all.
#[derive(Clone, PartialEq, Debug)]
enum Said {
    Names(usize),
    Number(i64),
    Text(Vec<u8>),
}

fn text(value: &fitsrs::card::Value) -> Vec<u8> {
    match value {
        fitsrs::card::Value::String { value, .. } => value.clone().into_bytes(),
        other => panic!("fitsrs has no string: {other:?}"),
    }
}

fn integer(value: &fitsrs::card::Value) -> i64 {
    match value {
        fitsrs::card::Value::Integer { value, .. } => *value,
        other => panic!("fitsrs has no integer: {other:?}"),
    }
}

impl Headers {
    fn new(work: Work, bytes: Vec<u8>, cards: usize, units: usize) -> Self {
        Headers {
            work,
            cards,
            units,
            lent: Lent::new(),
            ours: ours::header(&bytes),
            theirs: theirs::header(&bytes),
            opened: Opened::new(&bytes),
            joined: cfitsio::name(JOINED),
            last: cfitsio::name(LAST),
            bytes,
            said: [None, None, None],
            compared: false,
        }
    }

    /// Holds every entry of the three sides to each other.
    fn compare(&mut self) {
        let names: Vec<String> = self.ours.keywords().map(|name| name.to_string()).collect();
        let theirs: Vec<&str> = self.theirs.keywords().map(String::as_str).collect();
        assert!(names == theirs, "the names differ");
        assert!(self.opened.cards() + 1 == self.cards, "CFITSIO counts other cards");
        for (name, entry) in self.ours.entries() {
            // CFITSIO has the pieces of a HIERARCH name as they stand.
            let shown = name.to_string();
            let asked = cfitsio::name(&shown.replace('.', " "));
            use fitsrs::card::Value as V;
            let (same, comment) = match (&entry.value, theirs::value(&self.theirs, &shown)) {
                (Value::Integer(a), V::Integer { value, comment }) => {
                    (a == value && *a == self.opened.integer(&asked), comment)
                }
                (Value::Float(a), V::Float { value, comment }) => {
                    let bits = a.to_f64().to_bits();
                    (bits == value.to_bits() && bits == self.opened.float(&asked).to_bits(), comment)
                }
                (Value::Logical(a), V::Logical { value, comment }) => {
                    (a == value && *a == self.opened.logical(&asked), comment)
                }
                (Value::String(a), V::String { value, comment }) => {
                    (a == value.as_str() && a.as_bytes() == self.opened.string(&asked), comment)
                }
                (ours, theirs) => panic!("{shown}: {ours:?}, {theirs:?}"),
            };
            let comments = entry.comment.as_deref() == comment.as_deref();
            assert!(same && comments, "{shown} differs: {entry:?}");
        }
    }

    fn ours(&mut self) -> Said {
        match self.work {
            Work::List => {
                assert!(self.lent.list(black_box(&self.bytes)) == 0);
                Said::Names(self.lent.told().2)
            }
            Work::Values => {
                assert!(self.lent.values(black_box(&self.bytes)) == 0);
                Said::Names(self.lent.told().2)
            }
            Work::Entries => {
                assert!(self.lent.entries(black_box(&self.bytes)) == 0);
                Said::Names(self.lent.told().2)
            }
            Work::Bound => Said::Names(ours::header(black_box(&self.bytes)).entries().map(black_box).count()),
            Work::FromBytes => {
                assert!(self.lent.lookup(black_box(&self.bytes), JOINED) == 0);
                Said::Text(self.lent.told().1.to_vec())
            }
            Work::BothFromBytes => {
                assert!(self.lent.lookup_both(black_box(&self.bytes), JOINED) == 0);
                black_box(self.lent.comment());
                Said::Text(self.lent.told().1.to_vec())
            }
            Work::BoundFromBytes => {
                let header = ours::header(black_box(&self.bytes));
                Said::Text(ours::value(&header, JOINED).to_string().into_bytes())
            }
            Work::Last => Said::Number(ours::value(black_box(&self.ours), LAST).as_i64().expect("an integer")),
            Work::Joined => Said::Text(match ours::value(black_box(&self.ours), JOINED) {
                Value::String(text) => text.into_bytes(),
                other => panic!("{other:?}"),
            }),
        }
    }

    fn theirs(&mut self) -> Said {
        match self.work {
            Work::List | Work::Values | Work::Entries | Work::Bound => {
                Said::Names(black_box(theirs::header(black_box(&self.bytes))).keywords().len())
            }
            Work::FromBytes | Work::BothFromBytes | Work::BoundFromBytes => {
                Said::Text(text(theirs::value(&theirs::header(black_box(&self.bytes)), JOINED)))
            }
            Work::Last => Said::Number(integer(theirs::value(black_box(&self.theirs), LAST))),
            Work::Joined => Said::Text(text(theirs::value(black_box(&self.theirs), JOINED))),
        }
    }

    fn cfitsio(&mut self) -> Said {
        match self.work {
            Work::List | Work::Values | Work::Entries | Work::Bound => {
                Said::Names(Opened::new(black_box(&self.bytes)).cards())
            }
            Work::FromBytes | Work::BothFromBytes | Work::BoundFromBytes => {
                Said::Text(Opened::new(black_box(&self.bytes)).string(&self.joined))
            }
            Work::Last => Said::Number(self.opened.integer(&self.last)),
            Work::Joined => Said::Text(self.opened.string(&self.joined)),
        }
    }
}

impl Job for Headers {
    fn units(&self) -> usize {
        self.units
    }

    fn run(&mut self, side: Side) {
        let said = match side {
            Side::Ours => self.ours(),
            Side::Fitsrs => self.theirs(),
            Side::Cfitsio => self.cfitsio(),
        };
        self.said[side as usize] = Some(black_box(said));
    }

    fn check(&mut self) {
        if !self.compared {
            self.compare();
            self.compared = true;
        }
        let [ours, theirs, cfitsio] = &self.said;
        assert!(ours.is_some() && ours == theirs, "fitsrs comes to something else: {ours:?}, {theirs:?}");
        // CFITSIO tells its cards, END not counted, where the others tell names.
        let expected = match ours {
            Some(Said::Names(_)) => Some(Said::Names(self.cards - 1)),
            _ => ours.clone(),
        };
        assert!(expected == *cfitsio, "CFITSIO comes to something else: {ours:?}, {cfitsio:?}");
        self.said = [None, None, None];
    }
}

fn spec(group: &'static str, name: String, unit: &'static str, work: Work, cards: usize, more: usize) -> Spec {
    let units = match unit {
        "card" => cards,
        "CONTINUE card" => more,
        _ => 1,
    };
    of_bytes(group, name, unit, work, units, move || bytes(cards, more))
}

/// A job on a header whose cards fill its bytes, padded to whole blocks.
pub fn of_bytes(
    group: &'static str,
    name: String,
    unit: &'static str,
    work: Work,
    units: usize,
    bytes: impl Fn() -> Vec<u8> + 'static,
) -> Spec {
    let make = move || -> Box<dyn Job> {
        let bytes = bytes();
        let end = bytes.chunks_exact(CARD).position(|card| card.starts_with(b"END "));
        let cards = end.expect("an END card") + 1;
        Box::new(Headers::new(work, bytes, cards, units))
    };
    Spec { group, name, unit, make: Box::new(make) }
}

/// The jobs: three headers read whole, one name looked up, and headers and strings of growing size.
pub fn specs() -> Vec<Spec> {
    let mut specs = Vec::new();
    for cards in [36, 200, 720] {
        let of = |what: &str| format!("{cards} cards, {what}");
        specs.push(spec("headers", of("list"), "card", Work::List, cards, 3));
        specs.push(spec("headers", of("all values"), "card", Work::Values, cards, 3));
        specs.push(spec("headers", of("all values and comments"), "card", Work::Entries, cards, 3));
        specs.push(spec("headers", of("all values and comments, Rust binding"), "card", Work::Bound, cards, 3));
        specs.push(spec("lookups", of("bytes to a joined string"), "call", Work::FromBytes, cards, 3));
        specs.push(spec(
            "lookups",
            of("bytes to a joined string, Rust binding"),
            "call",
            Work::BoundFromBytes,
            cards,
            3,
        ));
        specs.push(spec("lookups", of("last name of a read header"), "call", Work::Last, cards, 3));
        specs.push(spec("lookups", of("joined string of a read header"), "call", Work::Joined, cards, 3));
    }
    for cards in [9, 18, 36, 90, 180, 360, 720] {
        specs.push(spec("cards", format!("{cards}"), "card", Work::List, cards, 3));
    }
    for more in [1, 10, 100, 700] {
        specs.push(spec("continued", format!("{more}"), "CONTINUE card", Work::FromBytes, more + 12, more));
        specs.push(spec("commented", format!("{more}"), "CONTINUE card", Work::BothFromBytes, more + 12, more));
    }
    specs
}
