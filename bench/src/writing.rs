//! One value, written as cards.

use crate::cfitsio::{self, Opened};
use crate::job::{Job, Side, Spec};
use crate::ours::{self, Lent};
use std::ffi::CString;
use std::hint::black_box;
use widrekas_sys::Asked;

pub const GROUP: &str = "writing";

/// The name, and the bytes that the cards of any value take at most.
const NAME: &str = "KIT";
const MOST: usize = 62 * 80;

/// The kinds as the boundary numbers them.
const INTEGER: usize = 1;
const FINITE: usize = 2;
const STRING: usize = 6;

/// A decimal: its digits, its power, and the double nearest to it.
const DIGITS: &[u8] = b"353781904528613";
const POWER: i64 = -14;
const DOUBLE: f64 = 3.53781904528613;

#[derive(Clone)]
enum Value {
    Integer(i64),
    Decimal,
    Text(String),
}

/// A value, and where each side puts it.
struct Writing {
    sides: &'static [Side],
    value: Value,
    comment: String,
    units: usize,
    block: Vec<u8>,
    /// How many cards ours has.
    count: usize,
    file: Opened,
    /// The cards of the file when it has the name.
    cards: usize,
    name: CString,
    text: CString,
    remark: CString,
    lent: Lent,
}

impl Writing {
    fn new(sides: &'static [Side], value: Value, comment: &str, units: usize) -> Self {
        let text = if let Value::Text(text) = &value { text.as_str() } else { "" };
        let mut writing = Writing {
            sides,
            comment: comment.into(),
            units,
            block: vec![0; MOST],
            count: 0,
            file: Opened::created(),
            cards: 0,
            name: cfitsio::name(NAME),
            text: cfitsio::name(text),
            remark: cfitsio::name(comment),
            lent: Lent::new(),
            value,
        };
        if sides.contains(&Side::Cfitsio) {
            writing.cfitsio();
            writing.cards = writing.file.cards();
        }
        writing
    }

    fn ours(&mut self) {
        let (kind, number, text): (usize, i64, &[u8]) = match &self.value {
            Value::Integer(number) => (INTEGER, *number, &[]),
            Value::Decimal => (FINITE, POWER, DIGITS),
            Value::Text(text) => (STRING, 0, text.as_bytes()),
        };
        let value = black_box(Asked { kind, flag: false, number, text });
        self.count = ours::write(NAME.as_bytes(), value, self.comment.as_bytes(), black_box(&mut self.block));
    }

    fn check_cfitsio(&mut self) {
        let same = match &self.value {
            Value::Integer(asked) => self.file.integer(&self.name) == *asked,
            Value::Decimal => self.file.float(&self.name).to_bits() == DOUBLE.to_bits(),
            Value::Text(asked) => self.file.string(&self.name) == asked.as_bytes(),
        };
        assert!(same && self.file.cards() == self.cards, "CFITSIO's is not what was asked");
    }

    fn cfitsio(&mut self) {
        match self.value {
            Value::Integer(number) => self.file.set_integer(&self.name, black_box(number), &self.remark),
            Value::Decimal => self.file.set_float(&self.name, black_box(DOUBLE), DIGITS.len() as i32, &self.remark),
            Value::Text(_) => self.file.set_string(&self.name, black_box(&self.text), &self.remark),
        }
    }
}

impl Job for Writing {
    fn units(&self) -> usize {
        self.units
    }

    fn sides(&self) -> &'static [Side] {
        self.sides
    }

    fn run(&mut self, side: Side) {
        match side {
            Side::Ours => self.ours(),
            Side::Fitsrs => panic!("fitsrs writes no cards"),
            Side::Cfitsio => self.cfitsio(),
        }
    }

    /// Each side reads its own cards back.
    fn check(&mut self) {
        let mut header = self.block[..self.count * 80].to_vec();
        header.extend(format!("{:80}", "END").bytes());
        assert!(self.lent.lookup_both(&header, NAME) == 0, "our reading of what was written");
        let (number, text, _) = self.lent.told();
        let same = match &self.value {
            Value::Integer(asked) => number == *asked,
            Value::Decimal => self.lent.decimal() == (false, DIGITS) && number == POWER,
            Value::Text(asked) => text == asked.as_bytes(),
        };
        assert!(same && self.lent.comment() == self.comment.as_bytes(), "ours is not what was asked");
        if self.sides.contains(&Side::Cfitsio) {
            self.check_cfitsio();
        }
        self.block.fill(b'?');
        self.count = 0;
    }
}

/// Ours, and CFITSIO.
const BOTH: &[Side] = &[Side::Ours, Side::Cfitsio];

fn spec(group: &'static str, name: &str, sides: &'static [Side], value: Value, comment: &str) -> Spec {
    // What is slow is told by bytes.
    let (unit, units) = match &value {
        Value::Text(text) if group != GROUP => ("byte", text.len()),
        _ => ("call", 1),
    };
    let comment = comment.to_string();
    let make = move || -> Box<dyn Job> { Box::new(Writing::new(sides, value.clone(), &comment, units)) };
    Spec { group, name: name.into(), unit, make: Box::new(make) }
}

/// Words, so many bytes of them.
fn words(bytes: usize) -> Value {
    Value::Text(
        "FKM ring, cord 3.53, hardness 75 shore, kit 1;  ".bytes().cycle().take(bytes).map(char::from).collect(),
    )
}

/// The jobs.
pub fn specs() -> Vec<Spec> {
    vec![
        spec(GROUP, "a string of 200 bytes, 3 cards", BOTH, words(200), ""),
        spec(GROUP, "a string of 180 bytes and a comment, 3 cards", BOTH, words(180), "the kit"),
        spec(GROUP, "an integer", BOTH, Value::Integer(-4711), "the depth"),
        spec(GROUP, "a decimal of 15 digits", BOTH, Value::Decimal, "the depth"),
    ]
}

/// The string that takes the most cards, beside an ordinary one. On the quotes CFITSIO 4.2 does not return.
pub fn slow(group: &'static str) -> Vec<Spec> {
    let quotes = Value::Text("'".repeat(2000));
    vec![
        spec(group, "write: an ordinary string of 30 cards", BOTH, words(2000), "the kit"),
        spec(group, "write: quotes alone, a comment of 65 bytes, 62 cards", &[Side::Ours], quotes, &"c".repeat(65)),
    ]
}
