//! What both sides answer, in one form.

use std::fmt;

/// A decimal: the bits of the nearest 64-bit float and, where it is known, the record of digits and power of ten.
#[derive(Clone, Debug)]
pub struct Decimal {
    pub bits: u64,
    pub record: Option<(Vec<u8>, i64)>,
}

impl Decimal {
    /// A float, of which no record is known.
    pub fn float(float: f64) -> Self {
        Decimal { bits: float.to_bits(), record: None }
    }

    /// A finite decimal.
    pub fn finite(minus: bool, digits: Vec<u8>, power: i64) -> Self {
        let sign = if minus { "-" } else { "" };
        let shown = if digits.is_empty() { "0" } else { std::str::from_utf8(&digits).unwrap() };
        let float: f64 = format!("{sign}{shown}e{power}").parse().unwrap();
        Decimal { bits: float.to_bits(), record: Some((digits, power)) }
    }

    /// An infinity, or what is not a number.
    pub fn special(minus: bool, infinite: bool) -> Self {
        let float = if infinite { f64::INFINITY } else { f64::NAN };
        Decimal { bits: if minus { -float } else { float }.to_bits(), record: Some((Vec::new(), 0)) }
    }
}

/// Records are compared where both are known.
impl PartialEq for Decimal {
    fn eq(&self, other: &Self) -> bool {
        let records = self.record.is_none() || other.record.is_none() || self.record == other.record;
        self.bits == other.bits && records
    }
}

/// A value of one of the six kinds.
#[derive(Clone, PartialEq)]
pub enum Value {
    Integer(i64),
    Decimal(Decimal),
    Logical(bool),
    Text(Vec<u8>),
    Undefined,
    Invalid(Vec<u8>),
}

/// A name with its value, its comment, and its unit by both readings: with the bracket first, and past a space.
#[derive(Clone, PartialEq)]
pub struct Entry {
    pub name: Vec<u8>,
    pub value: Value,
    pub comment: Option<Vec<u8>>,
    pub unit: Option<Vec<u8>>,
    pub past: Option<Vec<u8>>,
}

/// One card.
#[derive(Clone, PartialEq)]
pub enum Card {
    Value(Entry),
    Hierarch(Entry),
    Continue(Vec<u8>, Option<Vec<u8>>),
    Xtension(Vec<u8>),
    Comment(Vec<u8>),
    History(Vec<u8>),
    Space,
    End,
    Undefined(Vec<u8>),
    /// A refusal's number, 0 where the message does not tell it, and the byte of the card. The Rust tells no byte.
    Refused(u8, Option<usize>),
}

impl Card {
    /// The byte at which a card is refused.
    pub fn column(&self) -> Option<usize> {
        match self {
            Card::Refused(_, column) => *column,
            _ => None,
        }
    }
}

/// One header: its entries in order, with how many cards bear the name of each, or a refusal with the card's number and the byte of that
/// card. The Rust tells no byte.
#[derive(Clone, PartialEq, Debug)]
pub enum Header {
    Entries(Vec<Entry>, Vec<usize>),
    Refused(u8, usize, Option<usize>),
}

impl Header {
    /// The byte at which the refused card is refused.
    pub fn column(&self) -> Option<usize> {
        match self {
            Header::Refused(_, _, column) => *column,
            Header::Entries(..) => None,
        }
    }
}

/// A refusal, with the card and the byte of that card where it carries them.
#[derive(Clone, Copy, PartialEq, Debug)]
pub struct Refusal {
    pub number: u8,
    pub card: Option<usize>,
    pub column: Option<usize>,
}

impl Refusal {
    /// No entry bears a name or stands at a card.
    pub const NOT_FOUND: Self = Refusal { number: 12, card: None, column: None };
}

/// One tile, decoded whole.
#[derive(Clone, PartialEq, Debug)]
pub struct Tile {
    pub refused: u8,
    /// The pixels that were written, from the first on.
    pub pixels: Vec<i32>,
    /// The whole bytes that were used, where nothing is refused.
    pub bytes: usize,
}

/// Bytes as a reader sees them.
pub fn shown(bytes: &[u8]) -> String {
    bytes.iter().map(|&b| b.escape_ascii().to_string()).collect()
}

fn some(text: &Option<Vec<u8>>) -> String {
    text.as_deref().map_or("none".to_string(), |t| format!("\"{}\"", shown(t)))
}

impl fmt::Debug for Value {
    fn fmt(&self, f: &mut fmt::Formatter) -> fmt::Result {
        match self {
            Value::Integer(z) => write!(f, "integer {z}"),
            Value::Decimal(d) => {
                write!(f, "decimal {:e}", f64::from_bits(d.bits))?;
                match &d.record {
                    Some((digits, power)) => write!(f, " (digits {}, power {power})", shown(digits)),
                    None => Ok(()),
                }
            }
            Value::Logical(t) => write!(f, "logical {t}"),
            Value::Text(t) => write!(f, "string \"{}\"", shown(t)),
            Value::Undefined => write!(f, "undefined"),
            Value::Invalid(t) => write!(f, "invalid \"{}\"", shown(t)),
        }
    }
}

impl fmt::Debug for Entry {
    fn fmt(&self, f: &mut fmt::Formatter) -> fmt::Result {
        let (comment, unit, past) = (some(&self.comment), some(&self.unit), some(&self.past));
        write!(f, "{} is {:?}, comment {comment}, unit {unit}, past a space {past}", shown(&self.name), self.value)
    }
}

impl fmt::Debug for Card {
    fn fmt(&self, f: &mut fmt::Formatter) -> fmt::Result {
        match self {
            Card::Value(entry) => write!(f, "value card, {entry:?}"),
            Card::Hierarch(entry) => write!(f, "HIERARCH card, {entry:?}"),
            Card::Continue(text, comment) => write!(f, "CONTINUE \"{}\", comment {}", shown(text), some(comment)),
            Card::Xtension(text) => write!(f, "XTENSION \"{}\"", shown(text)),
            Card::Comment(text) => write!(f, "comment \"{}\"", shown(text)),
            Card::History(text) => write!(f, "history \"{}\"", shown(text)),
            Card::Space => write!(f, "space card"),
            Card::End => write!(f, "END"),
            Card::Undefined(text) => write!(f, "undefined card \"{}\"", shown(text)),
            Card::Refused(number, None) => write!(f, "refused {number}"),
            Card::Refused(number, Some(column)) => write!(f, "refused {number} at byte {column}"),
        }
    }
}
