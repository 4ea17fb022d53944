//! The form of the stored list: how a header and a tile are stored, and what the replay programs print of them.
//!
//! A stored header is the number of its cards in two bytes, the higher first, then for each card a length and so many
//! bytes, which spaces fill to 80. Of a header are printed the lines of SPECIFICATION 13. Behind a name's line stands
//! one that begins with a space: the comment, the unit by both readings, and the digits and power of a finite decimal. What is there
//! stands in double quotes, a byte outside 32..126, a double quote and a backslash as \xNN. The word none says that it
//! is not there.
//!
//! A stored tile is the width in a byte, nx, nblock and the tile's length in three bytes each, the highest first, then
//! the tile. Of a tile are printed three lines. The first has the word whole, and the whole bytes used, or the word
//! refused, the number and how many pixels were written. The second has the word pixels, and all nx pixels of the
//! buffer, each of which held UNTOUCHED before. The third has the word blocks, and the whole bytes used after each
//! block where one block is read at a time; where a block fails, the word refused, the number and how many of its
//! pixels were written; and the word apart where the buffer of the blocks is not that of the second line.

use crate::reading::{Decimal, Entry, Header, Tile, Value};
use crate::tiles::Case;

/// What each pixel holds before a tile is decoded.
pub const UNTOUCHED: i32 = 77;

// ---- headers

/// A header as it is stored.
pub fn packed(header: &[[u8; 80]]) -> Vec<u8> {
    let mut out = (header.len() as u16).to_be_bytes().to_vec();
    for card in header {
        let n = card.iter().rposition(|&b| b != b' ').map_or(0, |i| i + 1);
        out.push(n as u8);
        out.extend_from_slice(&card[..n]);
    }
    out
}

fn minus(d: &Decimal) -> &'static str {
    if f64::from_bits(d.bits).is_sign_negative() {
        "-"
    } else {
        ""
    }
}

/// A decimal as `cards` prints it (SPECIFICATION 13), by its record.
pub fn decimal(d: &Decimal) -> String {
    let float = f64::from_bits(d.bits);
    let (digits, power) = d.record.as_ref().expect("a decimal without its record");
    let word = match (digits.is_empty(), float.is_nan(), float.is_infinite()) {
        (true, true, _) => "nan".to_string(),
        (true, _, true) => "inf".to_string(),
        (true, ..) => "0e0".to_string(),
        _ => format!("{}e{power}", String::from_utf8_lossy(digits)),
    };
    format!("{}{word}", minus(d))
}

/// A decimal as `cards` prints it (SPECIFICATION 13), by the fewest digits that give its nearest float.
pub fn shortest(d: &Decimal) -> String {
    let float = f64::from_bits(d.bits);
    let sign = minus(d);
    if !float.is_finite() {
        return format!("{sign}{}", if float.is_nan() { "nan" } else { "inf" });
    }
    let spelled = format!("{:e}", float.abs());
    let (digits, power) = spelled.split_once('e').expect("a power");
    let (whole, part) = digits.split_once('.').unwrap_or((digits, ""));
    let all = format!("{whole}{part}");
    let cut = all.trim_end_matches('0');
    if cut.is_empty() {
        return format!("{sign}0e0");
    }
    let power = power.parse::<i64>().expect("a power") - part.len() as i64 + (all.len() - cut.len()) as i64;
    format!("{sign}{cut}e{power}")
}

/// A name's line: name, kind, reading, and how many cards bear it where that is above 1.
fn line(entry: &Entry, times: usize, out: &mut Vec<u8>) {
    out.extend_from_slice(&entry.name);
    let (kind, reading) = match &entry.value {
        Value::Integer(z) => (b'I', z.to_string().into_bytes()),
        Value::Decimal(d) => (b'D', decimal(d).into_bytes()),
        Value::Logical(t) => (b'L', vec![if *t { b'T' } else { b'F' }]),
        Value::Text(t) => (b'S', t.clone()),
        Value::Undefined => (b'U', Vec::new()),
        Value::Invalid(t) => (b'X', t.clone()),
    };
    out.extend_from_slice(&[b' ', kind]);
    if !reading.is_empty() {
        out.push(b' ');
        out.extend_from_slice(&reading);
    }
    if times > 1 {
        out.extend_from_slice(format!(" x{times}").as_bytes());
    }
    out.push(b'\n');
}

fn quoted(bytes: &[u8]) -> String {
    let byte = |&b: &u8| match b {
        b'"' | b'\\' | 0..=31 | 127.. => format!("\\x{b:02x}"),
        _ => char::from(b).to_string(),
    };
    format!("\"{}\"", bytes.iter().map(byte).collect::<String>())
}

/// The line behind a name's line: comment, unit, unit past a space, digits and power.
fn more(entry: &Entry) -> String {
    let some = |text: &Option<Vec<u8>>| text.as_deref().map_or("none".to_string(), quoted);
    let record = match &entry.value {
        Value::Decimal(Decimal { bits, record: Some((digits, power)) })
            if f64::from_bits(*bits).is_finite() || !digits.is_empty() =>
        {
            format!(" digits {} power {power}", quoted(digits))
        }
        _ => String::new(),
    };
    let (comment, unit, past) = (some(&entry.comment), some(&entry.unit), some(&entry.past));
    format!(" comment {comment} unit {unit} past {past}{record}\n")
}

/// What is printed of a header.
pub fn header(header: &Header) -> Vec<u8> {
    let (entries, times) = match header {
        Header::Refused(number, at, column) => {
            let byte = column.map_or(String::new(), |c| format!(":{c}"));
            return format!("refused {number} at {at}{byte}\n").into_bytes();
        }
        Header::Entries(entries, times) => (entries, times),
    };
    let mut out = Vec::new();
    for (entry, times) in entries.iter().zip(times) {
        line(entry, *times, &mut out);
        out.extend_from_slice(more(entry).as_bytes());
    }
    out.extend_from_slice(format!("{} keywords\n", entries.len()).as_bytes());
    out
}

// ---- tiles

/// A tile as it is stored.
pub fn packed_tile(case: &Case) -> Vec<u8> {
    let mut out = vec![case.width as u8];
    for n in [case.nx, case.nblock, case.tile.len()] {
        out.extend_from_slice(&(n as u32).to_be_bytes()[1..]);
    }
    out.extend_from_slice(&case.tile);
    out
}

/// What decoding a tile whole leaves.
#[derive(Clone, PartialEq, Debug)]
pub struct Whole {
    pub refused: u8,
    pub written: usize,
    /// The whole bytes that were used, where nothing is refused.
    pub bytes: usize,
    /// All pixels of the buffer, the untouched ones too.
    pub buffer: Vec<i32>,
}

impl Whole {
    /// What a reading leaves in a buffer of nx pixels.
    pub fn of(tile: Tile, nx: usize) -> Self {
        let written = tile.pixels.len();
        let mut buffer = tile.pixels;
        buffer.resize(nx, UNTOUCHED);
        Whole { refused: tile.refused, written, bytes: tile.bytes, buffer }
    }

    /// The first two lines of a tile.
    pub fn lines(&self) -> String {
        let first = match self.refused {
            0 => format!(" {}", self.bytes),
            number => format!(" refused {number} {}", self.written),
        };
        format!("whole{first}\npixels{}\n", numbers(&self.buffer))
    }
}

/// Numbers, each behind a space.
pub fn numbers<T: ToString>(list: &[T]) -> String {
    list.iter().map(|n| format!(" {}", n.to_string())).collect()
}
