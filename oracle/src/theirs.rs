//! The published Rust's answers.

use crate::reading::{Card, Decimal, Entry, Header, Tile, Value};
use fitsrs::card as published;
use fitsrs::error::Error;
use std::collections::BTreeMap;
use std::convert::TryFrom;
use std::panic::{catch_unwind, set_hook, take_hook, AssertUnwindSafe};
use std::sync::atomic::{AtomicBool, Ordering};

/// Whether the Rust is at work, whose panics are answers.
static AT_WORK: AtomicBool = AtomicBool::new(false);

/// Panics of the Rust print nothing; all others do.
pub fn silence() {
    let other = take_hook();
    set_hook(Box::new(move |info| {
        if !AT_WORK.load(Ordering::Relaxed) {
            other(info);
        }
    }));
}

/// What the Rust answers, or nothing where it panics.
fn caught<T>(work: impl FnOnce() -> T) -> Option<T> {
    AT_WORK.store(true, Ordering::Relaxed);
    let answer = catch_unwind(AssertUnwindSafe(work)).ok();
    AT_WORK.store(false, Ordering::Relaxed);
    answer
}

/// A published text in our bytes: a replaced character is 127.
fn bytes(text: &str) -> Vec<u8> {
    if text.is_ascii() {
        return text.as_bytes().to_vec();
    }
    text.chars().map(|c| if c == char::REPLACEMENT_CHARACTER { 127 } else { c as u8 }).collect()
}

fn optional(text: &Option<String>) -> Option<Vec<u8>> {
    text.as_deref().map(bytes)
}

/// The refusal that a message tells, or 0.
fn number(error: &Error) -> u8 {
    match error {
        Error::Utf8 => 1,
        Error::StaticError("invalid character in value") => 2,
        Error::StaticError("missing single quote at end") => 3,
        Error::StaticError("missing single quote at start") => 4,
        Error::StaticError("Complex values not yet supported") => 5,
        Error::StaticError("Missing END card") => 10,
        Error::DynamicError(m) if m.starts_with("Key/value separator '=' not found") => 6,
        Error::DynamicError(m) if m.starts_with("Empty keyword in HIERARCH") => 7,
        Error::DynamicError(m) if m.starts_with("XTENSION value must be enclosed") => 8,
        _ => 0,
    }
}

/// The unit past a space: the Rust's own of the comment without its first byte where that is a space.
fn past(comment: &Option<Vec<u8>>) -> Option<Vec<u8>> {
    let comment = comment.as_deref()?;
    let behind = comment.strip_prefix(b" ").unwrap_or(comment);
    let comment = Some(behind.iter().copied().map(char::from).collect());
    published::Value::Logical { value: true, comment }.unit().map(bytes)
}

fn entry(name: &str, value: &published::Value) -> Entry {
    let (kind, comment) = match value {
        published::Value::Integer { value, comment } => (Value::Integer(*value), optional(comment)),
        published::Value::Float { value, comment } => (Value::Decimal(Decimal::float(*value)), optional(comment)),
        published::Value::Logical { value, comment } => (Value::Logical(*value), optional(comment)),
        published::Value::String { value, comment } => (Value::Text(bytes(value)), optional(comment)),
        published::Value::Undefined => (Value::Undefined, None),
        published::Value::Invalid(text) => (Value::Invalid(bytes(text)), None),
    };
    let unit = value.unit().map(bytes);
    Entry { name: bytes(name), value: kind, past: past(&comment), comment, unit }
}

fn told(read: Result<published::Card, Error>) -> Card {
    match read {
        Ok(published::Card::Value { name, value }) => Card::Value(entry(&name, &value)),
        Ok(published::Card::Hierarch { name, value }) => Card::Hierarch(entry(&name, &value)),
        Ok(published::Card::Continuation { string, comment }) => {
            Card::Continue(bytes(string.as_deref().unwrap_or_default()), optional(&comment))
        }
        Ok(published::Card::Xtension { x, .. }) => Card::Xtension(bytes(x.as_str())),
        Ok(published::Card::Comment(text)) => Card::Comment(bytes(&text)),
        Ok(published::Card::History(text)) => Card::History(bytes(&text)),
        Ok(published::Card::Space) => Card::Space,
        Ok(published::Card::End) => Card::End,
        Ok(published::Card::Undefined(text)) => Card::Undefined(bytes(&text)),
        Err(error) => Card::Refused(number(&error), None),
    }
}

/// One card, or nothing where the Rust panics.
pub fn card(card: &[u8; 80]) -> Option<Card> {
    caught(|| told(published::Card::try_from(card)))
}

/// The name that a card bears.
fn borne(card: &published::Card) -> Option<&str> {
    match card {
        published::Card::Value { name, .. } | published::Card::Hierarch { name, .. } => Some(name),
        published::Card::Xtension { .. } => Some("XTENSION"),
        _ => None,
    }
}

/// One header of the cards up to END, or nothing where the Rust panics. How many cards bear a name is counted in the Rust's cards.
pub fn header(cards: &[[u8; 80]]) -> Option<Header> {
    caught(|| {
        let mut read = Vec::with_capacity(cards.len());
        for (at, card) in cards.iter().enumerate() {
            match published::Card::try_from(card) {
                Ok(published::Card::End) => {
                    read.push(published::Card::End);
                    break;
                }
                Ok(card) => read.push(card),
                Err(error) => return Header::Refused(number(&error), at, None),
            }
        }
        let mut borne_by = BTreeMap::new();
        for name in read.iter().filter_map(borne) {
            *borne_by.entry(name.to_string()).or_default() += 1;
        }
        match fitsrs::header(read) {
            Ok(header) => {
                let times = header.iter().map(|(name, _)| borne_by.get(name).copied().unwrap_or(0)).collect();
                Header::Entries(header.iter().map(|(name, value)| entry(name, value)).collect(), times)
            }
            Err(error) => Header::Refused(number(&error), cards.len(), None),
        }
    })
}

/// The pixels in the Rust's buffer.
fn pixels(raw: &[u8], width: usize) -> Vec<i32> {
    match width {
        8 => raw.iter().map(|&b| b as i32).collect(),
        16 => raw.chunks_exact(2).map(|c| i16::from_le_bytes([c[0], c[1]]) as i32).collect(),
        _ => raw.chunks_exact(4).map(|c| i32::from_le_bytes([c[0], c[1], c[2], c[3]])).collect(),
    }
}

/// A buffer of nx pixels that all hold one number.
fn filled(nx: usize, width: usize, fill: i32) -> Vec<u8> {
    fill.to_le_bytes()[..width / 8].repeat(nx)
}

/// What the Rust leaves of a tile that is decoded in one call.
pub struct Left {
    pub read: bool,
    pub pixels: Vec<i32>,
    pub bytes: usize,
}

/// One tile, decoded in one call into a buffer whose pixels all hold one number, or nothing where the Rust panics.
pub fn left(tile: &[u8], nx: usize, nblock: usize, width: usize, fill: i32) -> Option<Left> {
    caught(|| {
        let mut raw = filled(nx, width, fill);
        let mut decoder = fitsrs::Decoder::new(tile, width, nblock as i32, nx as i32);
        let read = decoder.read(&mut raw).is_ok();
        Left { read, pixels: pixels(&raw, width), bytes: tile.len() - decoder.left() }
    })
}

/// How many pixels two runs over buffers that are filled differently have in common from the front.
pub fn common(a: &[i32], b: &[i32]) -> usize {
    a.iter().zip(b).take_while(|(a, b)| a == b).count()
}

/// One tile, decoded in one call, or nothing where the Rust panics. What was written before a fault is told by
/// two runs over buffers that are filled differently.
pub fn tile(tile: &[u8], nx: usize, nblock: usize, width: usize) -> Option<Tile> {
    let Left { read, mut pixels, bytes } = left(tile, nx, nblock, width, 0)?;
    if read {
        return Some(Tile { refused: 0, pixels, bytes });
    }
    pixels.truncate(common(&pixels, &left(tile, nx, nblock, width, !0)?.pixels));
    Some(Tile { refused: 16, pixels, bytes: 0 })
}

/// What the Rust leaves of a tile that is read one block at a time, up to the first block that fails.
pub struct Steps {
    /// The whole bytes used after each block that is read.
    pub places: Vec<usize>,
    /// The pixels of these blocks.
    pub done: usize,
    pub pixels: Vec<i32>,
}

/// One tile, read one block at a time into a buffer whose pixels all hold one number, or nothing where the Rust panics.
pub fn steps(tile: &[u8], nx: usize, nblock: usize, width: usize, fill: i32) -> Option<Steps> {
    let size = width / 8;
    caught(|| {
        let mut decoder = fitsrs::Decoder::new(tile, width, nblock as i32, nx as i32);
        let mut raw = filled(nx, width, fill);
        let mut places = Vec::new();
        let mut done = 0;
        while done < nx {
            let end = nx.min(done + nblock);
            if decoder.read(&mut raw[done * size..end * size]).is_err() {
                break;
            }
            places.push(tile.len() - decoder.left());
            done = end;
        }
        Steps { places, done, pixels: pixels(&raw, width) }
    })
}

/// The whole bytes used after each block, read with a buffer of one block at a time, with all the pixels; it ends at
/// the first block that fails.
pub fn blocks(tile: &[u8], nx: usize, nblock: usize, width: usize) -> Option<(Vec<usize>, Vec<i32>)> {
    let Steps { places, done, mut pixels } = steps(tile, nx, nblock, width, 0)?;
    pixels.truncate(done);
    Some((places, pixels))
}
