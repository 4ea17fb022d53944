//! The published Rust, called as its own reader of files calls it.

use fitsrs::card::{Card, Value};
use fitsrs::hdu::header::Header;
use fitsrs::{Any, Decoder};
use std::convert::TryFrom;

/// Reads a header: card by card up to END, then the values.
pub fn header(bytes: &[u8]) -> Header<Any> {
    let mut cards = Vec::new();
    for bytes in bytes.chunks_exact(80) {
        let mut buffer = [0; 80];
        buffer.copy_from_slice(bytes);
        let card = Card::try_from(&buffer).expect("fitsrs' reading of a card");
        let end = card == Card::End;
        cards.push(card);
        if end {
            break;
        }
    }
    fitsrs::header(cards).expect("fitsrs' reading of a header")
}

/// Reads a header as the reader of files does, with an undefined card for one that cannot be parsed; answers how many those are too.
pub fn read_on(bytes: &[u8]) -> (Header<Any>, usize) {
    let mut cards = Vec::new();
    let mut unread = 0;
    for bytes in bytes.chunks_exact(80) {
        let mut buffer = [0; 80];
        buffer.copy_from_slice(bytes);
        let card = Card::try_from(&buffer).unwrap_or_else(|_| {
            unread += 1;
            Card::Undefined(String::from_utf8_lossy(&buffer).into())
        });
        let end = card == Card::End;
        cards.push(card);
        if end {
            break;
        }
    }
    (fitsrs::header(cards).expect("fitsrs' reading of a header"), unread)
}

/// An entry.
pub fn value<'a>(header: &'a Header<Any>, name: &str) -> &'a Value {
    header.get(name).expect("fitsrs' entry")
}

/// Decodes a tile whole, into pixels of its width in the machine's order of bytes.
pub fn decode(tile: &[u8], nblock: usize, bits: usize, raw: &mut [u8]) {
    let nx = raw.len() / (bits / 8);
    let read = Decoder::new(tile, bits, nblock as i32, nx as i32).read(raw);
    assert!(matches!(read, Ok(n) if n == raw.len()), "fitsrs' reading of a tile: {read:?}");
}
