//! Headers made of the fronts of their cards.
#![allow(dead_code)]

pub mod random;

use widrekas::{Entry, Header, Refusal, Value};

/// A card, padded with spaces.
pub fn card(front: &str) -> [u8; 80] {
    let mut card = [b' '; 80];
    card[..front.len()].copy_from_slice(front.as_bytes());
    card
}

/// Cards, one behind the other.
pub fn cards(fronts: &[&str]) -> Vec<u8> {
    fronts.iter().flat_map(|front| card(front)).collect()
}

/// A header of cards and END.
pub fn header(fronts: &[&str]) -> Header {
    let mut bytes = cards(fronts);
    bytes.extend(card("END"));
    Header::parse(&bytes).unwrap()
}

/// The entry of a card K with a text from byte 10 on.
pub fn entry(text: &str) -> Entry {
    header(&[&format!("K       = {text}")]).entry("K").unwrap()
}

/// Its value.
pub fn value(text: &str) -> Value {
    entry(text).value
}

/// The number of the refusal of such a card.
pub fn refused(text: &str) -> u8 {
    let mut bytes = cards(&[&format!("K       = {text}")]);
    bytes.extend(card("END"));
    Header::parse(&bytes).unwrap_err().number()
}

/// A refusal's number, that of its card, and the column.
pub type Told = (u8, Option<usize>, Option<usize>);

/// What a refusal tells.
pub fn told(refusal: Refusal) -> Told {
    (refusal.number(), refusal.card(), refusal.column())
}

/// What the refusal of a card tells, 1 to 8.
pub fn at(number: u8, card: usize, column: usize) -> Told {
    (number, Some(card), Some(column))
}

/// What the refusal of a header tells that is no card's, 9 or 10.
pub fn of_header(number: u8, card: usize) -> Told {
    (number, Some(card), None)
}
