//! The byte of a card at which it is refused, from the card's bytes and the refusal's number.
//!
//! A reading of its own: it shares no code with the model, and it scans with no state. Each byte is judged by what stands before it.

use std::ops::Range;

const QUOTE: u8 = b'\'';

/// Space, tab, line feed, form feed and return.
const BLANKS: [u8; 5] = [32, 9, 10, 12, 13];

/// The byte that is named where a text has nothing but blanks.
const EMPTY: usize = 10;

/// Cards with the refusal and the byte, written by hand. The first six are the examples of the rule.
pub const BY_HAND: &[(&[u8], u8, usize)] = &[
    (b"A       = (", 5, 10),
    (b"A       =  \x0b", 2, 11),
    (b"XTENSION=  /", 8, 11),
    (b"XTENSION=", 8, 10),
    (b"CONTINUE'a", 3, 8),
    (b"HIERARCH A=(", 5, 11),
    // 1: the first byte of 128 or more, wherever it stands.
    (b"\x80", 1, 0),
    (b"KE\xc3\xa9  \xff = (", 1, 2),
    (b"K       = '\xe9' \x0b \xe9", 1, 11),
    (b"K       = 5 / \x7f\x80\x81", 1, 15),
    (b"COMMENT  caf\xe9 \xe9", 1, 12),
    (b"END     \xff", 1, 8),
    (b"HIERARCH  \xff\xff", 1, 10),
    // 2: the byte where the scan stops.
    (b"K       = 5\x0b", 2, 11),
    (b"K       = 5 \x00\x01", 2, 12),
    (b"K       = 5\t/", 2, 11),
    (b"K       = \t\x0b/", 2, 11),
    (b"K       = 'a\x0bb'\x0b5\x0b", 2, 17),
    (b"K       = 'a'' \x0b'\x0c\x0b \x0b", 2, 20),
    (b"K       = 'a/\x0b' \x7f/", 2, 16),
    (b"K       = (\x0b", 2, 11),
    (b"K       = 'a' b\x0b", 2, 15),
    (b"CONTINUE\x7f", 2, 8),
    (b"CONTINUE 'a' \x00", 2, 13),
    (b"CONTINUE a\x0b'", 2, 10),
    (b"HIERARCH A=\x0b", 2, 11),
    (b"HIERARCH A==\x0b", 2, 12),
    (b"XTENSION= 5\x01", 2, 11),
    // 3, 4, 5 and 8: the first byte of the text without its blanks.
    (b"K       =   'open / c", 3, 12),
    (b"K       = \r\n\x0c\t 'a' b", 3, 15),
    (b"K       = '", 3, 10),
    (b"CONTINUE  '", 3, 10),
    (b"CONTINUE\x0c'a", 3, 9),
    (b"HIERARCH A B =  'x", 3, 16),
    (b"CONTINUE a'", 4, 9),
    (b"CONTINUE= 'b'", 4, 8),
    (b"CONTINUE\t\t a''/ c", 4, 11),
    (b"K       =    (1,2) / c", 5, 13),
    (b"HIERARCH A=\t(", 5, 12),
    (b"XTENSION  IMAGE", 8, 10),
    (b"XTENSION= 'IMAGE", 8, 10),
    (b"XTENSION='a", 8, 10),
    (b"XTENSION=    '", 8, 13),
    (b"XTENSION= \t / c", 8, 12),
    (b"XTENSION= \t \r", 8, 10),
    // 6: byte 9. 7: the first = from byte 9 on.
    (b"HIERARCH", 6, 9),
    (b"HIERARCH nothing", 6, 9),
    (b"HIERARCH=nothing \x0b", 6, 9),
    (b"HIERARCH = 5 = (", 7, 9),
    (b"HIERARCH=  = 5", 7, 11),
    (b"HIERARCH \t\x0c= \x0b", 7, 11),
];

/// The byte that a refusal names, or nothing where it names none.
pub fn column(card: &[u8; 80], number: u8) -> Option<usize> {
    match number {
        1 => high(card).next(),
        2 => stops(card).first().copied(),
        3 | 4 | 5 | 8 => Some(text(card).start),
        6 => Some(9),
        7 => equals(card),
        _ => None,
    }
}

/// The bytes of 128 or more.
pub fn high(card: &[u8; 80]) -> impl DoubleEndedIterator<Item = usize> + '_ {
    (0..80).filter(|&at| card[at] >= 128)
}

/// The = that HIERARCH's text follows.
pub fn equals(card: &[u8; 80]) -> Option<usize> {
    (9..80).find(|&at| card[at] == b'=')
}

/// Where the raw text begins. CONTINUE and HIERARCH fill the keyword, so no blank stands beside them.
pub fn raw(card: &[u8; 80]) -> usize {
    match &card[..8] {
        b"CONTINUE" => 8,
        b"HIERARCH" => equals(card).map_or(80, |at| at + 1),
        _ => 10,
    }
}

/// The raw text without the blanks at either end.
fn text(card: &[u8; 80]) -> Range<usize> {
    trimmed(card, raw(card))
}

/// What stands on a card from a byte on, without the blanks at either end.
pub fn trimmed(card: &[u8; 80], from: usize) -> Range<usize> {
    let kept = |at: &usize| !BLANKS.contains(&card[*at]);
    match ((from..80).find(kept), (from..80).rfind(kept)) {
        (Some(first), Some(last)) => first..last + 1,
        _ => EMPTY..EMPTY,
    }
}

/// The bytes of the text at which a scan can stop, in order.
pub fn stops(card: &[u8; 80]) -> Vec<usize> {
    stops_in(card, text(card))
}

/// A scan stops at an odd byte before the first slash outside the strings, if it stands outside them and follows no closing quote.
pub fn stops_in(card: &[u8; 80], text: Range<usize>) -> Vec<usize> {
    let bytes = &card[text.clone()];
    let slash = (0..bytes.len()).find(|&at| bytes[at] == b'/' && outside(&bytes[..at]));
    let stops = |at: &usize| odd(bytes[*at]) && outside(&bytes[..*at]) && !after_quote(&bytes[..*at]);
    (0..slash.unwrap_or(bytes.len())).filter(stops).map(|at| text.start + at).collect()
}

/// Whether a byte does not print.
pub fn odd(byte: u8) -> bool {
    !(32..=126).contains(&byte)
}

/// Whether what follows stands outside a string: every quote opens one or ends it for the moment, so their number is even.
fn outside(before: &[u8]) -> bool {
    before.iter().filter(|&&b| b == QUOTE).count() % 2 == 0
}

/// Whether the last byte that prints is a quote.
fn after_quote(before: &[u8]) -> bool {
    before.iter().rev().find(|&&b| !odd(b)) == Some(&QUOTE)
}
