//! Misreadings of a column: the byte that each one names in place of the right one.

use crate::columns::{equals, high, odd, raw, stops_in, trimmed};
use crate::faults::Fault;

/// The card's last byte.
const LAST: usize = 79;

/// The byte that is named by a reading with one misreading. Where that has no say, it is the right one.
pub fn named(fault: Fault, card: &[u8; 80], number: u8, right: usize) -> usize {
    let begin = raw(card);
    let text = trimmed(card, begin);
    let continued = card.starts_with(b"CONTINUE");
    let dotted = card.starts_with(b"HIERARCH");
    match (fault, number) {
        (Fault::ColumnFromOne, _) => right + 1,
        (Fault::ColumnInTrimmed, 2..=5 | 8) => right - text.start,
        (Fault::ColumnInRaw, 2..=5 | 8) => right - begin,
        (Fault::ColumnUntrimmed, 3..=5 | 8) => begin.min(LAST),
        (Fault::ColumnAfterSpaces, 3..=5 | 8) => (begin..80).find(|&at| card[at] != b' ').unwrap_or(right),
        (Fault::HighLast, 1) => high(card).next_back().unwrap_or(right),
        (Fault::HighFirstByte, 1) => 0,
        (Fault::OddSecond, 2) => stops_in(card, text).get(1).copied().unwrap_or(right),
        (Fault::OddInString, 2) => text.clone().find(|&at| odd(card[at])).unwrap_or(right),
        (Fault::OddTextFirst, 2) => text.start,
        (Fault::UnclosedLast, 3) => text.end - 1,
        (Fault::UnclosedBehind, 3) => text.end,
        (Fault::UnopenedQuote, 4) => card.iter().rposition(|&b| b == b'\'').unwrap_or(right),
        (Fault::ContinueLooksFrom10, 2..=4) if continued => from_10(card, number, right),
        (Fault::ContinueCountsFrom10, 2..=4) if continued => right - begin + 10,
        (Fault::HierarchLooksFrom10, 2 | 3 | 5) if dotted => from_10(card, number, right),
        (Fault::HierarchCountsFrom10, 2 | 3 | 5) if dotted => right - begin + 10,
        (Fault::HierarchAtEquals, 3 | 5) if dotted => equals(card).unwrap_or(right),
        (Fault::NoEqualsLast, 6) => LAST,
        (Fault::NoEqualsAt8, 6) => 8,
        (Fault::NoNameAt9, 7) => 9,
        (Fault::NoNameLastEquals, 7) => card.iter().rposition(|&b| b == b'=').unwrap_or(right),
        (Fault::NoNameBehind, 7) => right + 1,
        (Fault::ExtensionValue, 8) if card[text.start] == b'/' => 10,
        (Fault::ExtensionEmptyLast, 8) if text.is_empty() => LAST,
        _ => right,
    }
}

/// The byte that is named where the text is thought to begin at byte 10.
fn from_10(card: &[u8; 80], number: u8, right: usize) -> usize {
    let text = trimmed(card, 10);
    match number {
        2 => stops_in(card, text).first().copied().unwrap_or(right),
        _ => text.start,
    }
}
