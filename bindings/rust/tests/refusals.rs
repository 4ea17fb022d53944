//! Refusals: their numbers, names and words by docs/REFUSALS.md, and what they tell.

mod common;

use common::{at, card, cards, told};
use std::collections::HashSet;
use std::error::Error;
use std::path::Path;
use widrekas::tile::{decode, Shape};
use widrekas::{Card, Header, Reason};

/// The numbers, names and words of the table in docs/REFUSALS.md.
fn rows() -> Vec<(u8, String, String)> {
    let path = Path::new(env!("CARGO_MANIFEST_DIR")).join("../../docs/REFUSALS.md");
    let text = std::fs::read_to_string(&path).unwrap_or_else(|why| panic!("{}: {why}", path.display()));
    let row = |line: &str| {
        let mut cells = line.strip_prefix('|')?.strip_suffix('|')?.split('|').map(str::trim);
        Some((cells.next()?.parse().ok()?, cells.next()?.to_string(), cells.next_back()?.to_string()))
    };
    text.lines().filter_map(row).collect()
}

#[test]
fn reasons_have_the_numbers_names_and_words_of_the_page() {
    let reasons: Vec<Reason> = (1..=21).filter_map(Reason::from_number).collect();
    let row = |reason: &Reason| (reason.number(), format!("{reason:?}"), reason.meaning().to_string());
    assert_eq!(reasons.iter().map(row).collect::<Vec<_>>(), rows());
    assert_eq!([0, 11, 22, 254, 255].map(Reason::from_number), [None; 5]);
    assert_eq!(reasons.iter().map(|reason| reason.meaning()).collect::<HashSet<_>>().len(), 20);
    for reason in reasons {
        assert!(!reason.meaning().is_empty() && reason.meaning().len() <= 80);
        assert_eq!(reason.to_string(), format!("refused {}: {}", reason.number(), reason.meaning()));
    }
}

#[test]
fn a_refusal_tells_why_and_where() {
    let refusal = Header::parse(&cards(&["A       = 1", "B       = 'x", "END"])).unwrap_err();
    assert_eq!((refusal.reason(), refusal.number()), (Reason::StringNotClosed, 3));
    assert_eq!((refusal.card(), refusal.column()), (Some(1), Some(10)));
    assert_eq!(refusal.meaning(), "the string begins with a quote and does not end with one");
    assert_eq!(refusal.to_string(), "refused 3 at 1:10: the string begins with a quote and does not end with one");
    let shown = format!("{refusal:?}");
    assert!(["StringNotClosed", "Some(1)", "Some(10)"].iter().all(|part| shown.contains(part)), "{shown}");
    // A card that stands alone has no number, and a column.
    let alone = Card::read(&card("B       = 'x")).unwrap_err();
    assert_eq!((alone.reason(), alone.card(), alone.column()), (Reason::StringNotClosed, None, Some(10)));
    assert_eq!(alone.to_string(), "refused 3 at byte 10: the string begins with a quote and does not end with one");
    assert!(alone != refusal && HashSet::from([alone, refusal, refusal]).len() == 2);
    // So that refusals at two bytes of a card are two.
    let behind = Card::read(&card("B       =  'x")).unwrap_err();
    assert!(behind.column() == Some(11) && behind != alone);
}

/// Cards with their refusals' numbers and columns, by the rule of `Refusal::column`. A tilde stands for the byte 200, which no `&str` has.
const COLUMNS: [(&str, u8, usize); 35] = [
    ("~       = 5", 1, 0),
    ("K       = 'a~' / ~", 1, 12),
    ("COMMENT  20 ~C", 1, 12),
    ("END    ~", 1, 7),
    ("HIERARCH A ~", 1, 11),
    ("K       = \u{b} ~", 1, 12),
    ("K       =  \u{b}", 2, 11),
    ("K       = 5\t6 \u{b}", 2, 11),
    ("K       = '\u{b}' \u{b}", 2, 14),
    ("K       = 'a'\u{b}\u{b} \u{b}", 2, 16),
    ("K       = (\u{b}", 2, 11),
    ("CONTINUE\u{1}", 2, 8),
    ("HIERARCH A=\u{b}", 2, 11),
    ("XTENSION\u{b}\u{b}\u{b}", 2, 10),
    ("K       = 'a", 3, 10),
    ("K       = \t 'a", 3, 12),
    ("CONTINUE'a", 3, 8),
    ("CONTINUE\r\n'a", 3, 10),
    ("HIERARCH A B = 'x", 3, 15),
    ("CONTINUEa'", 4, 8),
    ("CONTINUE   a'", 4, 11),
    ("K       = (", 5, 10),
    ("K       =      (1, 2)", 5, 15),
    ("HIERARCH A=(", 5, 11),
    ("HIERARCH", 6, 9),
    ("HIERARCH= 5", 6, 9),
    ("HIERARCH A \u{b}", 6, 9),
    ("HIERARCH = 5", 7, 9),
    ("HIERARCH   = 5 = 6", 7, 11),
    ("HIERARCH \t =\u{b}", 7, 11),
    ("XTENSION=", 8, 10),
    ("XTENSION= \t\u{c}", 8, 10),
    ("XTENSION=  /", 8, 11),
    ("XTENSION=\t\t\tIMAGE", 8, 12),
    ("XTENSION=    'IMAGE", 8, 13),
];

#[test]
fn a_refused_card_has_its_column() {
    for (front, number, column) in COLUMNS {
        let card = card(front).map(|byte| if byte == b'~' { 200 } else { byte });
        assert_eq!(Card::read(&card).map_err(told), Err((number, None, Some(column))), "{front:?} alone");
        // In a header, where a string is open before it and another card is refused behind it.
        let bytes = [common::card("A       = 'a&'"), card, common::card("B       = (1"), common::card("END")].concat();
        let refusal = Header::parse(&bytes).unwrap_err();
        assert_eq!(told(refusal), at(number, 1, column), "{front:?}");
        let words = Reason::from_number(number).unwrap().meaning();
        assert_eq!(refusal.to_string(), format!("refused {number} at 1:{column}: {words}"));
        // Read on, each refused card has its own.
        let read = Header::read_on(&bytes).unwrap();
        assert_eq!(read.get("A"), Err(refusal), "{front:?} read on");
        let refusals: Vec<_> = read.refusals().iter().copied().map(told).collect();
        assert_eq!(refusals, [at(number, 1, column), at(5, 2, 10)], "{front:?} read on");
    }
    for number in 1..=8 {
        assert!(COLUMNS.iter().any(|row| row.1 == number));
    }
}

#[test]
fn refusals_are_errors() {
    fn read(bytes: &[u8]) -> Result<usize, Box<dyn Error + Send + Sync>> {
        let header = Header::parse(bytes)?;
        header.get("KIT").ok_or(Reason::NameNotFound)?;
        Ok(header.len())
    }
    let said = |fronts: &[&str]| read(&cards(fronts)).map_err(|error| error.to_string());
    assert_eq!(said(&["KIT     = 5", "END"]), Ok(1));
    assert_eq!(said(&["END"]), Err(format!("refused 12: {}", Reason::NameNotFound.meaning())));
    assert_eq!(said(&[]), Err(format!("refused 9 at 0: {}", Reason::HeaderLength.meaning())));
    assert_eq!(said(&[""]), Err(format!("refused 10 at 1: {}", Reason::NoEnd.meaning())));
    let fault = decode(&[0x0a, 0x30], Shape { nx: 2, nblock: 32, bits: 8 }, &mut [0; 2]).unwrap_err();
    assert_eq!((fault.refusal().reason(), fault.written()), (Reason::TileEnds, 1));
    assert_eq!((fault.refusal().card(), fault.refusal().column()), (None, None));
    assert_eq!(fault.to_string(), format!("refused 16: {}; pixels written: 1", Reason::TileEnds.meaning()));
    assert_eq!(fault.source().unwrap().to_string(), fault.refusal().to_string());
}
