//! The calls of docs/MIGRATING.md, both sides run on one header and held to each other.

use crate::theirs;
use fitsrs::card::{Card, Value};
use fitsrs::hdu::header::extension::{image::Image, Xtension};
use widrekas::{tile, Header, Reason, Refusal};

const CARDS: [&str; 13] = [
    "SIMPLE  =                    T / a FITS file",
    "BITPIX  =                    8",
    "NAXIS   =                    0",
    "KIT     = 'FKM-&'",
    "CONTINUE  '75' /[mm] ring",
    "DEPTH   =               1.5D-3 /[mm] groove",
    "COOLED  =                    F",
    "EMPTY   =",
    "ODD     = what",
    "HIERARCH BENCH NO = 7",
    "COOLED  =                    T / again",
    "HISTORY  rebuilt",
    "END",
];

fn string(value: &Value) -> Option<&str> {
    match value {
        Value::String { value, .. } => Some(value),
        _ => None,
    }
}

/// Headers.
fn headers() {
    let bytes: Vec<u8> = CARDS.iter().flat_map(|card| format!("{card:80}").into_bytes()).collect();
    let old = theirs::header(&bytes);
    let new = Header::parse_file(&bytes).expect("the header");

    let kit: Option<&Value> = old.get("KIT");
    let entry = new.entry("KIT");
    assert_eq!(kit.and_then(string), entry.as_ref().and_then(|e| e.value.as_str()));
    assert_eq!(kit.and_then(Value::unit), entry.as_ref().and_then(|e| e.unit_as_fitsrs()).as_deref());
    let comment = match kit {
        Some(Value::String { comment, .. }) => comment.as_deref(),
        _ => None,
    };
    assert_eq!(comment, entry.as_ref().and_then(|e| e.comment.as_deref()));

    let number: Result<i64, _> = old.get_parsed("BITPIX");
    assert_eq!(number.ok(), new.get("BITPIX").and_then(|value| value.as_i64()));
    let depth: Result<f64, _> = old.get_parsed("DEPTH");
    assert_eq!(depth.ok(), new.get("DEPTH").and_then(|value| value.as_f64()));
    let cooled: Result<bool, _> = old.get_parsed("COOLED");
    assert_eq!(cooled.ok(), new.get("COOLED").and_then(|value| value.as_bool()));
    let kit: Result<String, _> = old.get_parsed("KIT");
    assert_eq!(kit.ok(), new.get("KIT").and_then(|value| value.as_str().map(String::from)));
    let none: Result<Option<i64>, _> = old.get_parsed("NONE");
    assert_eq!(none, Ok(new.get("NONE").and_then(|value| value.as_i64())));
    let empty: Result<Option<i64>, _> = old.get_parsed("EMPTY");
    assert_eq!(empty, Ok(new.get("EMPTY").and_then(|value| value.as_i64())));
    // get_parsed gives an invalid text as a string, as_str does not.
    let odd: Result<String, _> = old.get_parsed("ODD");
    let text = match new.get("ODD") {
        Some(widrekas::Value::String(text) | widrekas::Value::Invalid(text)) => Some(String::from(text)),
        _ => None,
    };
    assert_eq!(odd.ok(), text);

    let names: Vec<&str> = old.keywords().map(String::as_str).collect();
    assert_eq!(names, new.keywords().map(|name| name.as_str()).collect::<Vec<_>>());
    assert_eq!((old.iter().count(), old.iter().count()), (new.entries().count(), new.into_iter().count()));
    assert_eq!(old.cards().count(), new.cards().count());
    let bears = |card: &&Card, sought: &str| match card {
        Card::Value { name, .. } | Card::Hierarch { name, .. } => name == sought,
        _ => false,
    };
    for name in names {
        assert_eq!(old.cards().filter(|card| bears(card, name)).count(), new.count(name));
    }
    let lines: Vec<&String> = old.history().collect();
    let history = new.cards().filter_map(|card| match card {
        widrekas::Card::History(text) => Some(text.into_string()),
        _ => None,
    });
    assert!(history.eq(lines.into_iter().cloned()));

    let card: &[u8; 80] = bytes.first_chunk().expect("a card");
    assert!(matches!(Card::try_from(card), Ok(Card::Value { name, .. }) if name == "SIMPLE"));
    assert!(matches!(widrekas::Card::read(card), Ok(widrekas::Card::Value { name, .. }) if name == "SIMPLE"));

    let complex: [u8; 80] = *format!("{:80}", "WCS     = (1.0, 2.0)").as_bytes().first_chunk().expect("a card");
    assert!(Card::try_from(&complex).is_err());
    let refusal = widrekas::Card::read(&complex).expect_err("a complex number");
    assert_eq!((refusal.reason(), refusal.number()), (Reason::Complex, 5));
    assert_eq!((refusal.card(), refusal.column()), (None, Some(10)));
    assert_eq!(refusal.to_string(), format!("refused 5 at byte 10: {}", refusal.meaning()));

    // The six kinds of values.
    for ((name, value), (other, entry)) in old.iter().zip(new.entries()) {
        let same = match (value, &entry.value) {
            (Value::Integer { value, .. }, widrekas::Value::Integer(other)) => value == other,
            (Value::Float { value, .. }, widrekas::Value::Float(decimal)) => *value == decimal.to_f64(),
            (Value::Logical { value, .. }, widrekas::Value::Logical(other)) => value == other,
            (Value::String { value, .. }, widrekas::Value::String(text)) => text == value.as_str(),
            (Value::Undefined, widrekas::Value::Undefined) => true,
            (Value::Invalid(value), widrekas::Value::Invalid(text)) => text == value.as_str(),
            _ => false,
        };
        assert!(other == name && same, "{name}: {value:?}, {entry:?}");
    }

    let found = old.get("KIT").and_then(|value| old.get_keyword(value));
    let name = new.entries().find(|(_, e)| e.value.as_str() == Some("FKM-75")).map(|(name, _)| name.to_string());
    assert_eq!(found, name.as_deref());
}

/// A header of cards, a tilde standing for the degree sign of Latin-1.
fn damaged(cards: &[&str]) -> Vec<u8> {
    let bytes = cards.iter().flat_map(|card| format!("{card:80}").into_bytes());
    bytes.map(|byte| if byte == b'~' { 0xb0 } else { byte }).collect()
}

/// Headers with cards that are refused: where our side answers, fitsrs' file reader answers alike.
fn refused_cards() {
    let bytes = damaged(&[
        "SIZE    = 12",
        "KIT     = 'FKM-&'",
        "WCS     = (1.0, 2.0)",
        "CONTINUE  '75&'",
        "NOTE    = 'not closed",
        "CONTINUE  ' ring' / joined",
        "TEMP    =                -20.5 /[K] in ~C",
        "SEAL    = 'NBR-&'",
        "CONTINUE  '70'",
        "END",
    ]);
    let (old, _) = theirs::read_on(&bytes);
    let new = Header::read_on(&bytes).expect("the rest is read");
    let told = |refusal: &Refusal| (refusal.reason(), refusal.card(), refusal.column());
    let refused = |reason: Reason, card: usize, column: usize| (reason, Some(card), Some(column));
    let cards =
        [refused(Reason::Complex, 2, 10), refused(Reason::StringNotClosed, 4, 10), refused(Reason::HighByte, 6, 39)];
    assert_eq!(new.refusals().iter().map(told).collect::<Vec<_>>(), cards);
    assert_eq!(old.get("KIT").and_then(string), Some("FKM-75 ring"));
    for touched in ["KIT", "WCS", "NOTE", "TEMP"] {
        assert!(new.get(touched).is_err(), "{touched}");
    }
    let entry = |name: &str| new.entry(name).expect("a name that nothing touches");
    assert_eq!(entry("SIZE").and_then(|e| e.value.as_i64()), old.get_parsed("SIZE").ok());
    assert_eq!(entry("SEAL").as_ref().and_then(|e| e.value.as_str()), old.get("SEAL").and_then(string));
    assert_eq!((entry("NONE"), old.get("NONE").is_none()), (None, true));

    // The guide's own header.
    let bytes = damaged(&["SIZE    = 12", "KIT     = 'FKM-&'", "CONTINUE  '75-&", "CONTINUE  'A2'", "END"]);
    let (old, _) = theirs::read_on(&bytes);
    assert_eq!(old.get("KIT").and_then(string), Some("FKM-A2"));
    let new = Header::read_on(&bytes).expect("the rest is read");
    let refusal = new.get("KIT").expect_err("a damaged string");
    assert_eq!(told(&refusal), refused(Reason::StringNotClosed, 2, 10));
}

/// The bytes of a header's data, as the guide finds them.
fn data_length(header: &Header) -> Option<usize> {
    let number = |name: &str| header.get(name).and_then(|value| value.as_i64());
    let size = |name: &str| usize::try_from(number(name)?).ok();
    let bytes = usize::try_from(number("BITPIX")?.unsigned_abs() / 8).ok()?;
    let axes = size("NAXIS")?;
    if axes == 0 {
        return Some(0);
    }
    let pixels = (1..=axes).try_fold(1_usize, |all, axis| all.checked_mul(size(&format!("NAXIS{axis}"))?))?;
    let (groups, behind) = (size("GCOUNT").unwrap_or(1), size("PCOUNT").unwrap_or(0));
    pixels.checked_add(behind)?.checked_mul(groups)?.checked_mul(bytes)
}

/// Where the data of an image end: fitsrs' image has as many bytes of data.
fn data() {
    for bits in [8, 16, 32, 64, -32, -64] {
        for axes in [&[][..], &[7], &[300, 20], &[2, 3, 5], &[5, 0]] {
            let mut cards =
                vec!["SIMPLE  = T".to_string(), format!("BITPIX  = {bits}"), format!("NAXIS   = {}", axes.len())];
            cards.extend(axes.iter().enumerate().map(|(at, size)| format!("NAXIS{:<3}= {size}", at + 1)));
            cards.push("END".to_string());
            let bytes: Vec<u8> = cards.iter().flat_map(|card| format!("{card:80}").into_bytes()).collect();
            let (old, new) = (theirs::header(&bytes), Header::parse(&bytes).expect("the header"));
            let image = Image::parse(&old).expect("an image");
            assert_eq!(data_length(&new).map(|length| length as u64), Some(image.get_num_bytes_data_block()));
            assert_eq!((new.end(), new.data_start()), (cards.len() - 1, 2880));
        }
    }
}

/// Tiles.
fn tiles() {
    // Start value 10, an FS field of 1, then the differences 0, -1, 1 and 0.
    let bytes = [0, 10, 0x1a, 0x60];
    let (nx, nblock, bits) = (4, 32, 16);
    let mut raw = [0; 8];
    theirs::decode(&bytes, nblock, bits, &mut raw);
    let mut pixels = [0; 4];
    let used = tile::decode(&bytes, tile::Shape { nx, nblock, bits }, &mut pixels);
    let old: Vec<i32> = raw.chunks_exact(2).map(|c| i32::from(i16::from_ne_bytes([c[0], c[1]]))).collect();
    let mut stepped = [0; 4];
    let mut tile = tile::Tile::open(&bytes, tile::Shape { nx, nblock, bits }).expect("the tile");
    while tile.step(&mut stepped).expect("a block").is_some() {}
    assert!(stepped == pixels && tile.cursor().bit == 27);
    assert!(used == Ok(27) && old == [10, 9, 10, 10] && old == pixels, "{used:?} {old:?} {pixels:?}");
}

/// Stops the program where the two sides answer differently.
pub fn check() {
    headers();
    refused_cards();
    data();
    tiles();
}
