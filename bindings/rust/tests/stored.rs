//! The stored headers of `crates/replay_headers`, whose expected lines are the oracle's (oracle/README.md).

use std::fs;
use std::path::Path;
use widrekas::{Entry, Header, Text, Value};

fn stored(name: &str) -> Vec<u8> {
    let path = Path::new(env!("CARGO_MANIFEST_DIR")).join("../../crates/replay_headers").join(name);
    fs::read(&path).unwrap_or_else(|why| panic!("{}: {why}", path.display()))
}

/// The next stored header: the number of its cards in two bytes, then for each a length and so many bytes, which spaces fill to 80.
fn next(stored: &mut &[u8]) -> Option<Vec<u8>> {
    let (count, mut rest) = stored.split_first_chunk::<2>()?;
    let mut bytes = Vec::new();
    for _ in 0..u16::from_be_bytes(*count) {
        let (&length, front) = rest.split_first()?;
        let (front, behind) = front.split_at(usize::from(length));
        let end = bytes.len() + 80;
        bytes.extend(front);
        bytes.resize(end, b' ');
        rest = behind;
    }
    *stored = rest;
    Some(bytes)
}

/// The letter of a value's kind.
fn letter(value: &Value) -> char {
    match value {
        Value::Integer(_) => 'I',
        Value::Float(_) => 'D',
        Value::Logical(_) => 'L',
        Value::String(_) => 'S',
        Value::Undefined => 'U',
        Value::Invalid(_) => 'X',
    }
}

/// Bytes in double quotes: those outside 32..126, a double quote and a backslash as \xNN.
fn quoted(bytes: &[u8]) -> String {
    let byte = |&b: &u8| match b {
        b'"' | b'\\' | 0..=31 | 127.. => format!("\\x{b:02x}"),
        _ => char::from(b).to_string(),
    };
    format!("\"{}\"", bytes.iter().map(byte).collect::<String>())
}

/// The line behind an entry's line: comment, unit by both readings, and the digits and power of a finite decimal.
fn more(entry: &Entry) -> String {
    let some = |text: Option<&Text>| text.map_or("none".to_string(), |t| quoted(t.as_bytes()));
    let record = match &entry.value {
        Value::Float(d) if !d.is_infinite() && !d.is_nan() => {
            format!(" digits {} power {}", quoted(d.digits()), d.power())
        }
        _ => String::new(),
    };
    let (unit, past) = (some(entry.unit_as_fitsrs().as_ref()), some(entry.unit().as_ref()));
    format!(" comment {} unit {unit} past {past}{record}\n", some(entry.comment.as_ref()))
}

/// What `crates/replay_headers` prints of a header.
fn lines(bytes: &[u8]) -> String {
    let header = match Header::parse(bytes) {
        Ok(header) => header,
        Err(refusal) => {
            let column = refusal.column().map_or(String::new(), |column| format!(":{column}"));
            return format!("refused {} at {}{column}\n", refusal.number(), refusal.card().unwrap());
        }
    };
    let mut all = String::new();
    for (name, entry) in header.entries() {
        let reading = entry.value.to_string();
        let space = if reading.is_empty() { "" } else { " " };
        let times = match header.count(name) {
            1 => String::new(),
            times => format!(" x{times}"),
        };
        all += &format!("{name} {}{space}{reading}{times}\n{}", letter(&entry.value), more(&entry));
        assert_eq!((header.get(name).as_ref(), header.comment(name)), (Some(&entry.value), entry.comment));
    }
    all + &format!("{} keywords\n", header.len())
}

#[test]
fn stored_headers_are_read_as_by_the_published_rust() {
    let (headers, expected) = (stored("stdin"), stored("stdout"));
    let (mut left, mut expected, mut many) = (&headers[..], &expected[..], 0);
    while let Some(bytes) = next(&mut left) {
        let said = lines(&bytes);
        let Some(rest) = expected.strip_prefix(said.as_bytes()) else {
            panic!("header {many}: {said:?}, expected {}", expected[..200.min(expected.len())].escape_ascii());
        };
        expected = rest;
        many += 1;
    }
    assert!(left.is_empty() && expected.is_empty() && many > 3_000, "{many} headers");
}
