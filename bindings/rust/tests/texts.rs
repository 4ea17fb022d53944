//! Texts as bytes and as `str`, and decimals as records and as floats.

mod common;

use common::{header, value};
use std::collections::{BTreeMap, HashMap};
use widrekas::{Decimal, Text, Value};

fn text(string: &str) -> Text {
    match value(&format!("'{string}'")) {
        Value::String(text) => text,
        other => panic!("{other:?}"),
    }
}

fn decimal(number: &str) -> Decimal {
    match value(number) {
        Value::Float(decimal) => decimal,
        other => panic!("{number}: {other:?}"),
    }
}

#[test]
fn a_text_shows_its_bytes() {
    let kit = text("FKM-75");
    assert_eq!((kit.as_bytes(), kit.as_ref()), (&b"FKM-75"[..], &b"FKM-75"[..]));
    assert_eq!((kit.as_str(), &kit), ("FKM-75", &text("FKM-75")));
    assert!(kit == "FKM-75" && kit == *"FKM-75" && kit != "FKM" && kit < text("FKM-76"));
    assert_eq!((kit.to_string(), format!("{kit:>8}|{kit:?}")), ("FKM-75".into(), "  FKM-75|\"FKM-75\"".into()));
    assert_eq!(kit.into_bytes(), b"FKM-75");
    assert_eq!(Text::default(), "");
}

#[test]
fn a_text_is_a_str() {
    fn taken(text: impl AsRef<str> + Into<String>) -> (String, String) {
        (text.as_ref().to_string(), text.into())
    }
    let kit = text("FKM-75");
    assert_eq!(taken(kit.clone()), ("FKM-75".into(), "FKM-75".into()));
    assert_eq!((kit.strip_prefix("FKM-"), kit.len(), &*kit), (Some("75"), 6, "FKM-75"));
    assert!("FKM-75" == kit && *"FKM-75" == kit && "FKM" != kit);
    assert_eq!((String::from(kit.clone()), kit.clone().into_string()), ("FKM-75".into(), "FKM-75".into()));
    assert_eq!(
        (HashMap::from([(kit.clone(), 1)]).get("FKM-75"), BTreeMap::from([(kit, 2)]).get("FKM-75")),
        (Some(&1), Some(&2))
    );
    let entry = header(&["KIT     = 'a' /[mm] ring"]).entry("KIT").unwrap();
    assert_eq!((entry.comment.as_deref(), entry.unit().as_deref()), (Some("[mm] ring"), Some("mm")));
}

#[test]
fn control_characters_are_kept_and_escaped_where_asked() {
    let header = header(&["A\nKIT S = 'FAKE'", "B       = what / \u{1b}[2J"]);
    let names: Vec<&str> = header.keywords().map(|name| name.as_str()).collect();
    assert_eq!(names, ["A\nKIT S", "B"]);
    assert_eq!(format!("{:?}", header.keywords().next().unwrap()), r#""A\nKIT S""#);
    let Value::Invalid(text) = header.get("B").unwrap() else { panic!("invalid") };
    assert!(text.starts_with("what / \u{1b}[2J ") && format!("{text:?}").starts_with(r#""what / \x1b[2J "#));
}

#[test]
fn every_accepted_byte_reaches_a_text_as_it_stands() {
    // An undefined card is kept whole, an invalid value with its whole raw text: any byte below 128.
    for byte in 0..128_u8 {
        let front = format!("NO VALUE.{}", char::from(byte));
        match widrekas::Card::read(&common::card(&front)) {
            Ok(widrekas::Card::Undefined(text)) => assert_eq!(text.as_bytes(), common::card(&front)),
            other => panic!("{byte}: {other:?}"),
        }
    }
    // From 128 on a card is refused, wherever the byte stands.
    for (byte, place) in (128..=255).flat_map(|byte| (0..80).map(move |place| (byte, place))) {
        let mut card = common::card("NO VALUE");
        card[place] = byte;
        assert_eq!(widrekas::Card::read(&card).unwrap_err().reason(), widrekas::Reason::HighByte);
    }
}

#[test]
fn records_of_decimals() {
    let record = |number: &str| {
        let d = decimal(number);
        (d.is_negative(), String::from_utf8(d.digits().to_vec()).unwrap(), d.power())
    };
    assert_eq!(record("1.50"), (false, "15".into(), -1));
    assert_eq!(record("-0.0012E+05"), (true, "12".into(), 1));
    assert_eq!(record("-0."), (true, String::new(), 0));
    assert_eq!(record("100.D-2"), (false, "1".into(), 0));
    assert_eq!(record("1E123456"), (false, "1".into(), 99_999));
    assert!(decimal("-inf").is_infinite() && decimal("-inf").is_negative() && !decimal("-inf").is_nan());
    assert!(decimal("+NaN").is_nan() && !decimal("+NaN").is_negative() && !decimal("+NaN").is_infinite());
    assert_eq!(decimal("1.50"), decimal("15E-1"));
    assert_ne!(decimal("0."), decimal("-0."));
}

#[test]
fn decimals_as_they_are_printed() {
    for (number, shown) in
        [("1.5D3", "15e2"), ("-0.0", "-0e0"), ("-.25", "-25e-2"), ("+infinity", "inf"), ("-nan", "-nan")]
    {
        assert_eq!(decimal(number).to_string(), shown);
    }
}

#[test]
fn the_nearest_float() {
    // Ties go to even: 2^53 + 1 lies between two floats, one more digit decides it.
    assert_eq!(decimal("9007199254740993.").to_f64(), 9_007_199_254_740_992.0);
    assert_eq!(decimal("9007199254740993.0000000000000000000000001").to_f64(), 9_007_199_254_740_994.0);
    assert_eq!(decimal("9007199254740995.").to_f64(), 9_007_199_254_740_996.0);
    // The largest float, and the first number that is nearer to infinity.
    assert_eq!(decimal("1.7976931348623157E308").to_f64(), f64::MAX);
    assert_eq!(decimal("1.7976931348623159E308").to_f64(), f64::INFINITY);
    // The smallest float, and the half of it, which goes to zero.
    assert_eq!(decimal("4.9E-324").to_f64(), f64::from_bits(1));
    assert_eq!(decimal("2.4703282292062327E-324").to_f64(), 0.0);
    assert_eq!(decimal("2.4703282292062328E-324").to_f64(), f64::from_bits(1));
    assert_eq!(decimal("-1E999999").to_f64(), f64::NEG_INFINITY);
    assert_eq!(decimal("-1E-999999").to_f64().to_bits(), (-0.0f64).to_bits());
    assert_eq!(decimal("-0.").to_f64().to_bits(), (-0.0f64).to_bits());
    assert_eq!(decimal("+inf").to_f64(), f64::INFINITY);
    assert!(decimal("+nan").to_f64().is_nan() && decimal("-nan").to_f64().is_sign_negative());
    for number in
        ["0.1", "3.14159265358979", "1E23", "6.02214076E23", "123456789.123456789", "-2.2250738585072011E-308"]
    {
        assert_eq!(decimal(number).to_f64().to_string(), number.parse::<f64>().unwrap().to_string());
    }
}
