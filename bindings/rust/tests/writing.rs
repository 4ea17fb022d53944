//! Cards written, by the rules and examples of docs/SPECIFICATION.md, section 16, and values made for it.

mod common;

use common::random::Random;
use common::{card, cards, value};
use widrekas::{write, Decimal, Header, Reason, Text, Value};

/// The cards of a name KIT with a value and a comment, as they must be.
fn is_written<const N: usize>(value: impl Into<Value>, comment: Option<&str>, fronts: [&str; N]) {
    let value = value.into();
    let written = write("KIT", &value, comment).unwrap_or_else(|refusal| panic!("{value:?}: {refusal}"));
    assert_eq!(written.concat(), cards(&fronts), "{value:?}");
    let entry = among(&written, 0).entry("KIT").unwrap();
    assert_eq!((&entry.value, entry.comment.as_deref()), (&value, comment));
}

/// What is refused of a value and a comment.
fn is_refused(value: impl Into<Value>, comment: Option<&str>) {
    let value = value.into();
    let refusal = write("KIT", &value, comment).unwrap_err();
    assert_eq!(
        (refusal.reason(), refusal.card(), refusal.column()),
        (Reason::UnwritableValue, None, None),
        "{value:?}"
    );
}

/// A header with cards in it, each with so much commentary behind it, between other cards.
fn among(written: &[[u8; 80]], commentary: usize) -> Header {
    const BETWEEN: [&str; 6] = ["COMMENT c", "", "HISTORY h", "        b", "KIT     =5", "UNDEFINED"];
    let mut bytes = cards(&["KIT     = 'before&'"]);
    for (number, card) in written.iter().enumerate() {
        bytes.extend(card);
        (0..commentary).for_each(|i| bytes.extend(common::card(BETWEEN[(number + i) % BETWEEN.len()])));
    }
    bytes.extend(cards(&["CONTINUE  'loose'", "OTHER   = 5", "END"]));
    Header::parse(&bytes).unwrap()
}

fn decimal(negative: bool, digits: &str, power: i64) -> Decimal {
    Decimal::finite(negative, digits, power).unwrap()
}

#[test]
fn logicals_and_numbers() {
    is_written(true, None, ["KIT     =                    T"]);
    is_written(false, Some("ring"), ["KIT     =                    F /ring"]);
    is_written(true, Some(""), ["KIT     =                    T /"]);
    is_written(-7, None, ["KIT     =                   -7"]);
    is_written(0, Some(" a / b"), ["KIT     =                    0 / a / b"]);
    is_written(i64::MAX, None, ["KIT     =  9223372036854775807"]);
    is_written(i64::MIN, None, ["KIT     = -9223372036854775808"]);
    is_written(-1.5, None, ["KIT     =               -15E-1"]);
    is_written(0.0, None, ["KIT     =                  0E0"]);
    is_written(-0.0, None, ["KIT     =                 -0E0"]);
    is_written(1500.0, Some("[s]"), ["KIT     =                 15E2 /[s]"]);
    is_written(f64::MAX, None, ["KIT     = 17976931348623157E292"]);
    is_written(f64::from_bits(1), None, ["KIT     =               5E-324"]);
    is_written(decimal(false, "12345678901234567", -1), None, ["KIT     = 12345678901234567E-1"]);
    is_written(decimal(false, "1234567890123456789", 2), None, ["KIT     = 1234567890123456789E2"]);
    is_written(decimal(true, "1", -99_999), None, ["KIT     =            -1E-99999"]);
    let long = "1234567".repeat(9) + "12345";
    is_written(decimal(false, &long, 0), None, [&format!("KIT     = {long}E0")]);
    is_refused(decimal(true, &long, 0), None);
    is_refused(decimal(false, &long, 0), Some(""));
    for value in [Value::from(true), Value::from(i64::MIN), Value::from(0.5)] {
        assert!(write("KIT", &value, Some(&"c".repeat(48))).is_ok());
        is_refused(value, Some(&"c".repeat(49)));
    }
    is_refused(decimal(false, "1", 100_000), None);
    is_refused(decimal(false, "1", i64::MIN), None);
    for odd in [f64::INFINITY, f64::NEG_INFINITY, f64::NAN, -f64::NAN] {
        is_refused(odd, None);
    }
}

#[test]
fn strings_over_one_card_and_several() {
    let x = |times: usize| "x".repeat(times);
    is_written("", None, ["KIT     = ''"]);
    is_written(" ", None, ["KIT     = ' '"]);
    is_written("O'RING", Some("ring"), ["KIT     = 'O''RING' /ring"]);
    is_written("  a", Some(""), ["KIT     = '  a' /"]);
    is_written(String::from("a & b"), None, ["KIT     = 'a & b'"]);
    is_written(Text::from("a"), None, ["KIT     = 'a'"]);
    is_written(x(68), None, [&format!("KIT     = '{}'", x(68))]);
    is_written(x(69), None, [&format!("KIT     = '{}&'", x(67)), "CONTINUE  'xx'"]);
    is_written(x(66), Some(""), [&format!("KIT     = '{}' /", x(66))]);
    is_written(x(67), Some(""), [&format!("KIT     = '{}&'", x(67)), "CONTINUE  '' /"]);
    is_written(x(66) + "'y", None, [&format!("KIT     = '{}&'", x(66)), "CONTINUE  '''y'"]);
    is_written(x(65) + "'yz", None, [&format!("KIT     = '{}''&'", x(65)), "CONTINUE  'yz'"]);
    is_written(x(66) + "& y", None, [&format!("KIT     = '{}&&'", x(66)), "CONTINUE  ' y'"]);
    let comment = "c".repeat(65);
    is_written("a", Some(&comment), [&format!("KIT     = 'a' /{comment}")]);
    is_written("ab", Some(&comment), ["KIT     = 'ab&'", &format!("CONTINUE  '' /{comment}")]);
    let first = format!("KIT     = '{}&'", x(67));
    let next = format!("CONTINUE  '{}&'", x(67));
    is_written(x(144), Some(" ring"), [&first, &next, "CONTINUE  'xxxxxxxxxx' / ring"]);
    // The longest string of the bytes that take the most room.
    let quotes = "'".repeat(2000);
    let written = write("KIT", &quotes.as_str().into(), Some(&comment)).unwrap();
    assert_eq!(
        (written.len(), written[60], written[61]),
        (62, card(&format!("CONTINUE  '{}&'", "'".repeat(40))), card(&format!("CONTINUE  '' /{comment}")))
    );
    assert!(written[1..60].iter().all(|one| *one == card(&format!("CONTINUE  '{}&'", "'".repeat(66)))));
    assert_eq!(among(&written, 2).get("KIT").unwrap().as_str(), Some(&*quotes));

    for odd in ["a ", "  ", "a&", "&", " &", "\n", "a\tb", "\u{7f}", "FKM \u{b0}C", "\0"] {
        is_refused(odd, None);
    }
    is_refused("x".repeat(2001), None);
    is_refused("", Some(&"c".repeat(66)));
    for odd in [" ", "a ", "\n", "20 \u{b0}C", "\u{7f}"] {
        is_refused("a", Some(odd));
        is_refused(true, Some(odd));
    }
    is_refused(Value::Undefined, None);
    is_refused(value("what"), None);
    is_refused(value("'a'").clone(), Some("c "));
}

#[test]
fn names() {
    for name in ["A", "0", "-", "_", "END1", "DATE-OBS", "COMMENTS", "ABCDEFGH"] {
        let written = write(name, &12.into(), None).unwrap();
        assert_eq!(written, [card(&format!("{name:8}=                   12"))]);
        assert_eq!(among(&written, 1).get(name).unwrap(), Value::Integer(12));
    }
    for name in [
        "",
        "COMMENT",
        "HISTORY",
        "END",
        "CONTINUE",
        "XTENSION",
        "HIERARCH",
        "ABCDEFGHI",
        "kit",
        "KIT ",
        "A B",
        "A.B",
        "\u{c4}",
    ] {
        // The name is tested before the value.
        for value in [Value::from(true), Value::Undefined] {
            let refusal = write(name, &value, Some(" ")).unwrap_err();
            assert_eq!((refusal.reason(), refusal.number()), (Reason::UnwritableName, 19), "{name:?}");
            assert_eq!(refusal.to_string(), format!("refused 19: {}", Reason::UnwritableName.meaning()));
        }
    }
    assert_eq!(write(b"KIT\xff", &true.into(), None).unwrap_err().reason(), Reason::UnwritableName);
    assert_eq!(write(Text::from("KIT"), &true.into(), None).unwrap().len(), 1);
}

#[test]
fn floats_become_the_shortest_decimal() {
    for (float, shown) in [
        (0.1, "1e-1"),
        (1e23, "1e23"),
        (100.0, "1e2"),
        (123.456, "123456e-3"),
        (-6.02214076e23, "-602214076e15"),
        (0.3, "3e-1"),
        (0.1 + 0.2, "30000000000000004e-17"),
        (9_007_199_254_740_993.0, "9007199254740992e0"),
        (f64::MIN_POSITIVE, "22250738585072014e-324"),
        (-0.0, "-0e0"),
        (f64::INFINITY, "inf"),
        (f64::NEG_INFINITY, "-inf"),
        (f64::NAN.copysign(1.0), "nan"),
        (f64::NAN.copysign(-1.0), "-nan"),
    ] {
        assert_eq!(Decimal::from(float).to_string(), shown);
        assert_eq!(Value::from(float), Value::Float(Decimal::from(float)));
    }
    let mut random = Random(20_261_116);
    for _ in 0..20_000 {
        let float = f64::from_bits((random.below(1 << 32) as u64) << 32 | random.below(1 << 32) as u64);
        let decimal = Decimal::from(float);
        assert_eq!(decimal.is_nan(), float.is_nan());
        if float.is_finite() {
            assert_eq!(decimal.to_f64().to_bits(), float.to_bits());
            let entry = among(&write("KIT", &float.into(), None).unwrap(), 1).entry("KIT").unwrap();
            assert_eq!(entry.value.as_f64().map(f64::to_bits), Some(float.to_bits()), "{float:e}");
        }
    }
}

#[test]
fn decimals_that_a_program_makes_are_those_that_are_read() {
    let mut random = Random(20_261_117);
    for _ in 0..5_000 {
        let digits: String = (0..1 + random.below(30)).map(|_| random.pick(&['0', '0', '1', '5', '9'])).collect();
        let power = random.below(400) as i64 - 200;
        let minus = if random.below(2) == 0 { "-" } else { "" };
        let read = value(&format!("{minus}{digits}E{power}"));
        assert_eq!(
            Decimal::finite(minus == "-", &digits, power).map(Value::from),
            Some(read),
            "{minus}{digits}E{power}"
        );
    }
    for odd in ["-1", "+1", "1.5", " 1", "1e5", "a", "\u{661}"] {
        assert_eq!(Decimal::finite(false, odd, 0), None);
    }
    assert_eq!(Decimal::finite(false, "10", i64::MAX), None);
    assert_eq!(Decimal::finite(false, "1", i64::MAX).unwrap().power(), i64::MAX);
    assert_eq!(Decimal::finite(true, "00", i64::MIN).unwrap().to_string(), "-0e0");
}

#[test]
fn texts_that_a_program_makes() {
    let text = Text::from("20 \u{b0}C");
    assert_eq!((text.as_str(), text.len(), &*format!("{text:?}")), ("20 \u{b0}C", 6, r#""20 \xc2\xb0C""#));
    assert_eq!(Text::from(String::from("a")), "a");
    assert_eq!([Value::from("a"), Value::from(String::from("a"))], [value("'a'"), Value::from(Text::from("a"))]);
    assert_eq!(
        [Value::from(7), 8.into(), Value::from(true)],
        [Value::Integer(7), Value::Integer(8), Value::Logical(true)]
    );
}

/// A value that may be written, and sometimes one that may not.
fn some_value(random: &mut Random) -> Value {
    match random.below(8) {
        0 => Value::from(random.below(2) == 0),
        1 => Value::from((random.below(1 << 40) as i64 - (1 << 39)) >> random.below(40)),
        2 => {
            Value::from(decimal(random.below(2) == 0, &random.below(1 << 40).to_string(), random.below(99) as i64 - 49))
        }
        3 => random.pick(&[Value::Undefined, Value::from(f64::NAN)].each_ref()).clone(),
        _ => {
            let length = random.pick(&[1, 8, 60, 75, 140, 2000]);
            let bytes = (0..random.below(length)).map(|_| random.pick(&['x', 'y', '\'', ' ', '&', '/', '-']));
            Value::from(bytes.collect::<String>())
        }
    }
}

#[test]
fn what_is_written_at_random_reads_back() {
    let (mut random, mut written, mut refused) = (Random(20_261_118), 0, 0);
    for _ in 0..5_000 {
        let value = some_value(&mut random);
        let comment: String = (0..random.below(50)).map(|_| random.pick(&['[', ']', 'm', ' ', '\'', '/'])).collect();
        let comment = (random.below(3) > 0).then_some(&*comment);
        match write("KIT", &value, comment) {
            Ok(all) => {
                let header = among(&all, random.below(3));
                let entry = header.entry("KIT").unwrap();
                assert_eq!((&entry.value, entry.comment.as_deref()), (&value, comment));
                assert_eq!(header.get("OTHER").unwrap(), Value::Integer(5));
                assert!((1..=62).contains(&all.len()));
                written += 1;
            }
            Err(refusal) => {
                assert_eq!(refusal.reason(), Reason::UnwritableValue);
                refused += 1;
            }
        }
    }
    assert!(written > 1_000 && refused > 1_000, "{written} written, {refused} refused");
}
