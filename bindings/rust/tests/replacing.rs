//! Headers with another value of one name: the conditions of docs/SPECIFICATION.md, section 16.6, each with its header, and what stays.

mod common;

use common::random::Random;
use common::{card, cards, header};
use std::error::Error;
use std::time::{Duration, Instant};
use widrekas::{write, Card, Header, NotReplaced, Reason, Value};

/// A string that takes two cards, and those of a name K.
const CODE: &str = "123456789012345678901234567890123456789012345678901234567890123456789";
const FIRST: &str = "K       = '1234567890123456789012345678901234567890123456789012345678901234567&'";
const SECOND: &str = "CONTINUE  '89'";

/// The header with K's string replaced by `CODE`.
fn replaced(fronts: &[&str]) -> Result<Vec<u8>, NotReplaced> {
    header(fronts).replaced("K", &CODE.into(), None)
}

/// The cards and END.
fn with_end(fronts: &[&str]) -> Vec<u8> {
    [cards(fronts), card("END").to_vec()].concat()
}

/// The string of a name.
fn string(header: &Header, name: &str) -> String {
    header.get(name).unwrap().as_str().unwrap().to_string()
}

#[test]
fn the_two_cards_are_those() {
    assert_eq!(write("K", &CODE.into(), None).unwrap(), [card(FIRST), card(SECOND)]);
}

#[test]
fn new_cards_stand_in_the_places_of_the_old_ones() {
    // Over the cards of one entry, with commentary of every kind between.
    let between = ["COMMENT c", "HISTORY h", "", "        b", "K       =5", "K"];
    for commentary in between {
        let old = ["X       = 'b&'", "K       = 'a&'", commentary, "CONTINUE  'c'", "Y       = 1"];
        let new = ["X       = 'b&'", FIRST, commentary, SECOND, "Y       = 1"];
        assert_eq!(replaced(&old), Ok(with_end(&new)), "{commentary:?}");
    }
    // Over two entries, of which one is a HIERARCH card's; and where a loose CONTINUE card stands before and behind.
    let old = ["CONTINUE  'x'", "HIERARCH K = 'a'", "K       = 5 / c", "CONTINUE  'y'", "XTENSION= 'z&'"];
    let new = ["CONTINUE  'x'", FIRST, SECOND, "CONTINUE  'y'", "XTENSION= 'z&'"];
    assert_eq!(replaced(&old), Ok(with_end(&new)));
    // The empty piece that a joined string may end in belongs to it.
    let old = ["K       = 'a&'", "CONTINUE  ''", "CONTINUE  'loose'"];
    assert_eq!(replaced(&old), Ok(with_end(&[FIRST, SECOND, "CONTINUE  'loose'"])));
    // A string that stays open to END.
    assert_eq!(replaced(&["K       = 'a&'", "CONTINUE  'b&'"]), Ok(with_end(&[FIRST, SECOND])));
    // An open string of another name before, which takes none of the new cards.
    let new = replaced(&["X       = 'b&'", "K       = 'a&'", "CONTINUE  'c'"]).unwrap();
    let new = Header::parse(&new).unwrap();
    assert_eq!((string(&new, "X"), string(&new, "K")), ("b&".to_string(), CODE.to_string()));
    // One card, whatever it held: each kind, an undefined and an invalid value too.
    for old in ["5", "1.5 / c", "T", "'a'", "'a&'", "", "what"] {
        let bytes = header(&[&format!("K       = {old}")]).replaced("K", &false.into(), Some("c")).unwrap();
        assert_eq!(bytes, with_end(&["K       =                    F /c"]));
    }
    // END stays as it is written, and what stood behind it is not kept.
    let bytes = cards(&["K       = 1", "  END   x", "K       = 2"]);
    let new = Header::parse(&bytes).unwrap().replaced("K", &3.into(), None).unwrap();
    assert_eq!(new, cards(&["K       =                    3", "  END   x"]));
}

#[test]
fn a_card_between_is_told() {
    let between = |fronts: &[&str]| replaced(fronts).unwrap_err();
    for (card, other, by_hand) in [
        // Where it is done by hand, another name swallows K's tail, or K loses it or gets one that is not its own.
        ("X       = 'b&'", "X", "b89"),
        ("HIERARCH X = 'b&'", "X", "b89"),
        ("XTENSION= 'b'", "K", "1234567890123456789012345678901234567890123456789012345678901234567&"),
        ("X       = 5", "K", "1234567890123456789012345678901234567890123456789012345678901234567&"),
    ] {
        assert_eq!(between(&["K       = 'a&'", card, "K       = 'c'"]), NotReplaced::Between { card: 1 });
        assert_eq!(string(&header(&[FIRST, card, SECOND]), other), by_hand);
    }
    assert_eq!(between(&["K       = 'a'", "CONTINUE  'c'", "K       = 'a'"]), NotReplaced::Between { card: 1 });
    let by_hand = header(&[FIRST, "CONTINUE  'c'", SECOND]);
    assert_eq!(string(&by_hand, "K"), "1234567890123456789012345678901234567890123456789012345678901234567c");
    // The first such card, behind commentary; a CONTINUE card of another name is one too.
    let fronts = ["COMMENT", "K       = 1", "COMMENT", "X       = 'a&'", "CONTINUE  'b'", "K       = 2"];
    assert_eq!(between(&fronts), NotReplaced::Between { card: 3 });
    assert!(replaced(&["X       = 'a&'", "CONTINUE  'b'", "K       = 1", "", "K       = 2", "Y       = 1"]).is_ok());
}

#[test]
fn another_number_of_cards_is_told() {
    assert_eq!(replaced(&["K       = 'a'"]), Err(NotReplaced::OtherCount { old: 1, new: 2 }));
    let three = ["K       = 'a&'", "K       = 'a&'", "CONTINUE  'b'"];
    assert_eq!(replaced(&three), Err(NotReplaced::OtherCount { old: 3, new: 2 }));
    // All entries of the name count, so that no later one is left.
    let twice = header(&["K       = 'a'", "K       = 'b'"]);
    assert_eq!(twice.replaced("K", &"c".into(), None), Err(NotReplaced::OtherCount { old: 2, new: 1 }));
    // The count is told before a card between.
    let between = header(&["K       = 'a'", "X       = 1", "K       = 'b'"]);
    assert_eq!(between.replaced("K", &"c".into(), None), Err(NotReplaced::OtherCount { old: 2, new: 1 }));
    // A CONTINUE card behind a closed string is not the name's.
    let loose = header(&["K       = 'a'", "CONTINUE  'b'"]);
    let new = loose.replaced("K", &"c".into(), None);
    assert_eq!(new, Ok(with_end(&["K       = 'c'", "CONTINUE  'b'"])));
}

#[test]
fn a_name_that_no_card_bears_is_told() {
    for fronts in [&["X       = 1"][..], &[], &["COMMENT K = 1"], &["K       =5"], &["KK      = 1"], &["k       = 1"]] {
        assert_eq!(replaced(fronts), Err(NotReplaced::NoCard));
    }
    // A card behind END is not looked at.
    let header = Header::parse(&cards(&["END", "K       = 1"])).unwrap();
    assert_eq!(header.replaced("K", &1.into(), None), Err(NotReplaced::NoCard));
}

#[test]
fn what_cannot_be_written_is_told_first() {
    let header = header(&["K       = 1", "XTENSION= 'a'", "HIERARCH A B = 1"]);
    let reason = |name: &str, value: Value, comment| match header.replaced(name, &value, comment) {
        Err(NotReplaced::Refused(refusal)) => refusal.reason(),
        other => panic!("{other:?}"),
    };
    for name in ["XTENSION", "A.B", "END", "", "k"] {
        assert_eq!(reason(name, Value::Undefined, None), Reason::UnwritableName);
    }
    assert_eq!(reason("NONE", Value::Undefined, None), Reason::UnwritableValue);
    assert_eq!(reason("K", f64::NAN.into(), None), Reason::UnwritableValue);
    assert_eq!(reason("K", true.into(), Some("c ")), Reason::UnwritableValue);
}

#[test]
fn errors_say_why() {
    let header = header(&["K       = 1", "X       = 1", "K       = 2"]);
    let said = |name: &str, value: Value| header.replaced(name, &value, None).unwrap_err().to_string();
    let words = Reason::UnwritableValue.meaning();
    assert_eq!(said("K", Value::Undefined), format!("refused 20: {words}"));
    assert_eq!(said("NONE", true.into()), "not replaced: no card bears the name");
    assert_eq!(said("K", true.into()), "not replaced: cards of the name: 2, cards to be written: 1");
    let between = "not replaced: card 1 stands between the name's cards and is neither its own nor commentary";
    assert_eq!(said("K", CODE.into()), between);
    let refused = header.replaced("K", &Value::Undefined, None).unwrap_err();
    assert_eq!(refused.source().unwrap().to_string(), refused.to_string());
    assert!(header.replaced("K", &true.into(), None).unwrap_err().source().is_none());
    let boxed: Box<dyn Error + Send + Sync> = refused.into();
    assert!(boxed.downcast_ref::<NotReplaced>().is_some_and(|error| matches!(error, NotReplaced::Refused(_))));
}

#[test]
fn a_kit_is_replaced_by_one_that_is_nearly_the_same() {
    let old = format!("FKM-75-{}-0001", "A2.".repeat(40));
    let fronts = [
        "SIMPLE  =                    T",
        "KITS    = 'FKM-75-&'",
        "CONTINUE  'A2' / of all",
        "KI      = 'FKM-75'",
        "HIERARCH KIT A = 'FKM-75'",
        "COMMENT KIT     = 'FKM-75'",
    ];
    let mut bytes = cards(&fronts);
    let kit = write("KIT", &old.as_str().into(), Some(" ring")).unwrap();
    assert_eq!(kit.len(), 3);
    bytes.extend(kit[0]);
    bytes.extend(card("COMMENT between"));
    bytes.extend(kit[1..].concat());
    bytes.extend(cards(&["KITT    = 'FKM-75'", "CONTINUE  'KIT'", "END"]));
    let header = Header::parse(&bytes).unwrap();
    assert_eq!(string(&header, "KIT"), old);

    for new in [old.replacen("75", "80", 1), old.replace("0001", "0002"), old.replace("A2", "B2")] {
        let changed = header.replaced("KIT", &new.as_str().into(), Some(" ring")).unwrap();
        assert_eq!(changed.len(), bytes.len());
        let changed = Header::parse(&changed).unwrap();
        assert_eq!(string(&changed, "KIT"), new);
        assert_eq!(changed.comment("KIT").as_deref(), Some(" ring"));
        assert!(changed.keywords().eq(header.keywords()));
        for ((name, entry), before) in changed.entries().zip(header.entries()) {
            assert!(name == "KIT" || (name, entry) == before);
        }
        // And back again: the same bytes.
        assert_eq!(changed.replaced("KIT", &old.as_str().into(), Some(" ring")).as_deref(), Ok(&bytes[..]));
    }
    // A quote takes two bytes, so a text of the same length with quotes takes a card more.
    let quotes = Value::from(old.replace("A2", "''"));
    let told = header.replaced("KIT", &quotes, Some(" ring"));
    assert_eq!(told, Err(NotReplaced::OtherCount { old: 3, new: 4 }));
}

/// Cards that meet: open strings, loose CONTINUE cards, commentary, equal names.
const CARDS: [&str; 18] = [
    "K       = 'a&'",
    "K       = 'a &' / c",
    "CONTINUE  'b&'",
    "CONTINUE  'b' / d",
    "CONTINUE  ''",
    "CONTINUE  ' & '",
    "COMMENT c",
    "",
    "K       =1",
    "K       = 5",
    "HIERARCH K = 'h&'",
    "X       = 'x&'",
    "X       = 'y'",
    "HIERARCH X Y = 'z&' / c",
    "XTENSION= 'w&'",
    "K       = what",
    "Y       = 1.5",
    "CONTINUE  unquoted",
];

#[test]
fn every_other_name_answers_as_before() {
    let (mut random, mut done, mut told) = (Random(20_261_116), 0, [0; 3]);
    for _ in 0..20_000 {
        let fronts: Vec<&str> = (0..random.below(9)).map(|_| random.pick(&CARDS)).collect();
        let header = header(&fronts);
        let value = match random.below(4) {
            0 => Value::from(random.below(2) == 0),
            1 => Value::from("'".repeat(random.below(120))),
            _ => Value::from("xy".repeat(random.below(120))),
        };
        let comment = random.pick(&[None, Some("c"), Some("")]);
        let name = random.pick(&["K", "X"]);
        match header.replaced(name, &value, comment) {
            Ok(bytes) => {
                let new = Header::parse(&bytes).unwrap();
                assert_eq!((bytes.len(), new.as_bytes()), (header.as_bytes().len(), &bytes[..]));
                let entry = new.entry(name).unwrap();
                assert_eq!((&entry.value, entry.comment.as_deref()), (&value, comment));
                assert!(new.keywords().eq(header.keywords()), "{fronts:?}");
                for ((other, entry), before) in new.entries().zip(header.entries()) {
                    assert!(*other == name || entry == before.1, "{other} in {fronts:?}");
                }
                done += 1;
            }
            Err(NotReplaced::NoCard) => {
                assert_eq!(header.get(name), None);
                told[0] += 1;
            }
            Err(NotReplaced::OtherCount { old, new }) => {
                assert!(old != new && new == write(name, &value, comment).unwrap().len());
                told[1] += 1;
            }
            Err(NotReplaced::Between { card }) => {
                let between = header.cards().nth(card).unwrap();
                assert!(!matches!(between, Card::Comment(_) | Card::Space | Card::Undefined(_)), "{fronts:?}");
                told[2] += 1;
            }
            Err(error) => panic!("{error} in {fronts:?}"),
        }
    }
    assert!(done > 2_000 && told.iter().all(|&times| times > 200), "{done} replaced, {told:?} not");
}

#[test]
fn the_longest_string_of_a_header_is_gone_through_in_little_time() {
    // A text that grows by every card, and one that is cut at every second.
    for (more, less) in [
        ("CONTINUE  'abcdefghijklmnopqrstuvwxyzabcdefghijklmnopqrstuvwxyz&'", ""),
        ("CONTINUE  '    &&&'", "CONTINUE  ''"),
    ] {
        let mut fronts = vec!["K       = 'a&'"];
        (1..719).for_each(|number| fronts.push(if number % 2 == 0 && !less.is_empty() { less } else { more }));
        let header = header(&fronts);
        let start = Instant::now();
        for _ in 0..20 {
            assert!(matches!(header.replaced("K", &true.into(), None), Err(NotReplaced::OtherCount { new: 1, .. })));
        }
        assert!(start.elapsed() < Duration::from_secs(2), "{:?}", start.elapsed());
    }
}
