//! Headers, by the examples and the edge table of docs/SPECIFICATION.md and by its rules.

mod common;

use common::{at, card, cards, entry, header, of_header, refused, told, value};
use widrekas::{Card, Header, Reason, Value, LONGEST};

#[test]
fn the_example_of_the_specification() {
    let header = header(&["SIZE    = 12", "KIT     = 'FKM-&'", "CONTINUE  '75' / ring"]);
    let lines: Vec<String> = header.entries().map(|(name, entry)| format!("{name} {}", entry.value)).collect();
    assert_eq!(lines, ["SIZE 12", "KIT FKM-75"]);
    assert_eq!((header.len(), header.is_empty()), (2, false));
    let kit = header.entry("KIT").unwrap();
    assert_eq!(kit.value.as_str(), Some("FKM-75"));
    assert_eq!(kit.comment.unwrap(), " ring");
    assert_eq!(header.comment("SIZE"), None);
    let shown = format!("{header:?}");
    assert!(shown.starts_with('{') && shown.contains("\"KIT\": ") && shown.contains("\"FKM-75\""), "{shown}");
    assert!(common::header(&[]).is_empty());
}

#[test]
fn strings_at_the_edges() {
    assert_eq!(value("''").as_str(), Some(""));
    assert_eq!(value("'   '").as_str(), Some(" "));
    assert_eq!(value("'O''RING'").as_str(), Some("O'RING"));
    assert_eq!(value("'abc''").as_str(), Some("abc"));
    assert_eq!(value("'a  '").as_str(), Some("a"));
    assert_eq!(value("'  a'").as_str(), Some("  a"));
    assert_eq!((refused("'"), refused("'a' b")), (3, 3));
}

#[test]
fn numbers_at_the_edges() {
    assert_eq!(value("9223372036854775807").as_i64(), Some(i64::MAX));
    assert_eq!(value("-9223372036854775808"), Value::Integer(i64::MIN));
    let Value::Float(beyond) = value("9223372036854775808") else { panic!("a decimal") };
    assert_eq!((beyond.digits(), beyond.power(), beyond.is_negative()), (&b"9223372036854775808"[..], 0, false));
    let Value::Float(decimal) = value("1.5D3") else { panic!("a decimal") };
    assert_eq!((decimal.digits(), decimal.power()), (&b"15"[..], 2));
    assert_eq!((value("1D"), value("TEXT")), (value("1E"), Value::Logical(true)));
    let Value::Invalid(text) = value("1D") else { panic!("invalid") };
    assert_eq!(text, "1E");
}

#[test]
fn strings_joined_at_the_edges() {
    let kit = |cards: &[&str]| header(cards).get("KIT").unwrap();
    assert_eq!(kit(&["KIT     = 'FKM-&'", "COMMENT", "CONTINUE  '75'"]).as_str(), Some("FKM-75"));
    assert_eq!(kit(&["KIT     = 'FKM &'", "CONTINUE  ''"]).as_str(), Some("FKM"));
    assert_eq!(kit(&["KIT     = 'FKM-&'", "SIZE    = 5", "CONTINUE  '75'"]).as_str(), Some("FKM-&"));
}

#[test]
fn the_six_kinds_and_what_they_answer() {
    let all = ["7", "-2.5", "F", "'x'", "", "what / ever"].map(value);
    assert_eq!(all.each_ref().map(Value::as_i64), [Some(7), None, None, None, None, None]);
    assert_eq!(all.each_ref().map(Value::as_f64), [Some(7.0), Some(-2.5), None, None, None, None]);
    assert_eq!(all.each_ref().map(Value::as_bool), [None, None, Some(false), None, None, None]);
    assert_eq!(all.each_ref().map(Value::as_str), [None, None, None, Some("x"), None, None]);
    assert_eq!(all.each_ref().map(Value::to_string)[..5], ["7", "-25e-1", "F", "x", ""]);
    assert_eq!(all[4], Value::Undefined);
    // An invalid value holds its whole raw text, the card's bytes from 10 on.
    assert_eq!(all[5].to_string(), format!("{:70}", "what / ever"));
    assert!(matches!(all[5], Value::Invalid(_)));
}

#[test]
fn comments_and_units() {
    let comment = |text: &str| entry(text).comment.map(|c| c.to_string());
    assert_eq!(comment("5 / time").as_deref(), Some(" time"));
    assert_eq!(comment("5 /").as_deref(), Some(""));
    assert_eq!(comment("5"), None);
    assert_eq!((comment("/ lost"), comment("what / lost")), (None, None));
    // FITS Standard 4.0, section 4.3.2: the unit within brackets, behind one space or none; for fitsrs the bracket comes first.
    let unit = |text: &str| entry(text).unit().map(|u| u.to_string());
    assert_eq!(unit("4.2E1 /[km/s] rotation").as_deref(), Some("km/s"));
    assert_eq!(unit("4.2E1 /[] none").as_deref(), Some(""));
    assert_eq!(unit("4.2E1 / [km/s] a space before").as_deref(), Some("km/s"));
    assert_eq!((unit("4.2E1 /  [km/s]"), unit("4.2E1 / x[km/s]")), (None, None));
    let unit_as_fitsrs = |text: &str| entry(text).unit_as_fitsrs().map(|u| u.to_string());
    assert_eq!(unit_as_fitsrs("4.2E1 /[km/s] rotation").as_deref(), Some("km/s"));
    assert_eq!(unit_as_fitsrs("4.2E1 / [km/s] a space before"), None);
    assert_eq!(unit("4.2E1 /[km/s"), None);
    assert_eq!((unit("4.2E1 /"), unit("4.2E1")), (None, None));
    // Comments are joined by byte 10.
    let header = header(&["KIT     = 'a&' /[mm]", "CONTINUE  'b&'", "CONTINUE  'c' / d"]);
    let kit = header.entry("KIT").unwrap();
    assert_eq!(kit.comment.as_ref().unwrap(), "[mm]\n d");
    assert_eq!(kit.unit().unwrap(), "mm");
}

#[test]
fn replaced_bytes_are_kept_as_127() {
    let mut bytes = cards(&["K       = 'a.b' /c.d", "END"]);
    for byte in &mut bytes {
        if *byte == b'.' {
            *byte = 9;
        }
    }
    let entry = Header::parse(&bytes).unwrap().entry("K").unwrap();
    assert_eq!(entry.value.as_str(), Some("a\u{7f}b"));
    assert_eq!(entry.comment.unwrap().as_bytes(), b"c\x7fd");
}

#[test]
fn names_in_their_order() {
    let header =
        header(&["B       = 1", "HIERARCH  ESO  DET = 2", "A       = 3", "B       = 4", "XTENSION= 'IMAGE   '"]);
    let names: Vec<&str> = header.keywords().map(|name| name.as_str()).collect();
    assert_eq!(names, ["B", "ESO.DET", "A", "XTENSION"]);
    assert_eq!(header.keywords().len(), 4);
    // Of equal names the last entry counts.
    assert_eq!(header.get("B").unwrap(), Value::Integer(4));
    assert_eq!(header.get(b"ESO.DET").unwrap(), Value::Integer(2));
    assert_eq!(header.get(String::from("XTENSION")).unwrap().as_str(), Some("IMAGE"));
    assert_eq!((header.get("ESO DET"), header.get("a"), header.get("")), (None, None, None));
}

#[test]
fn how_many_cards_bear_a_name() {
    let header = header(&[
        "KIT     = 'a&'",
        "CONTINUE  'b'",
        "HIERARCH KIT = 1",
        "XTENSION= 'IMAGE'",
        "COMMENT KIT = 2",
        "KIT     =",
        "XTENSION= 'TABLE'",
        "KITS    = 3",
        "END",
        "KIT     = 4",
    ]);
    let counts: Vec<(String, usize)> = header.keywords().map(|name| (name.to_string(), header.count(name))).collect();
    assert_eq!(counts, [("KIT".into(), 3), ("XTENSION".into(), 2), ("KITS".into(), 1)]);
    for none in ["CONTINUE", "COMMENT", "END", "KI", "kit", ""] {
        assert_eq!(header.count(none), 0, "{none}");
    }
    // The count is asked for first, before any name is read.
    assert_eq!(common::header(&["KIT     = 1", "KIT     = 2"]).count("KIT"), 2);
    assert_eq!(common::header(&["KIT     = 1"; 719]).count("KIT"), 719);
}

#[test]
fn all_classes_of_cards() {
    let header = header(&[
        "K       = 'a&' / b",
        "CONTINUE  'c' / d",
        "XTENSION= 'IMAGE   ' / lost",
        "COMMENT   e",
        "HISTORY f",
        "HIERARCH G H = 1",
        "",
        "        i",
        "NO VALUE",
    ]);
    let read: Vec<Card> = header.cards().collect();
    assert_eq!(read.len(), 10);
    let Card::Value { name, entry } = &read[0] else { panic!("a value") };
    assert_eq!((name.as_str(), entry.value.as_str()), ("K", Some("a&")));
    let Card::Continuation { string, comment } = &read[1] else { panic!("a CONTINUE card") };
    assert_eq!((string.as_str(), comment.as_deref()), ("c", Some(" d")));
    assert!(matches!(&read[2], Card::Xtension(text) if *text == "IMAGE"));
    assert!(matches!(&read[3], Card::Comment(text) if *text == "  e"));
    assert!(matches!(&read[4], Card::History(text) if *text == "f"));
    let Card::Hierarch { name, entry } = &read[5] else { panic!("a HIERARCH card") };
    assert_eq!((name.as_str(), entry.value.as_i64()), ("G.H", Some(1)));
    assert_eq!(read[6], Card::Space);
    assert!(matches!(&read[7], Card::Comment(text) if *text == "i"));
    assert!(matches!(&read[8], Card::Undefined(text) if *text == *format!("{:80}", "NO VALUE")));
    assert_eq!(read[9], Card::End);
    assert_eq!(Card::read(&card("END     of it")), Ok(Card::End));
    assert_eq!(header.as_bytes().len(), 800);
}

#[test]
fn refusals_of_headers_with_their_cards_and_columns() {
    let refusal = |fronts: &[&str]| told(Header::parse(&cards(fronts)).unwrap_err());
    assert_eq!(refusal(&["A       = 1", "B       = 5 \u{b}6", "END"]), at(2, 1, 12));
    assert_eq!(refusal(&["A       = '", "END"]), at(3, 0, 10));
    assert_eq!(refusal(&["A       = 1", "", "CONTINUE  a'", "END"]), at(4, 2, 10));
    assert_eq!(refusal(&["A       = (1, 2)", "END"]), at(5, 0, 10));
    assert_eq!(refusal(&["HIERARCH A", "END"]), at(6, 0, 9));
    assert_eq!(refusal(&["HIERARCH  = 1", "END"]), at(7, 0, 10));
    assert_eq!(refusal(&["XTENSION= IMAGE", "END"]), at(8, 0, 10));
    assert_eq!(refusal(&["XTENSION= '", "END"]), at(8, 0, 10));
    assert_eq!(refusal(&["A       = 1", "B       = 2"]), of_header(10, 2));
    let mut high = cards(&["A       = 1", "B       = 'x'", "END"]);
    high[80 + 70] = 128;
    assert_eq!(Header::parse(&high).map_err(told), Err(at(1, 1, 70)));
    for bytes in [vec![], vec![b' '; 79], vec![b' '; 81], vec![b' '; LONGEST + 80]] {
        assert_eq!(Header::parse(&bytes).map_err(told), Err(of_header(9, 0)));
    }
    assert_eq!(Card::read(&card("A       = (1")).map_err(told), Err((5, None, Some(10))));
}

#[test]
fn whole_files() {
    let mut file = cards(&["SIZE    = 12", "END"]);
    file.extend(vec![0xff; 3 * LONGEST + 17]);
    assert_eq!(Header::parse(&file).unwrap_err().reason(), Reason::HeaderLength);
    let header = Header::parse_file(&file).unwrap();
    assert_eq!((header.get("SIZE").unwrap(), header.as_bytes().len()), (Value::Integer(12), 160));
    // What is left of a card at the end is cut off.
    assert_eq!(Header::parse_file(&file[..160 + 79]), Ok(header));
    assert_eq!(Header::parse_file(&file[..159]).map_err(told), Err(of_header(10, 1)));
    assert_eq!(Header::parse_file(b"SIMPLE").map_err(told), Err(of_header(9, 0)));
    // END may be the last of 720 cards, and not the one behind them.
    for (before, read) in [(719, true), (720, false)] {
        let mut file = [card(""); 720][..before.min(720)].concat();
        file.extend(card("END"));
        assert_eq!(Header::parse_file(&file).is_ok(), read);
    }
}

#[test]
fn where_the_end_stands_and_the_data_begin() {
    // END may have blanks before it and anything behind it, and bytes that are no END may look like one.
    for end in ["END", "  END", "END\t", "\r\n END", "  END  \u{c}", "END     = 5", "END      of it"] {
        for before in [0, 1, 34, 35, 36, 70, 71, 72, 719] {
            let mut fronts = vec![""; before];
            if before > 2 {
                fronts[1] = "ENDING  = 1";
                fronts[2] = "HIERARCH END = 2";
            }
            fronts.push(end);
            let bytes = cards(&fronts);
            let header = Header::parse(&bytes).unwrap();
            assert_eq!((header.end(), header.as_bytes()), (before, &bytes[..]), "{end:?} behind {before}");
            // Whole blocks of 36 cards.
            assert_eq!(header.data_start(), (before / 36 + 1) * 2880);
            assert_eq!((header.cards().count(), header.cards().last()), (before + 1, Some(Card::End)));
            // What stands behind END makes no difference, whatever it is.
            for behind in [[b' '; 80], card("END"), card("ENDING  = 3"), [200; 80]] {
                let mut longer = bytes.clone();
                longer.extend(behind);
                let Ok(other) = Header::parse(&longer) else {
                    assert_eq!(before, 719, "one card more than 720");
                    continue;
                };
                assert_eq!((&other, other.end(), other.as_bytes()), (&header, before, &bytes[..]));
                let read = Header::read_on(&longer).unwrap();
                assert_eq!((read.end(), read.data_start()), (header.end(), header.data_start()));
            }
        }
    }
    let read = Header::read_on(&cards(&["A       = (1", "B       = 2", "  END", "END"])).unwrap();
    assert_eq!((read.end(), read.data_start()), (2, 2880));
    // Headers with other cards, or with another END, are not equal.
    let of = |fronts: &[&str]| Header::parse(&cards(fronts)).unwrap();
    assert_ne!(of(&["END"]), of(&["  END"]));
    assert_ne!(of(&["END"]), of(&["", "END"]));
    assert_eq!(of(&["  END"]), of(&["  END", "A       = 1"]));
}

#[test]
fn a_header_is_gone_through_by_a_loop() {
    let header = header(&["B       = 1", "A       = 'x'", "B       = 3"]);
    let mut lines = Vec::new();
    for (name, entry) in &header {
        lines.push(format!("{name} {}", entry.value));
    }
    assert_eq!(lines, ["B 3", "A x"]);
    assert!(header.into_iter().eq(header.entries()));
    let mut left = header.entries();
    assert_eq!((left.size_hint().1, left.next().map(|(name, _)| name.as_str())), (Some(2), Some("B")));
    let shown = format!("{left:?}");
    assert!(shown.contains("\"A\": ") && !shown.contains("\"B\""), "{shown}");
    assert_eq!((left.clone().count(), left.count()), (1, 1));
}

#[test]
fn the_longest_joined_string() {
    let mut fronts = vec![format!("LONG    = '{}&' /{}", "a".repeat(59), "b".repeat(6))];
    for _ in 1..719 {
        fronts.push(format!("CONTINUE  '{}&' /{}", "c".repeat(59), "d".repeat(6)));
    }
    let header = header(&fronts.iter().map(String::as_str).collect::<Vec<_>>());
    let long = header.entry("LONG").unwrap();
    assert_eq!(long.value.as_str(), Some(format!("{}{}&", "a".repeat(59), "c".repeat(59 * 718)).as_str()));
    assert_eq!(long.comment.unwrap(), *format!("bbbbbb{}", "\ndddddd".repeat(718)));
    // A long comment beside a short text, too.
    let mut fronts = vec!["LONG    = '&'".to_string()];
    fronts.extend((0..20).map(|_| format!("CONTINUE  '&' /{}", "e".repeat(64))));
    let long = common::header(&fronts.iter().map(String::as_str).collect::<Vec<_>>()).entry("LONG").unwrap();
    assert_eq!(long.value.as_str(), Some("&"));
    assert_eq!(long.comment.unwrap().as_bytes().len(), 20 * 65 - 1);
}

#[test]
fn headers_go_between_threads() {
    fn shared<T: Send + Sync + Clone + 'static>(_: &T) {}
    let one = header(&["KIT     = 'a'"]);
    shared(&one);
    assert_eq!(one.len(), 1);
    let other = header(&["KIT     = 'a'"]);
    assert!(one == other && one == one.clone() && one != header(&["KIT     = 'b'"]));
    let kit = std::thread::spawn(move || other.get("KIT")).join().unwrap();
    assert_eq!(kit, one.get("KIT"));
    assert_eq!(widrekas::version(), 4);
}

#[test]
fn a_value_and_a_comment_are_read_apart() {
    // Texts and comments longer than the room that is lent at first, neither in the other's way.
    for (text, comment) in [(1, 30), (30, 1), (30, 30), (1, 1)] {
        let card = |at: usize| {
            let open = if at < 30 { "&" } else { "" };
            let (text, remark) = (if at < text { "x".repeat(40) } else { String::new() }, "y".repeat(20));
            let keyword = if at == 0 { "KIT     = " } else { "CONTINUE  " };
            if at < comment {
                format!("{keyword}'{text}{open}' /{remark}")
            } else {
                format!("{keyword}'{text}{open}'")
            }
        };
        let fronts: Vec<String> = (0..=30).map(card).collect();
        let fronts: Vec<&str> = fronts.iter().map(String::as_str).collect();
        let remark = vec!["y".repeat(20); comment].join("\n");
        for first in [true, false] {
            let header = common::header(&fronts);
            if !first {
                assert_eq!(header.get("NONE"), None);
            }
            assert_eq!(header.get("KIT").unwrap().as_str(), Some(&*"x".repeat(40 * text)), "{text} {comment}");
            assert_eq!(header.comment("KIT").unwrap(), *remark);
            let entry = common::header(&fronts).entry("KIT").unwrap();
            assert_eq!((Some(entry.value), entry.comment), (header.get("KIT"), header.comment("KIT")));
        }
    }
    let header = header(&["A       = 5 /", "B       = 'b'"]);
    assert_eq!((header.comment("A").as_deref(), header.comment("B"), header.comment("NONE")), (Some(""), None, None));
}
