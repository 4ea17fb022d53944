//! Headers read on past their refused cards: which names are errors, and that all others answer as they would without the damage.

mod common;

use common::random::Random;
use common::{at, card, cards, header, of_header, told, Told};
use std::collections::BTreeSet;
use std::time::{Duration, Instant};
use widrekas::{Card, Entry, Header, ReadOn, Value, LONGEST};

/// A header of cards and END, read on.
fn read_on(fronts: &[&str]) -> ReadOn {
    let mut bytes = cards(fronts);
    bytes.extend(card("END"));
    Header::read_on(&bytes).unwrap()
}

/// What a name answers.
fn get(read: &ReadOn, name: &str) -> Result<Option<Entry>, Told> {
    read.entry(name).map_err(told)
}

/// What the refusals tell.
fn refusals(read: &ReadOn) -> Vec<Told> {
    read.refusals().iter().copied().map(told).collect()
}

/// The text of a string, where the name answers.
fn string(read: &ReadOn, name: &str) -> String {
    read.get(name).unwrap().unwrap().as_str().unwrap().to_string()
}

/// The number of an integer, where the name answers.
fn integer(read: &ReadOn, name: &str) -> i64 {
    read.get(name).unwrap().unwrap().as_i64().unwrap()
}

/// The names with what they answer, in the list's order.
fn listed(read: &ReadOn) -> Vec<(String, Result<String, Told>)> {
    let entries = read.entries().unwrap();
    entries.map(|(name, entry)| (name.to_string(), entry.map(|entry| entry.value.to_string()).map_err(told))).collect()
}

#[test]
fn a_kit_with_a_damaged_card_inside_is_an_error_and_no_other_kit() {
    let fronts = ["SIZE    = 12", "KIT     = 'FKM-&'", "CONTINUE  '75-&", "CONTINUE  'A2'", "RING    = 'NBR'"];
    let read = read_on(&fronts);
    assert_eq!(get(&read, "KIT"), Err(at(3, 2, 10)));
    assert_eq!((integer(&read, "SIZE"), string(&read, "RING")), (12, "NBR".to_string()));
    assert_eq!((get(&read, "NONE"), refusals(&read)), (Ok(None), vec![at(3, 2, 10)]));
    // The header that is not damaged has the kit.
    let good = header(&["KIT     = 'FKM-&'", "CONTINUE  '75-&'", "CONTINUE  'A2'"]);
    assert_eq!(good.get("KIT").unwrap().as_str(), Some("FKM-75-A2"));
}

#[test]
fn names_before_between_and_behind_answer() {
    let read = read_on(&[
        "A       = 'before&'",
        "CONTINUE  '!' / joined",
        "B       = 'open&'",
        "COMMENT between",
        "C       = (1, 2)",
        "CONTINUE  'whose'",
        "D       = 'be&'",
        "CONTINUE  'hind'",
        "C2      = 5 \u{b}6",
        "HIERARCH E F = 7",
    ]);
    assert_eq!(string(&read, "A"), "before!");
    assert_eq!(read.comment("A").unwrap().unwrap(), " joined");
    assert_eq!((get(&read, "B"), get(&read, "C")), (Err(at(5, 4, 10)), Err(at(5, 4, 10))));
    assert_eq!((string(&read, "D"), get(&read, "C2")), ("behind".to_string(), Err(at(2, 8, 12))));
    assert_eq!(integer(&read, "E.F"), 7);
    assert_eq!(refusals(&read), [at(5, 4, 10), at(2, 8, 12)]);
}

#[test]
fn a_damaged_card_while_nothing_is_open_touches_its_own_name_alone() {
    let read = read_on(&["A       = 'a'", "B       = 'b", "CONTINUE  'c", "D       = 4"]);
    assert_eq!((string(&read, "A"), integer(&read, "D")), ("a".to_string(), 4));
    assert_eq!(get(&read, "B"), Err(at(3, 1, 10)));
    assert_eq!(refusals(&read), [at(3, 1, 10), at(3, 2, 10)]);
    // A string that was closed, that another entry ended, or that is no string, is not open.
    let fronts = ["A       = 'a&'", "CONTINUE  'b'", "COMMENT", "CONTINUE  c'"];
    assert_eq!(string(&read_on(&fronts), "A"), "ab");
    let read = read_on(&["A       = 'a&'", "XTENSION= 'X&'", "CONTINUE  c'"]);
    assert_eq!((string(&read, "A"), string(&read, "XTENSION")), ("a&".to_string(), "X&".to_string()));
    let read = read_on(&["A       = 'a&'", "HIERARCH B = 5&", "CONTINUE  c'"]);
    assert_eq!((string(&read, "A"), read.get("B").is_ok()), ("a&".to_string(), true));
}

#[test]
fn the_keyword_alone_says_which_name_a_refused_card_bears() {
    let errors = |front: &str| -> Vec<String> {
        let read = read_on(&["A       = 'a&'", front, "Z       = 1"]);
        assert_eq!((read.get("A").unwrap_err().card(), integer(&read, "Z")), (Some(1), 1), "{front}");
        let names = read.keywords().unwrap().filter(|name| read.get(name).is_err());
        names.map(|name| name.to_string()).collect()
    };
    assert_eq!(errors("KIT     = 'b"), ["A", "KIT"]);
    assert_eq!(errors("  KIT   = (1"), ["A", "KIT"]);
    assert_eq!(errors("KIT     = 5 / \u{b0}C"), ["A", "KIT"]);
    // Whatever stands at bytes 8 and 9.
    assert_eq!(errors("KIT     \u{b0}'b'"), ["A", "KIT"]);
    assert_eq!(errors("KIT     'b\u{b0}'"), ["A", "KIT"]);
    assert_eq!(errors("HIERARCH ESO  DET = 'b"), ["A", "ESO.DET"]);
    assert_eq!(errors("HIERARCH ESO DET= 'b=\u{b0}'"), ["A", "ESO.DET"]);
    assert_eq!(errors("HIERARCH CONTINUE = (1"), ["A", "CONTINUE"]);
    assert_eq!(errors("XTENSION= IMAGE"), ["A", "XTENSION"]);
    assert_eq!(errors("XTENSION= 'IMAGE\u{b0}'"), ["A", "XTENSION"]);
    for nameless in
        ["CONTINUE  'b", "CONTINUE  b'", "CONTINUE  '\u{b0}'", "COMMENT \u{b0}", "HISTORY \u{b0}", "        \u{b0}"]
    {
        assert_eq!(errors(nameless), ["A"]);
    }
    // Byte 8 of a HIERARCH card is no part of its name.
    let mut bytes = cards(&["HIERARCH ESO DET = 1", "Z       = 1", "END"]);
    bytes[8] = 200;
    let read = Header::read_on(&bytes).unwrap();
    assert_eq!((get(&read, "ESO.DET"), integer(&read, "Z")), (Err(at(1, 0, 8)), 1));
}

#[test]
fn a_name_that_cannot_be_read_touches_every_name() {
    for (front, number, column) in [
        ("K\u{b0}T    = 5", 1, 1),
        ("HIERARCH E\u{b0} DET = 5", 1, 10),
        ("HIERARCH DET \u{b0} 'a=b'", 1, 13),
        ("HIERARCH \u{b0}", 1, 9),
        ("HIERARCH ESO DET", 6, 9),
        ("HIERARCH  = 5", 7, 10),
        ("END     \u{b0}", 1, 8),
    ] {
        let read = read_on(&["A       = 1", front, "B       = 2"]);
        for name in ["A", "B", "KIT", "ESO.DET", "END", "NONE", ""] {
            assert_eq!(get(&read, name), Err(at(number, 1, column)), "{front}: {name}");
        }
        assert_eq!(read.keywords().err().map(told), Some(at(number, 1, column)));
        assert_eq!(read.entries().err().map(told), Some(at(number, 1, column)));
        assert_eq!(refusals(&read), [at(number, 1, column)]);
    }
    // The first card that touches a name counts.
    let read = read_on(&["A       = (1", "K\u{b0}      = 5", "B       = (1", "A       = (1"]);
    assert_eq!(
        (get(&read, "A"), get(&read, "B"), get(&read, "C")),
        (Err(at(5, 0, 10)), Err(at(1, 1, 1)), Err(at(1, 1, 1)))
    );
    assert_eq!(refusals(&read), [at(5, 0, 10), at(1, 1, 1), at(5, 2, 10), at(5, 3, 10)]);
    assert_eq!(get(&read_on(&["HIERARCH", "K\u{b0}      = 5"]), "A"), Err(at(6, 0, 9)));
}

#[test]
fn a_touched_name_stays_an_error_whatever_good_cards_say() {
    let read = read_on(&["A       = 1", "A       = (2", "A       = 3", "B       = 'b&'", "CONTINUE  (", "B       = 4"]);
    assert_eq!((get(&read, "A"), integer(&read, "B")), (Err(at(5, 1, 10)), 4));
    let read =
        read_on(&["B       = 'b&'", "CONTINUE  '", "B       = 4", "A       = (1", "B       = 'c&'", "A       = ("]);
    assert_eq!((get(&read, "A"), get(&read, "B")), (Err(at(5, 3, 10)), Err(at(3, 1, 10))));
}

#[test]
fn a_name_that_a_refused_card_touches_has_no_count() {
    let read = read_on(&["A       = 1", "B       = 'b&'", "CONTINUE  '", "A       = 2", "C       = (", "C       = 3"]);
    let count = |name: &str| read.count(name).map_err(told);
    assert_eq!((count("A"), count("NONE")), (Ok(2), Ok(0)));
    assert_eq!((count("B"), count("C")), (Err(at(3, 2, 10)), Err(at(5, 4, 10))));
    assert_eq!(read_on(&["A       = 1", "HIERARCH"]).count("A").map_err(told), Err(at(6, 1, 9)));
    assert_eq!(read_on(&["A       = 1", "A       = 2"]).count("A"), Ok(2));
}

#[test]
fn two_damaged_cards_in_one_string_or_in_two() {
    let read = read_on(&["A       = 'a&'", "CONTINUE  'b", "CONTINUE  c'", "CONTINUE  'd'", "B       = 2"]);
    assert_eq!((get(&read, "A"), integer(&read, "B")), (Err(at(3, 1, 10)), 2));
    assert_eq!(refusals(&read), [at(3, 1, 10), at(4, 2, 10)]);
    let read =
        read_on(&["A       = 'a&'", "CONTINUE  'b", "B       = 'c&'", "COMMENT", "C       = (1", "CONTINUE  'd'"]);
    assert_eq!(
        (get(&read, "A"), get(&read, "B"), get(&read, "C")),
        (Err(at(3, 1, 10)), Err(at(5, 4, 10)), Err(at(5, 4, 10)))
    );
}

#[test]
fn names_are_listed_by_their_first_cards_refused_ones_too() {
    let read =
        read_on(&["C       = (1", "A       = 1", "B       = (1", "A       = 2", "C       = 3", "HIERARCH D E = '"]);
    let refused = |number, card, column| Err(at(number, card, column));
    let expected =
        [("C", refused(5, 0, 10)), ("A", Ok("2".into())), ("B", refused(5, 2, 10)), ("D.E", refused(3, 5, 15))];
    assert_eq!(listed(&read), expected.map(|(name, answer)| (name.to_string(), answer)));
    assert_eq!(read.keywords().unwrap().len(), 4);
    let shown = format!("{read:?}");
    assert!(shown.contains("refusals: [Refusal") && shown.contains("(\"A\", Ok(Entry"), "{shown}");
    assert!(format!("{:?}", read_on(&["HIERARCH"])).contains("entries: Err(Refusal"));
}

#[test]
fn a_header_without_refused_cards_answers_as_ever() {
    let fronts = ["A       = 1", "KIT     = 'FKM-&'", "CONTINUE  '75' / ring", "A       = 2"];
    let (read, good) = (read_on(&fronts), header(&fronts));
    assert_eq!((read.refusals().len(), read.entry("KIT"), read.entry("B")), (0, Ok(good.entry("KIT")), Ok(None)));
    assert!(read.keywords().unwrap().eq(good.keywords()));
    assert!(read.entries().unwrap().eq(good.entries().map(|(name, entry)| (name, Ok(entry)))));
    assert!(read == read_on(&fronts) && read.clone() == read && read != read_on(&["A       = (1"]));
}

#[test]
fn length_and_missing_end_refuse_it_all() {
    assert_eq!(Header::read_on(b"").err().map(told), Some(of_header(9, 0)));
    assert_eq!(Header::read_on(&[b' '; 79]).err().map(told), Some(of_header(9, 0)));
    assert_eq!(Header::read_on(&cards(&["A       = 1"])).err().map(told), Some(of_header(10, 1)));
    assert_eq!(
        Header::read_on(&cards(&["A       = (1", "B       = 2", "END     \u{b0}"])).err().map(told),
        Some(of_header(10, 3))
    );
    assert_eq!(
        Header::read_on(&[cards(&["A       = (1"]), vec![200; 2 * LONGEST]].concat()).err().map(told),
        Some(of_header(10, 720))
    );
    // Nothing behind END is looked at, and what is left of a card is cut off.
    let mut file = cards(&["A       = (1", "B       = 2", "END"]);
    file.extend(vec![200; LONGEST + 17]);
    for file in [&file[..], &file[..3 * 80 + 79]] {
        let read = Header::read_on(file).unwrap();
        assert_eq!((integer(&read, "B"), refusals(&read)), (2, vec![at(5, 0, 10)]));
    }
}

/// Headers on which reading cards again and again would be seen.
#[test]
fn the_longest_headers_are_read_on_quickly() {
    let fill = |make: &dyn Fn(usize) -> String| (0..719).map(make).collect::<Vec<String>>();
    let kit_then = |front: &str| fill(&|i| if i == 0 { "KIT     = '&'".to_string() } else { front.to_string() });
    let in_turn =
        |name: &str| fill(&|i| if i % 2 == 0 { format!("{name}{i:03}    = '&'") } else { "CONTINUE  '".into() });
    let mut broken_at_the_end = kit_then(&format!("CONTINUE  '{}&' /{}", "c".repeat(59), "d".repeat(6)));
    broken_at_the_end[718] = "WCS     = (1".to_string();
    // Each with how many cards are refused and how many names answer.
    let headers = [
        (fill(&|i| format!("K{i:03}    = (1, 2)")), 719, 0),
        (fill(&|i| format!("HIERARCH {i} = '=")), 719, 0),
        (fill(&|_| "HIERARCH".to_string()), 719, 0),
        (in_turn("K"), 359, 1),
        (in_turn("COMMENT "), 359, 0),
        (kit_then("CONTINUE  'b"), 718, 0),
        (kit_then("CONTINUE  '&'"), 0, 1),
        (broken_at_the_end, 1, 0),
    ];
    let start = Instant::now();
    for (fronts, refused, answers) in headers {
        let read = read_on(&fronts.iter().map(String::as_str).collect::<Vec<_>>());
        assert_eq!(read.refusals().len(), refused);
        assert!(read.refusals().windows(2).all(|pair| pair[0].card() < pair[1].card()));
        let answering = read.entries().map_or(0, |entries| entries.filter(|(_, entry)| entry.is_ok()).count());
        assert_eq!(answering, answers);
    }
    // Some milliseconds if nothing else runs.
    assert!(start.elapsed() < Duration::from_secs(5), "{:?}", start.elapsed());
}

/// Names few enough to come twice.
const NAMES: [&str; 6] = ["A", "KIT", "RING", "SIZE", "ESO.DET", "XTENSION"];

/// What a card of a random header is, as it was made.
#[derive(Clone, Copy)]
enum Made {
    /// An entry of a name, and whether it is open.
    Entry(&'static str, bool),
    /// A CONTINUE card, and whether it ends in &.
    More(bool),
    Commentary,
}

/// A string within quotes, perhaps with a comment; it ends in & where it is open.
fn quoted(random: &mut Random, open: bool) -> String {
    let letters: String = (0..random.below(6)).map(|_| random.pick(&['F', 'K', '7', '-', ' ', '/'])).collect();
    format!("'{letters}{}'{}", if open { "&" } else { "" }, random.pick(&["", " / seal", " /[mm] ring"]))
}

/// A card that is accepted.
fn good_card(random: &mut Random) -> (Made, [u8; 80]) {
    let made = match random.below(10) {
        0 => Made::Commentary,
        1..=4 => Made::More(random.below(3) > 0),
        5..=8 => Made::Entry(random.pick(&NAMES[..5]), random.below(3) > 0),
        _ => Made::Entry("XTENSION", false),
    };
    let front = match made {
        Made::Commentary => random.pick(&["COMMENT a", "HISTORY b", "", "        c", "NO VALUE"]).to_string(),
        Made::More(open) => format!("CONTINUE  {}", quoted(random, open)),
        Made::Entry("XTENSION", _) => format!("XTENSION= {}", quoted(random, false)),
        Made::Entry(name, open) => {
            let keyword = if name == "ESO.DET" { "HIERARCH ESO DET = ".into() } else { format!("{name:8}= ") };
            let number = random.pick(&["12", "-1.5D3 / [K]", "T", ""]).to_string();
            keyword + &if open || random.below(2) == 0 { quoted(random, open) } else { number }
        }
    };
    (made, card(&front))
}

/// Where the name of a HIERARCH card stands, with its equals sign.
const DOTTED: std::ops::Range<usize> = 9..18;

/// Damages a card until it is refused; answers whether its name can still be read, or nothing where it is accepted. Behind the name
/// stands any damage, within it a byte of 200.
fn damage(random: &mut Random, card: &mut [u8; 80]) -> Option<bool> {
    let good = *card;
    let hierarch = good.starts_with(b"HIERARCH");
    let value = if hierarch { DOTTED.end + 1 } else { 10 };
    for _ in 0..20 {
        *card = good;
        let mut named = true;
        match random.below(6) {
            // The closing quote is lost, with what is behind it.
            0 => {
                let quote = good.iter().rposition(|&byte| byte == b'\'').filter(|&at| at > value);
                card[quote.unwrap_or(79)..].fill(b' ');
            }
            1 => card[value] = b'(',
            2 => card[value + random.below(4)] = 11,
            3 => card[value + random.below(80 - value)] = 200,
            4 => card[value + random.below(12)] = random.pick(b"'/ (&\x0b\xc8"),
            _ => {
                let place = random.below(80);
                card[place] = 200;
                named = !(place < 8 || hierarch && DOTTED.contains(&place));
            }
        }
        if Card::read(card).is_err() {
            return Some(named);
        }
    }
    *card = good;
    None
}

/// The names that refused cards touch, of how the cards were made.
fn touched(made: &[Made], refused: &BTreeSet<usize>) -> BTreeSet<&'static str> {
    let (mut touched, mut open) = (BTreeSet::new(), None);
    for (number, card) in made.iter().enumerate() {
        if refused.contains(&number) {
            touched.extend(open);
        }
        match (card, refused.contains(&number)) {
            (Made::Entry(name, _), true) => {
                touched.insert(*name);
            }
            (Made::Entry(name, opens), false) => open = opens.then_some(*name),
            (Made::More(false), false) => open = None,
            _ => (),
        }
    }
    touched
}

#[test]
fn a_name_that_answers_answers_as_without_the_damage() {
    let mut random = Random(20_261_115);
    let (mut right, mut absent, mut errors, mut spared, mut every_name) = (0, 0, 0, 0, 0);
    for _ in 0..20_000 {
        let (made, good): (Vec<Made>, Vec<[u8; 80]>) =
            (0..3 + random.below(10)).map(|_| good_card(&mut random)).unzip();
        let mut bad = good.clone();
        let (mut refused, mut every) = (BTreeSet::new(), false);
        for _ in 0..1 + random.below(3) {
            let number = random.below(bad.len());
            if let Some(named) = damage(&mut random, &mut bad[number]) {
                refused.insert(number);
                every |= !named;
            }
        }
        every_name += usize::from(every);
        let good = Header::parse(&[good.concat(), card("END").to_vec()].concat()).unwrap();
        let bytes = [bad.concat(), card("END").to_vec()].concat();
        let read = Header::read_on(&bytes).unwrap();
        let numbers: BTreeSet<usize> = read.refusals().iter().filter_map(|refusal| refusal.card()).collect();
        assert_eq!(numbers, refused);
        let touched = touched(&made, &refused);
        for name in NAMES.into_iter().chain(["NONE", "CONTINUE"]) {
            let answer = read.entry(name);
            assert_eq!(answer.is_err(), every || touched.contains(name), "{name}: {}", bytes.escape_ascii());
            match answer {
                Ok(answer) => {
                    assert_eq!(answer, good.entry(name), "{name}: {}", bytes.escape_ascii());
                    right += usize::from(answer.is_some());
                    absent += usize::from(answer.is_none());
                    let joined = |entry: &Entry| matches!(&entry.value, Value::String(_));
                    spared += usize::from(!refused.is_empty() && answer.is_some_and(|entry| joined(&entry)));
                }
                Err(refusal) => {
                    assert!(read.refusals().contains(&refusal));
                    errors += 1;
                }
            }
        }
    }
    println!("{right} right, {spared} of them strings beside damage, {absent} absent, {errors} errors");
    println!("{every_name} headers where every name is an error");
    assert!(right > 20_000 && spared > 10_000 && absent > 20_000 && errors > 20_000);
    assert!((500..10_000).contains(&every_name));
}

#[test]
fn bytes_at_random_are_read_on_or_refused() {
    let mut random = Random(7);
    let (mut read_whole, mut read_past, mut every, mut refused) = (0, 0, 0, 0);
    for _ in 0..20_000 {
        let mut bytes: Vec<u8> = (0..random.below(8)).flat_map(|_| good_card(&mut random).1).collect();
        bytes.extend(card("END"));
        for _ in 0..random.below(8) {
            let place = random.below(bytes.len());
            bytes[place] = if random.below(2) == 0 { random.below(256) as u8 } else { random.pick(b"'/=&( \t.5") };
        }
        match (Header::parse_file(&bytes), Header::read_on(&bytes)) {
            (Ok(header), Ok(read)) => {
                assert!(read.refusals().is_empty());
                assert!(read.entries().unwrap().eq(header.entries().map(|(name, entry)| (name, Ok(entry)))));
                read_whole += 1;
            }
            (Err(refusal), Ok(read)) => {
                assert_eq!((read.refusals().first(), refusal.number() <= 8), (Some(&refusal), true));
                let names: Vec<String> = read.keywords().map_or(vec![], |names| names.map(|n| n.to_string()).collect());
                every += usize::from(read.keywords().is_err());
                for name in names.iter().map(String::as_str).chain(NAMES) {
                    assert!(read.get(name).map_or_else(|error| read.refusals().contains(&error), |_| true));
                }
                read_past += 1;
            }
            (first, read) => {
                let number = read.unwrap_err().number();
                assert!(first.is_err_and(|refusal| number == 10 || refusal.number() == number));
                refused += 1;
            }
        }
    }
    println!("{read_whole} whole, {read_past} past refused cards, {every} of them with every name, {refused} refused");
    assert!(read_whole > 1_000 && read_past > 1_000 && every > 500 && refused > 1_000);
}
