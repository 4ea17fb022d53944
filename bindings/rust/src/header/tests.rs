//! The list and its entries, held to the boundary's own lookup and to its cards.

use super::replacing::{answers, join, parts, Part};
use super::*;
use random::Random;

#[path = "../../tests/common/random.rs"]
mod random;

/// Cards that meet: equal names, open strings, blanks around keywords, names with full stops.
const CARDS: [&[u8]; 26] = [
    b"KIT     = 'FKM-&'",
    b"KIT     = 'NBR &' / [mm] seal",
    b"  KIT   = 5 / [s] time",
    b"KIT\t\t\t\t\t= 1.5D3 /",
    b"CONTINUE  '75&' / ring",
    b"CONTINUE  ''",
    b"CONTINUE 'x' / y",
    b"CONTINUE  ' '",
    b"CONTINUE  ' &&'",
    b"CONTINUE  unquoted &",
    b"COMMENT between",
    b"HISTORY before",
    b"",
    b"        text",
    b"XTENSION= 'IMAGE   '",
    b"HIERARCH A B = T / true",
    b"HIERARCH  A   B= 'open&'",
    b"A.B     = -inf",
    b"HIERARCH KIT = nan",
    b"SIZE    = / lost",
    b"SIZE    = TEXT",
    b"SIZE    = value",
    b"SIZE    =1",
    b"\x0c\x01\x02     = -0.",
    b"A&      = 'O''RING&'",
    b"HIERARCH KIT = ' & &&'",
];

fn padded(front: &[u8]) -> [u8; CARD] {
    let mut card = [b' '; CARD];
    card[..front.len()].copy_from_slice(front);
    card
}

/// Fewer than so many of the cards, one behind the other.
fn some_cards(random: &mut Random, fewer: usize) -> Vec<u8> {
    (0..random.below(fewer)).flat_map(|_| padded(CARDS[random.below(CARDS.len())])).collect()
}

/// The two halves that calls lay into all the room there can be, or the number of the refusal that both give.
fn both(
    value: impl Fn(&mut [u8], &mut Told) -> u8,
    comment: impl Fn(&mut [u8], &mut Remark) -> u8,
) -> Result<Entry, u8> {
    let (mut text, mut remark, mut told, mut said) =
        (vec![0; 59_000], vec![0; 59_000], Told::default(), Remark::default());
    match (value(&mut text, &mut told), comment(&mut remark, &mut said)) {
        (0, 0) => Ok(Entry { value: value_in(&told, &text), comment: comment_in(&said, &remark) }),
        (refused, other) => {
            assert_eq!(refused, other, "both halves refuse alike");
            Err(refused)
        }
    }
}

/// The boundary's lookup.
fn looked_up(bytes: &[u8], name: &[u8]) -> Result<Entry, u8> {
    both(
        |text, told| boundary::lookup_value(bytes, name, text, told),
        |comment, told| boundary::lookup_comment(bytes, name, comment, told),
    )
}

/// The name of a value, HIERARCH or XTENSION card.
fn bearing(card: &[u8; CARD]) -> Option<Text> {
    match Card::read(card) {
        Ok(Card::Value { name, .. } | Card::Hierarch { name, .. }) => Some(name),
        Ok(Card::Xtension(_)) => Some(Text::new(b"XTENSION")),
        _ => None,
    }
}

#[test]
fn the_list_finds_what_a_lookup_finds() {
    let mut random = Random(20_261_115);
    for _ in 0..3_000 {
        let mut bytes = some_cards(&mut random, 24);
        bytes.extend(padded(b"END     of it"));
        bytes.extend(padded(b"\xff"));
        let header = Header::parse(&bytes).unwrap();
        assert_eq!(header.as_bytes().len(), bytes.len() - CARD, "the cards up to END are kept");
        let mut end = 0;
        assert_eq!((boundary::header(&bytes, &mut end, &mut 0), header.end()), (0, end));
        for (name, place) in header.keywords().zip(&header.places) {
            let (mut room, mut length) = ([0; CARD], 0);
            assert_eq!(boundary::name(&bytes, place.first, &mut room, &mut length, &mut 0), 0);
            assert_eq!(name.as_bytes(), &room[..length]);
        }
        let names: Vec<Text> = header.keywords().cloned().collect();
        assert_eq!(header.entries().count(), names.len());
        let borne: Vec<Text> = (0..end).filter_map(|number| bearing(header.card_at(number)?)).collect();
        assert_eq!(names.iter().map(|name| header.count(name)).sum::<usize>(), borne.len());
        for name in &names {
            assert_eq!(header.count(name), borne.iter().filter(|own| *own == name).count());
        }
        for ((name, entry), listed) in header.entries().zip(&names) {
            assert_eq!(name, listed);
            assert_eq!(looked_up(&bytes, name.as_bytes()).as_ref(), Ok(&entry));
            assert_eq!(header.get(name).as_ref(), Some(&entry.value));
            assert_eq!(header.comment(name), entry.comment);
            assert_eq!(header.entry(name), Some(entry));
        }
        for name in ["KIT", "SIZE", "A.B", "A&", "XTENSION", "CONTINUE", "END", "", "\u{1}\u{2}", "KI", "kit"] {
            let found = looked_up(&bytes, name.as_bytes());
            assert_eq!(found.as_ref().err(), header.get(name).is_none().then_some(&12));
            assert_eq!(found.is_err(), header.count(name) == 0);
            assert_eq!(found.ok(), header.entry(name));
        }
    }
}

#[test]
fn nothing_behind_the_end_is_kept_or_looked_at() {
    for end in [&b"END     "[..], b"END     of it", b"  END", b"END\t"] {
        let bytes = [padded(b"A       = 1"), padded(end), padded(b"A       = 2"), padded(b"END")].concat();
        let header = Header::parse(&bytes).unwrap();
        assert_eq!(header.as_bytes().len(), 2 * CARD);
        assert_eq!(header.cards().count(), 2);
        assert_eq!(header.get("A").unwrap(), Value::Integer(1));
        assert_eq!(header.entries().count(), 1);
    }
    // A keyword that begins with END is no END.
    let bytes = [padded(b"END A   = 1"), padded(b"KIT     = 2"), padded(b"END")].concat();
    assert_eq!(Header::parse(&bytes).unwrap().get("KIT").unwrap(), Value::Integer(2));
}

#[test]
fn a_name_is_found_the_same_at_the_first_call_and_later() {
    let bytes =
        [padded(b"KIT     = 'FKM-&'"), padded(b"CONTINUE  '75'"), padded(b"SIZE    = 5"), padded(b"END")].concat();
    let header = Header::parse(&bytes).unwrap();
    for _ in 0..3 {
        assert_eq!(header.get("KIT").unwrap().as_str(), Some("FKM-75"));
    }
    assert_eq!((header.get("NONE"), header.clone().get("NONE")), (None, None));
    let other = Header::parse(&bytes).unwrap();
    assert_eq!((other.get("NONE"), other.get("NONE")), (None, None));
    assert_eq!(other.len(), 2);
}

#[test]
fn bytes_at_random_give_a_reading_or_a_refusal() {
    let mut random = Random(7);
    for round in 0..20_000 {
        let mut bytes = some_cards(&mut random, 6);
        bytes.extend(padded(b"END"));
        // A few bytes are overwritten, in every second round by any, otherwise by those that have a meaning.
        for _ in 0..random.below(12) {
            let at = random.below(bytes.len());
            bytes[at] = if round % 2 == 0 { random.below(256) as u8 } else { b"'/=&([] D\t.T5E"[random.below(14)] };
        }
        bytes.truncate(bytes.len() - if random.below(8) == 0 { random.below(80) } else { 0 });
        match Header::parse(&bytes) {
            Ok(header) => {
                assert!(header.cards().last() == Some(Card::End));
                for (name, entry) in header.entries() {
                    assert!(name.is_ascii() && entry.value.to_string().is_ascii());
                    assert!(entry.comment.as_deref().unwrap_or_default().is_ascii());
                    assert_eq!(looked_up(&bytes, name.as_bytes()).as_ref(), Ok(&entry));
                }
            }
            Err(refusal) => {
                assert!((1..=10).contains(&refusal.number()), "{refusal}");
                assert_eq!(looked_up(&bytes, b"KIT"), Err(refusal.number()));
                let (mut count, mut column) = (0, 0);
                let listed = boundary::header(&bytes, &mut count, &mut column);
                assert_eq!((refusal.number(), refusal.card()), (listed, Some(count)));
                assert_eq!(refusal.column(), (listed <= 8).then_some(column));
                if listed <= 8 {
                    // The card is refused alike alone.
                    let card = bytes[count * CARD..].first_chunk().unwrap();
                    assert_eq!(Card::read(card).map_err(|alone| alone.at(count)), Err(refusal));
                }
            }
        }
    }
}

/// The name that the entry at a card bears, by the boundary.
fn name_at(bytes: &[u8], number: usize) -> Option<Vec<u8>> {
    let (mut name, mut length) = ([0; CARD], 0);
    let borne = boundary::name(bytes, number, &mut name, &mut length, &mut 0) == 0;
    borne.then(|| name[..length].to_vec())
}

/// The entry at a card, by the boundary.
fn entry_at(bytes: &[u8], number: usize) -> Entry {
    both(
        |text, told| boundary::entry_value(bytes, number, text, told),
        |comment, told| boundary::entry_comment(bytes, number, comment, told),
    )
    .unwrap()
}

/// The entry that a card belongs to, by the boundary alone: the card bears it, or its own comment shows up in it.
fn entry_of(bytes: &[u8], number: usize) -> Option<usize> {
    if name_at(bytes, number).is_some() {
        return Some(number);
    }
    let mut marked = bytes.to_vec();
    let card = &mut marked[number * CARD..][..CARD];
    if !matches!(Card::read(card.first_chunk().unwrap()), Ok(Card::Continuation { .. })) {
        return None;
    }
    card.copy_from_slice(&padded(b"CONTINUE  'x' /#"));
    let entries = (0..number).filter(|&entry| name_at(bytes, entry).is_some());
    let shown = |&entry: &usize| entry_at(&marked, entry).comment.is_some_and(|comment| comment.contains('#'));
    let met: Vec<usize> = entries.filter(shown).collect();
    assert!(met.len() <= 1, "a card is joined to one entry at most");
    met.first().copied()
}

#[test]
fn the_cards_of_a_name_are_those_that_the_boundary_joins() {
    let (mut random, mut joined, mut others) = (Random(20_261_116), 0, 0);
    for _ in 0..500 {
        // Most of the cards are of the first ten: open strings and CONTINUE cards.
        let of = [CARDS.len(), 10, 10];
        let mut bytes = Vec::new();
        for _ in 0..random.below(24) {
            let among = random.pick(&of);
            bytes.extend(padded(CARDS[random.below(among)]));
        }
        let many = bytes.len() / CARD;
        bytes.extend(padded(b"END"));
        bytes.extend(padded(b"CONTINUE  'behind'"));
        let header = Header::parse(&bytes).unwrap();
        let owners: Vec<Option<usize>> = (0..many).map(|number| entry_of(&bytes, number)).collect();
        for name in ["KIT", "SIZE", "A.B", "A&", "NONE"] {
            let found = parts(&header, name.as_bytes());
            assert_eq!(found.len(), many);
            for ((part, card), owner) in found.iter().zip(header.cards()).zip(&owners) {
                let own = owner.is_some_and(|entry| name_at(&bytes, entry).unwrap() == name.as_bytes());
                let other = owner.is_some() || matches!(card, Card::Continuation { .. });
                assert_eq!(
                    *part,
                    if own {
                        Part::Own
                    } else if other {
                        Part::Other
                    } else {
                        Part::Commentary
                    }
                );
            }
        }
        // A text that is joined card by card is the boundary's, also where the next card is cut off.
        for entry in (0..many).filter(|&number| owners[number] == Some(number)) {
            let Value::String(text) = entry_at(&bytes[..(entry + 1) * CARD], entry).value else { continue };
            let mut text = String::from(text);
            for (number, card) in header.cards().enumerate().take(many).skip(entry + 1) {
                match card {
                    Card::Continuation { string, .. } if owners[number] == Some(entry) => {
                        assert!(text.ends_with('&'));
                        join(&mut text, &string);
                        joined += 1;
                    }
                    _ => others += 1,
                }
                assert_eq!(entry_at(&bytes[..(number + 1) * CARD], entry).value.as_str(), Some(&*text));
            }
            assert_eq!(entry_at(&bytes, entry).value.as_str(), Some(&*text));
        }
    }
    assert!(joined > 500 && others > 500, "{joined} joined, {others} others");
}

#[test]
fn a_header_that_answers_otherwise_is_seen() {
    let bytes = [padded(b"KIT     = 'a' /c"), padded(b"END")].concat();
    let (a, b) = (Value::from("a"), Value::from("b"));
    assert!(answers(&bytes, b"KIT", &a, Some("c")));
    assert!(!answers(&bytes, b"KIT", &b, Some("c")));
    assert!(!answers(&bytes, b"KIT", &a, None));
    assert!(!answers(&bytes, b"KIT", &a, Some("")));
    assert!(!answers(&bytes, b"SIZE", &a, Some("c")));
    assert!(!answers(&bytes[..CARD], b"KIT", &a, Some("c")), "without END");
    let longer = [&bytes[..], &padded(b"END")].concat();
    assert!(!answers(&longer, b"KIT", &a, Some("c")), "END before the last card");
}
