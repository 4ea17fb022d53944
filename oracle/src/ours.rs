//! Our answers, through the archive's C boundary.

use crate::reading::{Card, Decimal, Entry, Header, Refusal, Tile, Value};

use widrekas_sys::{self as boundary, Remark, Stepping, Told, CARD, DIGITS, NUMBERS, PLACES, RECORD};

/// Where the texts of a card's record stand.
const NAME: usize = 8;
const TEXT: usize = 88;
const COMMENT: usize = 168;

fn unit(comment: &Option<Vec<u8>>) -> Option<Vec<u8>> {
    let c = comment.as_deref()?;
    let end = boundary::unit(c);
    if end == 0 {
        return None;
    }
    Some(c[1..end].to_vec())
}

/// The unit past a space. Where there is none, the lent start stays.
fn past(comment: &Option<Vec<u8>>) -> Option<Vec<u8>> {
    let c = comment.as_deref()?;
    let mut start = LEFT;
    let end = boundary::unit_past_space(c, &mut start);
    if end == 0 {
        assert!(start == LEFT, "a unit that is not there touches its start");
        return None;
    }
    Some(c[start..end].to_vec())
}

/// What lent memory holds before a call, to see that a refusal leaves it.
const BEFORE: u8 = 0xa5;

/// What a lent number holds before a call: no card and no byte of a card has this number.
const LEFT: usize = usize::MAX;

/// The byte that an answer tells. Answers other than 1 to 8 leave what is lent.
fn column_of(answer: u8, column: usize) -> Option<usize> {
    assert!(column == LEFT || (1..=8).contains(&answer), "answer {answer} touches the column: {column}");
    (column != LEFT).then_some(column)
}

/// Slices of other lengths are answered by 255, headers of other lengths by 9, and what is lent is left alone.
pub fn check_lengths() {
    check_card_lengths();
    check_header_lengths();
    check_lent_lengths();
}

fn check_card_lengths() {
    for (card, room) in [(0, RECORD), (79, RECORD), (81, RECORD), (80, 0), (80, RECORD - 1), (80, RECORD + 1), (160, 0)]
    {
        let mut record = vec![BEFORE; room];
        let (mut number, mut column) = (-1, LEFT);
        let answer = boundary::card(&vec![200; card], &mut record, &mut number, &mut column);
        assert!(answer == 255 && number == -1 && record.iter().all(|&b| b == BEFORE), "lengths {card} and {room}");
        assert!(column == LEFT, "lengths {card} and {room}: the column is touched");
    }
}

/// Every card of these headers would be refused.
fn check_header_lengths() {
    for length in [0, 1, 79, 81, 57_599, 57_680] {
        let header = vec![200; length];
        let (mut at, mut column) = (LEFT, LEFT);
        let answer = boundary::header(&header, &mut at, &mut column);
        assert!((answer, at, column) == (9, 0, LEFT), "a header of {length} bytes");
        let [mut first, mut last, mut times] = [[LEFT; PLACES]; 3];
        at = LEFT;
        let answer = boundary::list(&header, &mut first, &mut last, &mut times, &mut at, &mut column);
        assert!((answer, at, column) == (9, 0, LEFT), "a list of {length} bytes");
        assert!([first, last, times] == [[LEFT; PLACES]; 3], "a refusal touches lent memory");
        assert!(name(&header, 0) == Err(Refusal { number: 9, card: None, column: None }), "a name of {length} bytes");
        for asked in [Asked::Card(0), Asked::Name(b"A")] {
            let told = Lent::new().entry(&header, asked, b"A");
            assert!(told == Err(Refusal { number: 9, card: Some(0), column: None }), "an entry of {length} bytes");
        }
    }
}

/// The slices whose lengths the safe functions fix, one number short.
fn check_lent_lengths() {
    let card = [200u8; 80];
    let mut bytes = [BEFORE; 2 * DIGITS];
    let mut numbers = [LEFT; 3 * PLACES];
    let (mut number, mut count, mut column) = (-1i64, LEFT, LEFT);
    let (text, digits) = bytes.split_at_mut(DIGITS);
    let (first, others) = numbers.split_at_mut(PLACES);
    let (last, times) = others.split_at_mut(PLACES);
    let (head, t, d) = (card.as_ptr(), text.as_mut_ptr(), digits.as_mut_ptr());
    let (f, l, m) = (first.as_mut_ptr(), last.as_mut_ptr(), times.as_mut_ptr());
    let mut answers = Vec::new();
    for short in 0..3 {
        let [a, b, c] = std::array::from_fn(|at| PLACES - usize::from(at == short));
        // SAFETY: each pointer has at least as much behind it as its length says, and nothing that is written is lent twice.
        answers.push(unsafe { boundary::raw::widrekas_list(head, 80, f, a, l, b, m, c, &mut count, &mut column) });
    }
    for (a, b) in [(DIGITS - 1, NUMBERS), (DIGITS, NUMBERS - 1)] {
        let (n, c) = (&mut number, &mut column);
        // SAFETY: as above.
        answers.push(unsafe { boundary::raw::widrekas_entry_value(head, 80, 0, t, 0, d, a, f, b, n, c) });
        let (n, c) = (&mut number, &mut column);
        // SAFETY: as above; the name is the card's first byte, which is only read.
        answers.push(unsafe { boundary::raw::widrekas_lookup_value(head, 80, head, 1, t, 0, d, a, f, b, n, c) });
    }
    assert!(answers == [255; 7], "slices of other lengths: {answers:?}");
    assert!((number, count, column) == (-1, LEFT, LEFT), "255 touches a lent number");
    assert!(bytes == [BEFORE; 2 * DIGITS] && numbers == [LEFT; 3 * PLACES], "255 touches lent memory");
}

/// One card.
pub fn card(card: &[u8; 80]) -> Card {
    let mut record = [BEFORE; RECORD];
    let (mut number, mut column) = (-1, LEFT);
    let refused = boundary::card(card, &mut record, &mut number, &mut column);
    let column = column_of(refused, column);
    if refused != 0 {
        assert!(record == [BEFORE; RECORD] && number == -1, "a refusal touches lent memory");
        return Card::Refused(refused, column);
    }
    let part = |at: usize, len: u8| record[at..at + len as usize].to_vec();
    let text = || part(TEXT, record[5]);
    let flag = record[2] == 1;
    let comment = (record[3] == 1).then(|| part(COMMENT, record[6]));
    let value = || match record[1] {
        1 => Value::Integer(number),
        2 => Value::Decimal(Decimal::finite(flag, text(), number)),
        3 => Value::Decimal(Decimal::special(flag, true)),
        4 => Value::Decimal(Decimal::special(flag, false)),
        5 => Value::Logical(flag),
        6 => Value::Text(text()),
        7 => Value::Undefined,
        _ => Value::Invalid(text()),
    };
    let entry = || Entry {
        name: part(NAME, record[4]),
        value: value(),
        unit: unit(&comment),
        past: past(&comment),
        comment: comment.clone(),
    };
    match record[0] {
        1 => Card::Value(entry()),
        2 => Card::Continue(text(), comment.clone()),
        3 => Card::Xtension(text()),
        4 => Card::Comment(text()),
        5 => Card::History(text()),
        6 => Card::Hierarch(entry()),
        7 => Card::Space,
        8 => Card::End,
        _ => Card::Undefined(text()),
    }
}

/// Lent memory for the two halves of an entry. Its lengths are those that are lent, up to what the buffers have.
pub struct Lent {
    text: Vec<u8>,
    comment: Vec<u8>,
    told: Told,
    said: Remark,
}

/// What a name or a card's number is asked by.
#[derive(Clone, Copy)]
pub enum Asked<'a> {
    Name(&'a [u8]),
    Card(usize),
}

/// What is lent where nothing says how long a text is: no text is as long.
const ROOM: usize = 58_400;

/// Whether nothing beyond n bytes was written, as far as is looked.
fn untouched(bytes: &[u8], n: usize) -> bool {
    bytes[n..].iter().take(200).all(|&b| b == BEFORE)
}

impl Lent {
    pub fn new() -> Self {
        let told = Told { digits: [BEFORE; DIGITS], out: [LEFT; NUMBERS], number: -1, column: LEFT };
        let said = Remark { commented: LEFT, length: LEFT, card: LEFT, column: LEFT };
        Lent { text: vec![BEFORE; ROOM], comment: vec![BEFORE; ROOM], told, said }
    }

    fn ask_value(&mut self, header: &[u8], asked: Asked, room: usize) -> u8 {
        let text = &mut self.text[..room];
        match asked {
            Asked::Name(name) => boundary::lookup_value(header, name, text, &mut self.told),
            Asked::Card(card) => boundary::entry_value(header, card, text, &mut self.told),
        }
    }

    fn ask_comment(&mut self, header: &[u8], asked: Asked, room: usize) -> u8 {
        let comment = &mut self.comment[..room];
        match asked {
            Asked::Name(name) => boundary::lookup_comment(header, name, comment, &mut self.said),
            Asked::Card(card) => boundary::entry_comment(header, card, comment, &mut self.said),
        }
    }

    /// The entry that is asked for, its two halves put together, or the refusal that both give, with what it tells beside it.
    pub fn entry(&mut self, header: &[u8], asked: Asked, name: &[u8]) -> Result<Entry, Refusal> {
        let (value, comment) = (self.value(header, asked), self.comment(header, asked));
        match (value, comment) {
            (Ok(value), Ok(comment)) => {
                Ok(Entry { name: name.to_vec(), value, unit: unit(&comment), past: past(&comment), comment })
            }
            (Err(one), Err(other)) => {
                assert!(one == other, "the halves refuse by {one:?} and by {other:?}");
                Err(one)
            }
            (value, comment) => panic!("one half is refused: {value:?}, {comment:?}"),
        }
    }

    /// The value's half. A buffer that is just as long as the text is lent; one byte less is refused, and the room wanted is told.
    fn value(&mut self, header: &[u8], asked: Asked) -> Result<Value, Refusal> {
        self.told = Told { digits: [BEFORE; DIGITS], out: [LEFT; NUMBERS], number: -1, column: LEFT };
        let refused = self.ask_value(header, asked, ROOM);
        let column = column_of(refused, self.told.column);
        if refused != 0 {
            let [card, one, two, wanted, four] = self.told.out;
            assert!((one, two, four, self.told.number) == (LEFT, LEFT, LEFT, -1), "a refusal touches lent memory");
            assert!(wanted == if refused == 12 { 0 } else { LEFT }, "a refusal wants {wanted} bytes");
            assert!(untouched(&self.text, 0) && self.told.digits == [BEFORE; DIGITS], "a refusal touches lent memory");
            return Err(Refusal { number: refused, card: (card != LEFT).then_some(card), column });
        }
        let [zero, kind, flag, text, digits] = self.told.out;
        assert!(zero == 0 && untouched(&self.text, text), "bytes beyond a length are touched");
        let held = self.text[..text].to_vec();
        let places = self.told.digits[..digits].to_vec();
        assert!(self.told.digits[digits..].iter().all(|&b| b == 0), "digits");
        assert!(kind == 2 || places.is_empty(), "digits where there is no decimal");
        assert!(kind == 6 || kind == 8 || text == 0, "a text where there is none");
        self.text[..text].fill(BEFORE);
        let kept = (self.told.out, self.told.number);
        assert!(self.ask_value(header, asked, text) == 0, "room that is enough");
        assert!((self.told.out, self.told.number) == kept, "another answer with less room");
        assert!(self.text[..text] == held[..], "another text with less room");
        self.text[..text].fill(BEFORE);
        for room in [text.saturating_sub(1), 0] {
            if text > 0 {
                self.told.out = [LEFT; NUMBERS];
                assert!(self.ask_value(header, asked, room) == 13, "room that is too little");
                assert!(self.told.out == [LEFT, LEFT, LEFT, text, LEFT], "13 does not tell the room that is wanted");
            }
        }
        assert!(untouched(&self.text, 0) && self.told.number == kept.1, "a refusal touches lent memory");
        assert!(self.told.column == LEFT, "0 or 13 touches the column");
        let flag = flag == 1;
        Ok(match kind {
            1 => Value::Integer(kept.1),
            2 => Value::Decimal(Decimal::finite(flag, places, kept.1)),
            3 => Value::Decimal(Decimal::special(flag, true)),
            4 => Value::Decimal(Decimal::special(flag, false)),
            5 => Value::Logical(flag),
            6 => Value::Text(held),
            7 => Value::Undefined,
            _ => Value::Invalid(held),
        })
    }

    /// The comment's half, with buffers as for the value's.
    fn comment(&mut self, header: &[u8], asked: Asked) -> Result<Option<Vec<u8>>, Refusal> {
        self.said = Remark { commented: LEFT, length: LEFT, card: LEFT, column: LEFT };
        let refused = self.ask_comment(header, asked, ROOM);
        let column = column_of(refused, self.said.column);
        let Remark { commented, length, card, .. } = self.said;
        if refused != 0 {
            assert!(commented == LEFT && untouched(&self.comment, 0), "a refusal touches lent memory");
            assert!(length == if refused == 12 { 0 } else { LEFT }, "a refusal wants {length} bytes");
            return Err(Refusal { number: refused, card: (card != LEFT).then_some(card), column });
        }
        assert!(card == LEFT && untouched(&self.comment, length), "bytes beyond a length are touched");
        assert!(commented == 1 || (commented, length) == (0, 0), "a comment where there is none");
        let remark = self.comment[..length].to_vec();
        self.comment[..length].fill(BEFORE);
        assert!(self.ask_comment(header, asked, length) == 0, "room that is enough");
        assert!((self.said.commented, self.said.length) == (commented, length), "another answer with less room");
        assert!(self.comment[..length] == remark[..], "another comment with less room");
        self.comment[..length].fill(BEFORE);
        for room in [length.saturating_sub(1), 0] {
            if length > 0 {
                (self.said.commented, self.said.length) = (LEFT, LEFT);
                assert!(self.ask_comment(header, asked, room) == 13, "room that is too little");
                assert!(
                    (self.said.commented, self.said.length) == (LEFT, length),
                    "13 does not tell the room that is wanted"
                );
            }
        }
        assert!(untouched(&self.comment, 0), "a refusal touches lent memory");
        assert!((self.said.card, self.said.column) == (LEFT, LEFT), "0 or 13 touches the card or the column");
        Ok((commented == 1).then_some(remark))
    }
}

/// The name at a card's number, or the refusal. A name that is just as long is lent; one byte less is refused.
pub fn name(header: &[u8], card: usize) -> Result<Vec<u8>, Refusal> {
    let mut held = [BEFORE; CARD];
    let (mut length, mut column) = (LEFT, LEFT);
    let refused = boundary::name(header, card, &mut held, &mut length, &mut column);
    let column = column_of(refused, column);
    if refused != 0 {
        assert!(held == [BEFORE; CARD] && length == LEFT, "a refusal touches lent memory");
        return Err(Refusal { number: refused, card: None, column });
    }
    assert!(held[length..].iter().all(|&b| b == BEFORE), "bytes beyond a length are touched");
    let (mut short, mut kept, mut column) = (vec![BEFORE; length], LEFT, LEFT);
    if length > 0 {
        let refused = boundary::name(header, card, &mut short[1..], &mut kept, &mut column);
        assert!((refused, kept, column) == (13, LEFT, LEFT), "room that is too little");
        assert!(short.iter().all(|&b| b == BEFORE), "a refusal touches lent memory");
    }
    let told = boundary::name(header, card, &mut short, &mut kept, &mut column);
    assert!((told, kept, column) == (0, length, LEFT) && held[..length] == short, "room that is enough");
    Ok(short)
}

/// The names that are looked up beside those of a header.
const ABSENT: [&[u8]; 6] = [b"", b"A", b"a", b"END", b"CONTINUE", b"NO.SUCH"];

/// The most cards of a header in which every name is looked up.
const FEW: usize = 60;

/// Where END stands, or the refusal.
fn end(header: &[u8]) -> Result<usize, Refusal> {
    let (mut card, mut column) = (LEFT, LEFT);
    let refused = boundary::header(header, &mut card, &mut column);
    let column = column_of(refused, column);
    if refused != 0 {
        return Err(Refusal { number: refused, card: Some(card), column });
    }
    Ok(card)
}

/// One header: where END stands, its list, each entry by its last card, and each name looked up.
pub fn header(cards: &[[u8; 80]]) -> Header {
    let bytes = cards.as_flattened();
    let [mut first, mut last, mut times] = [[LEFT; PLACES]; 3];
    let (mut count, mut column) = (LEFT, LEFT);
    let refused = boundary::list(bytes, &mut first, &mut last, &mut times, &mut count, &mut column);
    let column = column_of(refused, column);
    let mut lent = Lent::new();
    let end = end(bytes);
    if refused != 0 {
        assert!([first, last, times] == [[LEFT; PLACES]; 3], "a refusal touches lent memory");
        let refusal = Refusal { number: refused, card: Some(count), column };
        let told = lent.entry(bytes, Asked::Name(b"A"), b"A");
        assert!(told == Err(refusal), "lookup refuses a header otherwise: {told:?}, the list by {refusal:?}");
        assert!(end == Err(refusal), "the search for END refuses a header otherwise: {end:?}, the list by {refusal:?}");
        return Header::Refused(refused, count, column);
    }
    assert!(end.is_ok_and(|at| card(&cards[at]) == Card::End), "END: {end:?}");
    let beyond = (lent.entry(bytes, Asked::Card(cards.len()), b""), name(bytes, cards.len()));
    assert!(beyond == (Err(Refusal::NOT_FOUND), Err(Refusal::NOT_FOUND)), "a card that is not there: {beyond:?}");
    assert!(first[count..].iter().chain(&last[count..]).all(|&n| n == PLACES), "free places");
    assert!(times[count..].iter().all(|&n| n == 0), "free places are borne");
    let mut entries: Vec<Entry> = Vec::new();
    for at in 0..count {
        let card_name = |n: usize| match card(&cards[n]) {
            Card::Value(e) | Card::Hierarch(e) => e.name,
            Card::Xtension(_) => b"XTENSION".to_vec(),
            other => panic!("no entry: {other:?}"),
        };
        let name = card_name(first[at]);
        assert!(name == card_name(last[at]), "the last entry has another name");
        let entry = lent.entry(bytes, Asked::Card(last[at]), &name).expect("an entry of the list");
        if cards.len() < FEW || at % 16 == 0 {
            let found = lent.entry(bytes, Asked::Name(&name), &name).expect("a name of the list");
            assert!(found == entry, "lookup finds {found:?}, the list has {entry:?}");
        }
        entries.push(entry);
    }
    for name in ABSENT {
        if (cards.len() < FEW || name.is_empty()) && entries.iter().all(|e| e.name != name) {
            let told = lent.entry(bytes, Asked::Name(name), name);
            assert!(told == Err(Refusal::NOT_FOUND), "lookup of an absent name: {told:?}");
        }
    }
    Header::Entries(entries, times[..count].to_vec())
}

/// A pixel that no width of 8 or 16 bits has, to see what stays untouched.
const UNTOUCHED: i32 = i32::MIN + 77;

/// One tile, decoded whole.
pub fn tile(tile: &[u8], nx: usize, nblock: usize, width: usize) -> Tile {
    let mut pixels = vec![UNTOUCHED; nx];
    let mut count = 0;
    let refused = boundary::decode(tile, nx, nblock, width, &mut pixels, &mut count);
    if refused == 0 {
        return Tile { refused, pixels, bytes: count.div_ceil(8) };
    }
    assert!(pixels[count..].iter().all(|&p| p == UNTOUCHED), "pixels behind a fault are touched");
    pixels.truncate(count);
    Tile { refused, pixels, bytes: 0 }
}

/// The whole bytes used after each block, with all the pixels; it ends at the first block that fails.
pub fn blocks(tile: &[u8], nx: usize, nblock: usize, width: usize) -> (Vec<usize>, Vec<i32>) {
    let mut pixels = vec![UNTOUCHED; nx];
    let mut places = Vec::new();
    let (mut bit, mut done, mut last, mut written) = (0, 0, 0, 0);
    let mut refused = boundary::open(tile, nx, nblock, width, &mut bit, &mut done, &mut last);
    while refused == 0 && done < nx {
        let at = Stepping { bit: &mut bit, done: &mut done, last: &mut last, written: &mut written };
        refused = boundary::step(tile, nx, nblock, width, at, &mut pixels);
        if refused == 0 {
            places.push(bit.div_ceil(8));
        }
    }
    pixels.truncate(done);
    (places, pixels)
}
