//! Cards read as SPECIFICATION 3 to 8 have them, for a third opinion, and with one misreading, for the power of the
//! comparison.

use crate::faults::Fault;
use crate::reading::{Card, Decimal, Entry, Value};
use crate::{columns, miscounts};

/// The specification with at most one misreading.
#[derive(Clone, Copy)]
pub struct Model(pub Fault);

/// Where the scan of a text stands.
#[derive(Clone, Copy, PartialEq)]
enum Place {
    Outside,
    Inside,
    After,
}

/// A value text and its comment.
struct Split {
    value: Vec<u8>,
    comment: Option<Vec<u8>>,
}

/// What a written exponent counts as at most.
const CAP: i64 = 99_999;

/// A refusal's number, or an answer.
type Answer<T> = Result<T, u8>;

fn cut_end(s: &[u8], cut: impl Fn(u8) -> bool) -> &[u8] {
    let n = s.iter().rposition(|&b| !cut(b)).map_or(0, |i| i + 1);
    &s[..n]
}

fn cut_front(s: &[u8], cut: impl Fn(u8) -> bool) -> &[u8] {
    let i = s.iter().position(|&b| !cut(b)).unwrap_or(s.len());
    &s[i..]
}

fn space(b: u8) -> bool {
    b == 32
}

impl Model {
    pub(crate) fn has(self, fault: Fault) -> bool {
        self.0 == fault
    }

    // ---- bytes

    fn blank(self, b: u8) -> bool {
        match b {
            32 => true,
            9 | 10 | 12 | 13 => !self.has(Fault::TabBlank),
            11 => self.has(Fault::VerticalTabBlank),
            _ => false,
        }
    }

    fn allowed(self, b: u8) -> bool {
        match b {
            126 => !self.has(Fault::TildeOdd),
            127 => self.has(Fault::DeleteAllowed),
            _ => (32..127).contains(&b),
        }
    }

    fn replaced(s: &[u8]) -> Vec<u8> {
        s.iter().map(|&b| if (32..127).contains(&b) { b } else { 127 }).collect()
    }

    // ---- splitting

    fn split(self, raw: &[u8]) -> Answer<Split> {
        let mut s = cut_end(cut_front(raw, |b| self.blank(b)), |b| self.blank(b));
        if self.has(Fault::ZeroEnds) {
            s = s.split(|&b| b == 0).next().unwrap();
        }
        let mut value = Vec::new();
        let mut place = Place::Outside;
        let mut slash = None;
        for (i, &b) in s.iter().enumerate() {
            match (b, place) {
                (b'\'', Place::Outside) => {
                    if !self.has(Fault::QuoteOnlyFirst) || value.is_empty() {
                        place = Place::Inside;
                    }
                    value.push(b);
                }
                (b'\'', Place::Inside) => {
                    place = Place::After;
                    value.push(b);
                }
                (b'\'', Place::After) => {
                    place = if self.has(Fault::DoubledCloses) { Place::After } else { Place::Inside };
                    if self.has(Fault::DoubledStays) {
                        value.push(b);
                    }
                }
                (b'/', Place::Inside) if !self.has(Fault::SlashInString) => value.push(b),
                (b'/', _) => {
                    slash = Some(i);
                    break;
                }
                (_, _) if self.allowed(b) => {
                    if place == Place::After && !self.has(Fault::PrintableStays) {
                        place = Place::Outside;
                    }
                    value.push(b);
                }
                (_, Place::Outside) => {
                    if !self.has(Fault::OddOutsideReplaced) {
                        return Err(2);
                    }
                    value.push(127);
                }
                (_, Place::Inside) => {
                    if self.has(Fault::OddInsideRefused) {
                        return Err(2);
                    }
                    value.push(127);
                }
                (_, Place::After) => {
                    if self.has(Fault::OddAfterRefused) {
                        return Err(2);
                    }
                    if self.has(Fault::OddAfterOutside) {
                        place = Place::Outside;
                    }
                    if !self.has(Fault::OddAfterDropped) {
                        value.push(127);
                    }
                }
            }
        }
        if !self.has(Fault::ValueNotCut) {
            value = cut_end(cut_front(&value, space), space).to_vec();
        }
        Ok(Split { value, comment: slash.and_then(|i| self.comment(&s[i + 1..])) })
    }

    fn comment(self, raw: &[u8]) -> Option<Vec<u8>> {
        let mut c = if self.has(Fault::CommentNotReplaced) { raw.to_vec() } else { Self::replaced(raw) };
        if self.has(Fault::SecondSlash) {
            c = c.split(|&b| b == b'/').next().unwrap().to_vec();
        }
        c = cut_end(&c, space).to_vec();
        if self.has(Fault::CommentFrontCut) {
            c = cut_front(&c, space).to_vec();
        }
        if c.is_empty() && self.has(Fault::EmptyCommentAbsent) {
            return None;
        }
        Some(c)
    }

    /// The unit past a space: at most one space, a bracket, and what stands before the next closing one.
    pub fn past(self, comment: &Option<Vec<u8>>) -> Option<Vec<u8>> {
        let c = comment.as_deref()?;
        let spaces = c.iter().take_while(|&&b| b == b' ').count();
        let passed = match self.0 {
            Fault::PastNone => 0,
            Fault::PastTwo => spaces.min(2),
            Fault::PastAll => spaces,
            Fault::PastOne => usize::from(c.first() != Some(&b'[')),
            Fault::PastOnly if spaces == 0 => return None,
            _ => spaces.min(1),
        };
        let (&open, rest) = c.get(passed..)?.split_first()?;
        let end = rest.iter().position(|&b| b == b']')?;
        (open == b'[').then(|| rest[..end].to_vec())
    }

    fn unit(self, comment: &Option<Vec<u8>>) -> Option<Vec<u8>> {
        let mut c = comment.as_deref()?;
        if self.has(Fault::UnitAfterSpace) {
            c = c.strip_prefix(b" ").unwrap_or(c);
        }
        if self.has(Fault::UnitAnywhere) {
            c = &c[c.iter().position(|&b| b == b'[')?..];
        }
        let rest = c.strip_prefix(b"[")?;
        let closes = |&b: &u8| b == b']';
        let end = match self.0 {
            Fault::UnitLast => rest.iter().rposition(closes)?,
            Fault::UnitUnclosed => rest.iter().position(closes).unwrap_or(rest.len()),
            _ => rest.iter().position(closes)?,
        };
        if end == 0 && self.has(Fault::UnitEmptyNone) {
            return None;
        }
        if self.has(Fault::UnitBracket) {
            return Some([b"[", &rest[..=end]].concat());
        }
        Some(rest[..end].to_vec())
    }

    // ---- strings

    fn string(self, v: &[u8]) -> Answer<Vec<u8>> {
        let quote = b'\'';
        let inner = match (v.first() == Some(&quote), v.last() == Some(&quote)) {
            (true, _) if self.has(Fault::UnclosedAmongQuotes) => {
                let rest = &v[1..];
                &rest[..rest.iter().position(|&b| b == quote).ok_or(3)?]
            }
            (true, true) if v.len() > 1 => &v[1..v.len() - 1],
            (true, false) if self.has(Fault::UnclosedRead) => &v[1..],
            (true, _) => return Err(3),
            (false, true) if self.has(Fault::ContinueOpened) => &v[..v.len() - 1],
            (false, true) => return Err(4),
            (false, false) if self.has(Fault::ContinueQuotes) => return Err(4),
            (false, false) => v,
        };
        if inner.is_empty() {
            return Ok(if self.has(Fault::EmptyToSpace) { b" ".to_vec() } else { Vec::new() });
        }
        let mut s = if self.has(Fault::StringEndKept) { inner } else { cut_end(inner, space) };
        if self.has(Fault::StringFrontCut) {
            s = cut_front(s, space);
        }
        if s.is_empty() && !self.has(Fault::SpacesToEmpty) {
            return Ok(b" ".to_vec());
        }
        Ok(s.to_vec())
    }

    // ---- values

    fn entry(self, name: Vec<u8>, raw: &[u8]) -> Answer<Entry> {
        let Split { value: v, mut comment } = self.split(raw)?;
        let value = self.value(&v, raw)?;
        let keeps = match value {
            Value::Undefined => self.has(Fault::UndefinedComment),
            Value::Invalid(_) => self.has(Fault::InvalidComment),
            _ => true,
        };
        if !keeps {
            comment = None;
        }
        Ok(Entry { name, value, unit: self.unit(&comment), past: self.past(&comment), comment })
    }

    fn value(self, v: &[u8], raw: &[u8]) -> Answer<Value> {
        let Some(&first) = v.first() else {
            return Ok(Value::Undefined);
        };
        let starts = match first {
            b'+' => !self.has(Fault::PlusNoNumber),
            b'.' => !self.has(Fault::PointNoNumber),
            b'-' | b'0'..=b'9' => true,
            b'i' | b'I' | b'n' | b'N' => self.has(Fault::WordsBare),
            _ => false,
        };
        let alone = !self.has(Fault::TruthAlone) || v.len() == 1;
        Ok(match first {
            b'\'' => Value::Text(self.string(v)?),
            b'T' if alone => Value::Logical(true),
            b'F' if alone => Value::Logical(false),
            b't' if self.has(Fault::SmallTruth) => Value::Logical(true),
            b'f' if self.has(Fault::SmallTruth) => Value::Logical(false),
            b'(' if !self.has(Fault::ComplexInvalid) => return Err(5),
            _ if starts => self.number(v),
            _ if self.has(Fault::InvalidCut) => Value::Invalid(v.to_vec()),
            _ if self.has(Fault::InvalidReplaced) => Value::Invalid(Self::replaced(raw)),
            _ => Value::Invalid(raw.to_vec()),
        })
    }

    // ---- numbers

    fn number(self, v: &[u8]) -> Value {
        let mut text = v.to_vec();
        if self.has(Fault::Underscores) {
            text.retain(|&b| b != b'_');
        }
        if self.has(Fault::InnerSpaces) {
            text.retain(|&b| b != b' ');
        }
        if let Some(value) = self.integer(&text).or_else(|| self.decimal(&text)) {
            return value;
        }
        let mut altered = text.clone();
        for b in altered.iter_mut() {
            if *b == b'D' || (*b == b'd' && self.has(Fault::SmallD)) {
                *b = b'E';
                if self.has(Fault::FirstD) {
                    break;
                }
            }
        }
        if let Some(value) = self.decimal(&altered) {
            return value;
        }
        Value::Invalid(if self.has(Fault::InvalidUnaltered) { v.to_vec() } else { altered })
    }

    fn signed(self, s: &[u8]) -> (bool, &[u8]) {
        match s.first() {
            Some(b'-') => (true, &s[1..]),
            Some(b'+') => (false, &s[1..]),
            _ => (false, s),
        }
    }

    fn integer(self, s: &[u8]) -> Option<Value> {
        let (minus, digits) = self.signed(s);
        if digits.is_empty() || !digits.iter().all(u8::is_ascii_digit) {
            return None;
        }
        if self.has(Fault::PlusDecimal) && s[0] == b'+' {
            return None;
        }
        if self.has(Fault::ZerosDecimal) && digits.len() > 1 && digits[0] == b'0' {
            return None;
        }
        let mut n: i128 = 0;
        for d in digits {
            n = (n * 10 + (d - b'0') as i128).min(1 << 100);
        }
        let n = if minus { -n } else { n };
        if self.has(Fault::MinusZeroDecimal) && minus && n == 0 {
            return None;
        }
        if self.has(Fault::LeastDecimal) && n == i64::MIN as i128 {
            return None;
        }
        if self.has(Fault::GreatestDecimal) && n == i64::MAX as i128 {
            return None;
        }
        match i64::try_from(n) {
            Ok(z) => Some(Value::Integer(z)),
            Err(_) if self.has(Fault::BeyondInteger) => Some(Value::Integer(if minus { i64::MIN } else { i64::MAX })),
            Err(_) if self.has(Fault::BeyondInvalid) => Some(Value::Invalid(s.to_vec())),
            Err(_) => None,
        }
    }

    fn decimal(self, s: &[u8]) -> Option<Value> {
        let (minus, mut rest) = self.signed(s);
        if self.has(Fault::TwoSigns) && matches!(rest.first(), Some(b'+' | b'-')) {
            rest = &rest[1..];
        }
        let small = rest.to_ascii_lowercase();
        let word = if self.has(Fault::WordsSmallOnly) { rest } else { &small[..] };
        if word == b"inf" || (word == b"infinity" && !self.has(Fault::InfinityUnknown)) {
            return Some(Value::Decimal(Decimal::special(minus, true)));
        }
        if word == b"nan" {
            return Some(Value::Decimal(Decimal::special(minus && !self.has(Fault::NanSignLost), false)));
        }
        let (whole, rest) = leading(rest);
        let (part, rest, point) = match rest.first() {
            Some(b'.') => {
                let (part, rest) = leading(&rest[1..]);
                (part, rest, true)
            }
            _ => (&rest[..0], rest, false),
        };
        if whole.is_empty() && part.is_empty() && !(point && self.has(Fault::PointAlone)) {
            return None;
        }
        if point && part.is_empty() && self.has(Fault::PointLastInvalid) {
            return None;
        }
        if point && whole.is_empty() && self.has(Fault::PointFirstInvalid) {
            return None;
        }
        let mut power = self.exponent(rest)?;
        let mut digits = [whole, part].concat();
        if !self.has(Fault::FractionLost) {
            power -= part.len() as i64;
        }
        let front = digits.iter().take_while(|&&d| d == b'0').count();
        if !self.has(Fault::ZerosInFront) || front == digits.len() {
            digits.drain(..front);
        }
        if self.has(Fault::SeventeenDigits) {
            digits.iter_mut().skip(17).for_each(|d| *d = b'0');
        }
        while digits.last() == Some(&b'0') && !self.has(Fault::ZerosAtEnd) {
            digits.pop();
            power += 1;
        }
        if self.has(Fault::CapOfPower) {
            power = power.clamp(-CAP, CAP);
        }
        if digits.is_empty() {
            let power = if self.has(Fault::ZeroPower) { power } else { 0 };
            return Some(Value::Decimal(Decimal::finite(minus && !self.has(Fault::ZeroSignLost), digits, power)));
        }
        Some(Value::Decimal(Decimal::finite(minus, digits, power)))
    }

    fn exponent(self, s: &[u8]) -> Option<i64> {
        match s.first() {
            None => return Some(0),
            Some(b'E') => (),
            Some(b'e') if !self.has(Fault::SmallEInvalid) => (),
            _ => return None,
        }
        let (minus, mut digits) = self.signed(&s[1..]);
        if self.has(Fault::ExponentPlusInvalid) && s.get(1) == Some(&b'+') {
            return None;
        }
        if self.has(Fault::ExponentPoint) {
            digits = digits.strip_suffix(b".").unwrap_or(digits);
        }
        if digits.is_empty() && !self.has(Fault::NoExponentDigits) {
            return None;
        }
        let cap = match self.0 {
            Fault::CapHigher => CAP + 1,
            Fault::CapLower => CAP - 1,
            Fault::CapOfPower => i64::from(i32::MAX),
            _ => CAP,
        };
        let mut e: i64 = 0;
        for d in digits {
            if !d.is_ascii_digit() {
                return None;
            }
            e = e * 10 + (d - b'0') as i64;
            if e > cap && self.has(Fault::CapInvalid) {
                return None;
            }
            e = e.min(cap);
        }
        if self.has(Fault::EightBitExponent) {
            e %= 256;
        }
        Some(if minus { -e } else { e })
    }

    // ---- cards

    fn keyword(self, card: &[u8; 80]) -> &[u8] {
        let blank = |b: u8| {
            if self.has(Fault::KeywordTab) {
                b == 32
            } else {
                Model(Fault::None).blank(b)
            }
        };
        let word = cut_end(&card[..8], blank);
        if self.has(Fault::KeywordFront) {
            word
        } else {
            cut_front(word, blank)
        }
    }

    fn commentary(self, card: &[u8; 80]) -> Vec<u8> {
        let raw = &card[if self.has(Fault::CommentaryFrom9) { 9 } else { 8 }..];
        if self.has(Fault::EmptyTab) {
            return Self::replaced(cut_end(raw, |b| Model(Fault::None).blank(b)));
        }
        let text = if self.has(Fault::CommentaryNotReplaced) { raw.to_vec() } else { Self::replaced(raw) };
        if self.has(Fault::CommentaryEndKept) {
            return text;
        }
        cut_end(&text, space).to_vec()
    }

    fn hierarch(self, card: &[u8; 80]) -> Answer<Card> {
        let from = if self.has(Fault::HierarchFrom8) { 8 } else { 9 };
        let equals = |b: &u8| *b == b'=';
        let rest = &card[from..];
        let at = if self.has(Fault::HierarchLastEquals) {
            rest.iter().rposition(|b| equals(b))
        } else {
            rest.iter().position(equals)
        };
        let at = from + at.ok_or(6)?;
        if self.has(Fault::HierarchTextFirst) {
            self.split(&card[at + 1..])?;
        }
        let parted = |b: &u8| if self.has(Fault::HierarchNameTab) { *b == 32 } else { Model(Fault::None).blank(*b) };
        let before = &card[at.min(9)..at];
        let pieces: Vec<&[u8]> =
            before.split(parted).filter(|p| !p.is_empty() || self.has(Fault::HierarchEmptyPieces)).collect();
        if pieces.iter().all(|p| p.is_empty()) && !self.has(Fault::HierarchNoName) {
            return Err(7);
        }
        let name = pieces.join(if self.has(Fault::HierarchSpaces) { &b" "[..] } else { &b"."[..] });
        Ok(Card::Hierarch(self.entry(name, &card[at + 1..])?))
    }

    fn extension(self, card: &[u8; 80]) -> Answer<Card> {
        let v = self.split(&card[10..])?.value;
        if v.len() < 2 || v[0] != b'\'' || v[v.len() - 1] != b'\'' {
            return Err(8);
        }
        Ok(Card::Xtension(cut_end(cut_front(&v[1..v.len() - 1], space), space).to_vec()))
    }

    fn class(self, card: &[u8; 80]) -> Answer<Card> {
        if card.iter().any(|&b| b >= 128) {
            return Err(1);
        }
        let word = self.keyword(card);
        Ok(match word {
            b"" => {
                let text = self.commentary(card);
                if text.is_empty() || self.has(Fault::EmptyIsSpace) {
                    Card::Space
                } else {
                    Card::Comment(text)
                }
            }
            b"COMMENT" => Card::Comment(self.commentary(card)),
            b"HISTORY" => Card::History(self.commentary(card)),
            b"CONTINUE" => {
                let split = self.split(&card[if self.has(Fault::ContinueFrom10) { 10 } else { 8 }..])?;
                Card::Continue(self.string(&split.value)?, split.comment)
            }
            b"XTENSION" => self.extension(card)?,
            b"HIERARCH" => self.hierarch(card)?,
            b"END" if !self.has(Fault::EndAlone) || card[8..].iter().all(|&b| b == 32) => Card::End,
            b"end" if self.has(Fault::SmallEnd) => Card::End,
            _ if &card[8..10] == b"= " => Card::Value(self.entry(word.to_vec(), &card[10..])?),
            _ if card[8] == b'=' && self.has(Fault::EqualsAlone) => Card::Value(self.entry(word.to_vec(), &card[9..])?),
            _ if self.has(Fault::EqualsAnywhere) => Card::Value(self.entry(word.to_vec(), &card[8..])?),
            _ if self.has(Fault::UndefinedCut) => Card::Undefined(cut_end(card, space).to_vec()),
            _ => Card::Undefined(card.to_vec()),
        })
    }

    /// One card.
    pub fn card(self, card: &[u8; 80]) -> Card {
        self.class(card).unwrap_or_else(|number| Card::Refused(number, self.column(card, number)))
    }

    /// The byte at which a card is refused.
    fn column(self, card: &[u8; 80], number: u8) -> Option<usize> {
        columns::column(card, number).map(|right| miscounts::named(self.0, card, number, right))
    }

    /// Whether a text that is to be a string, or XTENSION's, is one quote alone.
    pub fn is_lone_quote(card: &[u8; 80]) -> bool {
        let model = Model(Fault::None);
        let from = match model.keyword(card) {
            b"CONTINUE" => 8,
            b"HIERARCH" => match card[9..].iter().position(|&b| b == b'=') {
                Some(i) => i + 10,
                None => return false,
            },
            _ => 10,
        };
        matches!(model.split(&card[from..]), Ok(s) if s.value == b"'")
    }
}

/// The digits in front, and what follows them.
fn leading(s: &[u8]) -> (&[u8], &[u8]) {
    let n = s.iter().take_while(|b| b.is_ascii_digit()).count();
    s.split_at(n)
}
