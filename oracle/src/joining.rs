//! Headers as SPECIFICATION 9 to 11 have them: joining, equal names, order.

use crate::faults::Fault;
use crate::model::Model;
use crate::reading::{Card, Entry, Header, Refusal, Value};

/// The entries so far, which of them a CONTINUE joins, and the names that the cards bear, one for each card.
#[derive(Default)]
struct Listing {
    entries: Vec<Entry>,
    dotted: Vec<bool>,
    open: Option<usize>,
    borne: Vec<Vec<u8>>,
}

fn ends_open(value: &Value) -> bool {
    matches!(value, Value::Text(t) if t.last() == Some(&b'&'))
}

impl Model {
    /// A header's entries, from what each of its cards is.
    pub fn header(self, cards: &[[u8; 80]], read: impl Fn(&[u8; 80]) -> Card) -> Header {
        let mut list = Listing::default();
        let base = usize::from(self.has(Fault::RefusedFromOne));
        let mut refused = None;
        let mut ended = false;
        for (at, bytes) in cards.iter().enumerate() {
            match read(bytes) {
                Card::End => {
                    ended = true;
                    if !self.has(Fault::EndPassed) && !self.has(Fault::EndRefuses) {
                        break;
                    }
                }
                Card::Refused(..) if self.has(Fault::RefusedPassed) => (),
                Card::Refused(..)
                    if self.has(Fault::OrphanUnread) && list.open.is_none() && bytes.starts_with(b"CONTINUE") => {}
                Card::Refused(number, column) => {
                    refused = Some(Header::Refused(number, at + base, column));
                    if !self.has(Fault::RefusedLast) {
                        break;
                    }
                }
                _ if ended && self.has(Fault::EndRefuses) => (),
                Card::Value(entry) => self.put(&mut list, entry, false),
                Card::Hierarch(entry) => self.put(&mut list, entry, true),
                Card::Continue(text, comment) => self.go_on(&mut list, text, comment),
                Card::Xtension(text) => {
                    let name = b"XTENSION".to_vec();
                    self.put(
                        &mut list,
                        Entry { name, value: Value::Text(text), comment: None, unit: None, past: None },
                        false,
                    );
                    list.open = None;
                }
                Card::Comment(_) => self.close_if(&mut list, Fault::CommentCloses),
                Card::History(_) => self.close_if(&mut list, Fault::HistoryCloses),
                Card::Space => self.close_if(&mut list, Fault::SpaceCloses),
                Card::Undefined(_) => {
                    self.close_if(&mut list, Fault::UndefinedCloses);
                    if self.has(Fault::UndefinedEntry) {
                        let name = bytes[..8].trim_ascii().to_vec();
                        self.put(
                            &mut list,
                            Entry { name, value: Value::Undefined, comment: None, unit: None, past: None },
                            false,
                        );
                    }
                }
            }
        }
        if let Some(refused) = refused {
            return refused;
        }
        if !ended && !self.has(Fault::EndNotNeeded) {
            let last = usize::from(self.has(Fault::NoEndLastCard));
            return Header::Refused(10, cards.len().saturating_sub(last), None);
        }
        for entry in &mut list.entries {
            if self.has(Fault::AmpersandAtEnd) && ends_open(&entry.value) {
                if let Value::Text(t) = &mut entry.value {
                    t.pop();
                }
            }
        }
        let times = list.entries.iter().map(|entry| self.times(&list.borne, &entry.name)).collect();
        Header::Entries(list.entries, times)
    }

    /// How many cards bear a name.
    fn times(self, borne: &[Vec<u8>], name: &[u8]) -> usize {
        let times = borne.iter().filter(|own| *own == name).count();
        match self.0 {
            Fault::TimesAtMostTwo => times.min(2),
            Fault::TimesBeyondFirst => times - 1,
            _ => times,
        }
    }

    /// The name at a card's number, or the refusal. No other card has a say, so the refusal carries no card.
    pub fn name_at(self, cards: &[[u8; 80]], at: usize) -> Result<Vec<u8>, Refusal> {
        match self.card(&cards[at]) {
            Card::Value(entry) | Card::Hierarch(entry) => Ok(entry.name),
            Card::Xtension(_) => Ok(b"XTENSION".to_vec()),
            Card::Refused(number, column) => Err(Refusal { number, card: None, column }),
            _ => Err(Refusal::NOT_FOUND),
        }
    }

    /// The entry at a card's number, or the refusal with the card that it carries. A refused card counts where it is met: at that number,
    /// or while the string is open.
    pub fn entry_at(self, cards: &[[u8; 80]], at: usize) -> Result<Entry, Refusal> {
        let mut list = Listing::default();
        match self.card(&cards[at]) {
            Card::Value(entry) => self.put(&mut list, entry, false),
            Card::Hierarch(entry) => self.put(&mut list, entry, true),
            Card::Xtension(text) => {
                let name = b"XTENSION".to_vec();
                return Ok(Entry { name, value: Value::Text(text), comment: None, unit: None, past: None });
            }
            Card::Refused(number, column) => return Err(Refusal { number, card: Some(at), column }),
            _ => return Err(Refusal::NOT_FOUND),
        }
        for (met, bytes) in cards.iter().enumerate().skip(at + 1) {
            if list.open.is_none() {
                break;
            }
            match self.card(bytes) {
                Card::Continue(text, comment) => self.go_on(&mut list, text, comment),
                Card::Refused(number, column) => return Err(Refusal { number, card: Some(met), column }),
                Card::Value(_) | Card::Hierarch(_) | Card::Xtension(_) | Card::End => break,
                _ => (),
            }
        }
        Ok(list.entries.remove(0))
    }

    fn close_if(self, list: &mut Listing, fault: Fault) {
        if self.has(fault) {
            list.open = None;
        }
    }

    fn put(self, list: &mut Listing, entry: Entry, dotted: bool) {
        let stays = if dotted { Fault::HierarchStaysOpen } else { Fault::ValueStaysOpen };
        if !self.has(stays) {
            list.open = None;
        }
        if entry.value == Value::Undefined && self.has(Fault::UndefinedValueNone) {
            return;
        }
        if matches!(entry.value, Value::Invalid(_)) && self.has(Fault::InvalidNone) {
            return;
        }
        let unborne = match entry.value {
            _ if dotted && self.has(Fault::TimesHierarchNot) => true,
            Value::Undefined => self.has(Fault::TimesUndefinedNot),
            Value::Invalid(_) => self.has(Fault::TimesInvalidNot),
            _ => false,
        };
        if !unborne {
            list.borne.push(entry.name.clone());
        }
        let open = ends_open(&entry.value) && !(dotted && self.has(Fault::HierarchNotOpen));
        let same = |e: &Entry| {
            if self.has(Fault::NamesSmall) {
                e.name.eq_ignore_ascii_case(&entry.name)
            } else {
                e.name == entry.name
            }
        };
        let found = (0..list.entries.len())
            .find(|&i| same(&list.entries[i]) && !(self.has(Fault::DottedApart) && list.dotted[i] != dotted))
            .filter(|_| !self.has(Fault::EqualTwice));
        let at = match found {
            Some(_) if self.has(Fault::FirstCounts) => return,
            Some(i) if self.has(Fault::LastPlace) => {
                list.entries.remove(i);
                list.dotted.remove(i);
                list.open = list.open.filter(|&o| o != i).map(|o| if o > i { o - 1 } else { o });
                list.entries.push(entry);
                list.dotted.push(dotted);
                list.entries.len() - 1
            }
            Some(i) => {
                list.entries[i] = entry;
                i
            }
            None => {
                list.entries.push(entry);
                list.dotted.push(dotted);
                list.entries.len() - 1
            }
        };
        if open {
            list.open = Some(at);
        }
    }

    fn go_on(self, list: &mut Listing, text: Vec<u8>, comment: Option<Vec<u8>>) {
        let last = || list.entries.iter().rposition(|e| matches!(e.value, Value::Text(_)));
        let orphan = if self.has(Fault::OrphanJoins) { last() } else { None };
        let Some(at) = list.open.or(orphan) else {
            if self.has(Fault::OrphanEntry) {
                let name = b"CONTINUE".to_vec();
                list.entries.push(Entry { name, value: Value::Text(text), comment, unit: None, past: None });
                list.dotted.push(false);
            }
            return;
        };
        let entry = &mut list.entries[at];
        if self.has(Fault::TimesContinue) {
            list.borne.push(entry.name.clone());
        }
        let Value::Text(joined) = &mut entry.value else {
            return;
        };
        if joined.last() == Some(&b'&') && !self.has(Fault::AmpersandStays) {
            joined.pop();
        }
        while self.has(Fault::BothAmpersands) && joined.last() == Some(&b'&') {
            joined.pop();
        }
        let empty = text.is_empty() || (text == b" " && !self.has(Fault::OneSpaceJoins));
        if (empty && !self.has(Fault::SpacesBeforeStay)) || self.has(Fault::SpacesBeforeCut) {
            while joined.last() == Some(&b' ') {
                joined.pop();
            }
        }
        if !empty {
            joined.extend_from_slice(&text);
        }
        let open = match self.0 {
            Fault::OpenByLast => text.last() == Some(&b'&'),
            Fault::OpenNever => false,
            Fault::OpenAlways => true,
            _ => joined.last() == Some(&b'&'),
        };
        entry.comment = self.comments(entry.comment.take(), comment);
        entry.unit = unit(&entry.comment);
        entry.past = self.past(&entry.comment);
        list.open = open.then_some(at);
    }

    fn comments(self, a: Option<Vec<u8>>, c: Option<Vec<u8>>) -> Option<Vec<u8>> {
        let (Some(a), Some(c)) = (&a, &c) else {
            return a.or(c);
        };
        let between: &[u8] = match self.0 {
            Fault::CommentLast => return Some(c.clone()),
            Fault::CommentFirst => return Some(a.clone()),
            Fault::CommentEmptySkipped if a.is_empty() => return Some(c.clone()),
            Fault::CommentEmptySkipped if c.is_empty() => return Some(a.clone()),
            Fault::CommentSpace => b" ",
            Fault::CommentStraight => b"",
            _ => b"\n",
        };
        Some([a, between, c].concat())
    }
}

/// The unit of a comment that may be joined.
fn unit(comment: &Option<Vec<u8>>) -> Option<Vec<u8>> {
    let rest = comment.as_deref()?.strip_prefix(b"[")?;
    let end = rest.iter().position(|&b| b == b']')?;
    Some(rest[..end].to_vec())
}
