//! A header that is read on past its refused cards.

use super::{Header, KEYWORD};
use crate::card::{self, Card};
use crate::refusal::{Reason, Refusal};
use crate::text::Text;
use crate::value::{Entry, Value};
use std::collections::{BTreeMap, BTreeSet};
use std::fmt;
use widrekas_sys::{self as boundary, Told, CARD};

/// A header that is read on past its refused cards: every name that one of them could touch is an error, all others answer.
///
/// A refused card touches
///
/// - the name of a string that is open before it;
/// - the name in its keyword field, a HIERARCH card's dotted name, whatever stands in its value;
/// - every name where its own cannot be read: a byte of 128 or more stands in the keyword field or in a HIERARCH name, a HIERARCH
///   card has no name ([`NoEquals`](Reason::NoEquals), [`NoName`](Reason::NoName)), or the keyword is END.
///
/// COMMENT, HISTORY, CONTINUE and an empty keyword are no names. A touched name stays an error even if a good card bears it too.
///
/// Names are taken by the letter: one that is damaged and still ASCII touches the name that it shows, not the one that it had. A
/// damaged card that is not refused is not seen.
///
/// ```
/// # fn main() -> Result<(), widrekas::Refusal> {
/// use widrekas::{Header, Reason};
/// let mut file = Vec::new();
/// for card in ["SIZE    = 12", "KIT     = 'FKM-&'", "CONTINUE  '75-&", "CONTINUE  'A2'", "END"] {
///     file.extend(format!("{card:80}").bytes());
/// }
/// let read = Header::read_on(&file)?;
/// let refusal = read.get("KIT").unwrap_err();
/// assert_eq!((refusal.reason(), refusal.card(), refusal.column()), (Reason::StringNotClosed, Some(2), Some(10)));
/// assert_eq!(read.get("SIZE")?.unwrap().as_i64(), Some(12));
/// assert_eq!(read.get("NONE")?, None);
/// # Ok(())
/// # }
/// ```
#[derive(Clone, PartialEq, Eq)]
pub struct ReadOn {
    /// The header with spaces in place of its refused cards. A space card is no entry and ends no open string, so the entries of
    /// the names that are not touched are those of the header.
    blanked: Header,
    touched: Touched,
}

/// What the refused cards of a header touch.
#[derive(Clone, Default, PartialEq, Eq)]
struct Touched {
    /// Their refusals, in the order of the cards.
    refusals: Vec<Refusal>,
    /// The names that they bear, with their numbers, in the same order.
    borne: Vec<(usize, Text)>,
    /// The names that they touch, with the refusal of the first card that does.
    names: BTreeMap<Text, Refusal>,
    /// The refusal of the first card that touches every name.
    every: Option<Refusal>,
}

/// What stands in a card's keyword field.
enum Keyword {
    Name(Text),
    NoName,
    Unreadable,
}

/// The front of a card with other bytes behind it, and spaces up to its end.
fn front(card: &[u8; CARD], len: usize, behind: &[u8]) -> [u8; CARD] {
    let mut bytes = card.iter().take(len).chain(behind);
    std::array::from_fn(|_| *bytes.next().unwrap_or(&b' '))
}

/// The keyword of a card: what it is read as with an empty value, or with the string that an XTENSION card must have.
fn keyword(card: &[u8; CARD]) -> Keyword {
    match Card::read(&front(card, KEYWORD, b"= ")).map_err(|refusal| refusal.reason()) {
        Ok(Card::Value { name, .. }) => Keyword::Name(name),
        Ok(Card::Comment(_) | Card::History(_) | Card::Continuation { .. }) => Keyword::NoName,
        Err(Reason::NoEquals) => dotted(card),
        Err(Reason::ExtensionNotQuoted) => Keyword::Name(card::name(&front(card, KEYWORD, b"= ''"))),
        _ => Keyword::Unreadable,
    }
}

/// The name of a HIERARCH card: what it is read with if nothing stands behind its =. Byte 8 is no part of it.
fn dotted(card: &[u8; CARD]) -> Keyword {
    let mut card = *card;
    card[KEYWORD] = b' ';
    let equals = card.iter().position(|&byte| byte == b'=');
    match Card::read(&front(&card, equals.map_or(CARD, |at| at + 1), b"")) {
        Ok(Card::Hierarch { name, .. }) => Keyword::Name(name),
        _ => Keyword::Unreadable,
    }
}

/// Whether a refused card is met while the first of these cards, an entry, is joined. This is asked before there is a want of room, and of
/// no more cards than stand between the two: what joining takes goes with their number.
fn meets_refused(cards: &[u8]) -> bool {
    matches!(boundary::entry_value(cards, 0, &mut [], &mut Told::default()), 1..=8)
}

impl Touched {
    /// Takes a refused card in, by its number and its refusal's.
    fn add(&mut self, card: &[u8; CARD], refusal: Refusal) {
        self.refusals.push(refusal);
        match keyword(card) {
            Keyword::Name(name) => {
                self.borne.extend(refusal.card().map(|number| (number, name.clone())));
                self.add_name(name, refusal);
            }
            Keyword::NoName => (),
            Keyword::Unreadable => self.every = self.every.or(Some(refusal)),
        }
    }

    /// Takes a name in, by the refusal of a card that touches it. An earlier one stays.
    fn add_name(&mut self, name: Text, refusal: Refusal) {
        self.names.entry(name).or_insert(refusal);
    }

    /// The refusal of the first card that touches a name.
    fn first(&self, name: &[u8]) -> Option<Refusal> {
        let own = std::str::from_utf8(name).ok().and_then(|name| self.names.get(name).copied());
        [self.every, own].into_iter().flatten().min_by_key(Refusal::card)
    }
}

impl ReadOn {
    /// Reads cards, which are one behind the other, up to END.
    ///
    /// Each card is read a bounded number of times: to see whether it is refused, for its keyword if it is, while the one entry
    /// before it is joined, and in the list of names.
    pub(super) fn of(cards: &[u8]) -> Result<ReadOn, Refusal> {
        match Header::parse(cards) {
            Err(refusal) if !matches!(refusal.reason(), Reason::HeaderLength | Reason::NoEnd) => (),
            read => return read.map(|blanked| ReadOn { blanked, touched: Touched::default() }),
        }
        let mut touched = Touched::default();
        let mut blanked = cards.to_vec();
        // The last entry, until a refused card has asked for it: a string that is closed there stays closed.
        let mut last = None;
        for (number, card) in blanked.chunks_exact_mut(CARD).enumerate() {
            let Some(card) = card.first_chunk_mut() else { break };
            match Card::read(card) {
                Ok(Card::End) => break,
                Ok(Card::Value { name, .. } | Card::Hierarch { name, .. }) => last = Some((number, name)),
                Ok(Card::Xtension(_)) => last = Some((number, card::name(card))),
                Ok(_) => (),
                Err(refusal) => {
                    let refusal = refusal.at(number);
                    let before = |entry: usize| cards.get(entry * CARD..(number + 1) * CARD).unwrap_or_default();
                    if let Some((_, name)) = last.take().filter(|(entry, _)| meets_refused(before(*entry))) {
                        touched.add_name(name, refusal);
                    }
                    touched.add(card, refusal);
                    card.fill(b' ');
                }
            }
        }
        Ok(ReadOn { blanked: Header::parse(&blanked)?, touched })
    }

    /// The header in which a name is asked for; an error is the refusal of the first card that touches the name.
    fn untouched(&self, name: &[u8]) -> Result<&Header, Refusal> {
        match self.touched.first(name) {
            Some(refusal) => Err(refusal),
            None => Ok(&self.blanked),
        }
    }

    /// The value of a name, as [`Header::get`] gives it. An error is the refusal of the first card that touches the name, with that
    /// card's number and column.
    pub fn get(&self, name: impl AsRef<[u8]>) -> Result<Option<Value>, Refusal> {
        let name = name.as_ref();
        Ok(self.untouched(name)?.get(name))
    }

    /// The comment of a name, as [`Header::comment`] gives it; an error as for [`ReadOn::get`].
    pub fn comment(&self, name: impl AsRef<[u8]>) -> Result<Option<Text>, Refusal> {
        let name = name.as_ref();
        Ok(self.untouched(name)?.comment(name))
    }

    /// The value of a name with its comment, as [`Header::entry`] gives them; an error as for [`ReadOn::get`].
    pub fn entry(&self, name: impl AsRef<[u8]>) -> Result<Option<Entry>, Refusal> {
        let name = name.as_ref();
        Ok(self.untouched(name)?.entry(name))
    }

    /// How many cards bear a name, as [`Header::count`] says; an error as for [`ReadOn::get`].
    pub fn count(&self, name: impl AsRef<[u8]>) -> Result<usize, Refusal> {
        let name = name.as_ref();
        Ok(self.untouched(name)?.count(name))
    }

    /// The names, those of refused cards too, in the order of their first cards. An error where a name cannot be read, since the
    /// list would lack it; it is that of every name then.
    pub fn keywords(&self) -> Result<impl ExactSizeIterator<Item = &Text>, Refusal> {
        if let Some(refusal) = self.touched.every {
            return Err(refusal);
        }
        let good = self.blanked.places.iter().map(|place| place.first).zip(self.blanked.keywords());
        let refused = self.touched.borne.iter().map(|(number, name)| (*number, name));
        let mut all: Vec<(usize, &Text)> = good.chain(refused).collect();
        all.sort_unstable_by_key(|(number, _)| *number);
        let mut seen = BTreeSet::new();
        all.retain(|(_, name)| seen.insert(*name));
        Ok(all.into_iter().map(|(_, name)| name))
    }

    /// The names with their entries or errors, in the same order; an error as for [`ReadOn::keywords`].
    pub fn entries(&self) -> Result<impl Iterator<Item = (&Text, Result<Entry, Refusal>)>, Refusal> {
        Ok(self.keywords()?.filter_map(|name| Some((name, self.entry(name).transpose()?))))
    }

    /// The number of the END card, as [`Header::end`].
    pub fn end(&self) -> usize {
        self.blanked.end()
    }

    /// Where the data begin, as [`Header::data_start`].
    pub fn data_start(&self) -> usize {
        self.blanked.data_start()
    }

    /// The refusals of all refused cards, each with its card's number and column, in the order of the cards; none where
    /// [`Header::parse`] accepts the header.
    pub fn refusals(&self) -> &[Refusal] {
        &self.touched.refusals
    }
}

/// The refusals, and the names with their entries or errors.
impl fmt::Debug for ReadOn {
    fn fmt(&self, f: &mut fmt::Formatter<'_>) -> fmt::Result {
        let entries = self.entries().map(Vec::from_iter);
        f.debug_struct("ReadOn").field("refusals", &self.refusals()).field("entries", &entries).finish()
    }
}
