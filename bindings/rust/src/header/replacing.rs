//! A header with another value of one name.

use super::Header;
use crate::card::Card;
use crate::refusal::Refusal;
use crate::text::Text;
use crate::value::{Entry, Value};
use crate::writing::write;
use std::{error, fmt};
use widrekas_sys::CARD;

/// Why a name's value was not replaced.
#[derive(Clone, Copy, Debug, PartialEq, Eq, Hash)]
#[non_exhaustive]
pub enum NotReplaced {
    /// The name, the value or the comment cannot be written: [`UnwritableName`](crate::Reason::UnwritableName) or
    /// [`UnwritableValue`](crate::Reason::UnwritableValue).
    Refused(Refusal),
    /// No card bears the name.
    NoCard,
    /// The name has another number of cards than are to be written.
    OtherCount {
        /// How many cards belong to the name.
        old: usize,
        /// How many are to be written.
        new: usize,
    },
    /// Between the name's cards stands one that is neither the name's nor commentary.
    Between {
        /// The number of the first such card, counted from 0.
        card: usize,
    },
    /// The new header does not answer what was to be written. What is proved rules this out if this crate finds the name's cards
    /// rightly; it is tested, so that no wrong bytes are given.
    NotReadBack,
}

impl fmt::Display for NotReplaced {
    fn fmt(&self, f: &mut fmt::Formatter<'_>) -> fmt::Result {
        match self {
            NotReplaced::Refused(refusal) => refusal.fmt(f),
            NotReplaced::NoCard => f.write_str("not replaced: no card bears the name"),
            NotReplaced::OtherCount { old, new } => {
                write!(f, "not replaced: cards of the name: {old}, cards to be written: {new}")
            }
            NotReplaced::Between { card } => {
                write!(
                    f,
                    "not replaced: card {card} stands between the name's cards and is neither its own nor commentary"
                )
            }
            NotReplaced::NotReadBack => {
                f.write_str("not replaced: the new header does not answer what was to be written")
            }
        }
    }
}

impl error::Error for NotReplaced {
    fn source(&self) -> Option<&(dyn error::Error + 'static)> {
        match self {
            NotReplaced::Refused(refusal) => Some(refusal),
            _ => None,
        }
    }
}

/// What a card is to a name.
#[derive(Clone, Copy, Debug, PartialEq, Eq)]
pub(super) enum Part {
    /// It belongs to the name: it bears the name's entry or is joined to one.
    Own,
    /// It is no entry and no CONTINUE card.
    Commentary,
    /// It bears or is joined to another name's entry, or is a CONTINUE card that is joined to nothing.
    Other,
}

/// Joins the string of a CONTINUE card to a text that ends in & (SPECIFICATION 9): the & goes, and the string is put on; if it is
/// empty or one space, spaces at the end go instead.
pub(super) fn join(text: &mut String, string: &str) {
    text.pop();
    match string {
        "" | " " => text.truncate(text.trim_end_matches(' ').len()),
        _ => text.push_str(string),
    }
}

/// What each card before END is to a name. A text grows card by card, and what is cut off was put on before, so the time goes with
/// the number of cards.
pub(super) fn parts(header: &Header, name: &[u8]) -> Vec<Part> {
    // A string with the part that its entry is, while it is open.
    let opened = |text: String, part: Part| text.ends_with('&').then_some((text, part));
    let mut open = None;
    let part = |card| {
        Some(match card {
            Card::Value { name: borne, entry } | Card::Hierarch { name: borne, entry } => {
                let part = if borne.as_bytes() == name { Part::Own } else { Part::Other };
                open = entry.value.into_string().and_then(|text| opened(text, part));
                part
            }
            Card::Continuation { string, .. } => {
                let Some((mut text, part)) = open.take() else { return Some(Part::Other) };
                join(&mut text, &string);
                open = opened(text, part);
                part
            }
            Card::Xtension(_) => {
                open = None;
                Part::Other
            }
            Card::Comment(_) | Card::History(_) | Card::Space | Card::Undefined(_) => Part::Commentary,
            Card::End => return None,
        })
    };
    header.cards().map_while(part).collect()
}

/// Whether a header of these bytes answers a value and a comment.
pub(super) fn answers(bytes: &[u8], name: &[u8], value: &Value, comment: Option<&str>) -> bool {
    let entry = Entry { value: value.clone(), comment: comment.map(Text::from) };
    Header::parse(bytes).is_ok_and(|header| header.as_bytes() == bytes && header.entry(name) == Some(entry))
}

impl Header {
    /// The header's bytes, up to END and with it, with another value of a name: the cards that [`write()`] gives stand in the places of
    /// the name's old ones.
    ///
    /// ```
    /// # fn main() -> Result<(), Box<dyn std::error::Error>> {
    /// use widrekas::{Header, NotReplaced};
    /// let bytes = format!("{:80}{:80}{:80}", "SIZE    = 12", "KIT     = 'FKM-75' / ring", "END");
    /// let header = Header::parse(bytes.as_bytes())?;
    /// let new = header.replaced("KIT", &"FKM-80".into(), Some(" ring"))?;
    /// assert_eq!(new, format!("{:80}{:80}{:80}", "SIZE    = 12", "KIT     = 'FKM-80' / ring", "END").as_bytes());
    /// assert_eq!(header.replaced("RING", &true.into(), None), Err(NotReplaced::NoCard));
    /// # Ok(())
    /// # }
    /// ```
    ///
    /// The cards of a name are those of all its entries, and the CONTINUE cards that are joined to them. There must be as many as are
    /// written, and between them may stand commentary alone: no value, HIERARCH, XTENSION or CONTINUE card of another name or of none.
    /// Then the new header is accepted, every other name is answered as before, and the name is answered as it was written. This is
    /// proved of the cards and the lookup behind the C boundary; which cards are the name's is found here, and tested.
    ///
    /// If a condition does not hold the error says which, in this order: what cannot be written, no card, another number of cards, a
    /// card between. The project's docs/SPECIFICATION.md, section 16.6, shows for each of them what would go wrong.
    ///
    /// There are as many bytes as in [`Header::as_bytes`], so in a file they take the place of its first ones.
    pub fn replaced(
        &self,
        name: impl AsRef<[u8]>,
        value: &Value,
        comment: Option<&str>,
    ) -> Result<Vec<u8>, NotReplaced> {
        let name = name.as_ref();
        let new = write(name, value, comment).map_err(NotReplaced::Refused)?;
        let parts = parts(self, name);
        let is_own = |part: &Part| *part == Part::Own;
        let (Some(first), Some(last)) = (parts.iter().position(is_own), parts.iter().rposition(is_own)) else {
            return Err(NotReplaced::NoCard);
        };
        let old = parts.iter().filter(|part| is_own(part)).count();
        if old != new.len() {
            return Err(NotReplaced::OtherCount { old, new: new.len() });
        }
        if let Some(card) = (first..last).find(|&number| parts.get(number) == Some(&Part::Other)) {
            return Err(NotReplaced::Between { card });
        }
        let mut bytes = self.cards.clone();
        let places = bytes.chunks_exact_mut(CARD).zip(&parts).filter(|(_, part)| is_own(part));
        for ((place, _), card) in places.zip(&new) {
            place.copy_from_slice(card);
        }
        answers(&bytes, name, value, comment).then_some(bytes).ok_or(NotReplaced::NotReadBack)
    }
}
