//! Headers: the list of their names, and the entry of each.

use crate::card::{self, Card};
use crate::refusal::Refusal;
use crate::text::Text;
use crate::value::{Entry, Value};
use std::iter::Zip;
use std::sync::OnceLock;
use std::{fmt, slice};
use widrekas_sys::{self as boundary, Remark, Told, CARD, PLACES};

mod read_on;
mod replacing;

pub use read_on::ReadOn;
pub use replacing::NotReplaced;

/// The bytes of the longest header: 720 cards.
pub const LONGEST: usize = PLACES * CARD;

/// The bytes of the keyword field.
const KEYWORD: usize = 8;

/// The room that is lent for a text or a comment at first: enough for a string over seven cards.
const USUAL: usize = 560;

/// The bytes of a FITS block: a header and its data each fill whole ones (FITS Standard 4.0, section 3.1).
const BLOCK: usize = 2_880;

/// The refusal that says that a text or a comment wants more room.
const BUFFER_SHORT: u8 = 13;

/// Where a name stands: the first card that bears it, that of its last entry, and how many bear it.
#[derive(Clone, Copy)]
struct Place {
    first: usize,
    last: usize,
    times: usize,
}

/// What an entry is asked for by: a name that is sought in the cards, or a card's number.
#[derive(Clone, Copy)]
enum Spot<'a> {
    Name(&'a [u8]),
    Card(usize),
}

/// The names in the order of their first cards.
#[derive(Clone)]
struct Names {
    names: Vec<Text>,
    /// The places, in the order of the names' bytes.
    sorted: Vec<usize>,
}

/// A header that was accepted: its cards up to END.
///
/// Parsing tests every card and numbers the names, in one pass. A value or a comment is read when it is asked for, neither with the
/// other: the first name that is asked for is looked up in another pass, and with the second the names are read, by which every further
/// one is found at once.
///
/// ```
/// # fn main() -> Result<(), widrekas::Refusal> {
/// let mut bytes = Vec::new();
/// for card in ["SIZE    = 12", "KIT     = 'FKM-&'", "CONTINUE  '75' / ring", "END"] {
///     bytes.extend(format!("{card:80}").bytes());
/// }
/// let header = widrekas::Header::parse(&bytes)?;
/// assert_eq!(header.get("KIT").unwrap().as_str(), Some("FKM-75"));
/// assert_eq!(header.comment("KIT").unwrap(), " ring");
/// assert_eq!(header.get("SIZE"), Some(widrekas::Value::Integer(12)));
/// assert_eq!(header.comment("SIZE"), None);
/// assert_eq!(header.get("size"), None);
/// # Ok(())
/// # }
/// ```
#[derive(Clone)]
pub struct Header {
    cards: Vec<u8>,
    places: Vec<Place>,
    /// Set once a name was asked for.
    asked: OnceLock<()>,
    names: OnceLock<Names>,
}

/// Whether a card is END. Its keyword is compared first, so that nearly every other card is not read for it.
fn is_end(card: &[u8]) -> bool {
    let keyword = card.get(..KEYWORD).unwrap_or_default().trim_ascii();
    keyword == b"END" && card.first_chunk().is_some_and(|card| Card::read(card) == Ok(Card::End))
}

/// The cards of an accepted header up to the first END, and with it.
fn up_to_end(bytes: &[u8]) -> &[u8] {
    let end = bytes.chunks_exact(CARD).position(is_end);
    end.and_then(|number| bytes.get(..(number + 1) * CARD)).unwrap_or(bytes)
}

/// The whole cards among the first 57,600 bytes of a file.
fn front_of(file: &[u8]) -> &[u8] {
    let front = file.get(..LONGEST).unwrap_or(file);
    let whole = front.len() - front.len() % CARD;
    front.get(..whole).unwrap_or_default()
}

impl Header {
    /// Reads a header of 1 to 720 cards of 80 bytes. Nothing behind its END is looked at, or kept.
    ///
    /// Every card up to END is tested, and the first that is refused refuses the header: the refusal has its number and column.
    pub fn parse(bytes: &[u8]) -> Result<Header, Refusal> {
        let [mut first, mut last, mut times] = [[0; PLACES]; 3];
        let (mut count, mut column) = (0, 0);
        match boundary::list(bytes, &mut first, &mut last, &mut times, &mut count, &mut column) {
            0 => (),
            number => return Err(Refusal::told(number).at(count).in_column(column)),
        }
        let all = first.into_iter().zip(last).zip(times).take(count);
        let places = all.map(|((first, last), times)| Place { first, last, times }).collect();
        Ok(Header { cards: up_to_end(bytes).to_vec(), places, asked: OnceLock::new(), names: OnceLock::new() })
    }

    /// Reads the header with which a file begins, given the file's bytes: the whole cards among the first 57,600 of them.
    ///
    /// As many bytes of the file are enough: `file.take(widrekas::LONGEST as u64).read_to_end(&mut bytes)`.
    pub fn parse_file(bytes: &[u8]) -> Result<Header, Refusal> {
        Header::parse(front_of(bytes))
    }

    /// Reads the header with which a file begins past cards that are refused: names that they could touch are errors, the other
    /// ones answer. The file is given as to [`Header::parse_file`].
    ///
    /// A missing END ([`NoEnd`](crate::Reason::NoEnd)) and less than one card ([`HeaderLength`](crate::Reason::HeaderLength)) refuse
    /// the whole header here too.
    pub fn read_on(file: &[u8]) -> Result<ReadOn, Refusal> {
        ReadOn::of(front_of(file))
    }

    /// The value of a name, a string joined; of equal names the last one's. Names are compared byte for byte. No comment is read.
    pub fn get(&self, name: impl AsRef<[u8]>) -> Option<Value> {
        self.value_of(self.spot(name.as_ref())?)
    }

    /// The comment of a name, joined: none where it has none or where there is no such name. No value is read.
    pub fn comment(&self, name: impl AsRef<[u8]>) -> Option<Text> {
        self.comment_of(self.spot(name.as_ref())?)
    }

    /// The value of a name with its comment.
    pub fn entry(&self, name: impl AsRef<[u8]>) -> Option<Entry> {
        self.entry_of(self.spot(name.as_ref())?)
    }

    /// How many cards bear a name: value, HIERARCH and XTENSION cards, but no CONTINUE card; 0 where there is no such name. Where more
    /// than one does, the last one's entry is the name's, and the others are not seen.
    ///
    /// ```
    /// # fn main() -> Result<(), widrekas::Refusal> {
    /// let cards = ["KIT     = 'FKM-75'", "SIZE    = 12", "KIT     = 'NBR-70'", "END"];
    /// let bytes: String = cards.iter().map(|card| format!("{card:80}")).collect();
    /// let header = widrekas::Header::parse(bytes.as_bytes())?;
    /// assert_eq!((header.count("KIT"), header.count("SIZE"), header.count("RING")), (2, 1, 0));
    /// assert_eq!(header.get("KIT").unwrap().as_str(), Some("NBR-70"));
    /// # Ok(())
    /// # }
    /// ```
    pub fn count(&self, name: impl AsRef<[u8]>) -> usize {
        self.place(name.as_ref()).map_or(0, |place| place.times)
    }

    /// The names, in the order of their first cards.
    pub fn keywords(&self) -> impl ExactSizeIterator<Item = &Text> {
        self.names().names.iter()
    }

    /// The names with their entries, in the same order: what `for (name, entry) in &header` goes through.
    pub fn entries(&self) -> Entries<'_> {
        Entries { header: self, left: self.names().names.iter().zip(&self.places) }
    }

    /// How many names there are.
    pub fn len(&self) -> usize {
        self.places.len()
    }

    /// Whether there is no name.
    pub fn is_empty(&self) -> bool {
        self.places.is_empty()
    }

    /// The cards, up to END and with it. A string is not joined there.
    pub fn cards(&self) -> impl Iterator<Item = Card> + '_ {
        self.cards.chunks_exact(CARD).map_while(|card| Card::read(card.first_chunk()?).ok())
    }

    /// The bytes of the cards, up to END and with it, in whatever way END is written.
    pub fn as_bytes(&self) -> &[u8] {
        &self.cards
    }

    /// The number of the END card, counted from 0.
    pub fn end(&self) -> usize {
        self.as_bytes().len() / CARD - 1
    }

    /// Where the data begin, in bytes from the header's first: behind the 2,880-byte block that END stands in.
    ///
    /// ```
    /// # fn main() -> Result<(), widrekas::Refusal> {
    /// let file = format!("{:80}{:2800}", "SIZE    = 12", "END") + "data";
    /// let header = widrekas::Header::parse_file(file.as_bytes())?;
    /// assert_eq!((header.end(), header.data_start()), (1, 2880));
    /// assert_eq!(file.get(header.data_start()..), Some("data"));
    /// # Ok(())
    /// # }
    /// ```
    ///
    /// A file that ends within that block has fewer bytes than this. The project's docs/MIGRATING.md goes on to the next header.
    pub fn data_start(&self) -> usize {
        self.as_bytes().len().next_multiple_of(BLOCK)
    }

    /// The card with a number.
    fn card_at(&self, number: usize) -> Option<&[u8; CARD]> {
        let start = number.checked_mul(CARD)?;
        self.cards.get(start..)?.first_chunk()
    }

    /// The names, read once.
    fn names(&self) -> &Names {
        self.names.get_or_init(|| {
            let name = |place: &Place| Some(card::name(self.card_at(place.first)?));
            let names: Vec<Text> = self.places.iter().map_while(name).collect();
            let mut sorted: Vec<usize> = (0..names.len()).collect();
            sorted.sort_unstable_by_key(|&place| names.get(place).map(Text::as_bytes));
            Names { names, sorted }
        })
    }

    /// Where the last entry of a name is read: the first name that is asked for is sought in the cards, every further one in the names.
    fn spot<'a>(&self, name: &'a [u8]) -> Option<Spot<'a>> {
        if self.names.get().is_none() && self.asked.set(()).is_ok() {
            return Some(Spot::Name(name));
        }
        Some(Spot::Card(self.place(name)?.last))
    }

    /// Where a name stands, by the names.
    fn place(&self, name: &[u8]) -> Option<&Place> {
        let Names { names, sorted } = self.names();
        let name_of = |&place: &usize| names.get(place).map(Text::as_bytes);
        let at = sorted.binary_search_by(|place| name_of(place).cmp(&Some(name))).ok()?;
        self.places.get(*sorted.get(at)?)
    }

    /// The value that is read there; none where there is no entry. Nearly every text fits the room that is lent at first. Where it
    /// does not, the answer says how much is wanted.
    fn value_of(&self, spot: Spot) -> Option<Value> {
        let call = |text: &mut [u8], told: &mut Told| match spot {
            Spot::Name(name) => boundary::lookup_value(&self.cards, name, text, told),
            Spot::Card(number) => boundary::entry_value(&self.cards, number, text, told),
        };
        let (mut text, mut told) = ([0; USUAL], Told::default());
        match call(&mut text, &mut told) {
            0 => Some(value_in(&told, &text)),
            BUFFER_SHORT => {
                let [_, _, _, wanted, _] = told.out;
                let mut text = vec![0; wanted];
                (call(&mut text, &mut told) == 0).then(|| value_in(&told, &text))
            }
            _ => None,
        }
    }

    /// The comment that is read there; none where there is none.
    fn comment_of(&self, spot: Spot) -> Option<Text> {
        let call = |comment: &mut [u8], told: &mut Remark| match spot {
            Spot::Name(name) => boundary::lookup_comment(&self.cards, name, comment, told),
            Spot::Card(number) => boundary::entry_comment(&self.cards, number, comment, told),
        };
        let (mut comment, mut told) = ([0; USUAL], Remark::default());
        match call(&mut comment, &mut told) {
            0 => comment_in(&told, &comment),
            BUFFER_SHORT => {
                let mut comment = vec![0; told.length];
                (call(&mut comment, &mut told) == 0).then(|| comment_in(&told, &comment)).flatten()
            }
            _ => None,
        }
    }

    /// Both of them. A card's number is answered from that card alone, read once, unless it holds a string that ends in &: more may be
    /// joined to that.
    fn entry_of(&self, spot: Spot) -> Option<Entry> {
        if let Spot::Card(number) = spot {
            if let Ok(Card::Value { entry, .. } | Card::Hierarch { entry, .. }) = Card::read(self.card_at(number)?) {
                if !entry.value.as_str().is_some_and(|text| text.ends_with('&')) {
                    return Some(entry);
                }
            }
        }
        Some(Entry { value: self.value_of(spot)?, comment: self.comment_of(spot) })
    }
}

/// The names of a header with their entries, each read as it is asked for.
#[derive(Clone)]
pub struct Entries<'a> {
    header: &'a Header,
    left: Zip<slice::Iter<'a, Text>, slice::Iter<'a, Place>>,
}

impl<'a> Iterator for Entries<'a> {
    type Item = (&'a Text, Entry);

    fn next(&mut self) -> Option<Self::Item> {
        let header = self.header;
        self.left.find_map(|(name, place)| Some((name, header.entry_of(Spot::Card(place.last))?)))
    }

    fn size_hint(&self) -> (usize, Option<usize>) {
        self.left.size_hint()
    }
}

/// The names and entries that are left.
impl fmt::Debug for Entries<'_> {
    fn fmt(&self, f: &mut fmt::Formatter<'_>) -> fmt::Result {
        f.debug_map().entries(self.clone()).finish()
    }
}

/// The names with their entries.
impl<'a> IntoIterator for &'a Header {
    type Item = (&'a Text, Entry);
    type IntoIter = Entries<'a>;

    fn into_iter(self) -> Entries<'a> {
        self.entries()
    }
}

/// Headers are equal if their bytes up to END and with it are; nothing behind END counts.
impl PartialEq for Header {
    fn eq(&self, other: &Self) -> bool {
        self.cards == other.cards
    }
}

impl Eq for Header {}

/// The names with their entries.
impl fmt::Debug for Header {
    fn fmt(&self, f: &mut fmt::Formatter<'_>) -> fmt::Result {
        self.entries().fmt(f)
    }
}

/// The value that was laid into lent memory.
fn value_in(told: &Told, text: &[u8]) -> Value {
    let [_, kind, flag, text_len, digits_len] = told.out;
    let text = text.get(..text_len).unwrap_or_default();
    let digits = told.digits.get(..digits_len).unwrap_or_default();
    Value::told(kind, flag == 1, told.number, digits, text)
}

/// The comment that was laid into lent memory, if there is one.
fn comment_in(told: &Remark, comment: &[u8]) -> Option<Text> {
    (told.commented == 1).then(|| Text::new(comment.get(..told.length).unwrap_or_default()))
}

#[cfg(test)]
mod tests;
