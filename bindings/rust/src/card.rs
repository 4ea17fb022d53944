//! One card.

use crate::refusal::Refusal;
use crate::text::Text;
use crate::value::{Entry, Value};
use widrekas_sys::{self as boundary, CARD, RECORD};

/// What 80 bytes are read as, with fitsrs' names.
#[derive(Clone, Debug, PartialEq, Eq)]
pub enum Card {
    /// A value under a keyword.
    Value {
        /// The keyword, trimmed.
        name: Text,
        /// The value with its comment; a string is not joined.
        entry: Entry,
    },
    /// A CONTINUE card (FITS Standard 4.0, section 4.2.1.2).
    Continuation {
        /// The string that it adds.
        string: Text,
        /// Its comment.
        comment: Option<Text>,
    },
    /// An XTENSION card: the text within its quotes. Its comment is not kept.
    Xtension(Text),
    /// A COMMENT card, or one with an empty keyword and a text.
    Comment(Text),
    /// A HISTORY card.
    History(Text),
    /// A HIERARCH card: the pieces of its name are joined by full stops.
    Hierarch {
        /// The pieces, joined.
        name: Text,
        /// The value with its comment; a string is not joined.
        entry: Entry,
    },
    /// An empty card.
    Space,
    /// The END card.
    End,
    /// Any other card, whole.
    Undefined(Text),
}

/// Where the texts of a record stand, 80 bytes each, behind eight numbers of a byte.
const NAME: usize = 8;
const TEXT: usize = 88;
const COMMENT: usize = 168;

/// A text of a record.
fn part(record: &[u8; RECORD], at: usize, len: u8) -> &[u8] {
    record.get(at..at + usize::from(len)).unwrap_or_default()
}

/// The name with which a card is read; empty where it is refused.
pub(crate) fn name(card: &[u8; CARD]) -> Text {
    let mut record = [0; RECORD];
    boundary::card(card, &mut record, &mut 0, &mut 0);
    let [_, _, _, _, len, ..] = record;
    Text::new(part(&record, NAME, len))
}

impl Card {
    /// Reads a card. A refusal is one of 1 to 8. It carries the column, and no card number, since the card stands alone.
    pub fn read(card: &[u8; CARD]) -> Result<Card, Refusal> {
        let mut record = [0; RECORD];
        let (mut number, mut column) = (0, 0);
        match boundary::card(card, &mut record, &mut number, &mut column) {
            0 => Ok(Card::told(&record, number)),
            refused => Err(Refusal::told(refused).in_column(column)),
        }
    }

    /// The card of a record.
    fn told(record: &[u8; RECORD], number: i64) -> Card {
        let [class, kind, flag, commented, name_len, text_len, comment_len, ..] = *record;
        let text = part(record, TEXT, text_len);
        let name = || Text::new(part(record, NAME, name_len));
        let comment = || (commented == 1).then(|| Text::new(part(record, COMMENT, comment_len)));
        let entry = || {
            let value = Value::told(usize::from(kind), flag == 1, number, text, text);
            Entry { value, comment: comment() }
        };
        match class {
            1 => Card::Value { name: name(), entry: entry() },
            2 => Card::Continuation { string: Text::new(text), comment: comment() },
            3 => Card::Xtension(Text::new(text)),
            4 => Card::Comment(Text::new(text)),
            5 => Card::History(Text::new(text)),
            6 => Card::Hierarch { name: name(), entry: entry() },
            7 => Card::Space,
            8 => Card::End,
            _ => Card::Undefined(Text::new(text)),
        }
    }
}
