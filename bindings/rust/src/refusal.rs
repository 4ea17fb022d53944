//! Refusals: why an input was not read or a value not written, at which card, and at which byte of it.

use std::fmt;

/// Why an input was not read or a value not written: the refusals of the project's docs/REFUSALS.md, by their names and numbers. 11 is
/// a gap: it would say that the name table is full, and no header can fill it.
#[derive(Clone, Copy, Debug, PartialEq, Eq, PartialOrd, Ord, Hash)]
#[non_exhaustive]
pub enum Reason {
    /// A byte of the card is 128 or more.
    HighByte = 1,
    /// Before the slash stands a byte outside 32..126, neither in a string nor directly after its closing quote.
    OddByte = 2,
    /// The value text begins with a quote and does not end with one, or is one lone quote.
    StringNotClosed = 3,
    /// A CONTINUE text ends with a quote and does not begin with one.
    StringNotOpened = 4,
    /// The value text begins with a parenthesis: complex values are not read.
    Complex = 5,
    /// A HIERARCH card has no = from byte 9 on.
    NoEquals = 6,
    /// A HIERARCH card has nothing but blanks before that =.
    NoName = 7,
    /// An XTENSION text is not within quotes.
    ExtensionNotQuoted = 8,
    /// The header's length is 0, no multiple of 80, or above 57,600.
    HeaderLength = 9,
    /// The header has no END card.
    NoEnd = 10,
    /// No entry bears the name.
    NameNotFound = 12,
    /// A lent buffer is shorter than the text for it. This crate lends enough.
    BufferShort = 13,
    /// A tile's nx, nblock, width or length is outside its limits.
    Limits = 14,
    /// The pixel slice is not nx long.
    PixelCount = 15,
    /// The tile ends before the bits asked for.
    TileEnds = 16,
    /// An FS field is above its top.
    FsAboveTop = 17,
    /// A cursor is outside its rules.
    BadCursor = 18,
    /// A name that is to be written is not 1 to 8 of A to Z, 0 to 9, hyphen and underscore, or is one of COMMENT, HISTORY, END,
    /// CONTINUE, XTENSION and HIERARCH.
    UnwritableName = 19,
    /// A value that is to be written, or its comment, is outside the rules for written cards: see [`write`](crate::write).
    UnwritableValue = 20,
    /// The lent block is shorter than the cards for it. This crate lends enough.
    BlockShort = 21,
}

impl Reason {
    /// All of them, in the order of their numbers.
    const ALL: [Reason; 20] = [
        Reason::HighByte,
        Reason::OddByte,
        Reason::StringNotClosed,
        Reason::StringNotOpened,
        Reason::Complex,
        Reason::NoEquals,
        Reason::NoName,
        Reason::ExtensionNotQuoted,
        Reason::HeaderLength,
        Reason::NoEnd,
        Reason::NameNotFound,
        Reason::BufferShort,
        Reason::Limits,
        Reason::PixelCount,
        Reason::TileEnds,
        Reason::FsAboveTop,
        Reason::BadCursor,
        Reason::UnwritableName,
        Reason::UnwritableValue,
        Reason::BlockShort,
    ];

    /// The reason with a number, 1 to 21 without 11; none for any other.
    pub fn from_number(number: u8) -> Option<Reason> {
        Reason::ALL.into_iter().find(|reason| reason.number() == number)
    }

    /// The number, 1 to 21 without 11.
    pub fn number(self) -> u8 {
        self as u8
    }

    /// The reason in words.
    pub fn meaning(self) -> &'static str {
        match self {
            Reason::HighByte => "a byte of the card is 128 or more",
            Reason::OddByte => "before the slash and outside a string stands a byte outside 32 to 126",
            Reason::StringNotClosed => "the string begins with a quote and does not end with one",
            Reason::StringNotOpened => "the CONTINUE string ends with a quote and does not begin with one",
            Reason::Complex => "the value begins with a parenthesis, and complex numbers are not read",
            Reason::NoEquals => "the HIERARCH card has no = from byte 9 on",
            Reason::NoName => "the HIERARCH card has no name before its =",
            Reason::ExtensionNotQuoted => "the XTENSION value is not within quotes",
            Reason::HeaderLength => "the header's length is 0, no multiple of 80, or above 57,600",
            Reason::NoEnd => "the header has no END card",
            Reason::NameNotFound => "no entry bears the name or stands at the card",
            Reason::BufferShort => "a lent buffer is shorter than the text for it",
            Reason::Limits => "the tile's pixels, block, width or length is outside its limits",
            Reason::PixelCount => "the pixel slice is not as long as the tile has pixels",
            Reason::TileEnds => "the tile ends before its last pixel",
            Reason::FsAboveTop => "an FS field of the tile is above its top",
            Reason::BadCursor => "the cursor does not fit the tile",
            Reason::UnwritableName => "the name is not 1 to 8 of A to Z, 0 to 9, - and _, or is a special keyword",
            Reason::UnwritableValue => "the value or its comment is outside the rules for written cards",
            Reason::BlockShort => "the block is shorter than the cards for it",
        }
    }
}

/// `refused`, the number and the words.
impl fmt::Display for Reason {
    fn fmt(&self, f: &mut fmt::Formatter<'_>) -> fmt::Result {
        write!(f, "refused {}: {}", self.number(), self.meaning())
    }
}

impl std::error::Error for Reason {}

/// A refusal: the reason, and the card and the column it was met at if it carries them. Only this crate makes them.
///
/// [`Reason`]s 1 to 8 refuse a card. They carry the column, and the card's number if the card stands in a header. [`Reason::NoEnd`]
/// carries the number of cards and [`Reason::HeaderLength`] carries 0, both without a column. All others carry neither.
///
/// ```
/// let header = format!("{:80}{:80}{:80}", "SIZE    = 12", "WCS     =   (1, 2)", "END");
/// let refusal = widrekas::Header::parse(header.as_bytes()).unwrap_err();
/// assert_eq!((refusal.number(), refusal.card(), refusal.column()), (5, Some(1), Some(12)));
/// assert!(refusal.to_string().starts_with("refused 5 at 1:12: the value begins with a parenthesis"));
/// ```
#[derive(Clone, Copy, Debug, PartialEq, Eq, Hash)]
pub struct Refusal {
    reason: Reason,
    card: Option<usize>,
    column: Option<usize>,
}

impl Refusal {
    /// The refusal of an answer of the boundary, which is proved to be one of the numbers.
    pub(crate) fn told(number: u8) -> Self {
        match Reason::from_number(number) {
            Some(reason) => Refusal { reason, card: None, column: None },
            None => unreachable!("version 2 of the boundary has no refusal {number}"),
        }
    }

    /// The same, met at a card.
    pub(crate) fn at(self, card: usize) -> Self {
        Refusal { card: Some(card), ..self }
    }

    /// The same with the column that the boundary left. It sets one where a card is refused, 1 to 8, and nowhere else.
    pub(crate) fn in_column(self, column: usize) -> Self {
        Refusal { column: (self.reason <= Reason::ExtensionNotQuoted).then_some(column), ..self }
    }

    /// Why the input was not read, or the value not written.
    pub fn reason(&self) -> Reason {
        self.reason
    }

    /// The reason's number, 1 to 21 without 11.
    pub fn number(&self) -> u8 {
        self.reason.number()
    }

    /// The reason in words.
    pub fn meaning(&self) -> &'static str {
        self.reason.meaning()
    }

    /// The card's number, counted from 0.
    pub fn card(&self) -> Option<usize> {
        self.card
    }

    /// The byte of the refused card, 0 to 79, at which it is refused. Reasons 1 to 8 have one, in a header and alone.
    ///
    /// | Reason | Column |
    /// |---|---|
    /// | [`HighByte`](Reason::HighByte) | the first byte of 128 or more |
    /// | [`OddByte`](Reason::OddByte) | the byte outside 32..126 at which the scan for the slash stops |
    /// | [`StringNotClosed`](Reason::StringNotClosed), [`StringNotOpened`](Reason::StringNotOpened), [`Complex`](Reason::Complex), [`ExtensionNotQuoted`](Reason::ExtensionNotQuoted) | the first byte of the raw text that is no blank; 10 if there is none |
    /// | [`NoEquals`](Reason::NoEquals) | 9 |
    /// | [`NoName`](Reason::NoName) | the first = from byte 9 on |
    ///
    /// The raw text begins at byte 8 of a CONTINUE card, directly behind the first = from byte 9 on of a HIERARCH card, and at byte 10
    /// of any other. Blanks are space, tab, line feed, form feed and return.
    pub fn column(&self) -> Option<usize> {
        self.column
    }
}

/// `refused`, the number, where it was met, and the words. Where is `at 2:10` for byte 10 of card 2, `at byte 10` for a card that
/// stands alone, and `at 2` where there is a card's number and no column.
impl fmt::Display for Refusal {
    fn fmt(&self, f: &mut fmt::Formatter<'_>) -> fmt::Result {
        write!(f, "refused {}", self.number())?;
        match (self.card, self.column) {
            (Some(card), Some(column)) => write!(f, " at {card}:{column}")?,
            (Some(card), None) => write!(f, " at {card}")?,
            (None, Some(column)) => write!(f, " at byte {column}")?,
            (None, None) => (),
        }
        write!(f, ": {}", self.meaning())
    }
}

impl std::error::Error for Refusal {}
