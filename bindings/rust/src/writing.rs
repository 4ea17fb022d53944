//! Cards written.

use crate::refusal::Refusal;
use crate::value::Value;
use widrekas_sys::{self as boundary, BLOCK, CARD};

/// Writes the cards of a name and its value, with a comment or without one: one card, or for a string up to 62.
///
/// The layout is that of the FITS Standard 4.0, sections 4.1 and 4.2: a logical or number ends at byte 29, or starts at byte 10 if it
/// is longer than 20 bytes; a string's quote opens at byte 10, and a string that does not fit one card goes on over CONTINUE cards. The
/// comment stands directly behind the slash of the last card. The project's docs/SPECIFICATION.md, section 16, has every rule.
///
/// ```
/// # fn main() -> Result<(), widrekas::Refusal> {
/// let cards = widrekas::write("KIT", &"FKM-75".into(), Some(" ring"))?;
/// assert_eq!(cards.concat(), format!("{:80}", "KIT     = 'FKM-75' / ring").as_bytes());
/// let cards = widrekas::write("SIZE", &1.5.into(), None)?;
/// assert_eq!(cards.concat(), format!("{:80}", "SIZE    =                15E-1").as_bytes());
/// # Ok(())
/// # }
/// ```
///
/// What is written reads back: in an accepted header where these cards stand in order before END, with at most commentary between
/// them, and no later card bears the name, [`Header::get`](crate::Header::get) answers this value and this comment. This is proved
/// of the writing and the lookup behind the C boundary; this crate only hands them on.
///
/// Refused by [`UnwritableName`](crate::Reason::UnwritableName):
///
/// - a name that is not 1 to 8 of A to Z, 0 to 9, hyphen and underscore;
/// - COMMENT, HISTORY, END, CONTINUE, XTENSION and HIERARCH.
///
/// Refused by [`UnwritableValue`](crate::Reason::UnwritableValue):
///
/// - a string or comment with a character outside the printable ones of ASCII, or with a space at its end; a string of one space is
///   accepted;
/// - a string of more than 2,000 bytes, or one that ends in `&`; beside a string a comment of more than 65 bytes;
/// - a logical or number that with its comment passes the end of the card: a comment of 48 bytes fits beside one of up to 20 bytes;
/// - a decimal with a power beyond 99,999 in size;
/// - infinities, nans, [undefined](Value::Undefined) and [invalid](Value::Invalid) values.
pub fn write(name: impl AsRef<[u8]>, value: &Value, comment: Option<&str>) -> Result<Vec<[u8; CARD]>, Refusal> {
    let (mut block, mut count) = ([0; BLOCK], 0);
    match boundary::write(name.as_ref(), value.asked(), comment.map(str::as_bytes), &mut block, &mut count) {
        0 => Ok(block.chunks_exact(CARD).take(count).filter_map(|card| card.first_chunk().copied()).collect()),
        refused => Err(Refusal::told(refused)),
    }
}
