//! FITS headers, read and written, and Rice tiles over a proved library.
//!
//! What is read is what fitsrs 0.4.1 reads, on the domain that section 14 of the project's docs/SPECIFICATION.md names. Every input
//! gets a reading or one numbered [`Refusal`]. What is proved of the functions behind the C boundary stands in docs/PROMISES.md.
//! This crate is not proved. It lends memory and takes the answers apart, and decides nothing of what a card says, which are joined
//! in an answer or how they are written. [`ReadOn`] adds one rule: which names a refused card touches. [`Header::replaced`] adds
//! another: which cards belong to a name. [`Header::entry`] adds a third: nothing is joined to a value that is no string ending in &.
//!
//! - [`Header`]: the names of a header, the [`Value`] of each, strings joined over CONTINUE cards, and its comment.
//! - [`ReadOn`]: the same of a header with refused cards, where the names that they could touch are errors.
//! - [`Card`]: one card of 80 bytes.
//! - [`write()`]: the cards of a name and its value. [`Header::replaced`]: a header with another value of a name.
//! - [`tile`]: a Rice tile, decoded whole or block by block.
//!
//! Nothing here panics, whatever the input. A thread that parses a header wants a stack of 100 kB in a release build and of 130 kB in
//! a debug build; these are the smallest threads, rounded up, in which 702 cards were parsed and a string joined over 700 of them.
#![warn(missing_docs)]
#![forbid(unsafe_code)]
#![doc(test(attr(deny(warnings))))]

mod card;
mod decimal;
mod header;
mod refusal;
mod text;
pub mod tile;
mod value;
mod writing;

pub use card::Card;
pub use decimal::Decimal;
pub use header::{Entries, Header, NotReplaced, ReadOn, LONGEST};
pub use refusal::{Reason, Refusal};
pub use text::Text;
pub use value::{Entry, Value};
pub use writing::write;

/// The version of the C boundary, which is 3.
pub fn version() -> u32 {
    widrekas_sys::version()
}

/// The code of the guide for users of fitsrs.
#[cfg(doctest)]
#[doc = include_str!("../../../docs/MIGRATING.md")]
mod migrating {}
