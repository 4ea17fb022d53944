//! The C boundary of Widrekas: its declarations ([`raw`]), and safe functions over slices. The crate `widrekas` is made of these.
//!
//! Each function answers 0, the number of a refusal, [`NOTHING_LEFT`] or [`WRONG_LENGTH`]. The project's bindings/c/widrekas.h says
//! of each what it reads and leaves, and docs/PROMISES.md what is proved of it. Where a card is refused (answers 1 to 8), `column`
//! is the byte of that card, 0 to 79, at which it is refused; every other answer leaves it as it was.
//!
//! Why the calls are sound, all of them: every pointer with its length is that of a live slice, and every number lent is a live
//! one. What is lent by `&mut` is lent to nobody else, so nothing that is written aliases anything. The archive's functions take
//! any bytes and any numbers, read and write within the lengths alone, return, and keep no pointer (each is proved to). The
//! pointer of an empty slice dangles, yet is aligned and not null, and no byte is read or written through it. A number of the
//! machine's word is `usize` on both sides, and no function unwinds.
#![no_std]
#![warn(missing_docs)]
#![deny(unsafe_op_in_unsafe_fn)]

/// The bytes of a card.
pub const CARD: usize = 80;

/// The bytes of a card's record.
pub const RECORD: usize = 248;

/// The places of a list.
pub const PLACES: usize = 720;

/// The numbers of an entry's value.
pub const NUMBERS: usize = 5;

/// The bytes of an entry's digits.
pub const DIGITS: usize = 80;

/// The bytes of a block that is enough for whatever is written: 62 cards.
pub const BLOCK: usize = 62 * CARD;

/// The answer to a step where nothing is left.
pub const NOTHING_LEFT: u8 = 254;

/// The answer where a slice has another length than the one asked for.
pub const WRONG_LENGTH: u8 = 255;

/// The functions as C has them. No pointer may be null; what is written may overlap nothing else that is lent.
#[allow(missing_docs)]
pub mod raw {
    extern "C" {
        pub fn widrekas_version() -> u32;
        pub fn widrekas_card(
            card: *const u8,
            len: usize,
            out: *mut u8,
            room: usize,
            number: *mut i64,
            column: *mut usize,
        ) -> u8;
        pub fn widrekas_unit(comment: *const u8, len: usize) -> usize;
        pub fn widrekas_unit_past_space(comment: *const u8, len: usize, start: *mut usize) -> usize;
        pub fn widrekas_header(header: *const u8, len: usize, card: *mut usize, column: *mut usize) -> u8;
        pub fn widrekas_list(
            header: *const u8,
            len: usize,
            first: *mut usize,
            first_room: usize,
            last: *mut usize,
            last_room: usize,
            times: *mut usize,
            times_room: usize,
            count: *mut usize,
            column: *mut usize,
        ) -> u8;
        pub fn widrekas_name(
            header: *const u8,
            len: usize,
            card: usize,
            name: *mut u8,
            room: usize,
            length: *mut usize,
            column: *mut usize,
        ) -> u8;
        pub fn widrekas_entry_value(
            header: *const u8,
            len: usize,
            card: usize,
            text: *mut u8,
            text_room: usize,
            digits: *mut u8,
            digits_room: usize,
            out: *mut usize,
            out_room: usize,
            number: *mut i64,
            column: *mut usize,
        ) -> u8;
        pub fn widrekas_entry_comment(
            header: *const u8,
            len: usize,
            number: usize,
            comment: *mut u8,
            room: usize,
            commented: *mut usize,
            length: *mut usize,
            card: *mut usize,
            column: *mut usize,
        ) -> u8;
        pub fn widrekas_lookup_value(
            header: *const u8,
            len: usize,
            name: *const u8,
            name_len: usize,
            text: *mut u8,
            text_room: usize,
            digits: *mut u8,
            digits_room: usize,
            out: *mut usize,
            out_room: usize,
            number: *mut i64,
            column: *mut usize,
        ) -> u8;
        pub fn widrekas_lookup_comment(
            header: *const u8,
            len: usize,
            name: *const u8,
            name_len: usize,
            comment: *mut u8,
            room: usize,
            commented: *mut usize,
            length: *mut usize,
            card: *mut usize,
            column: *mut usize,
        ) -> u8;
        pub fn widrekas_write(
            name: *const u8,
            name_len: usize,
            kind: usize,
            flag: usize,
            number: i64,
            text: *const u8,
            text_len: usize,
            commented: usize,
            comment: *const u8,
            comment_len: usize,
            block: *mut u8,
            room: usize,
            count: *mut usize,
        ) -> u8;
        pub fn widrekas_open(
            tile: *const u8,
            len: usize,
            nx: usize,
            nblock: usize,
            bits: usize,
            bit: *mut usize,
            done: *mut usize,
            last: *mut i32,
        ) -> u8;
        pub fn widrekas_step(
            tile: *const u8,
            len: usize,
            nx: usize,
            nblock: usize,
            bits: usize,
            bit: *mut usize,
            done: *mut usize,
            last: *mut i32,
            pixels: *mut i32,
            room: usize,
            written: *mut usize,
        ) -> u8;
        pub fn widrekas_decode(
            tile: *const u8,
            len: usize,
            nx: usize,
            nblock: usize,
            bits: usize,
            pixels: *mut i32,
            room: usize,
            count: *mut usize,
        ) -> u8;
    }
}

/// What the numbers and digits of an entry's value are laid into.
pub struct Told {
    /// The digits of a decimal.
    pub digits: [u8; DIGITS],
    /// The card of a refused header, the kind, the flag, and the lengths of text and digits. Where the text's buffer is too short
    /// (13), its length is the room that is wanted.
    pub out: [usize; NUMBERS],
    /// The integer, or a decimal's power of ten.
    pub number: i64,
    /// The byte of a refused card at which it is refused.
    pub column: usize,
}

impl Default for Told {
    fn default() -> Self {
        Told { digits: [0; DIGITS], out: [0; NUMBERS], number: 0, column: 0 }
    }
}

/// What is told of an entry's comment.
#[derive(Default)]
pub struct Remark {
    /// 1 where there is a comment, which may be empty, or 0.
    pub commented: usize,
    /// The length of the comment; where its buffer is too short (13), the room that is wanted.
    pub length: usize,
    /// The card of a refused header.
    pub card: usize,
    /// The byte of a refused card at which it is refused.
    pub column: usize,
}

/// The boundary's version.
pub fn version() -> u32 {
    // SAFETY: the function takes nothing.
    unsafe { raw::widrekas_version() }
}

/// Reads a card into its record.
pub fn card(card: &[u8], record: &mut [u8], number: &mut i64, column: &mut usize) -> u8 {
    // SAFETY: two live slices with their lengths and two live numbers, all but the first lent alone.
    unsafe { raw::widrekas_card(card.as_ptr(), card.len(), record.as_mut_ptr(), record.len(), number, column) }
}

/// The end of a comment's unit as fitsrs reads it, or 0. It starts at byte 1.
pub fn unit(comment: &[u8]) -> usize {
    // SAFETY: one live slice with its length, which is only read.
    unsafe { raw::widrekas_unit(comment.as_ptr(), comment.len()) }
}

/// The end of a comment's unit, with one space in front passed over, and where it starts; or 0, and the start stays.
pub fn unit_past_space(comment: &[u8], start: &mut usize) -> usize {
    // SAFETY: one live slice with its length, which is only read, and a live number, lent alone.
    unsafe { raw::widrekas_unit_past_space(comment.as_ptr(), comment.len(), start) }
}

/// Says where END stands: its card's number, or that of a refusal's card.
pub fn header(header: &[u8], card: &mut usize, column: &mut usize) -> u8 {
    // SAFETY: a live slice with its length, which is only read, and two live numbers, each lent alone.
    unsafe { raw::widrekas_header(header.as_ptr(), header.len(), card, column) }
}

/// Lists a header's names.
pub fn list(
    header: &[u8],
    first: &mut [usize; PLACES],
    last: &mut [usize; PLACES],
    times: &mut [usize; PLACES],
    count: &mut usize,
    column: &mut usize,
) -> u8 {
    let (first, last, times) = (first.as_mut_ptr(), last.as_mut_ptr(), times.as_mut_ptr());
    let (bytes, len) = (header.as_ptr(), header.len());
    // SAFETY: a live slice and three live arrays with their lengths and two live numbers, all but the first lent alone.
    unsafe { raw::widrekas_list(bytes, len, first, PLACES, last, PLACES, times, PLACES, count, column) }
}

/// Reads the name that the entry at a card's number bears.
pub fn name(header: &[u8], card: usize, name: &mut [u8], length: &mut usize, column: &mut usize) -> u8 {
    // SAFETY: two live slices with their lengths, the first only read, and two live numbers; all that is written is lent alone.
    unsafe { raw::widrekas_name(header.as_ptr(), header.len(), card, name.as_mut_ptr(), name.len(), length, column) }
}

/// Reads the value of the entry at a card's number.
pub fn entry_value(header: &[u8], card: usize, text: &mut [u8], told: &mut Told) -> u8 {
    // SAFETY: live slices and arrays with their lengths and two live numbers, all but the header lent alone; the parts of `told`
    // are apart from each other.
    unsafe {
        raw::widrekas_entry_value(
            header.as_ptr(),
            header.len(),
            card,
            text.as_mut_ptr(),
            text.len(),
            told.digits.as_mut_ptr(),
            DIGITS,
            told.out.as_mut_ptr(),
            NUMBERS,
            &mut told.number,
            &mut told.column,
        )
    }
}

/// Reads the comment of the entry at a card's number.
pub fn entry_comment(header: &[u8], number: usize, comment: &mut [u8], told: &mut Remark) -> u8 {
    // SAFETY: two live slices with their lengths, the first only read, and four live numbers; all that is written is lent alone, and
    // the parts of `told` are apart from each other.
    unsafe {
        raw::widrekas_entry_comment(
            header.as_ptr(),
            header.len(),
            number,
            comment.as_mut_ptr(),
            comment.len(),
            &mut told.commented,
            &mut told.length,
            &mut told.card,
            &mut told.column,
        )
    }
}

/// Looks a name's value up.
pub fn lookup_value(header: &[u8], name: &[u8], text: &mut [u8], told: &mut Told) -> u8 {
    // SAFETY: as for `entry_value`; the name is a live slice that is only read.
    unsafe {
        raw::widrekas_lookup_value(
            header.as_ptr(),
            header.len(),
            name.as_ptr(),
            name.len(),
            text.as_mut_ptr(),
            text.len(),
            told.digits.as_mut_ptr(),
            DIGITS,
            told.out.as_mut_ptr(),
            NUMBERS,
            &mut told.number,
            &mut told.column,
        )
    }
}

/// Looks a name's comment up.
pub fn lookup_comment(header: &[u8], name: &[u8], comment: &mut [u8], told: &mut Remark) -> u8 {
    // SAFETY: as for `entry_comment`; the name is a live slice that is only read.
    unsafe {
        raw::widrekas_lookup_comment(
            header.as_ptr(),
            header.len(),
            name.as_ptr(),
            name.len(),
            comment.as_mut_ptr(),
            comment.len(),
            &mut told.commented,
            &mut told.length,
            &mut told.card,
            &mut told.column,
        )
    }
}

/// A value that is to be written, as `lookup_value` gives it back.
#[derive(Clone, Copy, Debug)]
pub struct Asked<'a> {
    /// The kind: 1 an integer, 2 a decimal, 5 a logical, 6 a string. Any other is refused by 20.
    pub kind: usize,
    /// A logical's truth, or a decimal's minus.
    pub flag: bool,
    /// The integer, or a decimal's power of ten.
    pub number: i64,
    /// A string's text, or a decimal's digits.
    pub text: &'a [u8],
}

/// Writes the cards of a name and its value at the front of a block, and counts them.
pub fn write(name: &[u8], value: Asked, comment: Option<&[u8]>, block: &mut [u8], count: &mut usize) -> u8 {
    let Asked { kind, flag, number, text } = value;
    let (commented, comment) = (comment.is_some(), comment.unwrap_or_default());
    // SAFETY: four live slices with their lengths, three of them only read, and a live number; all that is written is lent alone.
    unsafe {
        raw::widrekas_write(
            name.as_ptr(),
            name.len(),
            kind,
            usize::from(flag),
            number,
            text.as_ptr(),
            text.len(),
            usize::from(commented),
            comment.as_ptr(),
            comment.len(),
            block.as_mut_ptr(),
            block.len(),
            count,
        )
    }
}

/// Opens a tile: its cursor in three numbers.
pub fn open(
    tile: &[u8],
    nx: usize,
    nblock: usize,
    bits: usize,
    bit: &mut usize,
    done: &mut usize,
    last: &mut i32,
) -> u8 {
    // SAFETY: a live slice with its length, which is only read, and three live numbers, each lent alone.
    unsafe { raw::widrekas_open(tile.as_ptr(), tile.len(), nx, nblock, bits, bit, done, last) }
}

/// What a step moves on: the cursor in three numbers, and the pixels written where it is refused.
pub struct Stepping<'a> {
    /// The next bit of the tile.
    pub bit: &'a mut usize,
    /// The pixels done.
    pub done: &'a mut usize,
    /// The last of them, or the start value.
    pub last: &'a mut i32,
    /// The pixels that a refused step wrote.
    pub written: &'a mut usize,
}

/// One step from a cursor.
pub fn step(tile: &[u8], nx: usize, nblock: usize, bits: usize, at: Stepping, pixels: &mut [i32]) -> u8 {
    // SAFETY: two live slices with their lengths, the first only read, and four live numbers; all that is written is lent alone.
    unsafe {
        raw::widrekas_step(
            tile.as_ptr(),
            tile.len(),
            nx,
            nblock,
            bits,
            at.bit,
            at.done,
            at.last,
            pixels.as_mut_ptr(),
            pixels.len(),
            at.written,
        )
    }
}

/// Decodes a tile whole.
pub fn decode(tile: &[u8], nx: usize, nblock: usize, bits: usize, pixels: &mut [i32], count: &mut usize) -> u8 {
    // SAFETY: two live slices with their lengths, the first only read, and a live number; all that is written is lent alone.
    unsafe {
        raw::widrekas_decode(tile.as_ptr(), tile.len(), nx, nblock, bits, pixels.as_mut_ptr(), pixels.len(), count)
    }
}
