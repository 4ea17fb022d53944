//! Rice tiles, decoded whole or block by block.

use crate::refusal::Refusal;
use std::fmt;
use std::ops::Range;
use widrekas_sys::{self as boundary, Stepping, NOTHING_LEFT};

/// How a tile is laid out. [`Limits`](crate::Reason::Limits) refuses a number outside its limits.
#[derive(Clone, Copy, Debug, PartialEq, Eq, Hash)]
pub struct Shape {
    /// The pixels of the tile, 1 to 1,048,576.
    pub nx: usize,
    /// The pixels of a block, 1 to 65,536; the last block may be shorter.
    pub nblock: usize,
    /// The bits of a pixel: 8, 16 or 32.
    pub bits: usize,
}

/// Where decoding stands between two blocks.
#[derive(Clone, Copy, Debug, PartialEq, Eq, Hash)]
pub struct Cursor {
    /// The next bit of the tile, counted from its first byte's highest.
    pub bit: usize,
    /// The pixels done.
    pub done: usize,
    /// The last of them, or the start value.
    pub last: i32,
}

/// A refusal among a tile's pixels, and how many pixels were written before it. Only this crate makes them.
#[derive(Clone, Copy, Debug, PartialEq, Eq, Hash)]
pub struct Fault {
    refusal: Refusal,
    written: usize,
}

impl Fault {
    /// Why decoding ended.
    pub fn refusal(&self) -> Refusal {
        self.refusal
    }

    /// The pixels written: of the whole tile if it is decoded whole, of the step if it is a step's.
    pub fn written(&self) -> usize {
        self.written
    }
}

impl fmt::Display for Fault {
    fn fmt(&self, f: &mut fmt::Formatter<'_>) -> fmt::Result {
        write!(f, "{}; pixels written: {}", self.refusal, self.written)
    }
}

impl std::error::Error for Fault {
    fn source(&self) -> Option<&(dyn std::error::Error + 'static)> {
        Some(&self.refusal)
    }
}

/// Decodes a tile whole into `nx` pixels and answers the bits used.
///
/// Refusals 14 and 15 touch no pixel; 16 and 17 leave the pixels before the fault written and the others as they were.
///
/// ```
/// use widrekas::tile::{decode, Shape};
/// let mut pixels = [0; 2];
/// let used = decode(&[0x0a, 0x32], Shape { nx: 2, nblock: 32, bits: 8 }, &mut pixels);
/// assert_eq!((used, pixels), (Ok(15), [10, 11]));
/// ```
pub fn decode(tile: &[u8], shape: Shape, pixels: &mut [i32]) -> Result<usize, Fault> {
    let mut count = 0;
    match boundary::decode(tile, shape.nx, shape.nblock, shape.bits, pixels, &mut count) {
        0 => Ok(count),
        number => Err(Fault { refusal: Refusal::told(number), written: count }),
    }
}

/// A tile that is decoded block by block.
///
/// ```
/// use widrekas::tile::{Shape, Tile};
/// # fn main() -> Result<(), Box<dyn std::error::Error>> {
/// let bytes = [0x0a, 0x00];
/// let shape = Shape { nx: 4, nblock: 2, bits: 8 };
/// let mut pixels = [0; 4];
/// let mut tile = Tile::open(&bytes, shape)?;
/// assert_eq!(tile.step(&mut pixels)?, Some(0..2));
/// let stopped = tile.cursor();
///
/// let mut tile = Tile::resume(&bytes, shape, stopped);
/// assert_eq!(tile.step(&mut pixels)?, Some(2..4));
/// assert_eq!(tile.step(&mut pixels)?, None);
/// assert_eq!(pixels, [10; 4]);
/// # Ok(())
/// # }
/// ```
#[derive(Clone, Copy, Debug, PartialEq, Eq)]
pub struct Tile<'a> {
    bytes: &'a [u8],
    shape: Shape,
    cursor: Cursor,
}

impl<'a> Tile<'a> {
    /// A tile at its first block; refused by 14, and by 16 where its start value is short.
    pub fn open(bytes: &'a [u8], shape: Shape) -> Result<Self, Refusal> {
        let mut cursor = Cursor { bit: 0, done: 0, last: 0 };
        let Cursor { bit, done, last } = &mut cursor;
        match boundary::open(bytes, shape.nx, shape.nblock, shape.bits, bit, done, last) {
            0 => Ok(Tile { bytes, shape, cursor }),
            number => Err(Refusal::told(number)),
        }
    }

    /// A tile at a cursor that was taken out of it. Any cursor may be put in; its first step refuses one outside its rules by 18.
    pub fn resume(bytes: &'a [u8], shape: Shape, cursor: Cursor) -> Self {
        Tile { bytes, shape, cursor }
    }

    /// Where decoding stands.
    pub fn cursor(&self) -> Cursor {
        self.cursor
    }

    /// Decodes the next block into its part of the tile's `nx` pixels, touching no other, and answers where that part is; none
    /// where all blocks are done. A refused step leaves the cursor where it was.
    pub fn step(&mut self, pixels: &mut [i32]) -> Result<Option<Range<usize>>, Fault> {
        let Shape { nx, nblock, bits } = self.shape;
        let start = self.cursor.done;
        let mut written = 0;
        let Cursor { bit, done, last } = &mut self.cursor;
        let at = Stepping { bit, done, last, written: &mut written };
        match boundary::step(self.bytes, nx, nblock, bits, at, pixels) {
            0 => Ok(Some(start..self.cursor.done)),
            NOTHING_LEFT => Ok(None),
            number => Err(Fault { refusal: Refusal::told(number), written }),
        }
    }
}
