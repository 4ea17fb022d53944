//! Tiles as SPECIFICATION 12 has them: a start value, then bits, highest first.

use crate::faults::Fault;
use crate::model::Model;
use crate::reading::Tile;

/// The bits of a tile.
struct Bits<'a> {
    tile: &'a [u8],
    place: usize,
    endless: bool,
    /// From this place on every bit is 0.
    edge: usize,
    /// The most zeros that a run has.
    most: u64,
}

impl Bits<'_> {
    fn bit(&mut self) -> Option<u64> {
        let byte = match self.tile.get(self.place / 8) {
            Some(&byte) => byte,
            None if self.endless => 0,
            None => return None,
        };
        let byte = if self.place < self.edge { byte } else { 0 };
        self.place += 1;
        Some((byte >> (7 - (self.place - 1) % 8) & 1) as u64)
    }

    fn field(&mut self, n: usize) -> Option<u64> {
        (0..n).try_fold(0, |value, _| Some(value * 2 + self.bit()?))
    }

    /// How many bits stand before the first one that is `stop`.
    fn run(&mut self, stop: u64) -> Option<u64> {
        let mut n = 0;
        while self.bit()? != stop {
            n += 1;
            if n == self.most {
                break;
            }
            if n > 100_000_000 {
                return None;
            }
        }
        Some(n)
    }
}

/// FS bits and FS top of a width.
pub fn field_of(width: usize) -> (usize, i64) {
    match width {
        8 => (3, 6),
        16 => (4, 14),
        _ => (5, 25),
    }
}

impl Model {
    /// One tile, decoded whole.
    pub fn tile(self, tile: &[u8], nx: usize, nblock: usize, width: usize) -> Tile {
        let most = if self.has(Fault::ZerosStop) { 64 } else { u64::MAX };
        let mut bits = Bits { tile, place: 0, endless: self.has(Fault::PastEndZeros), edge: usize::MAX, most };
        let mut pixels = Vec::new();
        match self.pixels(&mut bits, nx, nblock, width, &mut pixels) {
            Ok(()) => {
                let mut bytes = bits.place.div_ceil(8);
                if self.has(Fault::BytesLess) {
                    bytes = bits.place / 8;
                }
                if self.has(Fault::BytesAhead) {
                    bytes = bits.place / 8 + 1;
                }
                Tile { refused: 0, pixels, bytes }
            }
            Err(refused) => {
                if self.has(Fault::FaultWrites) && pixels.len() < nx {
                    pixels.push(0);
                }
                if self.has(Fault::BlockUndone) {
                    pixels.truncate(pixels.len() / nblock * nblock);
                }
                Tile { refused, pixels, bytes: 0 }
            }
        }
    }

    fn pixels(self, bits: &mut Bits, nx: usize, nblock: usize, width: usize, out: &mut Vec<i32>) -> Result<(), u8> {
        let start = bits.field(width).ok_or(16)?;
        let mut last = match self.0 {
            Fault::StartLittle => (start.swap_bytes() >> (64 - width)) as i64,
            Fault::StartSkipped => 0,
            _ => start as i64,
        };
        let (mut field_bits, mut top) = field_of(width);
        field_bits += usize::from(self.has(Fault::FieldBitsMore));
        top -= i64::from(self.has(Fault::TopLower));
        let block = nblock + usize::from(self.has(Fault::BlockOneMore));
        let mut fs = None;
        while out.len() < nx {
            if self.has(Fault::LeftoverDropped) {
                bits.place = bits.place.div_ceil(8) * 8;
            }
            if fs.is_none() || !self.has(Fault::FieldOnce) {
                let field = bits.field(field_bits).ok_or(16)? as i64;
                fs = Some(if self.has(Fault::FieldNotLessOne) { field } else { field - 1 });
            }
            let mut left = block;
            while left > 0 && (out.len() < nx || self.has(Fault::LastBlockWhole)) {
                let step = self.difference(bits, fs.unwrap(), top, width)?;
                let from = if self.has(Fault::DifferenceFromStart) { start as i64 } else { last };
                last = self.wrapped(from, step, width);
                if out.len() < nx {
                    out.push(self.handed(last, width));
                }
                left -= 1;
            }
        }
        Ok(())
    }

    fn difference(self, bits: &mut Bits, fs: i64, top: i64, width: usize) -> Result<i64, u8> {
        if fs < 0 && !self.has(Fault::ZeroFieldReads) {
            return Ok(0);
        }
        if fs > top {
            return Err(17);
        }
        if fs == top && !self.has(Fault::TopNotRaw) {
            let narrow = usize::from(self.has(Fault::RawNarrow));
            let u = bits.field(width - narrow).ok_or(16)?;
            return Ok(if self.has(Fault::RawNotUnmapped) { u as i64 } else { self.unmapped(u, width) });
        }
        let fs = fs.max(0) as usize;
        if self.has(Fault::HeldZeros) {
            bits.edge = (bits.place / 8 + 8) * 8;
        }
        let stop = u64::from(!self.has(Fault::OnesCounted));
        let (n, mut r);
        if self.has(Fault::RemainderFirst) {
            r = bits.field(fs).ok_or(16)?;
            n = bits.run(stop).ok_or(16)?;
        } else {
            n = bits.run(stop).ok_or(16)?;
            r = bits.field(fs).ok_or(16)?;
        }
        bits.edge = usize::MAX;
        if self.has(Fault::RemainderTurned) && fs > 0 {
            r = r.reverse_bits() >> (64 - fs);
        }
        let mut u = (n << fs) + r;
        if !self.has(Fault::NotWrapped) {
            u &= 0xffff_ffff;
        }
        if self.has(Fault::SumTruncated) {
            u &= 0xffff;
        }
        Ok(self.unmapped(u, width))
    }

    fn unmapped(self, mut u: u64, width: usize) -> i64 {
        if self.has(Fault::MaskedToWidth) && width < 32 {
            u &= (1 << width) - 1;
        }
        if self.has(Fault::NotUnmapped) {
            return u as i64;
        }
        match (u % 2, u as i64) {
            (0, u) => u / 2,
            (_, u) if self.has(Fault::OddRounded) => -(u / 2),
            (_, u) => -((u + 1) / 2),
        }
    }

    fn wrapped(self, last: i64, step: i64, width: usize) -> i64 {
        if self.has(Fault::WrapMissing) && width == 8 {
            return (last + step).clamp(0, 255);
        }
        (last + step).rem_euclid(1 << width)
    }

    fn handed(self, pixel: i64, width: usize) -> i32 {
        match width {
            8 if self.has(Fault::EightSigned) => pixel as i8 as i32,
            8 => pixel as u8 as i32,
            16 if self.has(Fault::SixteenUnsigned) => pixel as u16 as i32,
            16 => pixel as i16 as i32,
            _ => pixel as i32,
        }
    }
}
