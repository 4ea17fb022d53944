//! Tiles: an encoder, cases, and the comparison of one case.

use crate::faults::Fault;
use crate::model::Model;
use crate::random::Random;
use crate::tally::Outcome;
use crate::unpacking::field_of;
use crate::{ours, theirs};

/// One tile with its numbers.
#[derive(Clone, Debug, PartialEq)]
pub struct Case {
    pub tile: Vec<u8>,
    pub nx: usize,
    pub nblock: usize,
    pub width: usize,
}

/// What takes a part's name and a case, and says whether more are wanted.
pub type Visit<'a> = &'a mut dyn FnMut(&'static str, &Case) -> bool;

/// Bits put one behind the other, highest first.
#[derive(Default)]
pub struct Writer {
    pub bytes: Vec<u8>,
    used: usize,
}

impl Writer {
    pub fn bit(&mut self, bit: u64) {
        if self.used % 8 == 0 {
            self.bytes.push(0);
        }
        *self.bytes.last_mut().unwrap() |= (bit as u8) << (7 - self.used % 8);
        self.used += 1;
    }

    pub fn field(&mut self, value: u64, n: usize) {
        for i in (0..n).rev() {
            self.bit(value >> i & 1);
        }
    }
}

/// A tile that holds pixels, each block coded with an fs of the chooser's.
pub fn encoded(pixels: &[i32], nblock: usize, width: usize, mut choose: impl FnMut(&[u32]) -> i64) -> Vec<u8> {
    let (field_bits, top) = field_of(width);
    let mask = (1u64 << width) - 1;
    let mut out = Writer::default();
    out.field(pixels[0] as u64 & mask, width);
    let mut last = pixels[0] as i64;
    for block in pixels.chunks(nblock) {
        let codes: Vec<u32> = block
            .iter()
            .map(|&p| {
                let half = 1i64 << (width - 1);
                let d = (p as i64 - last + half).rem_euclid(half * 2) - half;
                last = p as i64;
                (if d < 0 { -2 * d - 1 } else { 2 * d }) as u32
            })
            .collect();
        let fs = if codes.iter().all(|&u| u == 0) { -1 } else { choose(&codes).clamp(0, top) };
        out.field((fs + 1) as u64, field_bits);
        for &u in &codes {
            if fs == top {
                out.field(u as u64, width);
            } else if fs >= 0 {
                for _ in 0..u >> fs {
                    out.bit(0);
                }
                out.bit(1);
                out.field(u as u64, fs as usize);
            }
        }
    }
    out.bytes
}

/// Pixels of some character.
fn pixels(random: &mut Random, nx: usize, width: usize) -> Vec<i32> {
    let spread = 1u64 << random.below(width + 1);
    let mut value = random.next() as i64;
    let flat = random.once_in(3);
    (0..nx)
        .map(|_| {
            if !flat || random.once_in(10) {
                value = value.wrapping_add((random.next() % spread) as i64 - (spread / 2) as i64);
            }
            match width {
                8 => value as u8 as i32,
                16 => value as i16 as i32,
                _ => value as i32,
            }
        })
        .collect()
}

/// A tile that is properly encoded.
pub fn proper(random: &mut Random, most: usize) -> Case {
    let width = random.pick(&[8, 16, 32]);
    let nx = 1 + random.below(most);
    let nblock = random.pick(&[1, 2, 3, 5, 8, 16, 32, 33, 64, 100, 65_536]);
    let pixels = pixels(random, nx, width);
    let (_, top) = field_of(width);
    let odd = random.once_in(3);
    let tile = encoded(&pixels, nblock, width, |codes| {
        let sum: u64 = codes.iter().map(|&u| u as u64).sum();
        let mean = sum / codes.len() as u64;
        let best = 63 - (mean | 1).leading_zeros() as i64;
        let fs = if odd { best + random.below(5) as i64 - 2 } else { best };
        let longest = codes.iter().map(|&u| u >> fs.clamp(0, 31)).max().unwrap();
        if longest > 4_000 {
            top
        } else {
            fs
        }
    });
    Case { tile, nx, nblock, width }
}

/// A tile with a few bits or bytes changed.
fn changed(random: &mut Random, mut case: Case) -> Case {
    for _ in 0..1 + random.below(3) {
        let n = case.tile.len();
        match random.below(7) {
            0 if n > 0 => case.tile.truncate(random.below(n)),
            1 if n > 0 => {
                let at = random.below(n);
                case.tile[at] ^= 1 << random.below(8);
            }
            2 if n > 0 => {
                let at = random.below(n);
                case.tile[at] = random.next() as u8;
            }
            3 if n > 4 => {
                let at = 4 + random.below(n - 4);
                case.tile.splice(at..at, vec![0; random.below(600)]);
            }
            4 => case.nx = 1 + random.below(case.nx + 20),
            5 => case.nblock = 1 + random.below(40),
            _ => case.width = random.pick(&[8, 16, 32]),
        }
    }
    case
}

/// Short tiles, every one of them.
fn short(visit: Visit) -> bool {
    for width in [8, 16, 32] {
        for nblock in [1, 2, 32] {
            for tail in 0..65_536u32 {
                let mut tile = vec![0; width / 8];
                tile[0] = 10;
                tile.extend_from_slice(&(tail as u16).to_be_bytes());
                for nx in [1, 3] {
                    if !visit("every tail of two bytes", &Case { tile: tile.clone(), nx, nblock, width }) {
                        return false;
                    }
                }
            }
        }
        for len in 0..=width / 8 {
            for byte in 0..=255 {
                if !visit("short start values", &Case { tile: vec![byte; len], nx: 1, nblock: 32, width }) {
                    return false;
                }
            }
        }
    }
    true
}

/// Long runs of zeros, where n times 2^fs passes 2^32.
fn runs(random: &mut Random) -> Case {
    let width = random.pick(&[8, 16, 32, 32]);
    let (field_bits, top) = field_of(width);
    let mut out = Writer::default();
    out.field(random.next() & ((1 << width) - 1), width);
    let fs = random.below(top as usize);
    out.field(fs as u64 + 1, field_bits);
    let nx = 1 + random.below(4);
    for _ in 0..nx {
        let zeros = random.below(700) + if random.once_in(8) { random.below(70_000) } else { 0 };
        for _ in 0..zeros {
            out.bit(0);
        }
        out.bit(1);
        out.field(random.next(), fs);
    }
    Case { tile: out.bytes, nx, nblock: 32, width }
}

/// What rows of blocks are called.
pub const ROWS: &str = "rows of blocks of one kind";

/// Rows of blocks of one kind, by turns: a decoder may take several at once, and cut code words out of words of 64 bits. So they come close
/// to the bits that such a word holds, and the tile ends within a few bytes of its last block, or in it.
fn rows(random: &mut Random) -> Case {
    let width = random.pick(&[8, 16, 32]);
    let (field_bits, top) = field_of(width);
    let nblock = random.pick(&[1, 1, 2, 3, 4, 5, 8, 31, 32, 33, 64]);
    let mut out = Writer::default();
    out.field(random.next(), width);
    let mut nx = 0;
    for _ in 0..1 + random.below(6) {
        let kind = random.below(3);
        let fs = random.below(top as usize);
        for _ in 0..1 + random.below(if nblock == 1 { 90 } else { 8 }) {
            nx += nblock;
            match kind {
                0 => out.field(0, field_bits),
                1 => {
                    out.field(top as u64 + 1, field_bits);
                    for _ in 0..nblock {
                        out.field(random.next(), width);
                    }
                }
                _ => {
                    out.field(fs as u64 + 1, field_bits);
                    for _ in 0..nblock {
                        let zeros = match random.below(12) {
                            0 => random.below(70),
                            1 => 50 - fs + random.below(16),
                            2 => 16 + random.below(10) - fs.min(16),
                            _ => random.below(4),
                        };
                        for _ in 0..zeros {
                            out.bit(0);
                        }
                        out.bit(1);
                        out.field(random.next(), fs);
                    }
                }
            }
        }
    }
    let mut tile = out.bytes;
    match random.below(4) {
        0 => tile.truncate(tile.len() - random.below(tile.len().min(12))),
        1 => tile.extend(vec![random.next() as u8; random.below(12)]),
        _ => (),
    }
    Case { tile, nx: nx - random.below(nblock), nblock, width }
}

/// All the cases: every short one where it is asked for, and so many random ones.
pub fn cases(seed: u64, all_short: bool, many: usize, visit: Visit) -> bool {
    let mut random = Random::new(seed);
    if all_short && !short(visit) {
        return false;
    }
    for i in 0..many {
        let most = if i % 1000 == 999 { 20_000 } else { 200 };
        if !visit("properly encoded tiles", &proper(&mut random, most)) {
            return false;
        }
    }
    for _ in 0..many {
        let case = proper(&mut random, 100);
        if !visit("changed tiles", &changed(&mut random, case)) {
            return false;
        }
    }
    for _ in 0..many {
        let tile = (0..random.below(40)).map(|_| if random.once_in(4) { 0 } else { random.next() as u8 }).collect();
        let width = random.pick(&[8, 16, 32]);
        let case = Case { tile, nx: 1 + random.below(60), nblock: 1 + random.below(40), width };
        if !visit("tiles of random bytes", &case) {
            return false;
        }
    }
    for _ in 0..many / 20 {
        if !visit("long runs of zeros", &runs(&mut random)) {
            return false;
        }
    }
    if all_short {
        for width in [8, 16, 32] {
            let pixels = pixels(&mut random, 1_048_576, width);
            let tile = encoded(&pixels, 32, width, |_| i64::MAX);
            if !visit("tiles of the most pixels", &Case { tile, nx: 1_048_576, nblock: 32, width }) {
                return false;
            }
        }
    }
    for _ in 0..many / 2 {
        if !visit(ROWS, &rows(&mut random)) {
            return false;
        }
    }
    true
}

/// Why a tile lies outside the equality domain, if it does.
pub fn aside(case: &Case) -> Option<&'static str> {
    let read = Model(Fault::None).tile(&case.tile, case.nx, case.nblock, case.width);
    (read.refused == 17).then_some("an FS above its top")
}

fn different(case: &Case) -> bool {
    let mine = ours::tile(&case.tile, case.nx, case.nblock, case.width);
    let blocks = ours::blocks(&case.tile, case.nx, case.nblock, case.width);
    let whole = blocks.1.len() / case.nblock * case.nblock;
    let apart = mine != Model(Fault::None).tile(&case.tile, case.nx, case.nblock, case.width)
        || (mine.refused == 0 && blocks.1 != mine.pixels)
        || (mine.refused != 0 && blocks.1[..] != mine.pixels[..whole]);
    apart
        || (aside(case).is_none()
            && (theirs::tile(&case.tile, case.nx, case.nblock, case.width) != Some(mine)
                || theirs::blocks(&case.tile, case.nx, case.nblock, case.width) != Some(blocks)))
}

fn smallest(case: &Case) -> Case {
    let mut best = case.clone();
    loop {
        let mut next = Vec::new();
        for n in [best.tile.len() / 2, best.tile.len().saturating_sub(1)] {
            next.push(Case { tile: best.tile[..n].to_vec(), ..best.clone() });
        }
        for n in [best.nx / 2, best.nx - 1] {
            next.push(Case { nx: n.max(1), ..best.clone() });
        }
        for i in 0..best.tile.len().min(200) {
            let mut c = best.clone();
            c.tile[i] = 0;
            next.push(c);
        }
        match next.into_iter().find(|c| *c != best && different(c)) {
            Some(c) => best = c,
            None => return best,
        }
    }
}

/// One case.
pub fn compare(case: &Case) -> Outcome {
    if different(case) {
        return Outcome::Different;
    }
    aside(case).map_or(Outcome::Same, Outcome::Aside)
}

/// A case that differs, in its smallest form, with both answers, whole and block by block.
pub fn explain(case: &Case) -> String {
    let small = smallest(case);
    format!(
        "{small:02x?}\n    Rust {:?}\n         {:?}\n    ours {:?}\n         {:?}",
        theirs::tile(&small.tile, small.nx, small.nblock, small.width),
        theirs::blocks(&small.tile, small.nx, small.nblock, small.width),
        ours::tile(&small.tile, small.nx, small.nblock, small.width),
        ours::blocks(&small.tile, small.nx, small.nblock, small.width),
    )
}
