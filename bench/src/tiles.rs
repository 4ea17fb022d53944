//! Rice tiles: noise, one value, and noise that cannot be packed.

use crate::cfitsio::{self, Pixels};
use crate::job::{Job, Side, Spec};
use crate::ours;
use crate::random::Random;
use crate::theirs;

/// The pixels of a block, as FITS files have them.
const NBLOCK: usize = 32;

/// What a tile's pixels are.
#[derive(Clone, Copy)]
pub enum Content {
    /// Noise with a spread.
    Noise(f64),
    Constant,
    /// Any value of the width.
    Raw,
    /// Two values by turns, so far apart that a code word with no bits behind its one is longer than a window of the tile.
    Long,
}

fn pixel(content: Content, bits: usize, at: usize, random: &mut Random) -> i32 {
    let wide = match content {
        Content::Noise(spread) => (100.0 + spread * random.noise()).round() as i32,
        Content::Constant => 100,
        Content::Raw => random.bits() as i32,
        Content::Long => 100 + at as i32 % 2 * 29,
    };
    match bits {
        8 => i32::from(wide as u8),
        16 => i32::from(wide as i16),
        _ => wide,
    }
}

/// A tile of 16 bits whose code words all have fs 0, which no encoder would choose for these pixels.
fn encode_plainly(pixels: &[i32], nblock: usize) -> Vec<u8> {
    let mut tile = (pixels[0] as i16).to_be_bytes().to_vec();
    let mut place = tile.len() * 8;
    let mut skip = |zeros: usize, tile: &mut Vec<u8>| {
        place += zeros;
        tile.resize(place / 8 + 1, 0);
        tile[place / 8] |= 0x80 >> (place % 8);
        place += 1;
    };
    let mut last = pixels[0];
    for block in pixels.chunks(nblock) {
        // The FS field 1 is three zeros and a one.
        skip(3, &mut tile);
        for &pixel in block {
            let d = pixel - last;
            skip(if d < 0 { -2 * d - 1 } else { 2 * d } as usize, &mut tile);
            last = pixel;
        }
    }
    tile
}

/// Tiles of equally many pixels, and where each side puts them.
struct Tiles {
    bits: usize,
    nblock: usize,
    nx: usize,
    truth: Vec<i32>,
    tiles: Vec<Vec<u8>>,
    ours: Vec<i32>,
    theirs: Vec<u8>,
    cfitsio: Vec<Pixels>,
}

impl Tiles {
    fn new(bits: usize, nblock: usize, nx: usize, many: usize, content: Content) -> Self {
        let mut random = Random::new(20_261_115 + bits as u64);
        let truth: Vec<i32> = (0..nx * many).map(|at| pixel(content, bits, at, &mut random)).collect();
        let encode = |row| match content {
            Content::Long => encode_plainly(row, nblock),
            _ => cfitsio::encode(row, nblock, bits),
        };
        let tiles = truth.chunks_exact(nx).map(encode).collect();
        Tiles {
            bits,
            nblock,
            nx,
            tiles,
            ours: vec![0; nx * many],
            theirs: vec![0; nx * many * (bits / 8)],
            cfitsio: vec![Pixels::new(bits, nx); many],
            truth,
        }
    }

    /// The bits that a pixel takes.
    fn density(&self) -> f64 {
        8.0 * self.tiles.iter().map(Vec::len).sum::<usize>() as f64 / self.truth.len() as f64
    }
}

impl Job for Tiles {
    fn units(&self) -> usize {
        self.truth.len()
    }

    fn run(&mut self, side: Side) {
        let (nx, nblock, bits) = (self.nx, self.nblock, self.bits);
        match side {
            Side::Ours => {
                for (tile, pixels) in self.tiles.iter().zip(self.ours.chunks_exact_mut(nx)) {
                    assert!(ours::decode(tile, nblock, bits, pixels) == 0, "our reading of a tile");
                }
            }
            Side::Fitsrs => {
                for (tile, raw) in self.tiles.iter().zip(self.theirs.chunks_exact_mut(nx * (bits / 8))) {
                    theirs::decode(tile, nblock, bits, raw);
                }
            }
            Side::Cfitsio => {
                for (tile, pixels) in self.tiles.iter().zip(&mut self.cfitsio) {
                    cfitsio::decode(tile, nblock, pixels);
                }
            }
        }
    }

    fn check(&mut self) {
        assert!(self.ours == self.truth, "our pixels are not those that were encoded");
        let theirs: Vec<i32> = match self.bits {
            8 => self.theirs.iter().map(|&b| i32::from(b)).collect(),
            16 => self.theirs.chunks_exact(2).map(|c| i32::from(i16::from_ne_bytes([c[0], c[1]]))).collect(),
            _ => self.theirs.chunks_exact(4).map(|c| i32::from_ne_bytes([c[0], c[1], c[2], c[3]])).collect(),
        };
        assert!(theirs == self.truth, "fitsrs' pixels are not those that were encoded");
        let cfitsio: Vec<i32> = self.cfitsio.iter().flat_map(Pixels::told).collect();
        assert!(cfitsio == self.truth, "CFITSIO's pixels are not those that were encoded");
        self.ours.fill(-1);
        self.theirs.fill(0xa5);
        self.cfitsio.iter_mut().for_each(Pixels::spoil);
    }
}

/// A name for the content that says how many bits a pixel takes.
fn told(content: Content, bits: usize) -> String {
    match content {
        Content::Constant => "constant".to_string(),
        Content::Raw => "raw".to_string(),
        Content::Long => "long".to_string(),
        Content::Noise(_) => format!("noise {:.1}", Tiles::new(bits, NBLOCK, 4096, 4, content).density()),
    }
}

fn spec(group: &'static str, name: String, bits: usize, nx: usize, many: usize, content: Content) -> Spec {
    Spec { group, name, unit: "pixel", make: Box::new(move || Box::new(Tiles::new(bits, NBLOCK, nx, many, content))) }
}

/// Rows of 4,096 pixels of each width in blocks of 32, and in blocks of 1, which no writer makes and every side decodes; then code words
/// that are longer than a window.
pub fn blocks(group: &'static str, rows: usize) -> Vec<Spec> {
    let mut specs = Vec::new();
    for (bits, contents) in CONTENTS {
        // One value and noise.
        for content in [contents[0], contents[2]] {
            for nblock in [NBLOCK, 1] {
                let make = move || -> Box<dyn Job> { Box::new(Tiles::new(bits, nblock, 4096, rows, content)) };
                let name = format!("{bits} bits, {}: blocks of {nblock}", told(content, bits));
                specs.push(Spec { group, name, unit: "pixel", make: Box::new(make) });
            }
        }
        if bits == 16 {
            for nblock in [NBLOCK, 1] {
                let make = move || -> Box<dyn Job> { Box::new(Tiles::new(bits, nblock, 4096, rows, Content::Long)) };
                let name = format!(
                    "{bits} bits, {}: code words of 58 and 59 bits, blocks of {nblock}",
                    told(contents[2], bits)
                );
                specs.push(Spec { group, name, unit: "pixel", make: Box::new(make) });
            }
        }
    }
    specs
}

/// The contents of each width.
pub const CONTENTS: [(usize, [Content; 5]); 3] = [
    (8, [Content::Constant, Content::Noise(1.0), Content::Noise(4.0), Content::Noise(12.0), Content::Raw]),
    (16, [Content::Constant, Content::Noise(4.0), Content::Noise(25.0), Content::Noise(400.0), Content::Raw]),
    (32, [Content::Constant, Content::Noise(4.0), Content::Noise(400.0), Content::Noise(2e6), Content::Raw]),
];

/// The jobs: rows of 4,096 pixels, one large tile, and tiles of growing size. Of the last there are as many pixels in each job, since
/// a few that come again and again are learnt by the processor.
pub fn specs(rows: usize, large: usize) -> Vec<Spec> {
    let mut specs = Vec::new();
    for (bits, contents) in CONTENTS {
        for content in contents {
            let content_name = told(content, bits);
            specs.push(spec("rows", format!("{bits} bits, {content_name}"), bits, 4096, rows, content));
            specs.push(spec("large", format!("{bits} bits, {content_name}"), bits, large, 1, content));
        }
    }
    for power in [6, 9, 12, 15, 18, 20] {
        let nx = 1_usize << power;
        if nx <= large.next_power_of_two() {
            specs.push(spec("pixels", nx.to_string(), 16, nx, (rows * 4096).div_ceil(nx), Content::Noise(25.0)));
        }
    }
    specs
}
