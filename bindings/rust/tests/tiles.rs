//! Tiles, by the edge table of docs/SPECIFICATION.md and by its rules.

use widrekas::tile::{decode, Cursor, Fault, Shape, Tile};
use widrekas::{Reason, Refusal};

/// A pixel of no tile of 8 bits.
const UNTOUCHED: i32 = -77;

fn shape(nx: usize, bits: usize) -> Shape {
    Shape { nx, nblock: 32, bits }
}

/// What a refusal tells, which names no card and no column.
fn told(refusal: Refusal) -> u8 {
    assert_eq!((refusal.card(), refusal.column()), (None, None));
    refusal.number()
}

/// What a fault tells: its refusal's number, and the pixels written.
fn fault(fault: Fault) -> (u8, usize) {
    (told(fault.refusal()), fault.written())
}

/// A tile that is read, with its pixels and the bits used.
struct Read {
    tile: &'static [u8],
    bits: usize,
    pixels: &'static [i32],
    used: usize,
}

/// The tiles of the edge table that are read.
const READ: [Read; 5] = [
    Read { tile: &[0x0a, 0x00], bits: 8, pixels: &[10, 10], used: 11 },
    Read { tile: &[0x0a, 0x32], bits: 8, pixels: &[10, 11], used: 15 },
    Read { tile: &[0x00, 0x28], bits: 8, pixels: &[255], used: 13 },
    Read { tile: &[0x0a, 0xff, 0xe0], bits: 8, pixels: &[138], used: 19 },
    Read { tile: &[0, 0, 0, 5, 0xd0, 0, 0, 0, 0x10], bits: 32, pixels: &[6], used: 69 },
];

#[test]
fn tiles_at_the_edges() {
    for edge in READ {
        let mut pixels = vec![UNTOUCHED; edge.pixels.len()];
        assert_eq!(decode(edge.tile, shape(pixels.len(), edge.bits), &mut pixels), Ok(edge.used));
        assert_eq!(pixels, edge.pixels);
    }
    let mut pixels = [UNTOUCHED; 2];
    assert_eq!(decode(&[0x0a, 0x30], shape(2, 8), &mut pixels).map_err(fault), Err((16, 1)));
    assert_eq!(pixels, [10, UNTOUCHED]);
    let mut pixels = [UNTOUCHED];
    assert_eq!(decode(&[0, 0, 0, 0, 0xd8], shape(1, 32), &mut pixels).map_err(fault), Err((17, 0)));
    assert_eq!(pixels, [UNTOUCHED]);
}

#[test]
fn sixteen_bits() {
    // A start value of -2, an FS field of 0, so that all differences are 0.
    let mut pixels = [0; 3];
    assert_eq!(decode(&[0xff, 0xfe, 0x00], shape(3, 16), &mut pixels), Ok(20));
    assert_eq!(pixels, [-2; 3]);
    // A field of 15: raw differences of 16 bits; 3 stands for -2, which wraps from the least pixel to a large one.
    assert_eq!(decode(&[0x80, 0x00, 0xf0, 0x00, 0x30], shape(1, 16), &mut pixels[..1]), Ok(36));
    assert_eq!(pixels[0], 32766);
}

#[test]
fn block_by_block_is_the_same_as_whole() {
    for edge in READ {
        for nblock in [1, 2, 32] {
            let (tile, nx) = (edge.tile, edge.pixels.len());
            let shape = Shape { nx, nblock, bits: edge.bits };
            let mut pixels = vec![UNTOUCHED; nx];
            let Ok(whole) = decode(tile, shape, &mut pixels) else { continue };
            let mut pixels = vec![UNTOUCHED; nx];
            let mut tile = Tile::open(tile, shape).unwrap();
            let mut done = 0;
            while let Some(part) = tile.step(&mut pixels).unwrap() {
                assert_eq!(part, done..(done + nblock).min(nx));
                done = part.end;
                assert!(pixels[done..].iter().all(|&pixel| pixel == UNTOUCHED));
            }
            assert_eq!((tile.cursor().done, tile.cursor().bit), (nx, whole));
            if nblock == 32 {
                assert_eq!((&pixels[..], whole), (edge.pixels, edge.used));
            }
        }
    }
}

#[test]
fn stopped_and_resumed() {
    // Start value 10, three blocks of two pixels with an FS field of 0 each.
    let (bytes, shape) = ([0x0a, 0x00, 0x00], Shape { nx: 6, nblock: 2, bits: 8 });
    let mut pixels = [UNTOUCHED; 6];
    let mut tile = Tile::open(&bytes, shape).unwrap();
    assert_eq!(tile.cursor(), Cursor { bit: 8, done: 0, last: 10 });
    assert_eq!(tile.step(&mut pixels), Ok(Some(0..2)));
    let stopped = tile.cursor();
    assert_eq!(stopped, Cursor { bit: 11, done: 2, last: 10 });
    let mut other = [UNTOUCHED; 6];
    let mut tile = Tile::resume(&bytes, shape, stopped);
    assert_eq!(tile.step(&mut other), Ok(Some(2..4)));
    assert_eq!(tile.step(&mut other), Ok(Some(4..6)));
    assert_eq!((tile.step(&mut other), tile.step(&mut other)), (Ok(None), Ok(None)));
    assert_eq!((pixels, other), ([10, 10, -77, -77, -77, -77], [-77, -77, 10, 10, 10, 10]));
}

#[test]
fn refusals_of_tiles() {
    let mut pixels = [UNTOUCHED; 2];
    for shape in [
        Shape { nx: 0, nblock: 32, bits: 8 },
        Shape { nx: 1_048_577, nblock: 32, bits: 8 },
        Shape { nx: 2, nblock: 0, bits: 8 },
        Shape { nx: 2, nblock: 65_537, bits: 8 },
        Shape { nx: 2, nblock: 32, bits: 9 },
        Shape { nx: 2, nblock: 32, bits: usize::MAX },
    ] {
        assert_eq!(decode(&[0x0a, 0x00], shape, &mut pixels).map_err(fault), Err((14, 0)));
        assert_eq!(Tile::open(&[0x0a, 0x00], shape).map_err(told), Err(14));
    }
    assert_eq!(decode(&vec![0; 8_388_609], shape(2, 8), &mut pixels).map_err(fault), Err((14, 0)));
    assert_eq!(decode(&[0x0a, 0x00], shape(3, 8), &mut pixels).map_err(fault), Err((15, 0)));
    assert_eq!(decode(&[0x0a, 0x00], shape(2, 8), &mut []).map_err(fault), Err((15, 0)));
    assert_eq!(Tile::open(&[], shape(2, 8)).map_err(told), Err(16));
    assert_eq!(Tile::open(&[0, 0, 0], shape(2, 32)).map_err(told), Err(16));
    for cursor in [
        Cursor { bit: 7, done: 0, last: 0 },
        Cursor { bit: 17, done: 0, last: 0 },
        Cursor { bit: 8, done: 3, last: 0 },
        Cursor { bit: 8, done: 1, last: 0 },
        Cursor { bit: 8, done: 0, last: 256 },
        Cursor { bit: 8, done: 0, last: -1 },
    ] {
        let mut tile = Tile::resume(&[0x0a, 0x00], shape(2, 8), cursor);
        assert_eq!(tile.step(&mut pixels).map_err(fault), Err((18, 0)));
        assert_eq!(tile.cursor(), cursor, "the cursor stays");
    }
    assert_eq!(pixels, [UNTOUCHED; 2]);
    let mut tile = Tile::open(&[0x0a, 0x30], shape(2, 8)).unwrap();
    let cursor = tile.cursor();
    assert_eq!(tile.step(&mut pixels).map_err(fault), Err((16, 1)));
    assert_eq!((tile.cursor(), pixels), (cursor, [10, UNTOUCHED]));
    let reason = tile.step(&mut pixels).unwrap_err().refusal().reason();
    assert_eq!(reason, Reason::TileEnds);
}

#[test]
fn bytes_at_random_give_pixels_or_a_refusal() {
    let mut state = 99_u64;
    let mut below = |n: usize| {
        state = state.wrapping_mul(6_364_136_223_846_793_005).wrapping_add(1_442_695_040_888_963_407);
        (state >> 33) as usize % n
    };
    for _ in 0..20_000 {
        let tile: Vec<u8> = (0..below(40)).map(|_| below(256) as u8 & below(256) as u8).collect();
        let shape = Shape { nx: below(70), nblock: below(40), bits: [8, 16, 32, 0][below(4)] };
        let mut pixels = vec![UNTOUCHED; shape.nx + usize::from(below(20) == 0)];
        let whole = decode(&tile, shape, &mut pixels).map_err(fault);
        let mut other = vec![UNTOUCHED; pixels.len()];
        let stepped = Tile::open(&tile, shape).map_err(|refusal| (told(refusal), 0)).and_then(|mut tile| {
            while tile.step(&mut other).map_err(|f| (told(f.refusal()), f.written() + tile.cursor().done))?.is_some() {}
            Ok(tile.cursor().bit)
        });
        // The start value is looked at before the pixels in the one, and behind them in the other.
        let order = whole == Err((15, 0)) && stepped == Err((16, 0));
        assert!(order || (whole == stepped && pixels == other), "{whole:?} {stepped:?}");
        let cursor = Cursor { bit: below(400), done: below(80), last: below(70_000) as i32 - 35_000 };
        if let Err(fault) = Tile::resume(&tile, shape, cursor).step(&mut other) {
            assert!((14..=18).contains(&fault.refusal().number()) && fault.written() <= shape.nblock);
        }
    }
}
