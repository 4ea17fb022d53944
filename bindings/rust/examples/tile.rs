//! tile FILE NX NBLOCK BITS: decodes a Rice tile, block by block, and prints its pixels, a block a line.
//!
//! A tile that is refused prints the blocks before the fault, and the reason on standard error; the exit status is then 1.

use std::ffi::OsString;
use std::io::{self, BufWriter, Write};
use std::path::Path;
use std::process::ExitCode;
use widrekas::tile::{Shape, Tile};

/// The file's name and the tile's shape.
fn asked(words: &[OsString]) -> Option<(&Path, Shape)> {
    let [file, nx, nblock, bits] = words else { return None };
    let number = |word: &OsString| word.to_str()?.parse().ok();
    Some((Path::new(file), Shape { nx: number(nx)?, nblock: number(nblock)?, bits: number(bits)? }))
}

fn print(file: &Path, shape: Shape) -> Result<(), Box<dyn std::error::Error>> {
    let bytes = std::fs::read(file)?;
    let mut tile = Tile::open(&bytes, shape)?;
    let mut pixels = vec![0; shape.nx];
    let mut out = BufWriter::new(io::stdout().lock());
    while let Some(part) = tile.step(&mut pixels)? {
        let block: Vec<String> = pixels[part].iter().map(i32::to_string).collect();
        writeln!(out, "{}", block.join(" "))?;
    }
    Ok(out.flush()?)
}

fn main() -> ExitCode {
    let words: Vec<OsString> = std::env::args_os().skip(1).collect();
    let Some((file, shape)) = asked(&words) else {
        eprintln!("usage: tile FILE NX NBLOCK BITS");
        return ExitCode::from(2);
    };
    match print(file, shape) {
        Ok(()) => ExitCode::SUCCESS,
        Err(why) => {
            eprintln!("{}: {why}", file.display());
            ExitCode::FAILURE
        }
    }
}
