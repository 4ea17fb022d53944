//! What fitsrs answers, for bench/peers: the lines that bench/peers.c prints for the other sides.
//!
//! peer string FILE NAME                   a string of the first header, read card by card as fitsrs' reader of files does
//! peer tile FILE NX NBLOCK BITS BEHIND    a Rice tile; it is lent as a slice, so that BEHIND follows it only in memory

use fitsrs::card::{Card, Value};
use fitsrs::Decoder;
use std::fs;
use std::process::ExitCode;

/// A card that cannot be parsed is said, and kept as an undefined one.
fn string(file: &str, name: &str) -> Option<()> {
    let bytes = fs::read(file).ok()?;
    let mut cards = Vec::new();
    for (at, bytes) in bytes.chunks_exact(80).enumerate() {
        let mut buffer = [0; 80];
        buffer.copy_from_slice(bytes);
        let card = Card::try_from(&buffer).unwrap_or_else(|error| {
            println!("said\tcard {at}: {error}");
            Card::Undefined(String::from_utf8_lossy(&buffer).into())
        });
        let end = card == Card::End;
        cards.push(card);
        if end {
            break;
        }
    }
    let header = match fitsrs::header(cards) {
        Ok(header) => header,
        Err(error) => {
            println!("error\t{error}");
            return Some(());
        }
    };
    match header.get(name) {
        Some(Value::String { value, comment }) => {
            say("value", value);
            say("comment", comment.as_deref().unwrap_or_default());
        }
        Some(other) => println!("error\tno string: {other:?}"),
        None => println!("error\tno value"),
    }
    Some(())
}

fn say(word: &str, text: &str) {
    let digits: String = text.bytes().map(|byte| format!("{byte:02x}")).collect();
    println!("{word}\t{digits}");
}

fn tile(file: &str, [nx, nblock, bits, behind]: [usize; 4]) -> Option<()> {
    let mut bytes = fs::read(file).ok()?;
    let length = bytes.len();
    bytes.resize(length + 4096, behind as u8);
    let mut raw = vec![0x55; nx * bits / 8];
    if let Err(error) = Decoder::new(&bytes[..length], bits, nblock as i32, nx as i32).read(&mut raw) {
        println!("error\t{error}");
    }
    let pixel = |bytes: &[u8]| match *bytes {
        [a] => i32::from(a),
        [a, b] => i32::from(i16::from_le_bytes([a, b])),
        [a, b, c, d] => i32::from_le_bytes([a, b, c, d]),
        _ => 0,
    };
    let pixels: Vec<String> = raw.chunks_exact(bits / 8).map(|bytes| pixel(bytes).to_string()).collect();
    println!("pixels\t{}", pixels.join(" "));
    Some(())
}

fn main() -> ExitCode {
    let words: Vec<String> = std::env::args().skip(1).collect();
    let words: Vec<&str> = words.iter().map(String::as_str).collect();
    let done = match words[..] {
        ["string", file, name] => string(file, name),
        ["tile", file, nx, nblock, bits, behind] => {
            let numbers: Vec<usize> = [nx, nblock, bits, behind].iter().filter_map(|word| word.parse().ok()).collect();
            numbers.try_into().ok().and_then(|numbers| tile(file, numbers))
        }
        _ => None,
    };
    if done.is_none() {
        eprintln!("usage: peer string FILE NAME | tile FILE NX NBLOCK BITS BEHIND");
        return ExitCode::FAILURE;
    }
    ExitCode::SUCCESS
}
