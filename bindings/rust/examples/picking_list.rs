//! picking_list NAME FILE...: prints a line for each FITS file: file, value of the name, comment, unit, with tabs between.
//!
//! A file that has no such line (it cannot be read, its header is refused, it has no such name, or a value that is undefined or
//! invalid) is named on standard error with the reason, and the exit status is 1. The reason of a refused card names the card and the
//! byte of it, both counted from 0. Where more than one card bears the name, the last one's value is in the line, and a warning on
//! standard error says so. Control characters are printed as \xNN, so that no file can forge a line.

use std::ffi::OsString;
use std::fmt::Display;
use std::fs::File;
use std::io::{self, Read, Write};
use std::path::Path;
use std::process::ExitCode;
use widrekas::{Entry, Header, Reason, Refusal, Value, LONGEST};

/// A refusal in words, with the card and the byte of it where a card is refused.
fn in_words(refusal: Refusal) -> String {
    match (refusal.card(), refusal.column()) {
        (Some(card), Some(column)) => {
            format!("refused {} at card {card}, byte {column}: {}", refusal.number(), refusal.meaning())
        }
        _ => refusal.reason().to_string(),
    }
}

/// The entry of a name in a file's header, and how many cards bear the name.
fn entry(file: &Path, name: &str) -> Result<(Entry, usize), Box<dyn std::error::Error>> {
    let mut bytes = Vec::new();
    File::open(file)?.take(LONGEST as u64).read_to_end(&mut bytes)?;
    let header = Header::parse_file(&bytes).map_err(in_words)?;
    let entry = header.entry(name).ok_or(Reason::NameNotFound)?;
    match entry.value {
        Value::Undefined => Err(format!("{name} has no value").into()),
        Value::Invalid(text) => Err(format!("{name} has an invalid value: {}", text.trim_end()).into()),
        _ => Ok((entry, header.count(name))),
    }
}

/// A text on one line, with control characters as \xNN.
fn shown(text: impl Display) -> String {
    let shown = |c: char| if c.is_control() { format!("\\x{:02X}", u32::from(c)) } else { c.to_string() };
    text.to_string().chars().map(shown).collect()
}

/// The line of a file. A comment over several cards stands on one line: the seams become spaces.
fn line(file: &Path, entry: &Entry) -> String {
    let comment = entry.comment.as_deref().unwrap_or_default().replace('\n', " ");
    let unit = entry.unit().unwrap_or_default();
    [shown(file.display()), shown(&entry.value), shown(comment.trim()), shown(unit)].join("\t")
}

/// Says something of a file on standard error.
fn say(file: &Path, what: impl Display) -> io::Result<()> {
    writeln!(io::stderr(), "{}: {}", shown(file.display()), shown(what))
}

/// Prints the line of a file, or says why there is none. Answers whether there is one.
fn print(file: &Path, name: &str) -> io::Result<bool> {
    match entry(file, name) {
        Ok((entry, times)) => {
            if times > 1 {
                say(file, format!("warning: {name} stands on {times} cards, and the last one counts"))?;
            }
            writeln!(io::stdout(), "{}", line(file, &entry))?;
            Ok(true)
        }
        Err(why) => say(file, why).map(|()| false),
    }
}

fn main() -> ExitCode {
    let words: Vec<OsString> = std::env::args_os().skip(1).collect();
    let [name, files @ ..] = words.as_slice() else {
        eprintln!("usage: picking_list NAME FILE...");
        return ExitCode::from(2);
    };
    let mut all = ExitCode::SUCCESS;
    for file in files.iter().map(Path::new) {
        match print(file, &name.to_string_lossy()) {
            Ok(true) => (),
            Ok(false) => all = ExitCode::FAILURE,
            Err(_) => return ExitCode::FAILURE,
        }
    }
    all
}
