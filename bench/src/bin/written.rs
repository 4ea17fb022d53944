//! Values at random, written by `widrekas_write`, for bench/written.
//!
//! written make SEED COUNT FOLDER    COUNT values in headers, FOLDER/0000.fits and so on, each beside FOLDER/0000.asked
//! written write ASKED FILE          the values of ASKED as a header
//! written read ASKED FILE           what `widrekas_lookup_value` and `_comment` answer for the names of ASKED, in the form of ASKED
//!
//! ASKED has a line for each value: its name, its kind, the value and the comment, with tabs between. Texts are in hexadecimal. A comment
//! is `-` if it is absent, and otherwise begins with `=`. What is asked comes from the generator alone.

#[path = "../random.rs"]
#[allow(dead_code)]
mod random;

use random::Random;
use std::collections::HashSet;
use std::fmt::Write;
use std::fs;
use std::path::Path;
use std::process::ExitCode;
use widrekas_sys::{self as boundary, Remark, Told};

/// The kinds as the boundary numbers them.
const INTEGER: usize = 1;
const FINITE: usize = 2;
const LOGICAL: usize = 5;
const STRING: usize = 6;

/// The bytes of a card and of a block of a FITS file, and the cards that a header has at most.
const CARD: usize = 80;
const BLOCK: usize = 2880;
const CARDS: usize = 700;

/// The longest string, the longest comment beside one, the bytes of the most cards of a value, and room for a read text.
const TEXT: usize = 2000;
const COMMENT: usize = 65;
const MOST: usize = 62 * CARD;
const ROOM: usize = 58_320;

/// The byte that fills a lent block before a call.
const BEFORE: u8 = 0xa5;

const FIRST: [&str; 3] =
    ["SIMPLE  =                    T", "BITPIX  =                    8", "NAXIS   =                    0"];

/// Names that say how a file is laid out. A peer acts on their values when it opens the file.
const LAYOUT: [&str; 15] = [
    "SIMPLE", "BITPIX", "EXTEND", "GROUPS", "PCOUNT", "GCOUNT", "BSCALE", "BZERO", "BLANK", "EXTNAME", "EXTVER",
    "EXTLEVEL", "INHERIT", "CHECKSUM", "DATASUM",
];

/// Names that are no names to be written.
const SPECIAL: [&str; 6] = ["COMMENT", "HISTORY", "END", "CONTINUE", "XTENSION", "HIERARCH"];

/// Names at the edges of the rules.
const ODD_NAMES: [&str; 14] = [
    "-", "_", "0", "--------", "________", "END1", "END-", "E", "COMMENT1", "HISTORY-", "CONTINU", "HIERARC",
    "XTENSIO", "1E5",
];

/// Strings that look like something else.
const PHRASES: [&str; 18] = [
    "a: 1",
    "AXIS.1: 2.5",
    "T",
    "F",
    "1",
    "1.5E3",
    "(1, 2)",
    "END",
    "CONTINUE",
    "= 1",
    "'",
    "''",
    "/",
    "' /",
    "'/",
    "&'",
    " ",
    "  a",
];

#[derive(Clone)]
enum Value {
    Logical(bool),
    Integer(i64),
    /// A minus, the digits, and the power.
    Decimal(bool, String, i64),
    Text(Vec<u8>),
}

/// A value to be written.
struct Asked {
    name: String,
    value: Value,
    comment: Option<Vec<u8>>,
}

fn hex(bytes: &[u8]) -> String {
    bytes.iter().map(|byte| format!("{byte:02x}")).collect()
}

fn unhex(digits: &str) -> Option<Vec<u8>> {
    (0..digits.len()).step_by(2).map(|at| u8::from_str_radix(digits.get(at..at + 2)?, 16).ok()).collect()
}

/// A decimal as `15e2`, and zero as `0e0`.
fn decimal(minus: bool, digits: &str, power: i64) -> String {
    format!("{}{}e{power}", if minus { "-" } else { "" }, if digits.is_empty() { "0" } else { digits })
}

impl Asked {
    /// The kind and the value as a line has them.
    fn told(&self) -> (&'static str, String) {
        match &self.value {
            Value::Logical(truth) => ("logical", if *truth { "T" } else { "F" }.into()),
            Value::Integer(number) => ("integer", number.to_string()),
            Value::Decimal(minus, digits, power) => ("decimal", decimal(*minus, digits, *power)),
            Value::Text(text) => ("string", hex(text)),
        }
    }

    fn line(&self) -> String {
        let (kind, value) = self.told();
        let comment = self.comment.as_ref().map_or("-".into(), |comment| format!("={}", hex(comment)));
        format!("{}\t{kind}\t{value}\t{comment}\n", self.name)
    }

    fn of_line(line: &str) -> Option<Asked> {
        let [name, kind, value, comment] = line.split('\t').collect::<Vec<_>>()[..] else { return None };
        let value = match kind {
            "logical" => Value::Logical(value == "T"),
            "integer" => Value::Integer(value.parse().ok()?),
            "decimal" => {
                let (digits, power) = value.split_once('e')?;
                let bare = digits.strip_prefix('-').unwrap_or(digits);
                Value::Decimal(bare != digits, if bare == "0" { "" } else { bare }.into(), power.parse().ok()?)
            }
            "string" => Value::Text(unhex(value)?),
            _ => return None,
        };
        let comment = match comment.strip_prefix('=') {
            Some(digits) => Some(unhex(digits)?),
            None => None,
        };
        Some(Asked { name: name.into(), value, comment })
    }

    /// The cards, by the boundary; the program stops where it refuses or touches more than its cards.
    fn cards(&self) -> Vec<u8> {
        let (kind, flag, number, text): (usize, bool, i64, &[u8]) = match &self.value {
            Value::Logical(truth) => (LOGICAL, *truth, 0, &[]),
            Value::Integer(number) => (INTEGER, false, *number, &[]),
            Value::Decimal(minus, digits, power) => (FINITE, *minus, *power, digits.as_bytes()),
            Value::Text(text) => (STRING, false, 0, text),
        };
        let (mut block, mut count) = (vec![BEFORE; MOST], 0);
        let value = boundary::Asked { kind, flag, number, text };
        let answer = boundary::write(self.name.as_bytes(), value, self.comment.as_deref(), &mut block, &mut count);
        assert!(answer == 0, "refused {answer}: {}", self.line());
        let behind = block.split_off(count * CARD);
        assert!(behind.iter().all(|&byte| byte == BEFORE), "written behind its cards: {}", self.line());
        block
    }
}

/// What is made at random, with weight on edges.
struct Maker(Random);

impl Maker {
    fn below(&mut self, many: usize) -> usize {
        ((u64::from(self.0.bits()) * many as u64) >> 32) as usize
    }

    /// A number from the first to the last.
    fn from(&mut self, first: usize, last: usize) -> usize {
        first + self.below(last - first + 1)
    }

    /// True so many times of a hundred.
    fn percent(&mut self, many: usize) -> bool {
        self.below(100) < many
    }

    fn of<T: Copy>(&mut self, all: &[T]) -> T {
        all[self.below(all.len())]
    }

    fn name(&mut self) -> String {
        if self.percent(5) {
            return self.of(&ODD_NAMES).into();
        }
        let length = if self.percent(60) { 8 } else { self.from(1, 8) };
        let bytes = b"ABCDEFGHIJKLMNOPQRSTUVWXYZ0123456789-_";
        (0..length).map(|_| char::from(self.of(bytes))).collect()
    }

    /// A byte of a text: the style says which are frequent.
    fn byte(&mut self, style: usize) -> u8 {
        match style {
            0 | 1 => self.of(b"abcdefghijklmnopqrstuvwxyzABCXYZ0123456789"),
            2 => self.of(b"abcdefgh ijklmnop qrstuvwxyz ,.;:-+*()[]=&/ "),
            3 => self.from(32, 126) as u8,
            4 => self.of(b"ab   "),
            5 => self.of(b"ab&&"),
            6 => self.of(b"abc''"),
            7 => self.of(b"a' /&"),
            8 => self.of(b"//[]a '"),
            _ => b'\'',
        }
    }

    fn length(&mut self) -> usize {
        match self.below(100) {
            0..=3 => 0,
            4..=8 => 1,
            9..=39 => self.from(2, 64),
            40..=61 => self.from(65, 69),
            62..=76 => self.from(132, 137),
            77..=85 => self.from(1, 29) * 67 - 2 + self.from(0, 4),
            86..=95 => self.from(70, 400),
            96..=97 => TEXT - self.below(3),
            _ => self.from(400, TEXT),
        }
    }

    fn text(&mut self) -> Vec<u8> {
        if self.percent(3) {
            return self.of(&PHRASES).bytes().collect();
        }
        // Half of the strings have no quote.
        let style = if self.percent(50) { self.of(&[0, 2, 4, 5]) } else { self.of(&[1, 3, 6, 7, 8, 9]) };
        let length = self.length();
        let mut text: Vec<u8> = (0..length).map(|_| self.byte(style)).collect();
        if self.percent(40) {
            // Something particular where a card may be full.
            let near = self.of(&[64, 131, 132, 66]);
            let (first, odd) = (near + self.below(5), if style == 0 { b" &" } else { b"'&" });
            for at in first..first + self.from(1, 3) {
                if let Some(byte) = text.get_mut(at) {
                    *byte = self.of(odd);
                }
            }
        }
        if self.percent(5) {
            text.iter_mut().take(3).for_each(|byte| *byte = b' ');
        }
        if text != b" " {
            while let Some(last @ (b' ' | b'&')) = text.last_mut() {
                *last = b'z';
            }
        }
        text
    }

    /// A comment of at most so many bytes.
    fn comment(&mut self, most: usize) -> Option<Vec<u8>> {
        let length = match self.below(100) {
            0..=24 => return None,
            25..=34 => 0,
            35..=44 => 1,
            45..=69 => self.from(2, 20),
            70..=89 => self.from(0, most),
            _ => most,
        };
        let style = self.of(&[0, 0, 2, 2, 2, 3, 4, 6, 8]);
        let mut comment: Vec<u8> = (0..length.min(most)).map(|_| self.byte(style)).collect();
        if self.percent(10) {
            comment.iter_mut().zip(b"[s] time").for_each(|(byte, &unit)| *byte = unit);
        }
        if let Some(last @ b' ') = comment.last_mut() {
            *last = b'z';
        }
        Some(comment)
    }

    fn integer(&mut self) -> i64 {
        let ends = [i64::MIN, i64::MIN + 1, i64::MAX, i64::MAX - 1, 0, 1, -1, i64::from(i32::MIN), i64::from(i32::MAX)];
        match self.below(4) {
            0 => self.of(&ends),
            1 => self.below(2000) as i64 - 1000,
            _ => ((u64::from(self.0.bits()) << 32 | u64::from(self.0.bits())) as i64) >> self.below(64),
        }
    }

    /// So many digits, a zero at neither end.
    fn digits(&mut self, many: usize) -> String {
        let ends = [0, many - 1];
        (0..many)
            .map(|at| self.of(if ends.contains(&at) { b"123456789" } else { b"0123456789" }))
            .map(char::from)
            .collect()
    }

    fn decimal(&mut self) -> Value {
        let minus = self.percent(40);
        if self.percent(3) {
            return Value::Decimal(minus, String::new(), 0);
        }
        let power = match self.below(10) {
            0 => self.of(&[0, 1, -1, 308, 309, -308, -323, -324, -325, 99_999, -99_999]),
            1 => self.from(280, 330) as i64,
            2 | 3 => -(self.from(280, 340) as i64),
            4 => self.below(199_999) as i64 - 99_999,
            _ => self.below(81) as i64 - 40,
        };
        let beside = decimal(minus, "", power).len() - 1;
        let many = match self.below(10) {
            0..=3 => self.from(1, 17),
            4 | 5 => self.from(15, 19),
            6 => 20 - beside,
            7 => 21 - beside,
            8 => self.from(1, 70 - beside),
            _ => 70 - beside - self.below(4),
        };
        Value::Decimal(minus, self.digits(many), power)
    }

    fn asked(&mut self, name: String) -> Asked {
        let value = match self.below(100) {
            0..=9 => Value::Logical(self.percent(50)),
            10..=24 => Value::Integer(self.integer()),
            25..=49 => self.decimal(),
            _ => Value::Text(self.text()),
        };
        let mut asked = Asked { name, value, comment: None };
        asked.comment = match &asked.value {
            Value::Text(_) => self.comment(COMMENT),
            _ => {
                let room = CARD - 10 - asked.told().1.len().max(20);
                room.checked_sub(2).and_then(|most| self.comment(most))
            }
        };
        asked
    }
}

/// A header as a file: its first three cards, those of the values, END, and spaces to a whole block.
fn file(cards: &[u8]) -> Vec<u8> {
    let mut bytes: Vec<u8> = FIRST.iter().flat_map(|card| format!("{card:80}").into_bytes()).collect();
    bytes.extend(cards);
    bytes.extend(format!("{:80}", "END").bytes());
    bytes.resize(bytes.len().next_multiple_of(BLOCK), b' ');
    bytes
}

fn make(seed: u64, count: usize, folder: &Path) -> std::io::Result<()> {
    let mut maker = Maker(Random::new(seed));
    let (mut names, mut lines, mut cards, mut files) = (HashSet::new(), String::new(), Vec::new(), 0);
    for done in 1..=count {
        let name = loop {
            let name = maker.name();
            let apart = LAYOUT.contains(&&*name) || SPECIAL.contains(&&*name) || name.starts_with("NAXIS");
            if !apart && names.insert(name.clone()) {
                break name;
            }
        };
        let asked = maker.asked(name);
        lines += &asked.line();
        cards.extend(asked.cards());
        // Another value has at most 62 cards.
        if done == count || (FIRST.len() + 1) * CARD + cards.len() + MOST > CARDS * CARD {
            fs::write(folder.join(format!("{files:04}.asked")), &lines)?;
            fs::write(folder.join(format!("{files:04}.fits")), file(&cards))?;
            files += 1;
            names.clear();
            lines.clear();
            cards.clear();
        }
    }
    Ok(())
}

fn asked_of(path: &str) -> Option<Vec<Asked>> {
    fs::read_to_string(path).ok()?.lines().map(Asked::of_line).collect()
}

/// What our lookup answers for each name, in the form of a line.
fn read(asked: &str, header: &str) -> Option<String> {
    let header = fs::read(header).ok()?;
    let (mut text, mut comment, mut lines) = (vec![0; ROOM], vec![0; ROOM], String::new());
    for asked in asked_of(asked)? {
        let (mut told, mut said, name) = (Told::default(), Remark::default(), asked.name.as_bytes());
        let answer = boundary::lookup_value(&header, name, &mut text, &mut told).max(boundary::lookup_comment(
            &header,
            name,
            &mut comment,
            &mut said,
        ));
        let [_, kind, flag, text_length, digits] = told.out;
        let value = match (answer, kind) {
            (0, INTEGER) => Value::Integer(told.number),
            (0, LOGICAL) => Value::Logical(flag != 0),
            (0, STRING) => Value::Text(text[..text_length].to_vec()),
            (0, FINITE) => {
                let digits = String::from_utf8_lossy(&told.digits[..digits]).into();
                Value::Decimal(flag != 0, digits, told.number)
            }
            _ => {
                writeln!(lines, "{}\terror\trefused {answer}, kind {kind}\t-", asked.name).ok()?;
                continue;
            }
        };
        let comment = (said.commented != 0).then(|| comment[..said.length].to_vec());
        lines += &Asked { name: asked.name, value, comment }.line();
    }
    Some(lines)
}

fn done(words: &[&str]) -> Option<()> {
    match *words {
        ["make", seed, count, folder] => {
            let made = make(seed.parse().ok()?, count.parse().ok()?, Path::new(folder));
            made.map_err(|why| eprintln!("written: {why}")).ok()
        }
        ["write", asked, out] => {
            let cards: Vec<u8> = asked_of(asked)?.iter().flat_map(Asked::cards).collect();
            fs::write(out, file(&cards)).ok()
        }
        ["read", asked, header] => {
            print!("{}", read(asked, header)?);
            Some(())
        }
        _ => None,
    }
}

fn main() -> ExitCode {
    let words: Vec<String> = std::env::args().skip(1).collect();
    if done(&words.iter().map(String::as_str).collect::<Vec<_>>()).is_none() {
        eprintln!("usage: written make SEED COUNT FOLDER | write ASKED FILE | read ASKED FILE");
        return ExitCode::FAILURE;
    }
    ExitCode::SUCCESS
}
