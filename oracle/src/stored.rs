//! The stored list: headers and tiles with the Rust's answers, to be replayed. `printed.rs` has its form.
//!
//! `headers.bin` and `tiles.bin` hold one case behind the other, `headers.txt` and `tiles.txt` what is printed of them.
//! The digits and power of a decimal, of which the Rust has the nearest float alone, are the model's; both floats are
//! compared when the list is made. The byte of a refused card, of which the Rust says nothing, is the model's too.

use crate::faults::{Fault, Subject, FAULTS};
use crate::model::Model;
use crate::printed::{self, Whole, UNTOUCHED};
use crate::purposes::{self, Cards, Purpose};
use crate::random::Random;
use crate::reading::{shown, Header, Value};
use crate::tiles::Case;
use crate::variants::{self, WITNESSES};
use crate::{cards, headers, theirs, tiles};
use std::collections::{BTreeMap, BTreeSet, HashSet};
use std::path::Path;
use std::{fs, io};

/// How many headers of each refusal there are at least.
const REFUSALS: usize = 24;

/// How many headers and tiles there are in all.
const HEADERS: usize = 3_000;
const TILES: usize = 1_000;

/// How many rows of blocks stand behind the tiles.
const TILE_ROWS: usize = 100;

/// The most bytes and pixels of a stored tile.
const TILE_BYTES: usize = 2_000;
const TILE_PIXELS: usize = 256;

// ---- headers

/// The Rust's answer with the model's digits, powers and bytes of refused cards, or nothing where the Rust panics or tells no refusal's
/// number. All else of the model's answer, and the nearest floats, must be the Rust's.
fn recorded(header: &[[u8; 80]]) -> Option<Header> {
    let mut rust = theirs::header(header)?;
    if matches!(rust, Header::Refused(0, ..)) {
        return None;
    }
    let plain = Model(Fault::None);
    let model = plain.header(header, |c| plain.card(c));
    let differ = headers::differ(&rust, &model);
    assert!(!differ, "{}: the Rust has {rust:?}, the model {model:?}", shown(header.as_flattened()));
    match (&mut rust, model) {
        (Header::Entries(theirs, _), Header::Entries(ours, _)) => {
            for (entry, other) in theirs.iter_mut().zip(ours) {
                if let (Value::Decimal(d), Value::Decimal(e)) = (&mut entry.value, other.value) {
                    d.record = e.record;
                }
            }
        }
        (Header::Refused(_, _, column), model) => *column = model.column(),
        _ => (),
    }
    Some(rust)
}

/// The answer to a header of the equality domain.
fn answer(header: &[[u8; 80]]) -> Option<Header> {
    if header.len() > headers::MOST_CARDS || headers::aside(header).is_some() {
        return None;
    }
    recorded(header)
}

/// The headers that are taken, and what they stand for.
struct Chosen {
    headers: Vec<(Cards, Header)>,
    seen: HashSet<Vec<u8>>,
    /// Those of a misread column, of a miscounted name or of a unit past a space are made on purpose, not chosen.
    witnesses: Vec<(Subject, Fault, usize)>,
    refusals: BTreeMap<u8, usize>,
}

impl Chosen {
    fn new() -> Self {
        let witnesses =
            variants::misreadings().filter(|m| !matches!(m.0, Subject::Columns | Subject::Times | Subject::Past));
        let witnesses = witnesses.map(|m| (m.0, m.1, 0)).collect();
        Chosen { headers: Vec::new(), seen: HashSet::new(), witnesses, refusals: BTreeMap::new() }
    }

    /// Takes a header that is not there yet.
    fn take(&mut self, header: &[[u8; 80]], answer: Header) -> bool {
        let new = self.seen.insert(printed::packed(header));
        if new {
            if let Header::Refused(number, ..) = answer {
                *self.refusals.entry(number).or_default() += 1;
            }
            self.headers.push((header.to_vec(), answer));
        }
        new
    }

    /// Takes a header where it tells apart a misreading that has few witnesses, or meets a refusal that few meet.
    fn offer(&mut self, header: &[[u8; 80]]) {
        let Some(rust) = answer(header) else {
            return;
        };
        let told = printed::header(&rust);
        let few = |w: &(Subject, Fault, usize)| w.2 < WITNESSES && variants::misread(header, w.0, w.1) != told;
        let hits: Vec<usize> = (0..self.witnesses.len()).filter(|&i| few(&self.witnesses[i])).collect();
        let rare = match rust {
            Header::Refused(number, ..) => self.refusals.get(&number).copied().unwrap_or(0) < REFUSALS,
            Header::Entries(..) => false,
        };
        if (rare || !hits.is_empty()) && self.take(header, rust) {
            hits.into_iter().for_each(|i| self.witnesses[i].2 += 1);
        }
    }

    /// Takes headers that are made on purpose, with their answers.
    fn take_made(&mut self, (words, made): Purpose<Cards>, answer: fn(&[[u8; 80]]) -> Option<Header>) {
        let before = self.headers.len();
        for header in made {
            let rust = answer(&header).expect("a header made on purpose lies outside the domain");
            self.take(&header, rust);
        }
        println!("    {:>6} headers on purpose: {words}", self.headers.len() - before);
    }

    /// Takes the headers for the byte of a refused card. The Rust refuses a byte of 128 or more in a keyword, though it lies outside the
    /// domain.
    fn take_columns(&mut self) {
        let before = self.headers.len();
        purposes::columns().into_iter().for_each(|purpose| self.take_made(purpose, answer));
        self.take_made(purposes::high_bytes(), recorded);
        let refused = self.headers[before..].iter().all(|h| h.1.column().is_some());
        assert!(refused, "a header made for a refused card's byte names none");
    }

    /// Takes the headers that are made on purpose. Those that differ behind END alone have the same answer.
    fn take_purposes(&mut self) {
        purposes::headers().into_iter().for_each(|purpose| self.take_made(purpose, answer));
        for family in purposes::behind_end() {
            let first = answer(&family[0]).map(|a| printed::header(&a));
            assert!(family.iter().all(|h| answer(h).map(|a| printed::header(&a)) == first), "a card behind END counts");
        }
    }
}

/// A card in a header of its own: a CONTINUE has an open string before it.
fn alone(card: &[u8; 80]) -> Cards {
    let mut header = vec![*card, cards::card_of(b"END")];
    if card[..8].trim_ascii() == b"CONTINUE" {
        header.insert(0, cards::card_of(b"OPEN    = 'open &' / first"));
    }
    header
}

/// Headers with a byte of 128 or more in a keyword, which the Rust refuses too.
fn high(random: &mut Random) -> Cards {
    let mut header = headers::random_header(random);
    header.truncate(6);
    let at = random.below(header.len());
    header[at][random.below(8)] = 128 + random.below(128) as u8;
    header
}

/// A header of the most cards, all of which are joined.
fn most() -> Cards {
    let mut most = vec![cards::card_of(b"LAST    = 'x&'")];
    most.resize(headers::MOST_CARDS - 1, cards::card_of(b"CONTINUE '0123456789 &' / c"));
    most.push(cards::card_of(b"END"));
    most
}

fn choose(seed: u64) -> Chosen {
    let mut chosen = Chosen::new();
    let mut random = Random::new(seed);
    chosen.take_purposes();
    cards::cases(seed, 4, 30_000, &mut |part, card| {
        let about_columns = part.starts_with(cards::ABOUT_COLUMNS);
        if !about_columns && (!part.starts_with("all pairs") || random.once_in(40)) {
            chosen.offer(&alone(card));
        }
        true
    });
    headers::cases(seed, 3, 30_000, &mut |part, header| {
        if header.len() < 60 && !part.starts_with(cards::ABOUT_COLUMNS) {
            chosen.offer(header);
        }
        true
    });
    while chosen.refusals.get(&1).copied().unwrap_or(0) < REFUSALS {
        let header = high(&mut random);
        if matches!(theirs::header(&header), Some(Header::Refused(1, ..))) {
            let rust = recorded(&header).expect("a refusal");
            chosen.take(&header, rust);
        }
    }
    while chosen.headers.len() < HEADERS {
        let header = match random.below(3) {
            0 => alone(&cards::random_card(&mut random)),
            _ => headers::random_header(&mut random),
        };
        if let (true, Some(rust)) = (header.len() < 60, answer(&header)) {
            chosen.take(&header, rust);
        }
    }
    let rust = answer(&most()).expect("the most cards");
    chosen.take(&most(), rust);
    chosen.take_columns();
    chosen.take_made(purposes::borne(), answer);
    chosen.take_made(purposes::past_spaces(), answer);
    chosen
}

/// Prints how many entries of each kind and refusals of each number there are, and on what decimals rest.
fn print_kinds(chosen: &Chosen) {
    let mut kinds: BTreeMap<String, usize> = BTreeMap::new();
    let mut bytes: BTreeMap<u8, BTreeSet<usize>> = BTreeMap::new();
    let (mut decimals, mut given_back, mut repeated) = (0, 0, 0);
    for (_, answer) in &chosen.headers {
        let entries = match answer {
            Header::Refused(number, _, column) => {
                *kinds.entry(format!("refused {number}")).or_default() += 1;
                bytes.entry(*number).or_default().extend(column);
                continue;
            }
            Header::Entries(entries, times) => {
                repeated += times.iter().filter(|&&n| n > 1).count();
                entries
            }
        };
        for entry in entries {
            let kind = format!("{:?}", entry.value);
            *kinds.entry(kind.split(' ').next().unwrap_or_default().to_string()).or_default() += 1;
            if let Value::Decimal(d) = &entry.value {
                decimals += 1;
                given_back += usize::from(printed::decimal(d) == printed::shortest(d));
            }
        }
    }
    println!("    {kinds:?}");
    println!("    {repeated} names that more than one card bears");
    for (number, bytes) in bytes.iter().filter(|b| !b.1.is_empty()) {
        println!("    refusal {number} names {} bytes: {bytes:?}", bytes.len());
    }
    let rest = decimals - given_back;
    println!("    {decimals} decimals: {given_back} whose record the Rust's float gives back, {rest} by the model");
}

fn write_headers(folder: &Path, seed: u64) -> io::Result<usize> {
    let chosen = choose(seed);
    let input: Vec<u8> = chosen.headers.iter().flat_map(|h| printed::packed(&h.0)).collect();
    let lines: Vec<u8> = chosen.headers.iter().flat_map(|h| printed::header(&h.1)).collect();
    fs::write(folder.join("headers.bin"), &input)?;
    fs::write(folder.join("headers.txt"), &lines)?;
    println!("{} headers: {} bytes in, {} bytes of answers", chosen.headers.len(), input.len(), lines.len());
    print_kinds(&chosen);
    let rare =
        [1, 2, 3, 4, 5, 6, 7, 10].iter().filter(|n| chosen.refusals.get(n).copied().unwrap_or(0) < REFUSALS).count();
    Ok(rare + variants::headers(&chosen.headers))
}

// ---- tiles

/// What the Rust's whole decoding leaves; how many pixels were written is told by two runs over buffers that are filled
/// differently. It must be what the model says.
fn whole(case: &Case) -> Whole {
    let run = |fill| theirs::left(&case.tile, case.nx, case.nblock, case.width, fill).expect("the Rust panics");
    let left = run(UNTOUCHED);
    let written = theirs::common(&left.pixels, &run(!UNTOUCHED).pixels);
    let (refused, bytes) = if left.read { (0, left.bytes) } else { (16, 0) };
    let whole = Whole { refused, written, bytes, buffer: left.pixels };
    assert!(whole.lines() == variants::misread_tile(case, Fault::None), "{case:02x?}: the Rust has {whole:?}");
    whole
}

/// What is printed of a tile, read whole and block by block.
fn told(case: &Case, whole: &Whole) -> String {
    let run = |fill| theirs::steps(&case.tile, case.nx, case.nblock, case.width, fill).expect("the Rust panics");
    let steps = run(UNTOUCHED);
    let mut blocks = printed::numbers(&steps.places);
    if steps.done < case.nx {
        let written = theirs::common(&steps.pixels, &run(!UNTOUCHED).pixels) - steps.done;
        blocks += &format!(" refused {} {written}", whole.refused);
    }
    if steps.pixels != whole.buffer {
        blocks += " apart";
    }
    format!("{}blocks{blocks}\n", whole.lines())
}

/// The tiles that are taken: those made on purpose, witnesses of each misreading, random ones, and rows of blocks behind them. Misreadings
/// that came when the list stood choose none: the list tells them apart as it is.
fn choose_tiles(seed: u64) -> Vec<(Case, Whole)> {
    let chooses = |f: Fault| !matches!(f, Fault::ZerosStop | Fault::HeldZeros);
    let mut left: Vec<(Fault, usize)> =
        FAULTS.iter().filter(|f| f.0 == Subject::Tiles && chooses(f.1)).map(|f| (f.1, 0)).collect();
    let mut rows = 0;
    let mut taken = Vec::new();
    for (words, made) in purposes::tiles() {
        println!("    {:>6} tiles on purpose: {words}", made.len());
        for case in made {
            assert!(case.tile.len() <= TILE_BYTES && tiles::aside(&case).is_none(), "{case:02x?}");
            let rust = whole(&case);
            taken.push((case, rust));
        }
    }
    let mut random = Random::new(seed);
    tiles::cases(seed, true, 20_000, &mut |part, case| {
        if case.tile.len() > TILE_BYTES
            || case.nx > TILE_PIXELS
            || (part.starts_with("every") && !random.once_in(300))
            || tiles::aside(case).is_some()
        {
            return true;
        }
        let rust = whole(case);
        let told = rust.lines();
        let mut wanted = taken.len() < TILES && random.once_in(60);
        if part == tiles::ROWS {
            wanted = rows < TILE_ROWS;
            rows += usize::from(wanted);
        }
        for (fault, n) in left.iter_mut().filter(|l| l.1 < WITNESSES) {
            if variants::misread_tile(case, *fault) != told {
                *n += 1;
                wanted = true;
            }
        }
        if wanted {
            taken.push((case.clone(), rust));
        }
        true
    });
    taken
}

fn write_tiles(folder: &Path, seed: u64) -> io::Result<usize> {
    let taken = choose_tiles(seed);
    let input: Vec<u8> = taken.iter().flat_map(|t| printed::packed_tile(&t.0)).collect();
    let lines: String = taken.iter().map(|(case, whole)| told(case, whole)).collect();
    fs::write(folder.join("tiles.bin"), &input)?;
    fs::write(folder.join("tiles.txt"), &lines)?;
    println!("{} tiles: {} bytes in, {} bytes of answers", taken.len(), input.len(), lines.len());
    let of = |width: usize| taken.iter().filter(|t| t.0.width == width).count();
    let refused = taken.iter().filter(|t| t.1.refused != 0).count();
    println!(
        "    {} of 8, {} of 16, {} of 32 bits; {} read, {refused} refused",
        of(8),
        of(16),
        of(32),
        taken.len() - refused
    );
    Ok(variants::tiles(&taken))
}

/// Writes the stored list into a folder; answers how many wrong variants and refusals have too few witnesses.
pub fn write(folder: &Path, seed: u64) -> io::Result<usize> {
    fs::create_dir_all(folder)?;
    Ok(write_headers(folder, seed)? + write_tiles(folder, seed)?)
}
