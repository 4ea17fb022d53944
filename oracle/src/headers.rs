//! Headers: cases, and the comparison of one case.

use crate::cards::{self, card_of, mutated, random_card, REALISTIC};
use crate::columns::BY_HAND;
use crate::faults::Fault;
use crate::model::Model;
use crate::random::Random;
use crate::reading::{shown, Entry, Header, Refusal};
use crate::tally::{Columns, Outcome};
use crate::{ours, theirs};

/// What takes a part's name and a case, and says whether more are wanted.
pub type Visit<'a> = &'a mut dyn FnMut(&'static str, &[[u8; 80]]) -> bool;

/// The most cards of a header of which every entry is asked for by its card.
const FEW: usize = 60;

/// The most cards of a header.
pub const MOST_CARDS: usize = 720;

/// Cards of which every short sequence is tried.
const JOINING: &[&str] = &[
    "A       = 'x&'",
    "A       = 'x &' / one",
    "A       = '&&' /",
    "B       = 'y'",
    "B       = 5 /[m] five",
    "HIERARCH A = 'z&' / dotted",
    "CONTINUE ''",
    "CONTINUE ' &' / two",
    "CONTINUE 'c& &'",
    "CONTINUE 'd' /",
    "CONTINUE",
    "COMMENT 'q&'",
    "HISTORY  h",
    "",
    "UNDEF   ='u&'",
    "C       =",
    "CONTINUE 'e",
    "END",
];

/// Cards from which headers are put together at random.
const MORE: &[&str] = &[
    "A       = 'x& &'",
    "A       = ' &' /",
    "A       = '    &' / first",
    "A       = '&'",
    "A       = ''",
    "A       = T / truth",
    "A       =",
    "A       = word",
    "a       = 'small&'",
    "A.B     = 'plain&' / p",
    "HIERARCH A B = 'parts&' / h",
    "HIERARCH A B = 7 / h",
    "HIERARCH A.B = 1.5",
    "HIERARCH a = F",
    "LONG    = '0123456789012345678901234567890123456789012345678901234567890123456&'",
    "CONTINUE  '0123456789012345678901234567890123456789012345678901234567890123456&'",
    "CONTINUE ' '",
    "CONTINUE '  '",
    "CONTINUE '&'",
    "CONTINUE '&' / only",
    "CONTINUE '&&'",
    "CONTINUE '''&'",
    "CONTINUE 'x&' /[u] unit",
    "CONTINUE / bare comment",
    "CONTINUE bare &",
    "CONTINUE bare",
    "CONTINUE= 'b'",
    "CONTINUE'tight'",
    "  CONTI = 'no'",
    "COMMENT &",
    "HISTORY &",
    "        unnamed &",
    "U       ='&'",
    "E       = 1.5D3 /[K] kelvin",
    "E       = 1D",
    "N       = 9223372036854775808",
    "X       = (1,2)",
    "X       = 'open",
    "X       = 5\x0b",
    "HIERARCH nothing",
    "HIERARCH   = 5",
    "  END",
    "END     = 5",
    "END     'x'",
];

fn cards_of(texts: &[&str]) -> Vec<[u8; 80]> {
    texts.iter().map(|t| card_of(t.as_bytes())).collect()
}

/// Every sequence of so many cards, with END behind it.
fn sequences(longest: usize, visit: Visit) -> bool {
    let cards = cards_of(JOINING);
    let end = card_of(b"END");
    for len in 0..=longest {
        let total = cards.len().pow(len as u32);
        for code in 0..total {
            let mut rest = code;
            let mut header = Vec::with_capacity(len + 1);
            for _ in 0..len {
                header.push(cards[rest % cards.len()]);
                rest /= cards.len();
            }
            header.push(end);
            if !visit("short sequences of cards", &header) {
                return false;
            }
        }
    }
    true
}

/// A header put together at random.
pub fn random_header(random: &mut Random) -> Vec<[u8; 80]> {
    let many = match random.below(20) {
        0 => random.below(MOST_CARDS - 1),
        1..=4 => random.below(40),
        _ => random.below(8),
    };
    let mut header: Vec<[u8; 80]> = (0..many)
        .map(|_| match random.below(24) {
            0 => random_card(random),
            1 => card_of(random.pick(&REALISTIC[..24]).as_bytes()),
            2 => card_of(random.pick(&MORE[..MORE.len() - 8]).as_bytes()),
            3 if random.once_in(8) => card_of(random.pick(MORE).as_bytes()),
            4..=12 => card_of(random.pick(&MORE[..26]).as_bytes()),
            _ => card_of(random.pick(&JOINING[..16]).as_bytes()),
        })
        .collect();
    if !random.once_in(12) {
        header.push(card_of(b"END"));
        if random.once_in(12) {
            header.push(random_card(random));
        }
    }
    if header.is_empty() {
        header.push(card_of(b"END"));
    }
    header
}

/// Refused cards of every kind, behind other cards.
fn refused(visit: Visit) -> bool {
    let fronts: [&[&str]; 5] = [
        &[],
        &["A       = 5 / five"],
        &["A       = 'x&'"],
        &["XTENSION= 'IMAGE'", "HIERARCH A = 'x&'"],
        &["A       = 'x&'", "COMMENT c", "B       = 'y&'", "CONTINUE 'z&'"],
    ];
    for front in fronts {
        for (text, ..) in BY_HAND {
            let rear = [card_of(text), card_of(b"CONTINUE 'e"), card_of(b"END"), card_of(b"X       = (")];
            if !visit("columns, cards by hand", &[&cards_of(front)[..], &rear].concat()) {
                return false;
            }
        }
    }
    true
}

/// A header with a refused card in it, or one that is almost refused.
fn with_refused(random: &mut Random) -> Vec<[u8; 80]> {
    let mut header = random_header(random);
    header.truncate(12);
    let mut card = card_of(random.pick(BY_HAND).0);
    match random.below(3) {
        0 => card = mutated(random, &card),
        1 => card[random.below(80)] = 128 + random.below(128) as u8,
        _ => (),
    }
    header.insert(random.below(header.len() + 1), card);
    header
}

/// All the cases: every sequence up to a length, and so many random ones.
pub fn cases(seed: u64, longest: usize, many: usize, visit: Visit) -> bool {
    if !sequences(longest, visit) || !refused(visit) {
        return false;
    }
    let mut random = Random::new(seed);
    for _ in 0..many {
        if !visit("random headers", &random_header(&mut random)) {
            return false;
        }
    }
    let realistic: Vec<[u8; 80]> = REALISTIC
        .iter()
        .filter(|t| !t.starts_with("END") && !t.starts_with("XTENSION"))
        .map(|t| card_of(t.as_bytes()))
        .collect();
    for _ in 0..many / 2 {
        let mut header: Vec<[u8; 80]> = (0..random.below(24)).map(|_| random.pick(&realistic)).collect();
        header.push(card_of(b"END"));
        for _ in 0..1 + random.below(4) {
            let at = random.below(header.len());
            match random.below(5) {
                0 => header.swap(at, 0),
                1 => header.insert(at, random.pick(&realistic)),
                2 if header.len() > 1 => {
                    header.remove(at);
                }
                _ => header[at] = mutated(&mut random, &header[at]),
            }
        }
        if !visit("changed realistic headers", &header) {
            return false;
        }
    }
    for _ in 0..many / 4 {
        if !visit("columns, a refused card among others", &with_refused(&mut random)) {
            return false;
        }
    }
    true
}

/// Where the cards up to END stop.
fn up_to_end(header: &[[u8; 80]]) -> &[[u8; 80]] {
    let n = header.iter().position(|c| c[..8].trim_ascii() == b"END").map_or(header.len(), |i| i + 1);
    &header[..n]
}

/// Why a header lies outside the equality domain, if it does.
pub fn aside(header: &[[u8; 80]]) -> Option<&'static str> {
    up_to_end(header).iter().find_map(cards::aside)
}

/// Our reading.
fn mine(header: &[[u8; 80]]) -> Header {
    ours::header(header)
}

/// Whether another answer than the Rust's. It tells no byte, and a message that tells no number stands against any refusal.
pub fn differ(theirs: &Header, ours: &Header) -> bool {
    match (theirs, ours) {
        (Header::Refused(a, at, _), Header::Refused(b, card, _)) => at != card || (*a != 0 && a != b),
        _ => theirs != ours,
    }
}

/// Whether the Rust's answer is another one.
pub fn judge(header: &[[u8; 80]], ours: &Header) -> bool {
    theirs::header(header).map_or(true, |t| differ(&t, ours))
}

fn smallest(header: &[[u8; 80]], holds: &dyn Fn(&[[u8; 80]]) -> bool) -> Vec<[u8; 80]> {
    let mut best = header.to_vec();
    while let Some(at) = (0..best.len()).find(|&at| {
        let mut next = best.clone();
        next.remove(at);
        !next.is_empty() && holds(&next)
    }) {
        best.remove(at);
    }
    best
}

/// The bytes of refused cards that were compared: those of headers, and of entries and names by a card's number.
pub struct Seen {
    headers: Columns,
    entries: Columns,
    names: Columns,
}

impl Seen {
    pub fn new() -> Self {
        let of = Columns::new;
        Seen { headers: of("headers"), entries: of("entries by their card"), names: of("names by their card") }
    }

    pub fn print(&self) {
        [&self.headers, &self.entries, &self.names].into_iter().for_each(Columns::print);
    }
}

/// What stands at a card's number: the entry and the name.
#[derive(PartialEq, Debug)]
struct Standing {
    entry: Result<Entry, Refusal>,
    name: Result<Vec<u8>, Refusal>,
}

impl Standing {
    fn of(model: Model, header: &[[u8; 80]], at: usize) -> Self {
        Standing { entry: model.entry_at(header, at), name: model.name_at(header, at) }
    }

    /// Ours, with the bytes of refused cards counted that the model names.
    fn ours(expected: &Self, header: &[[u8; 80]], at: usize, lent: &mut ours::Lent, seen: &mut Seen) -> Self {
        if let Err(refusal) = &expected.entry {
            seen.entries.count(refusal.number, refusal.column);
        }
        if let Err(refusal) = &expected.name {
            seen.names.count(refusal.number, refusal.column);
        }
        let named = expected.entry.as_ref().map_or(&[][..], |entry| &entry.name);
        let entry = lent.entry(header.as_flattened(), ours::Asked::Card(at), named);
        Standing { entry, name: ours::name(header.as_flattened(), at) }
    }
}

/// The first card's number at which ours and the model's differ, in a header of any kind, behind END and at refused cards too.
fn differs_at(model: Model, header: &[[u8; 80]], seen: &mut Seen) -> Option<usize> {
    let mut lent = ours::Lent::new();
    let few = if header.len() < FEW { header.len() } else { 0 };
    (0..few).find(|&at| {
        let expected = Standing::of(model, header, at);
        Standing::ours(&expected, header, at, &mut lent, seen) != expected
    })
}

fn different(header: &[[u8; 80]], seen: &mut Seen) -> bool {
    let model = Model(Fault::None);
    let mine = mine(header);
    let expected = model.header(header, |c| model.card(c));
    if let Header::Refused(number, _, column) = expected {
        seen.headers.count(number, column);
    }
    mine != expected || (aside(header).is_none() && judge(header, &mine)) || differs_at(model, header, seen).is_some()
}

/// One case.
pub fn compare(header: &[[u8; 80]], seen: &mut Seen) -> Outcome {
    if different(header, seen) {
        return Outcome::Different;
    }
    aside(header).map_or(Outcome::Same, Outcome::Aside)
}

/// A case that differs, in its smallest form, with all answers.
pub fn explain(header: &[[u8; 80]]) -> String {
    let small = smallest(header, &|h| different(h, &mut Seen::new()));
    let cards: Vec<String> = small.iter().map(|c| format!("\"{}\"", shown(c.trim_ascii_end()))).collect();
    let model = Model(Fault::None);
    let (rust, ours) = (theirs::header(&small), mine(&small));
    let expected = model.header(&small, |c| model.card(c));
    let at_card = differs_at(model, &small, &mut Seen::new()).map_or(String::new(), |at| {
        let expected = Standing::of(model, &small, at);
        let ours = Standing::ours(&expected, &small, at, &mut ours::Lent::new(), &mut Seen::new());
        format!("\n    card {at}\n    ours  {ours:?}\n    model {expected:?}")
    });
    format!("{}\n    Rust  {rust:?}\n    ours  {ours:?}\n    model {expected:?}{at_card}", cards.join("\n    "))
}
