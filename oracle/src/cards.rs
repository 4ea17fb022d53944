//! Single cards: cases, and the comparison of one case.

use crate::columns::BY_HAND;
use crate::faults::Fault;
use crate::model::Model;
use crate::random::Random;
use crate::reading::{shown, Card};
use crate::tally::{Columns, Outcome};
use crate::{ours, theirs};

/// What takes a part's name and a case, and says whether more are wanted.
pub type Visit<'a> = &'a mut dyn FnMut(&'static str, &[u8; 80]) -> bool;

/// Cards as files have them, and some that they should not have.
pub const REALISTIC: &[&str] = &[
    "SIMPLE  =                    T / conforms to FITS standard",
    "BITPIX  =                  -32 / array data type",
    "NAXIS   =                    2",
    "EXPTIME =               300.25 /[s] exposure",
    "GAIN    =             1.5D+003 /[e-/ADU] gain",
    "CRVAL1  =  1.2345678901234567E+02 / [deg] RA",
    "OBJECT  = 'O''RING  '           / name of the object",
    "KIT     = 'FKM-&   '           / ring",
    "EMPTY   = ''                   /",
    "SPACES  = '    '               /  two in front",
    "BLANK   =                      / nothing",
    "COMPLEX = (1.0, 2.0)           / a pair",
    "WORD    = NOTAVALUE            / a word",
    "BIG     =  9223372036854775807 / the greatest",
    "BIGGER  =  9223372036854775808 / beyond it",
    "BEYOND  = -12300000000000000000000 / a short record",
    "LEAST   = -9223372036854775808 / the least",
    "NOTANUM =                 -NaN / no number",
    "INFIN   =            +Infinity / no end",
    "OPEN    = 'never closed        / so it goes",
    "SLASH   = 'a/b'/c/d",
    "TRUTH   = TEXT                 / by its first letter",
    "CONTINUE  '75'                 / more",
    "CONTINUE  'and &'",
    "CONTINUE   bare words          / no quotes",
    "COMMENT   some words = 'here' / there",
    "HISTORY   done by hand",
    "          an unnamed comment",
    "HIERARCH ESO DET CHIP1 ID = 'CCD-44 ' / chip",
    "HIERARCH ESO  TEL ALT=+45.5 /[deg] height",
    "HIERARCH no sign at all",
    "HIERARCH    = 5",
    "XTENSION= 'IMAGE   '           / kind",
    "END",
    "end",
    "Comment = 'small letters'",
    "UNDEF   =5",
    "NOVALUE",
];

/// Texts that stand in values, each with something to get wrong.
const PIECES: &[&[u8]] = &[
    b"'",
    b"''",
    b"'''",
    b"/",
    b" ",
    b"  ",
    b"&",
    b"'a'",
    b"' '",
    b"[m]",
    b"[",
    b"]",
    b"=",
    b"= ",
    b"(",
    b"T",
    b"F",
    b"5",
    b"-0",
    b"+",
    b".",
    b"1.5",
    b"1D3",
    b"e5",
    b"E-7",
    b"D",
    b"inf",
    b"-nan",
    b"\t",
    b"\n",
    b"\x0b",
    b"\x0c",
    b"\r",
    b"\x7f",
    b"\x00",
    b"~",
    b"A",
    b"END",
    b"z",
    b"x/y",
    b"\x1f",
    b"9223372036854775808",
    b"_",
    b"1e400",
    b"1e-400",
    b"000",
];

/// A text on a card, cut to it and filled with spaces.
pub fn card_of(text: &[u8]) -> [u8; 80] {
    let mut card = [b' '; 80];
    let n = text.len().min(80);
    card[..n].copy_from_slice(&text[..n]);
    card
}

/// Every text over an alphabet, up to a length.
fn texts(alphabet: &[u8], longest: usize, visit: &mut dyn FnMut(&[u8]) -> bool) -> bool {
    let mut places = [0usize; 16];
    let mut text = [0u8; 16];
    for len in 0..=longest {
        places[..len].fill(0);
        loop {
            for i in 0..len {
                text[i] = alphabet[places[i]];
            }
            if !visit(&text[..len]) {
                return false;
            }
            let Some(i) = (0..len).rev().find(|&i| places[i] + 1 < alphabet.len()) else {
                break;
            };
            places[i] += 1;
            places[i + 1..len].fill(0);
        }
    }
    true
}

/// Short texts between a front and a rear, and at the end of the card.
fn placed(part: &'static str, alphabet: &[u8], longest: usize, frames: &[(&str, &str)], visit: Visit) -> bool {
    texts(alphabet, longest, &mut |text| {
        for (front, rear) in frames {
            let card = card_of(&[front.as_bytes(), text, rear.as_bytes()].concat());
            if !visit(part, &card) {
                return false;
            }
        }
        true
    })
}

fn exhaustive(depth: usize, visit: Visit) -> bool {
    let strings =
        [("K       = ", ""), ("K       = '", ""), ("K       = 'a", "' / c"), ("CONTINUE", ""), ("HIERARCH A =", "")];
    let numbers = [("K       = ", ""), ("K       = 1", " / c"), ("HIERARCH A B =", "/[m]")];
    let behind = [("K       = 5 /", ""), ("K       = 'a'/", "]"), ("K       = T /[", "")];
    let named = [("HIERARCH", ""), ("HIERARCH ", "=5"), ("HIERARCHA", "= 'x'")];
    let keyed = [("", "= 5"), ("  END ", ""), ("COMMENT", "a"), ("CONTINU", "'a'"), ("K      ", "5")];
    let at_end = "K       = '                                                                   ";
    placed("short texts, strings", b"'/ a\x0b\t\x7f&", depth, &strings, visit)
        && placed("short texts, numbers", b"+-.019eED n_", depth - 1, &numbers, visit)
        && placed(
            "short texts, words",
            b"+-iInNfFaAtTyY",
            depth - 1,
            &[("K       = ", ""), ("K       = +", "inity")],
            visit,
        )
        && placed("short texts, comments", b"[] /a\x0b~\x7f", depth - 1, &behind, visit)
        && placed("short texts, HIERARCH", b" \tA='/\x0b.", depth - 1, &named, visit)
        && placed("short texts, keywords", b" \tEND=\x0bE", depth - 1, &keyed, visit)
        && placed("short texts, the card's end", b"'/ a\x0b\t", 3, &[(at_end, ""), (&at_end[..77], "")], visit)
}

fn pairs(visit: Visit) -> bool {
    let bases: [(&str, &[usize]); 8] = [
        ("K       = 'a' / c", &[0, 6, 7, 8, 9, 10, 11, 12, 13, 14, 15, 78]),
        ("K       = 15.5 /[m]", &[9, 10, 13, 14, 15, 16, 17, 18]),
        ("CONTINUE 'a&'", &[6, 7, 8, 9, 12, 13]),
        ("HIERARCH A B = 5", &[6, 7, 8, 9, 10, 11, 12, 13, 14]),
        ("COMMENT", &[6, 7, 8, 78]),
        ("", &[0, 3, 7, 8, 40, 78]),
        ("END", &[0, 2, 3, 7, 8]),
        ("K       = ''''", &[10, 11, 12, 13]),
    ];
    for (base, places) in bases {
        for &at in places {
            for pair in 0..129u32 * 129 {
                let mut card = card_of(base.as_bytes());
                card[at] = (pair / 129) as u8;
                card[at + 1] = (pair % 129) as u8;
                if !visit("all pairs of bytes in sensitive places", &card) {
                    return false;
                }
            }
        }
    }
    true
}

/// How the names of the parts begin that are about the byte of a refusal. The choice of the stored list leaves them out.
pub const ABOUT_COLUMNS: &str = "columns";

/// Texts that are refused, each behind what it may follow.
const REFUSED: &[(&str, &str)] = &[
    ("K       = ", "(1,2)"),
    ("K       = ", "'open"),
    ("K       = ", "5\x0b"),
    ("CONTINUE", "'a"),
    ("CONTINUE", "a'"),
    ("CONTINUE", "\x7f"),
    ("HIERARCH A=", "("),
    ("HIERARCH A B =", "'x"),
    ("HIERARCH A=", "\x0b"),
    ("HIERARCH ", "= 5"),
    ("HIERARCH", "nothing"),
    ("XTENSION=", "/ c"),
    ("XTENSION= ", "5"),
    ("XTENSION= ", "'"),
];

/// Cards for the byte at which they are refused.
fn refused(depth: usize, visit: Visit) -> bool {
    let extensions = [("XTENSION", ""), ("XTENSION= ", ""), ("XTENSION= '", "' / c")];
    let high = ["", "END", "COMMENT", "K       = 'a' / c", "HIERARCH A = 5"];
    let odd = ["K       = 'a'5 'b'", "CONTINUE a 'b' c'", "HIERARCH A ='"];
    BY_HAND.iter().all(|(text, ..)| visit("columns, by hand", &card_of(text)))
        && placed("columns, XTENSION", b"'/ a\x0b\t", depth - 1, &extensions, visit)
        && placed("columns, blanks in front", b" \t\n\x0c\r", 3, REFUSED, visit)
        && at_each_byte("columns, at each byte", visit)
        && doubled("columns, two high bytes", 200, &high, visit)
        && doubled("columns, two odd bytes", 11, &odd, visit)
}

/// Refused texts at each byte, spaces before them, the last ones cut at the card's end.
fn at_each_byte(part: &'static str, visit: Visit) -> bool {
    let at_bytes = |(front, text): &(&str, &str)| -> Vec<[u8; 80]> {
        (front.len()..80).map(|at| card_of(format!("{front:<at$}{text}").as_bytes())).collect()
    };
    REFUSED.iter().flat_map(at_bytes).all(|card| visit(part, &card))
}

/// Cards with a byte put at each place, and at every two.
fn doubled(part: &'static str, byte: u8, bases: &[&str], visit: Visit) -> bool {
    for base in bases {
        for (first, second) in (0..80).flat_map(|first| (first..80).map(move |second| (first, second))) {
            let mut card = card_of(base.as_bytes());
            card[first] = byte;
            card[second] = byte;
            if !visit(part, &card) {
                return false;
            }
        }
    }
    true
}

/// Numbers that lie near a limit.
fn number(random: &mut Random) -> Vec<u8> {
    let mut text = Vec::new();
    text.extend_from_slice(random.pick(&[&b""[..], b"-", b"+"]));
    match random.below(6) {
        0 => {
            let near = 9_223_372_036_854_775_808i128 + random.below(5) as i128 - 2;
            text.extend(std::iter::repeat(b'0').take(random.below(8) * random.below(8)));
            text.extend_from_slice(near.to_string().as_bytes());
        }
        1 => {
            // halfway between two floats, or next to it
            let float = f64::from_bits(random.next() >> 12 | (1023 - 40 + random.below(100) as u64) << 52);
            let up = f64::from_bits(float.to_bits() + 1);
            let exact = format!("{:.60}", float);
            let next = format!("{:.60}", up);
            let half = halfway(exact.as_bytes(), next.as_bytes(), random.below(3));
            text.extend_from_slice(&half[..half.len().min(66)]);
        }
        2 => {
            let float = f64::from_bits(random.next());
            text.extend_from_slice(format!("{float:e}").trim_start_matches('-').as_bytes());
        }
        _ => {
            for _ in 0..random.below(5) * random.below(8) {
                text.push(b'0' + random.below(10) as u8);
            }
            if !random.once_in(3) {
                text.push(b'.');
                for _ in 0..random.below(5) * random.below(5) {
                    text.push(random.pick(b"0012345678990"));
                }
            }
        }
    }
    if random.once_in(2) {
        text.push(random.pick(b"eEDDEEd"));
        text.extend_from_slice(random.pick(&[&b""[..], b"-", b"+"]));
        let exponent: u64 = match random.below(4) {
            0 => random.below(30) as u64,
            1 => 290 + random.below(60) as u64,
            2 => 99_990 + random.below(20) as u64,
            _ => random.next(),
        };
        text.extend(std::iter::repeat(b'0').take(random.below(6) * random.below(6)));
        text.extend_from_slice(exponent.to_string().as_bytes());
    }
    text
}

/// The middle of two decimals of one form, or a little above or below it.
fn halfway(a: &[u8], b: &[u8], way: usize) -> Vec<u8> {
    let digits = |s: &[u8]| {
        s.iter().filter(|c| c.is_ascii_digit()).fold((0u128, 0u128), |(h, l), c| {
            let l = l * 10 + (c - b'0') as u128;
            (h * 10 + l / 10u128.pow(36), l % 10u128.pow(36))
        })
    };
    if a.len() != b.len() || a.len() > 74 {
        return a.to_vec();
    }
    let ((ha, la), (hb, lb)) = (digits(a), digits(b));
    let (mut h, mut l) = (ha + hb, la + lb);
    h += l / 10u128.pow(36);
    l %= 10u128.pow(36);
    l = (h % 2 * 10u128.pow(36) + l) / 2;
    h /= 2;
    l = match way {
        0 => l,
        1 => l + 1,
        _ => l.saturating_sub(1),
    };
    let point = a.iter().position(|&c| c == b'.').unwrap();
    let mut text = format!("{h}{l:036}").into_bytes();
    while text.len() + 1 < a.len() {
        text.insert(0, b'0');
    }
    text.truncate(a.len() - 1);
    text.insert(point, b'.');
    text
}

/// A card put together at random.
pub fn random_card(random: &mut Random) -> [u8; 80] {
    let front: &[u8] = match random.below(12) {
        0 => b"CONTINUE",
        1 => b"CONTINUE  ",
        2 => b"HIERARCH ",
        3 => b"HIERARCH A =",
        4 => b"COMMENT ",
        5 => b"",
        6 => b"HISTORY",
        _ => b"KEY     = ",
    };
    let mut text = front.to_vec();
    if random.once_in(4) {
        text.extend_from_slice(&number(random));
        if random.once_in(2) {
            text.extend_from_slice(b" / c");
        }
    } else {
        for _ in 0..random.below(12) {
            text.extend_from_slice(random.pick(PIECES));
        }
        if random.once_in(8) {
            text.push(random.below(128) as u8);
        }
    }
    if random.once_in(6) {
        let spaces = 80usize.saturating_sub(text.len());
        let at = front.len();
        text.splice(at..at, std::iter::repeat(b' ').take(spaces));
    }
    card_of(&text)
}

/// A card with a few bytes changed.
pub fn mutated(random: &mut Random, card: &[u8; 80]) -> [u8; 80] {
    let mut text = card.to_vec();
    for _ in 0..1 + random.below(4) {
        let at = if random.once_in(3) { random.below(80) } else { random.below(24) };
        match random.below(6) {
            0 => text[at] = random.below(128) as u8,
            1 => {
                text.insert(at, random.pick(b"'/ &=a5.\t\x0b\x7fDE+-[]("));
                text.truncate(80);
            }
            2 => {
                text.remove(at);
                text.push(b' ');
            }
            3 => text.swap(at, random.below(80)),
            4 => {
                let piece = random.pick(PIECES);
                for (i, &b) in piece.iter().enumerate() {
                    if at + i < 80 {
                        text[at + i] = b;
                    }
                }
            }
            _ => text[at] = random.pick(b"'/ &=a5.\t\x0b\x7fDE+-[]("),
        }
    }
    card_of(&text)
}

/// All the cases: short texts up to a depth, pairs of bytes, and so many random ones.
pub fn cases(seed: u64, depth: usize, many: usize, visit: Visit) -> bool {
    for text in REALISTIC {
        if !visit("realistic cards", &card_of(text.as_bytes())) {
            return false;
        }
    }
    if !exhaustive(depth, visit) || !refused(depth, visit) || !pairs(visit) {
        return false;
    }
    let mut random = Random::new(seed);
    for _ in 0..many {
        if !visit("random cards", &random_card(&mut random)) {
            return false;
        }
    }
    for _ in 0..many {
        let base = card_of(random.pick(REALISTIC).as_bytes());
        let card = mutated(&mut random, &base);
        if !visit("changed realistic cards", &card) {
            return false;
        }
    }
    for _ in 0..many / 2 {
        let text = number(&mut random);
        let spaces = &b"    "[..random.below(4)];
        let rear: &[u8] = if random.once_in(3) { b" /[u] c" } else { b"" };
        let card = card_of(&[b"NUMBER  = ", spaces, &text, rear].concat());
        if !visit("numbers near their limits", &card) {
            return false;
        }
    }
    for _ in 0..many / 4 {
        let mut card = [0u8; 80];
        for b in card.iter_mut() {
            *b = if random.once_in(200) { random.next() as u8 } else { random.below(128) as u8 };
        }
        if random.once_in(2) {
            card[..10].copy_from_slice(b"KEY     = ");
        }
        if !visit("bytes of any value", &card) {
            return false;
        }
    }
    true
}

/// Why a card lies outside the equality domain, if it does.
pub fn aside(card: &[u8; 80]) -> Option<&'static str> {
    if card.iter().any(|&b| b >= 128) {
        return Some("a byte of 128 or more");
    }
    if card[..8].trim_ascii() == b"XTENSION" {
        return Some("XTENSION");
    }
    if Model::is_lone_quote(card) {
        return Some("a lone quote");
    }
    None
}

/// Whether another answer than the Rust's. It tells no byte, and a message that tells no number stands against any refusal.
pub fn differ(theirs: &Card, ours: &Card) -> bool {
    match (theirs, ours) {
        (Card::Refused(a, _), Card::Refused(b, _)) => *a != 0 && a != b,
        _ => theirs != ours,
    }
}

/// The Rust's answer inside the domain, where it has one.
pub fn judge(card: &[u8; 80], ours: &Card) -> bool {
    theirs::card(card).map_or(true, |t| differ(&t, ours))
}

/// A smaller card on which a test still holds.
fn smallest(card: &[u8; 80], holds: &dyn Fn(&[u8; 80]) -> bool) -> [u8; 80] {
    let mut best = *card;
    loop {
        let mut shorter = None;
        for at in 0..80 {
            let mut cut = best;
            cut.copy_within(at + 1.., at);
            cut[79] = b' ';
            let mut plain = best;
            plain[at] = b' ';
            for next in [cut, plain] {
                if next != best && weight(&next) < weight(&best) && holds(&next) {
                    shorter = Some(next);
                }
            }
        }
        match shorter {
            Some(next) => best = next,
            None => return best,
        }
    }
}

fn weight(card: &[u8; 80]) -> usize {
    let n = card.iter().rposition(|&b| b != b' ').map_or(0, |i| i + 1);
    n * 100 + card.iter().filter(|&&b| b != b' ').count()
}

/// Whether our answer differs from the Rust's inside the domain, or from the model's anywhere.
fn different(card: &[u8; 80], seen: &mut Columns) -> bool {
    let ours = ours::card(card);
    let model = Model(Fault::None).card(card);
    if let Card::Refused(number, column) = model {
        seen.count(number, column);
    }
    ours != model || (aside(card).is_none() && judge(card, &ours))
}

/// The model names the bytes that are written by hand, and a byte of 128 or more at each place.
pub fn check_columns() {
    let hold = |card: &[u8; 80], number, column| {
        let told = Model(Fault::None).card(card);
        assert!(told == Card::Refused(number, Some(column)), "\"{}\": {told:?}, not at {column}", shown(card));
    };
    for &(text, number, column) in BY_HAND {
        hold(&card_of(text), number, column);
    }
    for at in 0..80 {
        let mut card = card_of(b"K       = 5 / c");
        card[at..].fill(200);
        hold(&card, 1, at);
    }
    println!("{} cards by hand, and a byte of 200 at each place: the model names their bytes", BY_HAND.len());
}

/// One case.
pub fn compare(card: &[u8; 80], seen: &mut Columns) -> Outcome {
    if different(card, seen) {
        return Outcome::Different;
    }
    aside(card).map_or(Outcome::Same, Outcome::Aside)
}

/// A case that differs, in its smallest form, with all answers.
pub fn explain(card: &[u8; 80]) -> String {
    let small = smallest(card, &|c| different(c, &mut Columns::new("")));
    format!(
        "\"{}\"\n    Rust  {:?}\n    ours  {:?}\n    model {:?}",
        shown(small.trim_ascii_end()),
        theirs::card(&small),
        ours::card(&small),
        Model(Fault::None).card(&small)
    )
}
