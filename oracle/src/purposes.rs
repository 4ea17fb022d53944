//! Headers and tiles that are made on purpose, each for one thing that the stored list must show.

use crate::cards::card_of;
use crate::tiles::{self, Case, Writer};
use crate::unpacking::field_of;

/// A header's cards.
pub type Cards = Vec<[u8; 80]>;

/// What cases are for, and the cases.
pub type Purpose<T> = (&'static str, Vec<T>);

/// Values that keep their comment.
const VALUES: [&str; 5] = ["5", "'a'", "T", "-1.50", "'b&'"];

/// Comments with and without a unit.
const UNITS: [&str; 22] = [
    "[m]", "[m] x", "[]", "[] x", "[a]b]", "[a] [b]", "[[a]]", "[a[b]c]", "[ m ]", "[m]]", "[m/s] v", "[m\x0b]",
    "[\"] \\", "[\\] \"", " [m]", "x[m]", "[m", "]m[", "[", "]", "m]", "",
];

/// Values that lose their comment.
const LOST: [&str; 14] = [
    "word / c",
    "word /",
    "t /[m] c",
    "/ c",
    " /[m] c",
    "/",
    "1D / c",
    "1 DOG /[m] c",
    "+ / c",
    ". / c",
    "inf / c",
    "NaN /[s] c",
    "5'a' / c",
    "\"a\" / c",
];

/// Decimals that are zero.
const ZEROS: [&str; 16] = [
    "0.",
    "-0.",
    "+0.",
    "0e0",
    "-0e0",
    "0.000",
    "-0.000",
    "-00.00E+99999",
    "0e123456",
    "-0e-123456",
    "-.0D-7",
    ".0",
    "0D5",
    "-0e5",
    "000000000000000000000.0",
    "-0E-5",
];

/// Decimals with zeros at either end of their digits, or with more digits than a float has.
const ENDS: [&str; 18] = [
    "00100.00",
    "1200e-2",
    "0.00120",
    "100000000000000000000000",
    "-000.000100e5",
    "1.0",
    "10.",
    "010.010",
    "0.1e1",
    "100e-100",
    "1.50D+003",
    "9223372036854775808",
    "92233720368547758080",
    "-9223372036854775809",
    "+0.000000000000000001",
    "1234567890123456789012345678901234567890.0",
    "12345678901234567800000000000000000000e1",
    "0000000000000000000000000000000000000000000000000000000001.50",
];

/// Exponents at the cap, one below and above, and far beyond it.
const EXPONENTS: [&str; 7] = ["99998", "99999", "100000", "100001", "1000000", "00099999", "99999999999999999999"];

/// Cards behind END: entries, what would join, and one for each refusal of a card.
const BEHIND: [&str; 16] = [
    "B       = 7 / behind",
    "A       = 'other' /[s] behind",
    "HIERARCH A = -0.",
    "CONTINUE  'y' / two",
    "END",
    "A       = 5\x0b",
    "A       = 'open",
    "A       = '",
    "CONTINUE= 'b'",
    "A       = (1,2)",
    "HIERARCH nothing",
    "HIERARCH   = 5",
    "XTENSION= IMAGE",
    "XTENSION= 'IMAGE'",
    "COMMENT behind",
    "",
];

/// Cards with END behind them.
fn ended(texts: &[&str]) -> Cards {
    texts.iter().chain(&["END"]).map(|t| card_of(t.as_bytes())).collect()
}

/// A value on a card of its own; every third one on a HIERARCH card.
fn alone(at: usize, value: &str) -> Cards {
    let name = if at % 3 == 2 { "HIERARCH K L = " } else { "K       = " };
    ended(&[&format!("{name}{value}")])
}

fn each(values: &[&str]) -> Vec<Cards> {
    values.iter().enumerate().map(|(at, value)| alone(at, value)).collect()
}

fn fronts() -> Vec<Cards> {
    let mut all = Vec::new();
    for front in ["", " ", "  ", "     ", "\t", " \t"] {
        all.extend(VALUES.iter().enumerate().map(|(at, value)| alone(at, &format!("{value} /{front}c"))));
        let first = format!("A       = 'x&' /{front}one");
        all.push(ended(&[&first, &format!("CONTINUE  'y' /{front}two")]));
    }
    all
}

fn empties() -> Vec<Cards> {
    let mut all = Vec::new();
    for rear in ["", " /", "/", " /     "] {
        all.extend(VALUES.iter().enumerate().map(|(at, value)| alone(at, &format!("{value}{rear}"))));
    }
    for value in VALUES {
        all.push(ended(&[&format!("{:<79}/", format!("K       = {value}"))]));
    }
    all
}

fn joined() -> Vec<Cards> {
    let remarks = ["", " /", " / one", " /  [m] two"];
    let mut all = Vec::new();
    for first in remarks {
        for second in remarks {
            for third in &remarks[..3] {
                let texts = [
                    format!("A       = 'x&'{first}"),
                    format!("CONTINUE  'y&'{second}"),
                    "COMMENT between / them".to_string(),
                    format!("CONTINUE  'z'{third}"),
                ];
                all.push(ended(&texts.each_ref().map(String::as_str)));
            }
        }
    }
    all
}

fn units() -> Vec<Cards> {
    let mut all = Vec::new();
    for (at, unit) in UNITS.iter().enumerate() {
        all.push(alone(at, &format!("{} /{unit}", VALUES[at % VALUES.len()])));
    }
    let pairs = [
        (" /[m", " /s] x"),
        ("", " /[m] x"),
        (" /", " /[m]"),
        (" /[m] a", " /[s] b"),
        (" /[a", " / b"),
        (" /[", " /]"),
        (" /[]", " /]"),
        (" / [m]", " /[s]"),
    ];
    for (first, second) in pairs {
        all.push(ended(&[&format!("A       = 'x&'{first}"), &format!("CONTINUE  'y'{second}")]));
    }
    all
}

fn caps() -> Vec<Cards> {
    let mut values = Vec::new();
    for (at, exponent) in EXPONENTS.iter().enumerate() {
        for sign in ["", "+", "-"] {
            for (digits, letter) in [("1", "E"), ("-12.5", "e"), ("100.00", "D"), (".001", "E")] {
                if (at + digits.len()) % 2 == 0 || at < 4 {
                    values.push(format!("{digits}{letter}{sign}{exponent}"));
                }
            }
        }
    }
    each(&values.iter().map(String::as_str).collect::<Vec<_>>())
}

/// Cards of one name, each with another kind of value; a string that is open, and one that is empty.
const BORNE: [&str; 9] = [
    "K       = 5 / c",
    "K       = 1.5",
    "K       = T",
    "K       = 'a&'",
    "K       = ''",
    "K       =",
    "K       = word",
    "HIERARCH K = 7",
    "HIERARCH  K = 'x2' / d",
];

/// Headers in which two cards, or three and more, bear one name: each card with each other, with cards between that bear another name or
/// none, with names that are alike, and up to the most cards.
pub fn borne() -> Purpose<Cards> {
    let mut all = Vec::new();
    for first in BORNE {
        all.extend(BORNE.iter().map(|second| ended(&[first, second])));
        all.push(ended(&[first, "CONTINUE 'b'", "COMMENT K = 5", "K1      = 1", first, "k       = 1", first]));
        all.push(ended(&["L       = 1", first, "L       = 2", first, "HIERARCH K.K = 1", "HIERARCH L = 3"]));
    }
    for many in [9, 10, 11, 99, 100, 719] {
        all.push(ended(&vec!["K       = 5"; many]));
        all.push(ended(&[&vec!["K       ="; many - 1][..], &["HIERARCH L K = ''"]].concat()));
    }
    ("names that several cards bear", all)
}

/// What may stand before a unit: only one space is passed over.
const BEFORE_UNITS: [&str; 10] = ["", " ", "  ", "   ", "\t", " \t", "\x0b", "x", " x", "/"];

/// Headers with comments in which something stands before a unit, on one card and joined.
pub fn past_spaces() -> Purpose<Cards> {
    let mut all = Vec::new();
    for before in BEFORE_UNITS {
        for (at, unit) in ["[s] time", "[]", "[m/s]", "[s", "[a]b]", "s]"].iter().enumerate() {
            let value = |at: usize| VALUES[at % VALUES.len()];
            all.push(alone(at, &format!("{} /{before}{unit}", value(at))));
            all.push(alone(at, &format!("{} /{before}{unit}", value(at + 1))));
        }
        all.push(ended(&[&format!("K       = 'a&' /{before}[s"), "CONTINUE 'b' /m] c"]));
        all.push(ended(&["K       = 'a&'", &format!("CONTINUE 'b' /{before}[s] c")]));
    }
    ("something before a unit", all)
}

/// Headers whose cards up to END are the same, with nothing and then with other cards behind it.
pub fn behind_end() -> Vec<Vec<Cards>> {
    let fronts: [&[&str]; 4] = [
        &["A       = 'x&' / one"],
        &["A       = 5 /[m] five", "B       = T"],
        &[],
        &["HIERARCH A = 1.5 / h", "B       = 'y&'"],
    ];
    let mut high = card_of(b"A       = 5 / high");
    high[14] = 200;
    let family = |front: &&[&str]| {
        let plain = ended(front);
        let with = |rear: &[[u8; 80]]| [&plain[..], rear].concat();
        let mut all = vec![plain.clone(), with(&[high]), with(&[[255; 80]]), with(&[high, card_of(b"END")])];
        all.extend(BEHIND.iter().map(|rear| with(&[card_of(rear.as_bytes())])));
        all
    };
    fronts.iter().map(family).collect()
}

/// Blanks before a text.
const BLANKS: [&str; 9] = ["", " ", "   ", "\t", " \t ", "\r\n", "\x0c  ", "\t\n\x0c\r ", "                         "];

/// Texts that are refused, each behind what it may follow.
const REFUSED: [(&str, &str); 11] = [
    ("K       = ", "(1,2) / c"),
    ("K       = ", "'open / c"),
    ("K       = ", "5\x0b"),
    ("K       = ", "\x7f/"),
    ("CONTINUE", "'a"),
    ("CONTINUE", "a'' / c"),
    ("CONTINUE", "b\x00"),
    ("HIERARCH A=", "("),
    ("HIERARCH K L =", "'x"),
    ("HIERARCH  K.L  M =", "\x1f"),
    ("HIERARCH ", "= 5 = 6"),
];

/// Texts with more than one odd byte: some are replaced, some stand behind the slash.
const ODD: [&str; 14] = [
    "5\x0b\x0b",
    "5 \x0b 6 \x7f",
    "\x00\x00\x00",
    "a\x0b/\x0b",
    "5\t6\t7",
    "'a\x0bb' \x7f c\x0b",
    "'a'\x0bb\x0b",
    "'a'\x0b\x0c\x00 \x0b",
    "'a''\x0b'' \x7f'\x0b\x7f5\x01\x02",
    "'a/\x0b' \x0b/\x0b",
    "''\x0b'\x0b'\x0b-\x0b-\x0b",
    "x'\x0b' '\x0b''' \x0b\x0b",
    "'\x0b'5\x0b'\x0b'\x0b",
    "-'\t\t'\t\t.\t\t.",
];

/// Cards of which more than one thing is wrong.
const SEVERAL: [&str; 19] = [
    "HIERARCH no sign \x0b",
    "HIERARCH \x0b\x7f",
    "HIERARCH=none (\x00",
    "HIERARCH\t\t'\x0b",
    "HIERARCH= = \x0b",
    "HIERARCH   =(\x7f",
    "HIERARCH \t \t= 'a = \x0b",
    "HIERARCH =\x0b= 5",
    "HIERARCH A=(\x0b",
    "HIERARCH A B =(1,\t2) = \x0b",
    "HIERARCH A='a' b\x0b = (",
    "K       = (\x0b",
    "K       =   (1,2)\x7f / c",
    "K       = (1,\t2)",
    "K       = 'a' b\x0b",
    "K       = ''''' \x0b",
    "CONTINUE a\x0b'",
    "CONTINUE=\x0b'a'",
    "CONTINUE'a' 'b' \x0bc",
];

/// The bytes at which a refused text is put.
const PLACES: [usize; 20] = [8, 9, 10, 11, 12, 13, 17, 22, 29, 30, 38, 45, 51, 56, 64, 69, 74, 77, 78, 79];

/// A refused card behind none, one or three others, by its number in a list.
fn behind_others(at: usize, card: [u8; 80]) -> Cards {
    let before: &[&str] = match at % 4 {
        0 => &[],
        1 => &["A       = 5 / five"],
        2 => &["A       = 'x&'"],
        _ => &["A       = 'x&'", "COMMENT c", "CONTINUE 'y&' / c"],
    };
    let mut header: Cards = before.iter().map(|t| card_of(t.as_bytes())).collect();
    header.extend([card, card_of(b"B       = T"), card_of(b"END")]);
    header
}

fn each_behind_others(texts: Vec<String>) -> Vec<Cards> {
    texts.iter().enumerate().map(|(at, text)| behind_others(at, card_of(text.as_bytes()))).collect()
}

/// Refused texts behind every kind of blanks.
fn behind_blanks() -> Vec<Cards> {
    let texts = REFUSED.iter().flat_map(|(front, text)| BLANKS.map(|blanks| format!("{front}{blanks}{text}")));
    each_behind_others(texts.collect())
}

/// Refused texts at many bytes, spaces before them. A string that is not closed and a CONTINUE text have two bytes at least.
fn at_places() -> Vec<Cards> {
    let mut texts = Vec::new();
    for (front, text, least) in [
        ("K       = ", "\x0b", 10),
        ("K       = ", "'a", 10),
        ("K       = ", "(", 10),
        ("CONTINUE", "\x7f", 8),
        ("CONTINUE", "'a", 8),
        ("CONTINUE", "a'", 8),
        ("HIERARCH", "=", 9),
        ("HIERARCH A=", "(", 11),
        ("HIERARCH A=", "\x00", 11),
    ] {
        let places = PLACES.iter().filter(|&&at| at >= least && at + text.len() <= 80);
        texts.extend(places.map(|&at| format!("{front:<at$}{text}")));
    }
    // The = of HIERARCH at many bytes, and the text directly behind it.
    let places = PLACES.iter().filter(|&&at| (11..=76).contains(&at));
    texts.extend(places.map(|at| format!("{:<at$}='b", "HIERARCH A")));
    each_behind_others(texts)
}

fn odd_bytes() -> Vec<Cards> {
    let fronts = ["K       = ", "CONTINUE", "HIERARCH K="];
    each_behind_others(fronts.iter().flat_map(|front| ODD.map(|text| format!("{front}{text}"))).collect())
}

/// HIERARCH cards without a = from byte 9 on.
fn without_equals() -> Vec<Cards> {
    let texts = ["", "=", " A", " ESO DET CHIP", "=A B", " 'x' / c", "\t\t/", "A", "  (1,2)", " T"];
    each_behind_others(texts.iter().map(|text| format!("HIERARCH{text}")).collect())
}

/// Headers for the byte at which a card is refused.
pub fn columns() -> Vec<Purpose<Cards>> {
    vec![
        ("a refused byte behind blanks", behind_blanks()),
        ("a refused byte at many places", at_places()),
        ("odd bytes that are replaced, and several of them", odd_bytes()),
        ("HIERARCH without its =", without_equals()),
        ("cards of which more than one thing is wrong", each_behind_others(SEVERAL.map(String::from).to_vec())),
    ]
}

/// Headers with several bytes of 128 and more, the first of them in a keyword. No run of them is UTF-8.
pub fn high_bytes() -> Purpose<Cards> {
    let texts = ["K       = 5 / c", "HIERARCH A = (", "COMMENT c", "        \x0b"];
    let mut all = Vec::new();
    for first in 0..8 {
        for (at, text) in texts.iter().enumerate() {
            let mut card = card_of(text.as_bytes());
            let others: &[usize] = match at {
                0 => &[],
                1 => &[7, 20],
                2 => &[8, 79],
                _ => &[(first + 7) / 2, 7],
            };
            card[first] = 200;
            others.iter().for_each(|&other| card[other] = 255);
            all.push(behind_others(first + at, card));
        }
    }
    ("several bytes of 128 and more, the first in a keyword", all)
}

/// Headers for what a comment, a unit, a decimal's record and the cards behind END are.
pub fn headers() -> Vec<Purpose<Cards>> {
    vec![
        ("a comment's front", fronts()),
        ("an empty comment and none", empties()),
        ("joined comments", joined()),
        ("comments of invalid and undefined values", each(&LOST)),
        ("units", units()),
        ("a decimal zero", each(&ZEROS)),
        ("zeros at either end of the digits, and many digits", each(&ENDS)),
        ("the cap of an exponent", caps()),
        ("cards behind END", behind_end().concat()),
    ]
}

// ---- tiles

/// A tile of one block: a start value, then for each pixel a run of zeros, a one and a remainder.
fn coded(width: usize, fs: usize, codes: &[(u64, u64)]) -> Case {
    let mut out = Writer::default();
    out.field(10, width);
    out.field(fs as u64 + 1, field_of(width).0);
    for &(zeros, rest) in codes {
        (0..zeros).for_each(|_| out.bit(0));
        out.bit(1);
        out.field(rest, fs);
    }
    Case { tile: out.bytes, nx: codes.len(), nblock: 32, width }
}

/// Tiles whose u lies about a power of two, and about three times it.
fn about(width: usize, top: u32, fields: &[usize]) -> Vec<Case> {
    let mut all = Vec::new();
    for &fs in fields {
        let full = 1u64 << (top as usize - fs);
        for zeros in [full - 1, full, full + 1, 3 * full] {
            let last = (1u64 << fs) - 1;
            for rest in [0, 1 & last, last] {
                all.push(coded(width, fs, &[(zeros, rest), (1, 0), (0, last)]));
            }
        }
    }
    all.dedup();
    all
}

/// A tile of three blocks, coded, of equal pixels and raw, cut behind each of its bytes.
fn cuts(width: usize) -> Vec<Case> {
    let pixels = [10, 13, 11, 40, 40, 40, 40, 40, 100, 3, 90, 91];
    let mut block = 0;
    let tile = tiles::encoded(&pixels, 4, width, |_| {
        block += 1;
        if block == 1 {
            2
        } else {
            i64::MAX
        }
    });
    (0..=tile.len()).map(|n| Case { tile: tile[..n].to_vec(), nx: pixels.len(), nblock: 4, width }).collect()
}

/// Tiles for what u is, and for what a fault leaves.
pub fn tiles() -> Vec<Purpose<Case>> {
    vec![
        ("u of 2^32 and more", about(32, 32, &[20, 22, 24])),
        ("u wider than 8 bits", about(8, 8, &[0, 2, 5])),
        ("u wider than 16 bits", about(16, 16, &[8, 11, 13])),
        ("a fault", [8, 16, 32].map(cuts).concat()),
    ]
}
